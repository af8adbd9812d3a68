"""What scripts of tests/ have in common. Each folder of scripts finds it by a file `lib.py`, and the tools by a
file `alarms.py`."""
