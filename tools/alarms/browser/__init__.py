"""The alarm list of served plants in a browser: docs/CONTROL_ROOM.md says how it is used, `alm_browser --help` how it
is started.

What is shown is the mirror's plant, up to the count that a query of the server shows. What operators ask goes to the
server by one slot. Both are done by one thread for each plant (`watch`); another one answers the browsers (`web`).
"""
