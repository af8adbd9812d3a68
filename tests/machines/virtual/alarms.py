"""The tools, also where they aren't installed: `alarms` is the package tools/alarms here."""
from pathlib import Path

__path__ = [str(Path(__file__).resolve().parents[3] / "tools" / "alarms")]
