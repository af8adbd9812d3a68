"""Where things are in the repository, and how a process finds the tools there."""
import os
from pathlib import Path

TOP = Path(__file__).resolve().parents[2]
TESTS, DOCS, EXAMPLES, DEPLOY = TOP / "tests", TOP / "docs", TOP / "examples", TOP / "deploy"
# The folder of the commands, and of their package `alarms`.
TOOLS = TOP / "tools"
# What a process has that imports the package, also if that isn't installed.
AT_TOOLS = {**os.environ, "PYTHONPATH": str(TOOLS)}
