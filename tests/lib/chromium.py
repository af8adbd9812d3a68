"""Whether a script can drive Chromium here."""
import importlib.util
import os
import shutil
import subprocess
import sys

# This Python, or that of the system, whose packages Debian's are.
PYTHONS = (sys.executable, "/usr/bin/python3")
LIBRARIES = ("aiohttp", "selenium")


def lacks() -> str:
    """What isn't here; empty where nothing is missing. Another Python that has the libraries takes over."""
    for program in ("chromium", "chromedriver"):
        if not shutil.which(program):
            return f"no {program} (Debian: chromium, chromium-driver)"
    missing = [name for name in LIBRARIES if importlib.util.find_spec(name) is None]
    for python in PYTHONS if missing and "ALM_BROWSER_TESTS" not in os.environ else ():
        run = subprocess.run(
            [python, "-c", f"import sys, {', '.join(LIBRARIES)}; sys.exit(sys.version_info < (3, 11))"],
            capture_output=True,
            check=False,
        )
        if run.returncode == 0:
            os.execve(python, [python, *sys.argv], {**os.environ, "ALM_BROWSER_TESTS": "1"})
    return f"no {', '.join(missing)} (Debian: {', '.join(f'python3-{name}' for name in missing)})" if missing else ""
