"""How tools end: what went wrong is one line on standard error, and a status."""
import sys
from typing import Callable, NoReturn, Optional

# The status of a tool that Ctrl-C ended.
INTERRUPTED = 130


class Fault(Exception):
    """Why a tool can't do what it is asked. It ends with status 1, and its text as the line."""


def sayer(tool: str) -> Callable[..., None]:
    """What prints a line of a tool on standard error, after its name."""
    return lambda *words: print(f"{tool}:", *words, file=sys.stderr, flush=True)


def end_of(tool: str, does: Callable[[], Optional[int]], interrupted: int = INTERRUPTED) -> None:
    """Does what a tool is asked, and ends with the status that it gives, or returns where that is 0 or none.

    A `Fault`, and what the system refuses (`OSError`: a closed pipe, a full disk, a port that is taken), is one line
    and status 1. Ctrl-C ends with the status `interrupted`."""
    try:
        if sys.stdout is None:
            raise Fault("standard output is closed")
        status = does()
        sys.stdout.flush()
    except (Fault, OSError) as fault:
        refuse(tool, fault)
    except KeyboardInterrupt:
        status = interrupted
    if status:
        sys.exit(status)


def refuse(tool: str, fault: Exception) -> NoReturn:
    """Ends a tool with one line and status 1."""
    # what is left of the output would fail again at the end of the process
    sys.stdout = None  # type: ignore[assignment]
    sys.exit(f"{tool}: {' '.join(str(fault).split())}")
