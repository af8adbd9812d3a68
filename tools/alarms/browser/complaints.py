"""What the libraries below complain of: a line of each kind, at most one a minute. So nobody fills the log by asking
for faults."""
import logging
import sys
import time

# Seconds between two lines of a kind, and kinds that are told apart.
SELDOM, MOST_KINDS = 60, 100


class Complaints(logging.Handler):
    """Prints a line of each kind of record, now and then."""

    def __init__(self, name: str):
        super().__init__(logging.WARNING)
        self.program = name
        self.told: dict[tuple[str, str, str], float] = {}

    def emit(self, record: logging.LogRecord) -> None:
        fault = record.exc_info[1] if record.exc_info else None
        text = " ".join(record.getMessage().split("\n")[0].split())[:200]
        kind = (record.name, text[:40], type(fault).__name__)
        now = time.monotonic()
        if now - self.told.get(kind, -SELDOM) < SELDOM or (kind not in self.told and len(self.told) >= MOST_KINDS):
            return
        self.told[kind] = now
        why = f": {type(fault).__name__}: {' '.join(str(fault).split())[:200]}" if fault else ""
        print(f"{self.program}: {text}{why}", file=sys.stderr, flush=True)


def tell_seldom(name: str) -> None:
    """From now on the libraries' loggers are heard so."""
    logging.getLogger().handlers = [Complaints(name)]
