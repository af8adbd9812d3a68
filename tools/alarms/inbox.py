"""What sources have said and nobody has taken yet. Whoever says something never waits for whoever takes it.

    inbox = Inbox(key_of)               # key_of: of what a reading is the last one
    inbox.put(readings)                 # from any thread
    inbox.take()                        # what came, in order; None behind the end of all files

Up to MOST readings wait in order. Where more come, or while `is_away` is set, of each key the last one is kept: what
came and went meanwhile is of no use any more, and is counted in `dropped`. A file of a disk is the exception: it waits
by itself. `fileno` can be read while there are readings.
"""
import os
import stat
import threading
import time
from typing import Callable, Hashable, Iterable, Optional

from .ending import Fault
from .feed_reading import Reading

CHUNK = 65_536
# Readings that wait in order, and readings behind which those of each key are made one while there is no server.
MOST, KEPT = 100_000, 1_000
# Bytes of a line. What is longer isn't kept whole, and is no value.
LONGEST = 2**20


class Inbox:
    """What waits to be taken."""

    def __init__(self, key_of: Callable[[Reading], Hashable]):
        self.key_of = key_of
        self.changed = threading.Condition()
        self.waiting: list[Reading] = []
        self.bound, self.dropped = MOST, 0
        self.is_away, self.is_merged, self.has_file = False, False, False
        self.sources = 0
        self.fault: Optional[BaseException] = None
        self.bell, self.rope = os.pipe2(os.O_NONBLOCK | os.O_CLOEXEC)
        self.rings = False

    def fileno(self) -> int:
        return self.bell

    def ring(self) -> None:
        """Wakes whoever waits at `fileno`."""
        if not self.rings:
            os.write(self.rope, b"\0")
            self.rings = True

    def put(self, readings: Iterable[Reading], waits: bool = False) -> None:
        """Keeps readings. With `waits` it comes back only once there is room for all of them."""
        with self.changed:
            while waits and len(self.waiting) >= MOST:
                self.changed.wait()
            self.waiting += readings
            if not waits and len(self.waiting) > self.bound:
                self.keep_latest()
            self.ring()

    def begin(self, waits: bool = False) -> None:
        """One more source says something from here on; with `waits` it is a file of a disk, each of whose lines
        counts.
        """
        with self.changed:
            self.sources += 1
            self.has_file = self.has_file or waits

    def end(self, fault: Optional[BaseException] = None) -> None:
        """A source has ended, by a fault maybe. The fault comes behind what waits."""
        with self.changed:
            self.sources -= 1
            self.fault = self.fault or fault
            self.ring()

    def set_away(self) -> None:
        """From here on there is no server, and of each key the last reading counts; but each line of a file of a disk
        does.
        """
        with self.changed:
            if not self.has_file:
                self.is_away, self.bound = True, KEPT

    def keep_latest(self) -> None:
        """Keeps the last reading of each key, in the order of these."""
        latest: dict[Hashable, Reading] = {}
        for reading in self.waiting:
            key = self.key_of(reading)
            latest.pop(key, None)
            latest[key] = reading
        self.dropped += len(self.waiting) - len(latest)
        self.is_merged = self.is_merged or len(latest) < len(self.waiting)
        self.waiting = list(latest.values())
        self.bound = max(KEPT if self.is_away else MOST, 2 * len(latest))

    def take_latest(self) -> list[Reading]:
        """There is a server again: what is left of what came while there was none."""
        with self.changed:
            found: list[Reading] = []
            if self.is_away:
                self.keep_latest()
                found, self.waiting = self.waiting, []
            self.is_away, self.bound = False, MOST
            return found

    def take(self) -> Optional[list[Reading]]:
        """All that waits; `is_merged` says whether something was passed over since the last time."""
        with self.changed:
            if self.rings:
                os.read(self.bell, 1)
                self.rings = False
            found, self.waiting = self.waiting, []
            has_ended = self.sources == 0 or self.fault is not None
            if has_ended:
                self.ring()
                if not found and self.fault:
                    raise self.fault if isinstance(self.fault, (Fault, OSError)) else Fault(f"a source: {self.fault!r}")
            self.changed.notify_all()
            return None if has_ended and not found else found


class LineReader(threading.Thread):
    """Reads the lines of a file into an inbox. Empty ones and remarks are passed over."""

    def __init__(self, file: int, inbox: Inbox, reading_of: Callable[[str, float], Reading]):
        super().__init__(daemon=True)
        self.file, self.inbox, self.reading_of = file, inbox, reading_of
        # a file of a disk has each of its lines still
        self.waits = stat.S_ISREG(os.fstat(file).st_mode)
        inbox.begin(self.waits)

    def run(self) -> None:
        try:
            self.read()
        except BaseException as fault:  # whoever takes the readings gets it
            self.inbox.end(fault)
        else:
            self.inbox.end()

    def read(self) -> None:
        rest = b""
        while piece := os.read(self.file, CHUNK):
            *whole, rest = (rest + piece).split(b"\n")
            rest = rest if len(rest) <= LONGEST else rest[:LONGEST] + b"\0"
            self.put(whole)
        self.put([rest])

    def put(self, lines: list[bytes]) -> None:
        moment = time.monotonic()
        texts = (line.decode("utf-8", "replace").strip() for line in lines)
        readings = [self.reading_of(text, moment) for text in texts if text and not text.startswith("#")]
        if readings:
            self.inbox.put(readings, self.waits)


def open_lines(path: str) -> int:
    """A file of lines. A named pipe has no end here: its writers come and go."""
    is_pipe = stat.S_ISFIFO(os.stat(path).st_mode)
    return os.open(path, (os.O_RDWR if is_pipe else os.O_RDONLY) | os.O_CLOEXEC)
