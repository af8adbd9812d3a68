"""A source of readings in a process of its own: it takes no time of the feed's, and ends as soon as the feed has ended.

Readings go through a pipe as lines of JSON. Both processes have the same monotonic clock.
"""
import json
import os
import sys
import threading
import time
from typing import Callable, Iterable, Protocol

from .ending import Fault
from .feed_lines import say
from .feed_reading import Reading
from .inbox import Inbox

CHUNK = 65_536
# Seconds after which a source that is idle says that it lives, and after which one that doesn't has ended.
HEARTBEAT, LONGEST = 1.0, 30.0
Put = Callable[[list[Reading]], None]


class Origin(Protocol):
    """Where readings come from."""

    def run(self) -> None:
        """Goes on without an end."""


class Outlet:
    """The way of a source's readings to the feed. An empty list says that the source lives."""

    def __init__(self, file: int, parent: int):
        self.file, self.parent, self.said = file, parent, 0.0

    def put(self, readings: list[Reading]) -> None:
        now = time.monotonic()
        if os.getppid() != self.parent:
            os._exit(0)
        if readings or now - self.said >= HEARTBEAT:
            self.said = now
            text = "".join(f"{json.dumps(one)}\n" for one in readings).encode("utf-8", "replace") or b"\n"
            while text:
                text = text[os.write(self.file, text) :]


class Inlet(threading.Thread):
    """Hands a source's readings to the inbox, until it has ended."""

    def __init__(self, name: str, file: int, inbox: Inbox):
        super().__init__(daemon=True)
        self.title, self.file, self.inbox = name, file, inbox
        self.heard = time.monotonic()
        inbox.begin()

    def run(self) -> None:
        try:
            self.read()
            raise Fault(f"the source {self.title} has ended")
        except BaseException as fault:  # whoever takes the readings gets it
            self.inbox.end(fault)

    def read(self) -> None:
        rest = b""
        while piece := os.read(self.file, CHUNK):
            self.heard = time.monotonic()
            *whole, rest = (rest + piece).split(b"\n")
            readings = [Reading(*json.loads(line)) for line in whole if line]
            if readings:
                self.inbox.put(readings)


def start_apart(name: str, sources: Iterable[Callable[[Put], Origin]], inbox: Inbox) -> None:
    """Starts each source in a process of its own. No thread may run yet: a copy would wait for its locks."""
    for one in [fork_source(name, new_source) for new_source in sources]:
        Inlet(name, one, inbox).start()


def fork_source(name: str, new_source: Callable[[Put], Origin]) -> int:
    """Starts a source in a process of its own; where its readings come from."""
    there, here = os.pipe()
    parent = os.getpid()
    if os.fork() == 0:
        status = 1
        try:
            os.close(there)
            new_source(Outlet(here, parent).put).run()
        except (KeyboardInterrupt, BrokenPipeError):
            status = 0
        except Exception as fault:
            say(f"{name}: {fault}")
        finally:
            sys.stderr.flush()
            os._exit(status)
    os.close(here)
    return there
