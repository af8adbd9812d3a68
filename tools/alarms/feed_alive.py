"""That a feed lives: a word to systemd's watchdog, and a page of metrics."""
import os
import socket
import time
from typing import Iterator, Optional

from .feed_lines import Lines, say
from .inbox import Inbox
from .metrics_page import Metric, show_page

# Seconds between two words to the watchdog where it names no other number.
HEARTBEAT = 5.0
COUNTERS = {
    "readings": "Readings of all sources.",
    "changed": "Values that changed a condition.",
    "refused": "Values that the server refused.",
    "bad": "Readings that were no value.",
    "unmapped": "Readings of names that nobody knows.",
    "late": "Values that were too old.",
    "ahead": "Values whose time was ahead of this machine's clock.",
    "rounded": "Values with a fraction at a scale of 1.",
}


def notify(*words: str) -> None:
    """Sends words to systemd, where it has started this process and waits for them."""
    address = os.environ.get("NOTIFY_SOCKET", "")
    if address:
        with socket.socket(socket.AF_UNIX, socket.SOCK_DGRAM) as one:
            try:
                one.sendto("\n".join(words).encode(), "\0" + address[1:] if address.startswith("@") else address)
            except OSError as error:
                say(f"systemd: {error.strerror or error}")


class Alive:
    """What others see of a feed. `beat` says that its loop goes on."""

    def __init__(self, lines: Optional[Lines] = None, inbox: Optional[Inbox] = None, port: Optional[int] = None):
        self.lines, self.inbox = lines, inbox
        self.is_connected = False
        watchdog = os.environ.get("WATCHDOG_USEC", "")
        self.every = int(watchdog) / 3e6 if watchdog.isdecimal() and int(watchdog) else HEARTBEAT
        self.next_beat = 0.0
        if port is not None:
            show_page(port, self.metrics, say)

    def ready(self) -> None:
        """The map is read, and the sources are begun."""
        notify("READY=1")

    def beat(self) -> None:
        now = time.monotonic()
        if now >= self.next_beat:
            self.next_beat = now + self.every
            notify("WATCHDOG=1")

    def deadline(self) -> float:
        """When the next word is due."""
        return self.next_beat

    def metrics(self) -> Iterator[Metric]:
        """Name, kind, page and value of each metric."""
        if not self.lines or not self.inbox:
            return
        watched = {name for name, _, _ in self.lines.watches.watched}
        yield "alarms_feed_connected", "gauge", "Whether the feed has the server.", int(self.is_connected)
        yield "alarms_feed_sources_watched", "gauge", "Sources with a watching alarm.", len(watched)
        silent = self.lines.watches.silent_count()
        yield "alarms_feed_sources_silent", "gauge", "Sources with a watching alarm that have no value.", silent
        for name, page in COUNTERS.items():
            yield f"alarms_feed_{name}_total", "counter", page, self.lines.counts[name]
        dropped = "Readings that a later one of the same name replaced before they were sent."
        yield "alarms_feed_dropped_total", "counter", dropped, self.inbox.dropped
        if self.lines.last_moment is not None:
            moment = time.time() - (time.monotonic() - self.lines.last_moment)
            yield "alarms_feed_last_value_timestamp_seconds", "gauge", "When the last value came, since 1970.", moment
