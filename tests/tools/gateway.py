"""A gateway of a storm: a program beside the feed that prints each value once, as it changes.

Whenever the feed is started again so is the gateway, as its unit would be; then it prints all last values. What the
feed has read from it nobody says twice. Beside that it has sources whose values come and go: for less than a delay,
while there is no server, or under a suppression.
"""
import os
import random
import threading
import time
from typing import Callable, Iterator, Optional

from sources import HIGH, LOW, Source

# Bytes that a pipe takes at once and whole, seconds for which a value comes or goes, and between two of these.
WHOLE, SHORTLY, EVERY = 4096, 0.3, 0.7


class Gateway(threading.Thread):
    """Prints what its sources are given to say. `starts` says how often the feed was started."""

    def __init__(self, sources: list[Source], path: str, dice: random.Random, starts: Callable[[], int]):
        super().__init__(daemon=True)
        self.sources, self.path, self.starts = [one for one in sources if one.way == "gateway"], path, starts
        self.lock, self.ended, self.dice = threading.Lock(), False, random.Random(dice.random())
        self.due: list[str] = []
        self.backs: list[tuple[float, Source, str]] = []
        self.began, self.next = -1, 0.0
        self.pipe: Optional[int] = None
        self.sent = 0

    def say(self, source: Source, text: str) -> None:
        """A source says something."""
        with self.lock:
            source.says(text)
            self.due.append(source.line())

    def put(self, lines: list[str]) -> None:
        """Prints lines that are no source's last word."""
        with self.lock:
            self.due += lines

    def of(self, role: str) -> list[Source]:
        return [one for one in self.sources if one.role == role and not one.is_design]

    def blink(self) -> None:
        """Values come and go twice."""
        for text in (HIGH, LOW) * 2:
            for source in self.of("blink"):
                self.say(source, text)

    def flap(self) -> None:
        """Values come, or go, for less than a delay."""
        now = time.monotonic()
        for _, source, text in [one for one in self.backs if one[0] <= now]:
            self.say(source, text)
        self.backs = [one for one in self.backs if one[0] > now]
        if now >= self.next:
            self.next = now + EVERY
            for role, away, back in (("spike", HIGH, LOW), ("dip", LOW, HIGH)):
                source = self.dice.choice(self.of(role))
                self.say(source, away)
                self.backs.append((now + SHORTLY, source, back))

    def run(self) -> None:
        while not self.ended:
            try:
                self.turn()
            except OSError:  # the feed has ended
                if self.pipe is not None:
                    os.close(self.pipe)
                self.pipe, self.began = None, -1
            time.sleep(0.02)

    def turn(self) -> None:
        """Prints what is due; to a new feed all, as a gateway that is started again."""
        starts = self.starts()
        if starts != self.began:
            if self.pipe is not None:
                os.close(self.pipe)
                self.pipe = None
            self.pipe = os.open(self.path, os.O_WRONLY | os.O_NONBLOCK)
            os.set_blocking(self.pipe, True)
            self.began = starts
            with self.lock:
                self.due = list(self.all_lines())
        self.flap()
        with self.lock:
            due, self.due = self.due, []
        self.sent += len(due)
        for piece in pieces(due):
            os.write(self.pipe, piece)

    def all_lines(self) -> Iterator[str]:
        """The last of each. What is guarded says that it is suppressed, and only then a value that is an alarm."""
        for source in self.of("guard"):
            source.says(LOW)
            yield source.line()
        for source in self.sources:
            if source.is_design:
                yield source.line()
        for source in self.of("guard"):
            source.says(HIGH)
        for source in self.sources:
            if not source.is_design:
                yield source.line()


def pieces(lines: list[str]) -> Iterator[bytes]:
    """Lines together, as many as go into a pipe at once."""
    piece = b""
    for line in map(str.encode, lines):
        if len(piece) + len(line) > WHOLE:
            yield piece
            piece = b""
        piece += line
    if piece:
        yield piece
