"""The sources of a storm, and how each says what it says: topics of a broker, lines of two kinds through a pipe,
registers.
"""
import errno
import json
import os
import socket
import threading
import time
from dataclasses import dataclass
from fractions import Fraction
from typing import Optional

from check_mqtt import Broker, connected, drain, field, packet

# Seconds: a source is silent, a living one speaks again, registers are polled.
SILENT, AGAIN, POLL = 4.0, 0.8, 0.5
# What is no value, by the page: words and numbers of `bad`, what is no number, what is out of range, and what its
# source says is none.
BAD = (
    "bad",
    "-9999",
    "-9999.0",
    "-9.999e3",
    "nan",
    "-inf",
    "1,5",
    "",
    "3_1",
    "\N{ARABIC-INDIC DIGIT THREE}.1",
    "0x10",
    "1e9999999",
    '{"value": 2.5, "quality": "bad"}',
    "{",
)
# A suppression is none by such a word: the map names it as bad.
BAD_SWITCHES = ("false", "2", "")
ON, OFF = ("1", "on", "True"), ("0", "off")
# The areas of alarms that are to be annunciated never, or once: their values come and go.
AREAS = {"hold": 3, "dip": 4, "spike": 5, "blink": 6, "guard": 7}
EACH, PLAIN_AREAS = 5, 3
# A value that is no alarm, and one that is, at the setpoint of these.
LOW, HIGH, SETPOINT = "1.0", "3.0", 20


@dataclass
class Source:
    """A source of one alarm. `last` is the last value that it said, `is_bad` whether it said something else behind
    that. `way` is topic, line, gateway or register; `role` is plain, or what its alarm is there for.
    """

    name: str
    tag: str
    way: str
    watch: str = ""
    retained: bool = False
    role: str = "plain"
    is_design: bool = False
    alive: bool = True
    is_bad: bool = False
    last: str = ""
    text: str = ""

    def says(self, text: str) -> None:
        self.text, self.is_bad = text, text in (BAD_SWITCHES if self.is_design else BAD)
        if not self.is_bad:
            self.last = text

    def value(self) -> int:
        """Its last value in the unit of the setpoint: half a unit goes to the even one."""
        return round(Fraction(self.last) * (1 if self.role == "round" else 10))

    def is_on(self) -> bool:
        return self.last in ON

    def line(self) -> str:
        """What it says, as a line of JSON with each digit; a chatting source says when."""
        value = json.dumps(self.text) if self.is_bad or self.is_design else self.text
        moment = f', "time": {time.time()}' if self.way == "line" else ""
        return f'{{"name": "{self.name}", "value": {value}{moment}}}\n'

    def message(self) -> bytes:
        return message(self.name, self.text.encode(), self.retained)


def message(topic: str, payload: bytes, retained: bool) -> bytes:
    return packet(0x33 if retained else 0x32, field(topic.encode()) + b"\x00\x01" + payload)


def draw_sources(topics: int, few: int) -> list[Source]:
    """The sources, in the order of the map. Of five topics three are retained and not watched, one is retained and
    watched, and one is watched alone. Suppressions stand behind what they suppress.
    """
    found = []
    for number in range(EACH):
        found.append(Source(f"hold/{number}", f"H-{number}", "topic", retained=True, role="hold"))
        found.append(Source(f"hold/{number}/service", f"H-{number}", "topic", "", True, "hold", True))
    for number in range(topics):
        watch = f"XS-T{number % 4}" if number % 5 > 2 else ""
        found.append(Source(f"plant/{number}", f"T-{number}", "topic", watch, number % 5 < 4))
    for number in range(few):
        found.append(Source(f"plant/{number}/service", f"T-{number}", "topic", retained=True, is_design=True))
        found.append(Source(f"gate/{number}", f"G-{number}", "gateway"))
        found.append(Source(f"line/{number}", f"L-{number}", "line", f"XS-L{number % 2}"))
        found.append(Source(f"modbus/{number}", f"M-{number}", "register", f"XS-M{number % 2}"))
    for role in ("dip", "spike", "blink", "guard", "rare"):
        for number in range(EACH):
            tag = f"{role[0].upper()}-{role}{number}"
            found.append(Source(f"{role}/{number}", tag, "gateway", role=role))
            if role == "guard":
                found.append(Source(f"{role}/{number}/service", tag, "gateway", role=role, is_design=True))
    return found + [Source("round/0", "R-0", "gateway", role="round")]


class Publisher(threading.Thread):
    """The sources of topics and of chatting lines: what they are given to say, and each living watched one again within
    AGAIN seconds. A new connection has all of it, suppressions first. `stalled` is for how many seconds it got no time.
    """

    def __init__(self, sources: list[Source], broker: Broker, path: str):
        super().__init__(daemon=True)
        self.broker, self.path = broker, path
        self.topics = sorted((one for one in sources if one.way == "topic"), key=lambda one: not one.is_design)
        self.lock, self.ended = threading.Lock(), False
        self.due: list[Source] = []
        self.raw: list[bytes] = []
        self.watched = [one for one in sources if one.watch and one.way != "register"]
        self.sent, self.stalled = 0, 0.0
        self.stream: Optional[socket.socket] = None
        self.pipe: Optional[int] = None
        self.publish([])

    def say(self, source: Source, text: str) -> None:
        """A source says something."""
        with self.lock:
            source.says(text)
            self.due.append(source)

    def put(self, messages: list[bytes]) -> None:
        """Publishes messages that are no source's last word."""
        with self.lock:
            self.raw += messages

    def run(self) -> None:
        at, before = 0.0, time.monotonic()
        while not self.ended:
            began = time.monotonic()
            self.stalled = max(self.stalled, began - before)
            step, before = len(self.watched) * (began - before) / AGAIN, began
            with self.lock:
                due, self.due = self.due, []
            turn = [self.watched[number % len(self.watched)] for number in range(int(at), int(at + step))]
            at = (at + step) % len(self.watched)
            due += [one for one in turn[-len(self.watched) :] if one.alive]
            self.publish([one for one in due if one.way == "topic"])
            self.print([one for one in due if one.way == "line"])
            self.sent += len(due)
            time.sleep(max(0.0, began + 0.02 - time.monotonic()))

    def publish(self, sources: list[Source]) -> None:
        """Publishes; while there is no broker nothing but the last of each is kept, by the source itself."""
        try:
            if self.stream is None:
                self.stream = connected(self.broker)
                sources = [one for one in self.topics if one.text and one.alive]
            with self.lock:
                raw, self.raw = self.raw, []
            self.stream.sendall(b"".join([*raw, *(one.message() for one in sources)]))
            drain(self.stream)
        except OSError:
            if self.stream:
                self.stream.close()
            self.stream = None

    def print(self, sources: list[Source]) -> None:
        """Writes lines; what finds no reader is lost, and said again as the source's turn comes."""
        try:
            if self.pipe is None:
                self.pipe = os.open(self.path, os.O_WRONLY | os.O_NONBLOCK)
            for first in range(0, len(sources), 20):
                os.write(self.pipe, "".join(one.line() for one in sources[first : first + 20]).encode())
        except OSError as error:
            if self.pipe is not None and error.errno != errno.EAGAIN:
                os.close(self.pipe)
                self.pipe = None
