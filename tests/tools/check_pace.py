"""How soon an alarm comes while many values do. tests/tools/field.py runs this alone, behind the other checks."""
import os
import random
import statistics
import time

from lib.tools import Yard, slowness

from alarms.client import Client
from alarms.table_file import Alarm
from check_mqtt import Broker, connected, drain, publish
from fed_plant import Plant, ended
from lib.program import check

SOURCES = 2_000
# Seconds: an alarm comes after, as a median and at most, on a machine that has nothing else to do.
MEDIAN, MOST = 0.02, 0.5
Pairs = list[tuple[str, str]]


class Pace:
    """A feed of many sources, by a broker or by lines."""

    def __init__(self, yard: Yard, by_broker: bool, *more: object):
        alarms = [Alarm("high", 20, 1, 0, f"T-{number}") for number in range(SOURCES)]
        self.plant = Plant(yard, "".join(f"p/{number},T-{number},10\n" for number in range(SOURCES)), alarms)
        self.broker = Broker(yard) if by_broker else None
        words = ("--mqtt", f"mqtt://127.0.0.1:{self.broker.port}", *more) if self.broker else ()
        self.feed = self.plant.feed(*words)
        self.stream = connected(self.broker) if self.broker else None
        self.put([("p/0", "2.5")])
        self.plant.becomes("the first value", True)
        time.sleep(1.0 * slowness())  # the topics are subscribed

    def put(self, pairs: Pairs) -> None:
        if self.stream:
            self.stream.sendall(b"".join(publish(name, text) for name, text in pairs))
            drain(self.stream)
        else:
            os.write(self.feed.stdin.fileno(), "".join(f"{name},{text}\n" for name, text in pairs).encode())

    def end(self) -> None:
        ended(self.feed)
        if self.broker:
            self.broker.kill()
        self.plant.server.end()


def waited(pace: Pace, each: int, seconds: float) -> list[float]:
    """Seconds after which a source's other condition is seen, once each fifth of a second, while `each` values come a
    second.
    """
    dice, found, began = random.Random(20), [], time.monotonic()
    step, alarm, asked, holds = 0, 1, 0.0, True
    with Client.connect(pace.plant.server.port, 3) as console:
        while time.monotonic() - began < seconds:
            pairs = [(f"p/{dice.randrange(100, SOURCES)}", f"1.{dice.randrange(10)}") for _ in range(each // 50)]
            if not asked and step % 10 == 0:
                pairs.insert(dice.randrange(len(pairs)), (f"p/{alarm}", "2.5" if holds else "1.4"))
                asked = time.monotonic()
            pace.put(pairs)
            step += 1
            while (now := time.monotonic()) < began + step / 50:
                if asked and console.state(alarm).condition == holds:
                    found.append(now - asked)
                    alarm, asked = (alarm + 1, 0.0) if alarm < 99 else (1, 0.0)
                    holds = holds if alarm > 1 else not holds
                time.sleep(0.001)
    return found


def paces(yard: Yard, lines: int, messages: int, seconds: float) -> str:
    """So many lines a second, and so many messages: an alarm comes in time."""
    said = []
    for by_broker, each in ((False, lines), (True, messages)):
        os.makedirs(yard.path(str(each)), exist_ok=True)
        pace = Pace(Yard(yard.program, yard.path(str(each))), by_broker)
        found = waited(pace, each, seconds)
        pace.end()
        median, most, factor = statistics.median(found), max(found), slowness()
        check(len(found) > seconds, "of", each, "values a second few alarms came:", len(found))
        check(median <= MEDIAN * factor and most <= MOST * factor, each, "a second:", median, most, "slower by", factor)
        kind = "messages" if by_broker else "lines"
        said.append(f"{each} {kind} a second: an alarm after {median * 1000:.0f} ms, {most * 1000:.0f} at most")
    return "; ".join(said)
