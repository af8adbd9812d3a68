"""Words that say nothing, of living sources whose last values stand: none of them may move an alarm, each is counted,
and the first of each name is told.
"""
import json
import random
import time
from typing import Iterator

from lib.tools import await_true

from lib.program import Wrong
from sources import BAD, BAD_SWITCHES, HIGH, SETPOINT, Source, message
from stormy_site import Site

# How often each bad word is said in a row, topics that others speak for, and sources that are late.
TIMES, FORGED, LATE = 2, 5, 5


def make(site: Site, dice: random.Random) -> list[str]:
    """Says all of it, and waits until it is counted as it has to be; what isn't counted or told."""
    before, said = site.keeper.counts(), len(site.keeper.said())
    gates, chatting = site.living("gateway")[: len(BAD) + 1], site.living("line")[:LATE]
    values = [one for one in site.living("topic") if not one.watch and not one.is_design]
    topics = values[: len(BAD) + FORGED + 1]
    unmapped = f"nobody/{dice.randrange(10**9)}"
    bad, others = list(bad_lines(gates)), list(other_lines(gates[-1], chatting))
    payloads = [*bad_messages(topics), *forged(topics[len(BAD) :]), *switches(site)]
    site.gateway.put([*bad, *others, line(unmapped, HIGH)])
    site.publisher.put(payloads)
    wanted = {"bad": len(bad) + 1 + len(payloads), "unmapped": 1, "late": LATE, "ahead": 1, "rounded": TIMES}
    names = [*(f'"name": "{one.name}"' for one in gates[:-1]), unmapped]
    faults = list(uncounted(site, before, wanted))
    site.gateway.put([one.line() for one in gates])  # of which the next bad word is told again
    return [
        *faults,
        *untold(site, said, names, [one.name for one in topics[: len(BAD) + 1]], [one.name for one in chatting]),
    ]


def uncounted(site: Site, before: dict[str, int], wanted: dict[str, int]) -> Iterator[str]:
    """Waits until the feed's counters have grown as they have to; how they have grown, if not so."""
    found: dict[str, int] = {}

    def is_counted() -> bool:
        site.check_alive()
        now = site.keeper.counts()
        found.update({name: now[name] - before[name] for name in wanted})
        return found == wanted

    try:
        await_true("counts", is_counted, 5.0)
    except (Wrong, OSError):
        site.check_alive()
        yield f"the feed counts {found}, and was sent {wanted}"


def line(name: str, text: str, more: str = "") -> str:
    return f'{{"name": "{name}", "value": {text}{more}}}\n'


def other_than(source: Source) -> str:
    """A value that is an alarm where the source's last one is none, at most setpoints."""
    return "0" if source.value() > SETPOINT else "9.9"


def bad_lines(gates: list[Source]) -> Iterator[str]:
    """Each bad word by a source of its own."""
    for source, text in zip(gates, BAD):
        yield from [line(source.name, json.dumps(text))] * TIMES


def other_lines(gate: Source, chatting: list[Source]) -> Iterator[str]:
    """Values of an hour ago, one of a clock that is ahead, and ones that are rounded to what was there."""
    for source in chatting:
        yield line(source.name, other_than(source), f', "time": {time.time() - 3600}')
    yield line(gate.name, gate.last, f', "time": {time.time() + 60}')
    yield from [line("round/0", "7.25")] * TIMES


def bad_messages(topics: list[Source]) -> Iterator[bytes]:
    """Each bad payload at a topic of its own, which the broker doesn't keep."""
    for source, text in zip(topics, BAD):
        yield from [message(source.name, text.encode(), False)] * TIMES


def forged(topics: list[Source]) -> Iterator[bytes]:
    """Payloads that would be a value of another topic, or another value, if they were read as text."""
    speaker, *others = topics
    for other in others:
        text = other_than(other)
        yield message(speaker.name, f"{text}\n{other.name},{text}".encode(), False)
    yield message(speaker.name, f"{others[0].name},9.9".encode(), False)
    yield message(speaker.name, b"9.9\x00", False)
    yield message(speaker.name, b"0\xff", False)


def switches(site: Site) -> Iterator[bytes]:
    """What is no switch, of a suppression that stands."""
    designs = [one for one in site.living("topic") if one.is_design and one.is_on()]
    for source, text in zip(designs, BAD_SWITCHES):
        yield message(source.name, text.encode(), False)


def untold(site: Site, after: int, names: list[str], topics: list[str], late: list[str]) -> Iterator[str]:
    """What wasn't told. The first bad word of each name is, and not the next one. Between those of a topic its retained
    value may have come, and a chatting source says good ones.
    """
    whole = site.keeper.said()
    said = whole[after:].splitlines()
    for name in names:
        count = sum(name in text for text in said)
        if count != 1:
            yield f"of the bad words of {name} {count} were told"
    for name in topics:
        if not any(text.startswith((f"feed: {name},", f"feed: {name}:")) for text in said):
            yield f"{name} was bad, and it wasn't told"
    for name in late:
        if not any(name in text and "seconds old" in text for text in said):
            yield f"{name} was late, and it wasn't told"
    if whole.count("R-0: 7.25 goes by a scale of 1") != 1:
        yield "a rounded value wasn't told once"
    if "seconds ahead of this machine's clock" not in whole:
        yield "a clock that is ahead wasn't told"
