"""What an alarm has to be, by the last values of the sources: a plain judgement, which shares no code with the feed."""
import re
from typing import Iterator

from alarms.client import Client
from alarms.replies import State, read_attributes, read_state
from alarms.table_file import Alarm

from sources import AREAS, EACH, Source
from stormy_site import OWN, Site

Found = dict[str, tuple[Alarm, State]]
LEFT_OUT = re.compile(r"the plant has no tag (\S+), which the map has")


def found_at(site: Site) -> tuple[Found, dict[str, int]]:
    """Each alarm by its tag as the server shows it, and how many annunciations the areas of special roles had."""
    with Client.connect(site.port, 3) as console:
        count = console.plant().alarms
        replies = list(console.ask_all(f"{word} {number}" for number in range(count) for word in ("ATTR", "STATE")))
        windows = {role: console.flood(area).window for role, area in AREAS.items()}
    alarms = {}
    for attributes, state in zip(replies[::2], replies[1::2]):
        alarm = read_attributes(attributes[1:])
        alarms[alarm.tag] = alarm, read_state(state[1:])
    return alarms, windows


def wrong(site: Site) -> list[str]:
    """What isn't as the last values say. A source whose watching alarm has to be on is excused."""
    alarms, windows = found_at(site)
    return [
        *wrong_watches(site, alarms),
        *(text for source in site.sources for text in wrong_source(source, alarms)),
        *wrong_roles(windows),
        *untold_rows(site, alarms),
    ]


def wrong_watches(site: Site, alarms: Found) -> Iterator[str]:
    """A watching alarm is on while a source of it has no value; the feed's own is off while it runs."""
    lacking: dict[str, list[str]] = {}
    for one in site.sources:
        if one.watch and one.tag in alarms and (not one.alive or one.is_bad):
            lacking.setdefault(one.watch, []).append(f"{one.name} {'says' if one.alive else 'died at'} {one.text}")
    for watch in [*site.watches, OWN]:
        holds = alarms[watch][1].condition
        if holds != (watch in lacking):
            yield f"{watch} is {holds}, and {lacking.get(watch, 'each source lives')}"


def wrong_source(source: Source, alarms: Found) -> Iterator[str]:
    """A source's alarm holds as its last value says, and is suppressed as its last word says."""
    if source.tag not in alarms or not source.alive or source.is_bad:
        return
    alarm, state = alarms[source.tag]
    if source.is_design:
        if ("D" in state.flags) != source.is_on():
            yield f"{source.name} said {source.last}, and {source.tag} has the flags {state.flags}"
        return
    value, is_delayed = source.value(), source.role in ("spike", "dip")
    holds = value >= alarm.setpoint if alarm.kind == "high" else value <= alarm.setpoint
    holds = source.role == "dip" if is_delayed else holds
    if state.condition != holds:
        yield f"{source.name} said {source.last}, and {source.tag} ({alarm.kind} {alarm.setpoint}) isn't {holds}"


def wrong_roles(windows: dict[str, int]) -> Iterator[str]:
    """What comes and goes, or is suppressed first, was annunciated never; what only goes and comes, once."""
    for role, count in windows.items():
        if count != (EACH if role == "dip" else 0):
            yield f"alarms of the role {role} were annunciated {count} times"


def untold_rows(site: Site, alarms: Found) -> Iterator[str]:
    """The feed has said, once, each row that is left out by now."""
    said = LEFT_OUT.findall(site.keeper.said())
    rows = [one.tag for one in site.sources if one.tag not in alarms]
    for tag in sorted(set(rows)):
        if tag not in said:
            yield f"nobody was told that the row of {tag} is left out"
