"""A feed of process values, from lines, MQTT and Modbus TCP.

    alm_feed --port P [--table TABLE.toml] [--map MAP.csv [--details FILE] [--json] [--mqtt URL]] [--watch TAG]
             [--metrics PORT] [FILE]
    alm_feed --map MAP.csv --show [--details FILE] [--json] [--mqtt URL] [FILE]

The lines are `tag,value`, by the tags of the plant, or with a map `name,value`. Without FILE they come from standard
input:

    TI-101,3805          a value: a whole number in the unit of the alarm's setpoint
    TI-101,design,on     the alarm is suppressed by design
    TI-101,design,off    it no longer is
    # a remark           passed over, as empty lines are

With a map the lines are `name,value`, and the map says which name is which alarm, how values are scaled, what isn't
one, and which alarm is on while a source is silent: value_map.py has its columns. A row whose alarm the plant hasn't is
left out, and said. With --details values are in the operator's unit: a row of the map that has no scale goes by that of
the file of details. A value that is the last one again isn't sent. A text that is no value is never sent. A line may
also be JSON, with the source's quality and time, or a message as `mosquitto_sub -F %j` prints it, whose topic is the
name; with --json nothing else is taken. So no payload passes for another topic's.

    {"name": "plant/ti101", "value": 380.5, "quality": "good", "time": "2026-11-29T08:00:00.25Z"}

With --mqtt the names of the map are topics of a broker; rows with a register are asked of their devices by Modbus TCP.
With either, lines are read from FILE alone; - is standard input. They need Debian's python3-paho-mqtt, and
python3-pymodbus with python3-serial-asyncio.

Sources are read on whatever the server does. Up to 64 requests are under way. One that changes nothing is no fault; any
other refusal, an unknown tag and a line that is none are reported on standard error: of each name the first, until a
good line comes.

The last value and the last suppression of each tag are sent again every eight seconds: so another setpoint is held
against the value that is there. Where the connection ends it is made again, the plant's tags are asked again, and the
last of each tag is sent again: what had no reply may be lost. Meanwhile lines are read on, and of each name the last
counts. So it goes on behind a restore and a change of the table. It ends with status 1 where a tag of the plant stands
twice, or no row of the map is left; where a table file is given, also if the plant isn't that file's, or is on another
device than before.

--watch names an alarm of the kind `discrete` that is off while this feed runs. With --dead the feed only sets it, or
without it the map's watching alarms, and ends: so does its unit where the feed has ended, and nobody would say that
values are missing. With --show it asks no server: it prints what each source of the map says, and what would be sent.

At the end of the lines it prints how many there were. Its status is 0 where all were taken, else 1.
"""
import argparse
import collections
import select
import time
from typing import Iterable, Iterator, Optional

from .client import FEED, Lost, OtherPlant, Plant, Refusal, Refused, ServerClient
from .ending import end_of
from .feed_alive import Alive
from .feed_dead import set_dead
from .feed_delay import Delays
from .feed_lines import Input, Lines, say
from .feed_options import Options, new_words, read_arguments, read_options, start_sources
from .feed_reading import Reading
from .feed_show import show
from .inbox import Inbox
from .table_file import Alarm

# Seconds after which the last of each tag is sent again, between two tries to connect, and in which what comes fast is
# gathered.
AGAIN, PAUSE, GATHERING = 8.0, 1.0, 0.002
# Refusals of what stands so already.
SAME = (Refusal.NO_CHANGE, Refusal.ALREADY_SET, Refusal.NOT_SET)
# Refusals that are the server's and not the value's: it is sent again.
LATER = (Refusal.STOPPED, Refusal.OUT_OF_MEMORY)


def again(latest: Iterable[Input]) -> list[Input]:
    """What is sent again, in an order that annunciates nothing that is to be suppressed: suppressions, values, then the
    ends of suppressions.
    """
    return sorted(latest, key=lambda one: (not one.value) * 2 if one.is_design else 1)


class Feed:
    """Values on their way to a server."""

    def __init__(
        self, plant: Plant, inbox: Inbox, lines: Lines, watch: Optional[str] = None, alive: Optional[Alive] = None
    ):
        self.plant, self.inbox, self.lines, self.values, self.watch = plant, inbox, lines, lines.values, watch
        self.latest: dict[tuple[str, bool], Input] = {}
        self.delays = Delays()
        self.counts = lines.counts
        self.left_out: list[str] = []
        self.alive = alive or Alive()
        self.alive.ready()
        self.client = self.connect()
        self.take_latest()

    def connect(self) -> ServerClient:
        """A connection, as soon as there is a server, and the numbers of the tags that are right for it."""
        said = ""
        while True:
            try:
                client = self.plant.connect()
                self.lines.numbers = self.plant.table.numbers()
                self.hold_map()
                self.delays.refresh(client, self.lines.numbers)
                if self.plant.other:
                    say(self.plant.other)
                self.due = time.monotonic() + AGAIN
                self.alive.is_connected = True
                return client
            except ValueError as twice:
                raise OtherPlant(f"the plant's {twice}") from None
            except Lost as lost:
                self.plant.lose()
                self.inbox.set_away()
                self.alive.is_connected = False
                self.alive.beat()
                if str(lost) != said:
                    say(lost, "- trying again")
                said = str(lost)
                time.sleep(PAUSE)

    def hold_map(self) -> None:
        """Holds the map against the plant, and says what of it is left out now."""
        alarms = {alarm.tag: alarm for alarm in self.plant.table.alarms}
        left_out = self.values.hold_against(alarms) if self.values else []
        if self.values:
            rows = [row for rows in self.values.active.values() for row in rows]
            self.lines.watches.hold(rows)
            self.delays.hold(rows)
        if self.watch:
            left_out += self.hold_own(alarms.get(self.watch))
        for line in left_out:
            if line not in self.left_out:
                say(line)
        self.left_out = left_out

    def hold_own(self, alarm: Optional[Alarm]) -> list[str]:
        """The feed's own watching alarm is off, unless it watches sources too: these say then when it is."""
        if alarm is None or alarm.kind != "discrete":
            return [f"{self.watch} is no tag of the plant, or not of the kind discrete: nobody watches this feed"]
        if alarm.tag not in self.lines.watches.lacking():
            self.latest[alarm.tag, False] = Input(alarm.tag, alarm.going)
        return []

    def take_latest(self) -> None:
        """Takes the last of each name that came while there was no server, or while the plant hadn't its row."""
        missing = list(self.lines.missing(self.latest))
        self.latest.update({one.key: one for one, moment in missing if self.delays.counts(one, moment)})
        self.latest.update({one.key: one for one in self.taken(self.inbox.take_latest())})

    def taken(self, readings: list[Reading]) -> list[Input]:
        """What readings bring that counts. Where some were passed over what is left goes in the order of `again`."""
        if self.inbox.is_merged:
            self.inbox.is_merged = False
            self.counts["dropped"], before = self.inbox.dropped, self.counts["dropped"]
            say(f"{self.inbox.dropped - before} lines were passed over: of each name the last counts")
            readings = sorted(readings, key=lambda one: one.moment)
            found = {one.key: (one, moment) for one, moment in self.lines.inputs(readings)}
            return again(one for one, moment in found.values() if self.delays.counts(one, moment))
        return [one for one, moment in self.lines.inputs(readings) if self.delays.counts(one, moment)]

    def turns(self) -> Iterator[list[Reading]]:
        """The readings, as many at a time as are there; none of them as a source has been silent for too long, or
        values are due again. Meanwhile an end of the connection is seen: nothing else comes unasked.
        """
        began = 0.0
        while True:
            time.sleep(max(0.0, began + GATHERING - time.monotonic()))
            began = time.monotonic()
            readings = self.inbox.take()
            if readings is None:
                return
            self.alive.beat()
            yield readings
            ready, _, _ = select.select([self.inbox, self.client.socket], [], [], self.patience())
            if self.client.socket in ready:
                self.resend()

    def patience(self) -> float:
        """How long to wait for readings, in seconds: until the next source is late, a value counts, or values are due
        again.
        """
        deadlines = [self.due, self.alive.deadline(), self.lines.watches.deadline(), self.delays.deadline()]
        return max(0.0, min(one for one in deadlines if one is not None) - time.monotonic())

    def news(self, readings: list[Reading]) -> Iterator[Input]:
        """What readings bring; with a map but for what its tag has already."""
        for one in [*self.taken(readings), *self.delays.due()]:
            if not self.values or self.latest.get(one.key) != one:
                self.latest[one.key] = one
                yield one
            else:
                self.counts["same"] += 1

    def watched(self) -> Iterator[Input]:
        """What the alarms are sent that watch the sources."""
        for watch, is_lacking in self.lines.watches.lacking().items():
            alarm = self.plant.table.alarms[self.lines.numbers[watch]]
            one = Input(watch, alarm.coming if is_lacking else alarm.going)
            if is_lacking is not None and self.latest.get((watch, False)) != one:
                say(f"{watch}: a source has no value" if is_lacking else f"{watch}: each source has a value")
                yield one

    def send(self, inputs: list[Input]) -> None:
        """Sends what lines bring, and takes the replies."""
        if not inputs:
            return
        self.latest.update({one.key: one for one in inputs})
        try:
            self.ask(inputs, self.counts)
        except Lost as lost:
            say(lost)
            self.resend()

    def send_again(self) -> None:
        """Sends the last of each tag where that is due."""
        if time.monotonic() < self.due:
            return
        self.due = time.monotonic() + AGAIN
        try:
            self.delays.refresh(self.client, self.lines.numbers)
            self.ask(again(self.latest.values()), collections.Counter())
        except Lost as lost:
            say(lost)
            self.resend()

    def resend(self) -> None:
        """Connects again and sends the last of each tag, until that is done."""
        while True:
            self.inbox.set_away()
            self.alive.is_connected = False
            self.client.close()
            self.client = self.connect()
            self.drop_unknown()
            self.take_latest()
            say(f"connected again, {len(self.latest)} values are sent again")
            try:
                self.ask(again(self.latest.values()), self.counts)
                return self.delays.refresh(self.client, self.lines.numbers)  # by what these have changed
            except Lost as lost:
                say(lost)
                time.sleep(PAUSE)

    def drop_unknown(self) -> None:
        """Drops what was sent of tags that the table no longer has."""
        for tag, is_design in list(self.latest):
            if tag not in self.lines.numbers:
                say(f"{self.latest.pop((tag, is_design))}: the table no longer has this tag")

    def ask(self, inputs: list[Input], counts: collections.Counter[str]) -> None:
        """Sends inputs, and counts by their replies; `Lost` where the connection ends."""
        requests = (one.request(self.lines.numbers[one.tag]) for one in inputs)
        for one, reply in zip(inputs, self.client.ask_all(requests)):
            self.alive.beat()
            if not isinstance(reply, Refused):
                counts["changed"] += 1
            elif reply.refusal in SAME:
                counts["same"] += 1
            else:
                counts["refused"] += 1
                say(f"{one}: {reply}")
                if reply.refusal not in LATER and self.latest.get(one.key) == one:
                    del self.latest[one.key]


def run(plant: Plant, options: Options, lines: Lines) -> collections.Counter[str]:
    """Sends what the sources say; how many readings there were of each kind."""
    inbox = Inbox(lines.key_of)
    start_sources(options, inbox, lines)
    alive = Alive(lines, inbox, options.metrics)
    feed = Feed(plant, inbox, lines, options.watch, alive)
    feed.send(again(feed.latest.values()))
    for some in feed.turns():
        feed.send([*feed.news(some), *feed.watched()])
        feed.send_again()
    return feed.counts


def feed(chosen: argparse.Namespace) -> int:
    """Feeds to the end of the lines, or sets what says that the feed has ended; the status."""
    options = read_options(chosen)
    if options.show or options.place is None:
        return show(options, Lines(options.values, options.json))
    plant = Plant(options.place, FEED, options.table)
    if options.dead:
        return set_dead(plant, options)
    counts = run(plant, options, Lines(options.values, options.json))
    late = f", {counts['late']} late" if counts["late"] else ""
    print(
        f"{counts['changed']} changed a condition, {counts['same']} didn't, "
        f"{counts['refused']} refused, {counts['bad']} bad lines{late}"
    )
    return 1 if counts["refused"] or counts["bad"] or counts["late"] else 0


def main() -> None:
    chosen = read_arguments(new_words(__doc__))
    end_of("feed", lambda: feed(chosen))


if __name__ == "__main__":
    main()
