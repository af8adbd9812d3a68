"""A plant with thousands of sources of four kinds, what is between them and the server, and what happens to it."""
import contextlib
import os
import random
import signal
import time
from pathlib import Path
from typing import Callable

from lib.tools import Yard, await_true, slowness, toml

from alarms.client import Client, Lost, Refused
from alarms.table_file import Alarm, Table, device_size
from check_mqtt import Broker
from gateway import Gateway
from keeper import Keeper
from lib.places import TOOLS
from lib.program import check
from modbus_device import Device
from sources import (
    AREAS,
    BAD,
    BAD_SWITCHES,
    HIGH,
    LOW,
    OFF,
    ON,
    PLAIN_AREAS,
    POLL,
    SETPOINT,
    SILENT,
    Publisher,
    Source,
    draw_sources,
    message,
)

OWN = "XS-FEED"
HEAD = "name,tag,as,scale,bad,silent,watch,on_delay,off_delay,modbus,register\n"
# How often each topic says something while there is no feed.
BURST = 4
# Of these roles one alarm in as many is left out of a new table.
SPARED = {"plain": 100, "rare": 2}
# Seconds of a delay: far more than a value comes or goes for.
DELAY = {"spike": "5,", "dip": ",5"}


class Site:
    """The plant, its sources, and what is between them. The feed is that of `tools`."""

    def __init__(self, yard: Yard, dice: random.Random, topics: int, few: int, tools: Path = TOOLS):
        self.yard, self.dice = yard, dice
        self.sources = draw_sources(topics, few)
        self.plain = [one for one in self.sources if one.role == "plain"]
        self.watches = sorted({one.watch for one in self.sources if one.watch})
        self.devices = [Device(few), Device(few)]
        for source in self.sources:
            source.says(self.first_of(source))
        self.set_registers()
        self.device, self.tables = yard.path("plant.device"), 0
        self.new_table()
        self.server = yard.serve(self.device)
        self.broker = Broker(yard)
        self.pipe, mapped = yard.path("values"), yard.write("map.csv", HEAD + "".join(map(self.row, self.sources)))
        os.mkfifo(self.pipe)
        self.publisher = Publisher(self.sources, self.broker, self.pipe)
        self.keeper = Keeper(
            yard.folder,
            tools,
            OWN,
            ["--port", str(self.port), "--map", mapped],
            f"--mqtt mqtt://127.0.0.1:{self.broker.port} --poll {POLL} --metrics 0 --json".split() + [self.pipe],
        )
        self.gateway = Gateway(self.sources, self.pipe, dice, lambda: self.keeper.starts)
        for thread in (self.publisher, self.keeper, self.gateway):
            thread.start()

    @property
    def port(self) -> int:
        return self.server.port

    def row(self, source: Source) -> str:
        """A source's row of the map."""
        number = int(source.name.split("/")[1])
        register = f"127.0.0.1:{self.devices[number % 2].port}/1,holding {number}" if source.way == "register" else ","
        kind, bad = ("design", "false|2") if source.is_design else ("value", "bad|-9999")
        scale, delay = "" if source.is_design or source.role == "round" else "10", DELAY.get(source.role, ",")
        silent = SILENT if source.watch else ""
        return f"{source.name},{source.tag},{kind},{scale},{bad},{silent},{source.watch},{delay},{register}\n"

    def first_of(self, source: Source) -> str:
        """What a source says first."""
        if source.role in ("hold", "guard"):
            return ON[0] if source.is_design else HIGH
        return {"dip": HIGH, "spike": LOW, "blink": LOW, "round": "7"}.get(source.role) or self.value_of(source)

    def value_of(self, source: Source) -> str:
        """A drawn value. A register has whole numbers alone; some others are half a unit, or the least bit more."""
        if source.is_design:
            return self.dice.choice(ON + OFF)
        if source.way == "register":
            return f"{self.dice.randrange(4)}.0"
        more = self.dice.choice((["", "5", f"5{'0' * 20}1"])) if self.dice.randrange(10) == 0 else ""
        return f"{self.dice.randrange(4)}.{self.dice.randrange(10)}{more}"

    def alarm_of(self, source: Source) -> Alarm:
        """A drawn alarm; those for what comes and goes are always the same."""
        if source.role in AREAS:
            return Alarm("high", SETPOINT, 1, AREAS[source.role], source.tag)
        kind, area = self.dice.choice(("high", "low")), self.dice.randrange(PLAIN_AREAS)
        return Alarm(kind, self.dice.randrange(5, 36), 1 + self.dice.randrange(4), area, source.tag)

    def new_table(self) -> None:
        """Another table, with the alarms in another order and some left out, on a new device."""
        alarms = [
            self.alarm_of(source)
            for source in self.sources
            if not source.is_design
            and (not self.tables or source.role not in SPARED or self.dice.randrange(SPARED[source.role]))
        ]
        alarms += [Alarm("discrete", 1, 1, 0, watch) for watch in [*self.watches, OWN]]
        self.dice.shuffle(alarms)
        self.tags = {alarm.tag for alarm in alarms}
        self.tables += 1
        areas = 1 + max(AREAS.values())
        new = self.yard.format(
            f"new{self.tables}.device",
            self.yard.write("new.toml", toml(Table(device_size(len(alarms), areas), areas, alarms))),
        )
        os.replace(new, self.device)

    def set_registers(self) -> None:
        for source in self.sources:
            if source.way == "register":
                number = int(source.name.partition("/")[2])
                self.devices[number % 2].words[number] = int(float(source.text))

    def say(self, source: Source, text: str) -> None:
        """A source says something, in its way."""
        if source.way == "register":
            source.says(text)
        elif source.way == "gateway":
            self.gateway.say(source, text)
        else:
            self.publisher.say(source, text)

    def speak(self, count: int) -> None:
        """Drawn living sources say drawn values, some of which are none."""
        for source in self.dice.choices(self.plain, k=count):
            if source.alive:
                bad = BAD_SWITCHES if source.is_design else BAD
                is_bad = source.way != "register" and self.dice.randrange(50) == 0
                self.say(source, self.dice.choice(bad) if is_bad else self.value_of(source))
        self.set_registers()

    def living(self, way: str) -> list[Source]:
        """Drawn living sources of a way whose alarms the plant has, in any order."""
        found = [one for one in self.plain if one.way == way and one.alive and one.tag in self.tags]
        return self.dice.sample(found, len(found))

    def heal(self) -> None:
        """What is bad says a value."""
        for source in self.sources:
            if source.is_bad:
                self.say(source, self.value_of(source))

    def revive(self) -> None:
        """The dead speak again."""
        for source in self.sources:
            if not source.alive:
                source.alive = True
                self.say(source, self.value_of(source))

    def end(self) -> None:
        self.publisher.ended = self.gateway.ended = True
        self.keeper.end()
        for thread in (self.publisher, self.keeper, self.gateway):
            thread.join(60)
        self.keeper.end()
        self.server.end()
        self.broker.kill()
        for device in self.devices:
            device.kill()

    # what happens

    def lose_broker(self) -> None:
        """The broker is killed, and when it is back it has what it had saved as it was last stopped, or nothing."""
        self.broker.kill()
        time.sleep(self.dice.random())
        self.broker.begin()

    def stop_broker(self) -> None:
        """The broker is stopped and started: it has its sessions and all that it kept."""
        self.broker.stop()
        time.sleep(self.dice.random())
        self.broker.begin()

    def hang_broker(self) -> None:
        self.broker.hang(0.5 + self.dice.random())

    def hang_server(self) -> None:
        """The server answers nobody for a while, and its connections stay."""
        self.server.process.send_signal(signal.SIGSTOP)
        time.sleep(0.5 + 2 * self.dice.random())
        self.server.process.send_signal(signal.SIGCONT)

    def lose_feed(self) -> None:
        self.keeper.kill()

    def miss_feed(self) -> None:
        """There is no feed while so much comes that a broker drops some of it; and its alarm is on."""
        topics = [one for one in self.plain if one.way == "topic" and one.retained and one.alive]
        try:
            self.keeper.hold_down()
            drawn = ((one.name, self.value_of(one).encode()) for _ in range(BURST) for one in topics)
            self.publisher.put([message(name, payload, True) for name, payload in drawn])
            time.sleep(0.5 + self.dice.random())
            for source in topics:
                self.say(source, self.value_of(source))
            await_true("the alarm of a feed that is dead", self.is_own_on, 5.0)
        finally:
            self.keeper.let_run.set()

    def is_own_on(self) -> bool:
        with contextlib.suppress(Lost), Client.connect(self.port, 3) as console:
            numbers = [number for number, alarm in enumerate(console.table().alarms) if alarm.tag == OWN]
            return console.state(numbers[0]).condition
        return False

    def hang_feed(self) -> None:
        self.keeper.hang()

    def pause_feed(self) -> None:
        self.keeper.pause(0.5 + self.dice.random())

    def lose_server(self) -> None:
        self.without_server(lambda: time.sleep(self.dice.random()))

    def miss_server(self) -> None:
        """There is no server while thousands of values come; some come and go."""
        self.without_server(self.be_away)

    def be_away(self) -> None:
        time.sleep(0.3 + self.dice.random())
        self.gateway.blink()
        time.sleep(slowness())

    def change_table(self) -> None:
        """There is another table. What speaks rarely does so while its alarm is left out, and not as it is back."""
        self.without_server(self.new_table)
        for source in self.gateway.of("rare"):
            if source.tag not in self.tags:
                self.say(source, self.value_of(source))

    def without_server(self, meanwhile: Callable[[], None]) -> None:
        self.server.end()
        meanwhile()
        self.server = self.yard.serve(self.device, self.port)

    def move_setpoints(self) -> None:
        """Other setpoints for some alarms; of one without a reply the server is asked later."""
        with contextlib.suppress(Lost, Refused), Client.connect(self.port, 5, patience=10.0) as console:
            plant = console.plant()
            for _ in range(20):
                with contextlib.suppress(Refused):
                    number = self.dice.randrange(plant.alarms)
                    alarm = console.attributes(number)
                    if alarm.kind != "discrete" and alarm.area < PLAIN_AREAS:
                        console.setpoint(number, self.dice.randrange(5, 36))

    def lose_device(self) -> None:
        device = self.dice.choice(self.devices)
        device.kill()
        time.sleep(self.dice.random())
        device.begin()

    def let_die(self) -> None:
        """Watched sources say nothing more in this round, some of them with a retained value."""
        alive = [one for one in self.sources if one.watch and one.way != "register" and one.alive]
        for source in self.dice.sample(alive, 3) + self.dice.sample([one for one in alive if one.retained], 3):
            source.alive = False

    def troubles(self) -> dict[str, Callable[[], None]]:
        """What may happen, by its name."""
        return {
            "broker": self.lose_broker,
            "stopped broker": self.stop_broker,
            "hanging broker": self.hang_broker,
            "feed": self.lose_feed,
            "no feed": self.miss_feed,
            "hanging feed": self.hang_feed,
            "pause": self.pause_feed,
            "server": self.lose_server,
            "hanging server": self.hang_server,
            "no server": self.miss_server,
            "table": self.change_table,
            "setpoints": self.move_setpoints,
            "device": self.lose_device,
            "dying": self.let_die,
        }

    def check_alive(self) -> None:
        """`Wrong` says that the feed has ended, though nobody ended it."""
        check(not self.keeper.fault, self.keeper.fault)
