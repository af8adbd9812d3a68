"""alm_feed behind a real mosquitto, by the recipes of docs/FIELD.md. tests/tools/values.py runs these checks.

The broker is configured as Debian configures it, but for its port and the places of its files: it saves what it keeps
as it is stopped.
"""
import contextlib
import os
import pathlib
import random
import re
import select
import shutil
import signal
import socket
import subprocess
import sys
import tempfile
import threading
import time
from typing import Iterable

from lib.tools import PATIENCE, Yard, await_true, started, toml, words_of

from alarms.client import Client
from lib.places import DOCS
from lib.program import check
from alarms.table_file import Alarm, Table, device_size

PAGE = DOCS / "FIELD.md"
RECIPE = re.compile(r"```sh\n(.*?)```", re.DOTALL)
TAGS = 200
# Topics that say much while there is no server.
AWAY = 500
# Retained topics that a subscription begins with: more than mosquitto queues for a client.
RETAINED = 2_000
# Hundredths of a second of a processor in a second: a feed that reads takes more.
RESTS = 15
# Debian's own file, and whose port. A broker that root starts would else be a user who can't reach the folder.
DEBIAN = "persistence true\npersistence_location {folder}/\nlog_type none\nuser root\nlistener {port} 127.0.0.1\n"


def conditions(port: int, alarms: int) -> list[bool]:
    """Which alarms' conditions hold."""
    with Client.connect(port, 3) as console:
        return [state.condition for state in console.states(range(alarms))]


class Broker:
    """A real mosquitto at a port of its own."""

    def __init__(self, yard: Yard, more: str = "allow_anonymous true\n"):
        with socket.create_server(("127.0.0.1", 0)) as one:
            self.port = one.getsockname()[1]
        folder = tempfile.mkdtemp(prefix="broker", dir=yard.folder)
        self.config = yard.write("mosquitto.conf", DEBIAN.format(folder=folder, port=self.port) + more)
        self.begin()

    def begin(self) -> None:
        self.process = started(
            subprocess.Popen(["mosquitto", "-c", self.config], stdout=subprocess.DEVNULL, stderr=subprocess.DEVNULL)
        )
        await_true("the broker", self.is_there)

    def is_there(self) -> bool:
        with socket.socket() as one:
            return one.connect_ex(("127.0.0.1", self.port)) == 0

    def kill(self) -> None:
        """Ends it as a power failure does: what it keeps is what it saved last."""
        self.process.kill()
        self.process.wait()

    def stop(self) -> None:
        """Ends it as its unit does: it saves what it keeps."""
        self.process.terminate()
        self.process.wait()

    def hang(self, seconds: float) -> None:
        """It takes connections, and does nothing, for so long."""
        self.process.send_signal(signal.SIGSTOP)
        time.sleep(seconds)
        self.process.send_signal(signal.SIGCONT)


def field(text: bytes) -> bytes:
    return len(text).to_bytes(2, "big") + text


def packet(kind: int, body: bytes) -> bytes:
    """A packet of MQTT 3.1.1."""
    length, left = bytearray(), len(body)
    while True:
        length.append(left % 128 | (0x80 if left >= 128 else 0))
        left //= 128
        if not left:
            return bytes([kind]) + bytes(length) + body


def publish(topic: str, value: str | bytes) -> bytes:
    """A retained message of quality 1, whose number nobody needs."""
    return packet(0x33, field(topic.encode()) + b"\x00\x01" + (value.encode() if isinstance(value, str) else value))


def drain(one: socket.socket) -> None:
    """Takes what the broker says of what came."""
    while select.select([one], [], [], 0)[0]:
        if not one.recv(65_536):
            raise ConnectionResetError("the broker has gone")


def connected(broker: Broker) -> socket.socket:
    """A client of the broker."""
    one = socket.create_connection(("127.0.0.1", broker.port), timeout=10)
    one.sendall(packet(0x10, field(b"MQTT") + b"\x04\x02\x00\x00" + field(b"gateway")))
    if one.recv(4) != b"\x20\x02\x00\x00":
        raise ConnectionResetError("the broker takes no client")
    return one


def publish_all(broker: Broker, messages: Iterable[tuple[str, str | bytes]]) -> None:
    """Publishes messages, and waits until the broker has all of them."""
    sent, acknowledged = 0, 0
    with connected(broker) as one:
        for topic, value in messages:
            one.sendall(publish(topic, value))
            sent += 1
            while select.select([one], [], [], 0)[0]:
                acknowledged += len(one.recv(65_536))
        while acknowledged < 4 * sent:
            acknowledged += len(one.recv(65_536))


class Publisher(threading.Thread):
    """Sources that publish drawn values at a pace; after a new connection the last of each again, as a gateway does."""

    def __init__(self, broker: Broker, pace: int, seconds: float):
        super().__init__()
        self.broker, self.pace, self.seconds = broker, pace, seconds
        self.last: dict[str, str] = {}
        self.sent = 0

    def connect(self) -> socket.socket:
        while True:
            try:
                one = connected(self.broker)
                one.sendall(b"".join(publish(topic, value) for topic, value in self.last.items()))
                return one
            except OSError:
                time.sleep(0.05)

    def step(self, dice: random.Random) -> bytes:
        """The messages of a fiftieth of a second."""
        drawn = {
            f"plant/{dice.randrange(TAGS)}": f"{dice.choice((1, 2))}.{dice.randrange(10)}"
            for _ in range(self.pace // 50)
        }
        self.last.update(drawn)
        self.sent += self.pace // 50
        return b"".join(publish(topic, value) for topic, value in drawn.items())

    def run(self) -> None:
        dice, one, began = random.Random(71), self.connect(), time.monotonic()
        steps = 0
        while time.monotonic() - began < self.seconds:
            message = self.step(dice)
            try:
                one.sendall(message)
                drain(one)
            except OSError:
                one = self.connect()
            steps += 1
            time.sleep(max(0.0, began + steps / 50 - time.monotonic()))
        self.last.update({f"plant/{tag}": dice.choice(("1.4", "2.5")) for tag in range(TAGS)})
        one.close()


class Fed:
    """A recipe, started again whenever it ends: as units are."""

    def __init__(self, command: str, yard: Yard):
        loop = f"while :; do {command}\nsleep 0.1; done"
        self.process = started(
            subprocess.Popen(
                ["bash", "-c", loop],
                start_new_session=True,
                stdout=subprocess.DEVNULL,
                stderr=open(yard.path("feed.log"), "wb"),
            )
        )

    def kill_feed(self) -> None:
        """Kills alm_feed, and waits until it is gone: a line that mosquitto_sub writes before that is lost, and the
        next one ends mosquitto_sub.
        """
        words = ["pgrep", "-g", str(self.process.pid), "-f", r"^[^ ]*python[^ ]* [^ ]*alm_feed"]
        for number in subprocess.run(words, capture_output=True, text=True).stdout.split():
            with contextlib.suppress(ProcessLookupError), open(os.pidfd_open(int(number)), "rb") as process:
                signal.pidfd_send_signal(process.fileno(), signal.SIGKILL)
                check(select.select([process], [], [], PATIENCE)[0], "a feed that was killed runs on")

    def ticks(self) -> int:
        """How long its processes have used a processor, in hundredths of a second."""
        used = 0
        for path in pathlib.Path("/proc").glob("[0-9]*/stat"):
            with contextlib.suppress(OSError):
                words = path.read_text(encoding="utf-8", errors="replace").rpartition(")")[2].split()
                used += int(words[11]) + int(words[12]) if int(words[2]) == self.process.pid else 0
        return used

    def await_rest(self) -> None:
        """Waits until it has no more to do than to look whether there is a server."""

        def rests() -> bool:
            before = self.ticks()
            time.sleep(1.0)
            return self.ticks() - before < RESTS

        await_true("a feed that has read all", rests)

    def end(self) -> None:
        os.killpg(self.process.pid, signal.SIGKILL)
        self.process.wait()


def python_with_paho() -> str:
    """A Python that has the library of MQTT; empty if none of them has it."""
    for python in (sys.executable, "/usr/bin/python3"):
        if (
            os.path.exists(python)
            and subprocess.run([python, "-c", "import paho.mqtt.client"], capture_output=True).returncode == 0
        ):
            return python
    return ""


def recipe(word: str, port: int, mapped: str, **changed: str) -> str:
    """The recipe of the page that has a word, at this server and map. A path or number that `changed` names stands in
    place of the page's.
    """
    text = next(text for text in RECIPE.findall(PAGE.read_text(encoding="utf-8")) if word in text)
    words = words_of("alm_feed", ())
    words[0] = python_with_paho() if word == "--mqtt" else words[0]
    text = re.sub(r"(?m)^( *)alm_feed ", lambda found: f"{found[1]}{' '.join(words)} ", text)
    text = text.replace("--sockets /run/alarms/plant", f"--port {port}").replace("/etc/alarms/plant-map.csv", mapped)
    for old, new in changed.items():
        check(old in text, "the page has no", old, "in", text)
        text = text.replace(old, new)
    return text.rstrip("\n")


def plant_of_topics(count: int = TAGS) -> tuple[Table, str]:
    """Alarms that hold from 2 on, and their map."""
    alarms = [Alarm("high", 20, 1 + tag % 4, tag % 8, f"T-{tag}", 5) for tag in range(count)]
    return Table(device_size(count, 8), 8, alarms), "name,tag,scale\n" + "".join(
        f"plant/{tag},T-{tag},10\n" for tag in range(count)
    )


class Site:
    """A plant of topics that is served, a broker, and what feeds the one from the other by the page's recipe."""

    def __init__(self, yard: Yard, name: str, way: str, count: int = TAGS):
        table, mapped = plant_of_topics(count)
        self.yard, self.way, self.count = yard, way, count
        self.device = yard.format(f"{name}.device", yard.write(f"{name}.toml", toml(table)))
        self.mapped = yard.write(f"{name}.csv", mapped)
        self.server, self.broker = yard.serve(self.device), Broker(yard)

    def feed(self) -> None:
        old, new = (
            ("127.0.0.1:1883", f"127.0.0.1:{self.broker.port}")
            if self.way == "--mqtt"
            else ("-p 1883", f"-p {self.broker.port}")
        )
        self.fed = Fed(recipe(self.way, self.server.port, self.mapped, **{old: new}), self.yard)

    def holding(self) -> list[bool]:
        return conditions(self.server.port, self.count)

    def end(self) -> None:
        self.fed.end()
        self.server.end()
        self.broker.kill()


def wanted(last: dict[str, str]) -> list[bool]:
    """The conditions of the last values: 2.5 is above the setpoint, 1.4 below its deadband."""
    return [last[f"plant/{tag}"].startswith("2") for tag in range(len(last))]


def own_topic(yard: Yard, way: str) -> str:
    """A payload says nothing of another topic, nor another value than it is: with a line feed, as a message, with a
    zero byte.
    """
    site = Site(yard, "own", way, 6)
    site.feed()
    publish_all(site.broker, [*((f"plant/{tag}", "1.4") for tag in range(5)), ("plant/5", "2.5")])
    await_true("the first messages", lambda: site.holding()[5])
    publish_all(site.broker, [("plant/5", "1.4")])
    await_true("the next one", lambda: not site.holding()[5])
    forged = '{"topic":"plant/4","qos":1,"retain":0,"payloadlen":3,"payload":"2.5"}'
    publish_all(
        site.broker,
        [
            ("plant/0", "1.4\nplant/1,2.5"),
            ("plant/0", "plant/1,2.5"),
            ("plant/0", f"1\n{forged}"),
            ("plant/0", forged),
            ("plant/0", b"2.5\x00"),
            ("plant/0", b"2.5\xff"),
            ('plant/0,2.5"', "1"),
            ("plant/5", "2.5"),
        ],
    )
    await_true("the last of the messages", lambda: site.holding()[5])
    check(site.holding() == [False] * 5 + [True], "payloads moved other alarms:", site.holding())
    said = [line for line in yard.read("feed.log").splitlines() if "again" not in line]
    wanted_said = (
        ["plant/0,1.4\N{REPLACEMENT CHARACTER}plant/1,2.5: no number"]
        if way == "--mqtt"
        else ['"topic":"plant/0"', ": the map has no such name"]
    )
    check(len(said) == len(wanted_said) and all(text in line for text, line in zip(wanted_said, said)), said)
    site.end()
    return f"a topic's own by {way}"


def retained(yard: Yard, way: str, count: int = RETAINED) -> str:
    """Each topic's retained value is there at the start, of more topics than a broker queues."""
    site = Site(yard, "retained", way, count)
    publish_all(site.broker, ((f"plant/{tag}", "2.5") for tag in range(count)))
    site.feed()
    await_true("the retained values", lambda: all(site.holding()))
    site.end()
    return f"{count} retained topics by {way}"


def while_away(yard: Yard, way: str, messages: int) -> str:
    """Of what comes while there is no server each topic's last value counts, however much that is."""
    site, dice = Site(yard, "away", way, AWAY), random.Random(80)
    publish_all(site.broker, ((f"plant/{tag}", "1.4") for tag in range(AWAY)))
    site.feed()
    publish_all(site.broker, [("plant/0", "2.5")])
    await_true("the first value", lambda: site.holding()[0])
    site.server.end()
    drawn = [(f"plant/{dice.randrange(AWAY)}", dice.choice(("1.4", "2.5"))) for _ in range(messages)]
    publish_all(site.broker, drawn)
    site.fed.await_rest()
    last = {f"plant/{tag}": "1.4" for tag in range(AWAY)} | {"plant/0": "2.5"} | dict(drawn)
    site.server = yard.serve(site.device, site.server.port)
    await_true("the last values", lambda: site.holding() == wanted(last))
    with Client.connect(site.server.port, 3) as console:
        changed = console.action_count()
    check(changed <= 1 + AWAY, "what came and went while there was no server made", changed, "actions")
    site.end()
    return f"{messages} values of {AWAY} topics without a server by {way}"


def through_a_broker(yard: Yard, way: str, pace: int, seconds: float) -> str:
    """Values go through a broker while broker, feed and server are killed; then the conditions are those of the last
    values.
    """
    site = Site(yard, "topics", way)
    site.feed()
    publisher = Publisher(site.broker, pace, seconds)
    publisher.start()
    kills = 0
    while publisher.is_alive():
        publisher.join(seconds / 7)
        kills += 1
        if kills % 3 == 0:
            site.server.end()
            site.server = yard.serve(site.device, site.server.port)
        elif kills % 3 == 1:
            site.fed.kill_feed()
        else:
            site.broker.kill()
            site.broker.begin()
    check(kills >= 3, kills, "kills")
    gateway = publisher.connect()
    await_true("the last values", lambda: site.holding() == wanted(publisher.last), 60.0)
    gateway.close()
    site.end()
    return f"{publisher.sent} values through a broker by {way}, {kills} kills"


def ways() -> list[str]:
    """The ways from a broker that can be tried here, by a word of their recipes."""
    if not shutil.which("mosquitto"):
        return []
    return ["--mqtt"] * bool(python_with_paho()) + ["mosquitto_sub"] * bool(shutil.which("mosquitto_sub"))
