"""A small plant that is served, and a feed of it that has the libraries."""
import subprocess

from lib.tools import Yard, await_true, started, toml, words_of

from alarms.table_file import Alarm, Table, device_size
from check_mqtt import Broker, conditions, python_with_paho
from lib.places import AT_TOOLS

ALARMS = [
    Alarm("high", 3800, 1, 0, "TI-1", 0),
    Alarm("low", 500, 2, 0, "LI-2", 0),
    Alarm("discrete", 1, 1, 0, "XS-1"),
    Alarm("discrete", 1, 1, 0, "XS-9"),
]
HEAD = "name,tag,scale,silent,watch,on_delay,off_delay,modbus,register,type,order,bit\n"


class Plant:
    """The alarms above, served, and a feed with the libraries."""

    def __init__(self, yard: Yard, rows: str, alarms: list[Alarm] | None = None):
        alarms = alarms or ALARMS
        self.yard, self.count = yard, len(alarms)
        self.mapped = yard.write("map.csv", HEAD + rows)
        self.server = yard.serve(
            yard.format("plant.device", yard.write("plant.toml", toml(Table(device_size(len(alarms), 1), 1, alarms))))
        )

    def words(self, *words: object) -> list[str]:
        return [
            python_with_paho(),
            *words_of("alm_feed", ("--port", self.server.port, "--map", self.mapped, *words))[1:],
        ]

    def feed(self, *words: object, **more: str) -> subprocess.Popen:
        """A feed that runs on. It says what it says into feed.log."""
        with open(self.yard.path("feed.log"), "ab") as log:
            return started(
                subprocess.Popen(
                    self.words(*words),
                    env={**AT_TOOLS, **more},
                    stdin=subprocess.PIPE,
                    stdout=log,
                    stderr=log,
                    start_new_session=True,
                )
            )

    def said(self) -> str:
        return self.yard.read("feed.log")

    def holding(self) -> list[bool]:
        return conditions(self.server.port, self.count)

    def becomes(self, what: str, *holding: bool, patience: float = 30.0) -> None:
        await_true(what, lambda: self.holding()[: len(holding)] == list(holding), patience)


def put(feed: subprocess.Popen, *lines: str) -> None:
    feed.stdin.write("".join(f"{line}\n" for line in lines).encode())
    feed.stdin.flush()


def ended(feed: subprocess.Popen) -> None:
    feed.kill()
    feed.wait()


def published(broker: Broker, topic: str, text: str, *words: str) -> None:
    subprocess.run(
        ["mosquitto_pub", "-h", "127.0.0.1", "-p", str(broker.port), "-q", "1", "-t", topic, "-m", text, *words],
        check=True,
        timeout=30,
    )
