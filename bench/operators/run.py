#!/usr/bin/env python3
"""What fifteen operators cost the server who follow the largest plant, and how soon each is told.

    bench/operators/run.py [PROGRAM] [--seconds 20] [--rates 20,200]

PROGRAM is a build of alm_server, this repository's where it is left out. The plant has 16,384 alarms in 64 areas, and
all stand unacknowledged; the server remembers its last 65,536 actions. A clock sends each second, and a feed changes a
condition so many times a second. Each operator has the plant's rows, asks SINCE each 90 milliseconds, and ROW for what
that names, as docs/PROTOCOL.md has it.

A line for each rate: the server's processor time in per cent of one processor, with the operators and without; the
seconds from the feed's reply to an operator's row, of all operators: half within, 99 % within, the longest; how many
requests a second; the server's memory at its height. The device is a file in memory. Measure on a machine that does
nothing else.
"""
import argparse
import os
import pathlib
import random
import socket
import subprocess
import sys
import tempfile
import threading
import time
from typing import BinaryIO, Iterator

BUILT = pathlib.Path(__file__).resolve().parents[2] / "crates/alm_server/out/alm_server"
ALARMS, AREAS, SIZE, FEED, CLOCK = 16_384, 64, 7_483_711, 16, 17
OPERATORS, PERIOD = range(15), 0.09
REMEMBERED, OUT = 65_536, 64
TICKS = os.sysconf("SC_CLK_TCK")


def table() -> str:
    """The plant's table file."""
    alarm = '\n[[alarm]]\nkind = "high"\nsetpoint = 50\npriority = {}\narea = {}\ntag = "T-{}"\n'
    rows = (alarm.format(1 + number % 4, number % AREAS, number) for number in range(ALARMS))
    return f"size = {SIZE}\nareas = {AREAS}\n" + "".join(rows)


class Client:
    """A connection to a slot."""

    def __init__(self, port: int, slot: int):
        self.socket = socket.create_connection(("127.0.0.1", port + slot), timeout=60)
        self.socket.setsockopt(socket.IPPROTO_TCP, socket.TCP_NODELAY, 1)
        self.replies: BinaryIO = self.socket.makefile("rb")
        self.asked = 0

    def ask(self, requests: list[str]) -> list[list[str]]:
        """The words of the replies behind their ids, with up to 64 requests under way."""
        told: list[list[str]] = []
        for at in range(0, len(requests), OUT):
            part = requests[at : at + OUT]
            self.socket.sendall("".join(f"1 {request}\n" for request in part).encode())
            told += [self.replies.readline().decode().split()[1:] for _ in part]
        self.asked += len(requests)
        return told


class Operator(threading.Thread):
    """Follows the plant: it notes when each action's row came."""

    def __init__(self, port: int, slot: int):
        super().__init__(daemon=True)
        self.client = Client(port, slot)
        self.told: dict[int, float] = {}
        self.ends = False
        counts = [int(words[1]) for words in self.client.ask([f"ROW {alarm}" for alarm in range(ALARMS)])]
        self.count, self.client.asked = min(counts), 0

    def run(self) -> None:
        due = time.monotonic() + random.uniform(0, PERIOD)
        while not self.ends:
            time.sleep(max(0.0, due - time.monotonic()))
            due += PERIOD
            self.look()

    def look(self) -> None:
        """Asks what happened, and for the rows that it made old."""
        while True:
            (words,) = self.client.ask([f"SINCE {self.count}"])
            named = dict(alarms_of(int(words[2]), words[4:]))
            rows = self.client.ask([f"ROW {alarm}" for alarm in sorted(set(named.values()))])
            now = time.monotonic()
            self.told.update(dict.fromkeys(named, now))
            assert all(row[0] == "ROW" for row in rows), rows
            self.count = int(words[2]) + int(words[3]) - 1
            if self.count >= int(words[1]):
                return


def alarms_of(number: int, words: list[str]) -> Iterator[tuple[int, int]]:
    """Each action of a reply to SINCE that is a value, and its alarm; there are no others but CLOCK."""
    at = 0
    while at < len(words):
        if words[at + 2] == "VAL":
            yield number, int(words[at + 3])
        at, number = at + (5 if words[at + 2] == "VAL" else 4), number + 1


class Plant:
    """A served plant, all of whose alarms stand, with a feed and a clock."""

    def __init__(self, program: str, folder: str):
        device, given = os.path.join(folder, "device"), os.path.join(folder, "plant.toml")
        pathlib.Path(given).write_text(table(), encoding="ascii")
        subprocess.run([program, "format", device, given], check=True, stdout=subprocess.DEVNULL)
        self.port = random.randrange(10_000, 30_000, 20)
        words = [program, "serve", device, "--port", str(self.port)]
        self.server = subprocess.Popen(words, stdout=subprocess.PIPE)
        assert self.server.stdout and self.server.stdout.readline(), "no server"
        self.feed, self.clock, self.moment = Client(self.port, FEED), Client(self.port, CLOCK), 1
        self.values = [0] * ALARMS
        self.clock.ask(["CLOCK 1"])
        # an odd number of turns, behind which all stand
        for _ in range(REMEMBERED // ALARMS | 1):
            self.feed.ask([self.change(alarm) for alarm in range(ALARMS)])

    def change(self, alarm: int) -> str:
        """The next value of an alarm: its condition comes or goes."""
        self.values[alarm] = 60 - self.values[alarm]
        return f"VAL {alarm} {self.values[alarm]}"

    def seconds(self) -> float:
        """The processor time of the server so far."""
        words = pathlib.Path(f"/proc/{self.server.pid}/stat").read_text(encoding="ascii").rpartition(")")[2].split()
        return (int(words[11]) + int(words[12])) / TICKS

    def height(self) -> float:
        """The server's memory at its height, in megabytes of 2^20 bytes."""
        for line in pathlib.Path(f"/proc/{self.server.pid}/status").read_text(encoding="ascii").splitlines():
            if line.startswith("VmHWM:"):
                return int(line.split()[1]) / 1024
        return 0.0

    def run(self, rate: float, seconds: float) -> tuple[dict[int, float], float]:
        """Changes conditions for so many seconds: when each action was answered, and the server's processor time in
        per cent."""
        answered: dict[int, float] = {}
        began, before = time.monotonic(), self.seconds()
        due, tick = began, began
        while due < began + seconds:
            time.sleep(max(0.0, due - time.monotonic()))
            ((word, number),) = self.feed.ask([self.change(random.randrange(ALARMS))])
            assert word == "OK", word
            answered[int(number)] = time.monotonic()
            due += 1 / rate
            if due >= tick:
                self.moment, tick = self.moment + 1, tick + 1
                self.clock.ask([f"CLOCK {self.moment}"])
        return answered, 100 * (self.seconds() - before) / (time.monotonic() - began)


def measure(plant: Plant, rate: float, seconds: float) -> str:
    """A rate, without the operators and with them."""
    _, alone = plant.run(rate, seconds)
    operators = [Operator(plant.port, slot) for slot in OPERATORS]
    for one in operators:
        one.start()
    time.sleep(1)
    began, before = time.monotonic(), sum(one.client.asked for one in operators)
    answered, cost = plant.run(rate, seconds)
    asked = (sum(one.client.asked for one in operators) - before) / (time.monotonic() - began)
    time.sleep(1)
    for one in operators:
        one.ends = True
    for one in operators:
        one.join()
        one.client.socket.close()
    late = sorted(one.told[number] - moment for number, moment in answered.items() for one in operators)
    at = lambda share: late[min(len(late) - 1, int(share * len(late)))]
    return (
        f"{rate:g} changes a second: {cost:.2f} % of a processor, {alone:.2f} % without operators; told within"
        f" {1000 * at(0.5):.0f}, {1000 * at(0.99):.0f}, {1000 * late[-1]:.0f} ms; {asked:.0f} requests a second;"
        f" {plant.height():.1f} MB"
    )


def main() -> None:
    words = argparse.ArgumentParser(description=__doc__, formatter_class=argparse.RawDescriptionHelpFormatter)
    words.add_argument("program", nargs="?", default=str(BUILT), metavar="PROGRAM")
    words.add_argument("--seconds", type=float, default=20)
    words.add_argument("--rates", default="20,200", help="changes a second")
    chosen = words.parse_args()
    if not os.access(chosen.program, os.X_OK):
        sys.exit(f"operators: {chosen.program} isn't there: give a build of alm_server")
    sys.setswitchinterval(0.001)
    with tempfile.TemporaryDirectory(dir="/dev/shm" if os.path.isdir("/dev/shm") else None) as folder:
        plant = Plant(os.path.abspath(chosen.program), folder)
        try:
            for rate in map(float, chosen.rates.split(",")):
                print(measure(plant, rate, chosen.seconds), flush=True)
        finally:
            plant.server.kill()
            plant.server.wait()


if __name__ == "__main__":
    main()
