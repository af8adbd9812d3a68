#!/usr/bin/env python3
"""Kills the desk over a device at random moments, and compares what the device stands for with what was answered.

    examples/power_cut.py PROGRAM [ROUNDS]      with PYTHONPATH=tools where the package `alarms` isn't installed

PROGRAM is the built program, ROUNDS is 100 where it is left out. Two devices are formatted for plant.toml. In each
round lines go to the desk over the first one, each after the answer to the one before, then some at once. Then the
process is killed with SIGKILL. The second device gets the lines that were answered, without a kill, and then the others
one by one. At one of these moments `show` must print the same of both. The epoch alone may differ, since a checkpoint
that was cut short is made again.

What is killed here is the process. The system goes on, and what it holds of the file stays. A real power failure takes
more, and is what the device model of the proofs is about.
"""
import os
import pathlib
import random
import re
import signal
import subprocess
import sys
import tempfile
import time

from alarms.arguments import new_parser
from alarms.known import known

# The longest pause before a kill, in seconds: about as long as the last lines take.
PAUSE = 0.0002
PLANT = str(pathlib.Path(__file__).resolve().parent / "plant.toml")


class Wrong(Exception):
    """The program did what it must not do."""


class Lines:
    """Drawn desk lines of all actions, many of which are accepted."""

    def __init__(self) -> None:
        self.dice = random.Random(18)
        self.number, self.clock = 0, 1000

    def next(self) -> str:
        """A line: a slot, a number and a request."""
        dice = self.dice
        self.number, self.clock = self.number + 1, self.clock + dice.randrange(1, 5)
        alarm, console, switch = dice.randrange(4), dice.randrange(16), dice.choice(["ON", "OFF"])
        requests = {
            "VAL": (16, f"{alarm} {dice.randrange(0, 1000)}"),
            "DESIGN": (16, f"{alarm} {switch}"),
            "CLOCK": (17, self.clock),
            "ACK": (console, alarm),
            "RESET": (console, alarm),
            "UNSHELVE": (console, alarm),
            "OOS": (console, f"{alarm} {switch}"),
            "SHELVE": (console, f"{alarm} {dice.randrange(1, 3600)}"),
            "PRIO": (console, f"{alarm} {dice.randint(1, 4)}"),
            "SETP": (console, f"{alarm} {dice.randrange(0, 1000)}"),
        }
        word = dice.choice([*requests, *["VAL"] * 6, *["ACK"] * 2])
        slot, words = requests[word]
        return f"{slot} {self.number} {word} {words}"


class Cuts:
    """A device whose desk is killed, and its twin, whose desk is not."""

    def __init__(self, program: str, folder: str):
        self.program, self.lines = program, Lines()
        self.device, self.twin = os.path.join(folder, "device"), os.path.join(folder, "twin")
        self.told = self.cut = self.stored = 0
        for path in (self.device, self.twin):
            self.run("format", path, PLANT)

    def run(self, *words: str, text: str = "") -> str:
        return subprocess.run([self.program, *words], input=text, capture_output=True, text=True, check=True).stdout

    def show(self, device: str) -> str:
        return re.sub(r" EPOCH \d+", "", self.run("show", device))

    def feed(self, lines: list[str]) -> None:
        """Gives lines to the twin's desk."""
        self.run("desk", self.twin, text="".join(line + "\n" for line in lines))

    def kill(self) -> tuple[list[str], list[str]]:
        """Gives lines to the device's desk until it is killed: those that were answered, and those that were not."""
        desk = subprocess.Popen(
            [self.program, "desk", self.device], stdin=subprocess.PIPE, stdout=subprocess.PIPE, text=True, bufsize=1
        )
        asks, replies = known(desk.stdin), known(desk.stdout)
        answered = [self.lines.next() for _ in range(self.lines.dice.randrange(0, 40))]
        for line in answered:
            asks.write(line + "\n")
            asks.flush()
            if not replies.readline():
                raise Wrong("the desk ended by itself")
        waiting = [self.lines.next() for _ in range(self.lines.dice.randrange(1, 9))]
        asks.write("".join(line + "\n" for line in waiting))
        asks.flush()
        time.sleep(self.lines.dice.random() * PAUSE)
        desk.send_signal(signal.SIGKILL)
        count = desk.communicate()[0].count("\n")
        return answered + waiting[:count], waiting[count:]

    def round(self, turn: int) -> None:
        """Kills once, and finds what the device stands for among what may be."""
        answered, waiting = self.kill()
        self.told += len(answered)
        self.cut += len(waiting) > 0
        self.feed(answered)
        seen = self.show(self.device)
        while self.show(self.twin) != seen:
            if not waiting:
                raise Wrong(f"round {turn}: an answered line is missing, or something else stands there")
            self.feed([waiting.pop(0)])
            self.stored += 1


def main() -> None:
    words = new_parser(__doc__)
    words.add_argument("program", metavar="PROGRAM", help="the built program, crates/alm_server/out/alm_server")
    words.add_argument(
        "rounds",
        metavar="ROUNDS",
        nargs="?",
        type=int,
        default=100,
        help="how often it is killed; %(default)s where it is left out",
    )
    chosen = words.parse_args()
    with tempfile.TemporaryDirectory() as folder:
        cuts = Cuts(os.path.abspath(chosen.program), folder)
        try:
            for turn in range(chosen.rounds):
                cuts.round(turn)
        except Wrong as wrong:
            sys.exit(f"power_cut: {wrong}")
        print(f"{chosen.rounds} kills, {cuts.told} lines answered: each of them stands.")
        print(f"{cuts.cut} kills came before a line was answered; {cuts.stored} of those lines stand.")
        print(cuts.show(cuts.device).splitlines()[0])


if __name__ == "__main__":
    main()
