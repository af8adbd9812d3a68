#!/usr/bin/env python3
"""Runs the program at sizes between the least and the largest, where a maker, a reader or a copy could give up
unnoticed.

    tests/program/sizes.py PROGRAM [--short]

Plants of 1,001, 9,999 and drawn numbers of alarms are formatted, asked, checkpointed, opened again, shown and exported,
with segments from the least to 16 MiB, the longest that is used. A device goes through some hundred epochs, and is
opened in each. A desk is asked some thousand lines, each by a read of its own, of which one is interrupted; what comes
together is read together.

What is expected follows from docs/TABLE.md and docs/PROTOCOL.md, and nothing of it comes from the program.
"""
import os
import random
import sys
import time

from lib.tools import toml
from lib.program import PLANT, Wrong, begin, check, counts, finish, preload, run_words
from alarms.table_file import GREATEST_SEGMENT, LEAST_SEGMENT, Alarm, Table, device_size, read_table

AREAS = 7
HALF_OF_THE_CLOCK = 2**39
CLOCKS = 200  # more than a checkpoint of the largest plant has pieces
ACTION = 35  # bytes of the segment, of one that is stored alone
PIECE = 16_384  # bytes that the desk reads at once
VALUES = (700, 800)  # at which alarm 0 of the worked plant goes and comes


def table_of(alarms, segment):
    rows = [
        Alarm(
            "high", number, 1 + number % 4, number % AREAS, f"T-{number}", 0, 3600, number % 2 == 0, f"text of {number}"
        )
        for number in range(alarms)
    ]
    return Table(device_size(alarms, AREAS, segment), AREAS, rows)


def values(first, count):
    """Lines that alarm 0 of the worked plant comes and goes, each accepted as the action of its number, where it begins
    normal at an odd number."""
    return [f"16 {number} VAL 0 {VALUES[number % 2]}\n".encode() for number in range(first, first + count)]


class Sizes:
    """Plants between the least and the largest."""

    def __init__(self, program, folder):
        self.program, self.folder = program, folder
        self.library = preload(folder)
        self.device = os.path.join(folder, "device")
        self.runs = 0

    def run(self, *words, lines=b"", loaded=None):
        run = run_words(self.program, words, loaded, lines)
        check(run.returncode == 0 and run.stderr == b"", words, run.returncode, run.stderr)
        self.runs += 1
        return run.stdout

    def format(self, table, segment):
        path = os.path.join(self.folder, "table.toml")
        with open(path, "w", encoding="ascii") as file:
            file.write(toml(table))
        wanted = f"formatted {len(table.alarms)} {table.areas} {segment}\n".encode()
        check(self.run("format", self.device, path) == wanted, "not", wanted)

    def desk(self, requests):
        """The replies to requests of slots, without slot and id."""
        lines = b"".join(f"{slot} {number} {request}\n".encode() for number, (slot, request) in enumerate(requests, 1))
        return [reply.split(b" ", 2)[2].decode() for reply in self.run("desk", self.device, lines=lines).splitlines()]

    def head(self):
        """Clock, count and epoch of what stands there."""
        words = self.run("show", self.device).split(b"\n", 1)[0].split()
        return int(words[1]), int(words[3]), int(words[5])

    def plant(self, alarms, segment):
        """Of so many alarms the last and the middle one come, and the clock goes on in its second half."""
        table = table_of(alarms, segment)
        self.format(table, segment)
        last, middle = alarms - 1, alarms // 2
        clocks = [(17, f"CLOCK {HALF_OF_THE_CLOCK + second}") for second in range(1, CLOCKS + 1)]
        stored = len(clocks) + 3
        replies = self.desk(
            [
                (16, f"VAL {last} {last}"),
                (16, f"VAL {middle} {middle}"),
                (0, f"ACK {last}"),
                *clocks,
                (0, f"STATE {last}"),
                (0, f"STATE {alarms}"),
            ]
        )
        wanted = [*(f"OK {number}" for number in range(1, stored + 1)), f"STATE {stored} ACKED 1 - -", "NO 1"]
        check(replies == wanted, alarms, "alarms:", replies)
        now, count, epoch = self.head()
        check((now, count) == (HALF_OF_THE_CLOCK + CLOCKS, stored), alarms, "alarms: shown", now, count)
        check((epoch > 1) == (2 * ACTION * stored > segment), alarms, "alarms, a segment of", segment, ": epoch", epoch)
        self.opened(alarms, stored)
        check(
            read_table(self.run("export", self.device).decode()) == table,
            "the table of",
            alarms,
            "alarms is exported as another",
        )

    def opened(self, alarms, stored):
        """The same plant, opened again."""
        last, middle = alarms - 1, alarms // 2
        in_area = [number for number in (last, middle) if number % AREAS == middle % AREAS]
        listed = " ".join(str(number) for number in [len(in_area), *in_area])
        requests = [
            (0, f"STATE {last}"),
            (0, f"LIST A {middle % AREAS}"),
            (0, f"LIST P {1 + middle % 4}"),
            (16, f"VAL {middle} 0"),
            (0, f"STATE {middle}"),
        ]
        in_priority = [number for number in (last, middle) if number % 4 == middle % 4]
        ranked = " ".join(str(number) for number in [len(in_priority), *in_priority])
        gone = "LATUN" if middle % 2 == 0 else "RTNUN"
        wanted = [
            f"STATE {stored} ACKED 1 - -",
            f"LIST {stored} {listed}",
            f"LIST {stored} {ranked}",
            f"OK {stored + 1}",
            f"STATE {stored + 1} {gone} 0 - -",
        ]
        replies = self.desk(requests)
        check(replies == wanted, alarms, "alarms, opened again:", replies)
        shown = self.run("show", self.device).decode().splitlines()
        check(len(shown) == 1 + alarms + 4 + AREAS, alarms, "alarms: so many lines of show:", len(shown))
        check(shown[alarms] == f"ALARM {last} T-{last} ACKED 1 - -", shown[alarms])

    def epochs(self, wanted):
        """The worked plant through so many epochs, and opened in each. An action alone takes 35 of 4,116 bytes, so that
        a checkpoint comes by the 59th."""
        self.run("format", self.device, PLANT)
        stored, epoch = 0, 1
        while epoch < wanted:
            replies = self.run("desk", self.device, lines=b"".join(values(stored + 1, 60)))
            check(
                replies == b"".join(b"16 %d OK %d\n" % (number, number) for number in range(stored + 1, stored + 61)),
                "in epoch",
                epoch,
                replies[-40:],
            )
            stored += 60
            _, count, now = self.head()
            check(count == stored and epoch < now <= epoch + 2, "behind epoch", epoch, "count", count, "epoch", now)
            epoch = now
        return epoch

    def long_segment(self, actions):
        """A segment of 16 MiB that is used for so many actions."""
        self.format(table_of(4, GREATEST_SEGMENT), GREATEST_SEGMENT)
        asked = [(16, f"VAL 3 {number % 2 * 3}") for number in range(1, actions + 1)]
        replies = self.desk(asked)
        check(replies == [f"OK {number}" for number in range(1, actions + 1)], "a segment of 16 MiB:", replies[-1])
        _, count, epoch = self.head()
        check(
            count == actions and (epoch > 1) == (2 * ACTION * actions > GREATEST_SEGMENT),
            "a segment of 16 MiB: count",
            count,
            "epoch",
            epoch,
        )
        check(
            self.desk([(0, "STATE 3")]) == [f"STATE {actions} {'UNACK 1' if actions % 2 else 'RTNUN 0'} - -"],
            "a segment of 16 MiB, opened again",
        )

    def reads(self, lines):
        """A desk that is asked line by line, and one that is handed all at once."""
        self.run("format", self.device, PLANT)
        text = b"".join(b"0 %d STATE 1\n" % number for number in range(1, lines + 1))
        wanted = b"".join(b"0 %d STATE 0 NORM 0 - -\n" % number for number in range(1, lines + 1))
        for interrupted in (lines // 3, lines - 1):
            loaded = {"LD_PRELOAD": self.library, "ALM_READS": "lines", "ALM_INTERRUPT": str(interrupted)}
            check(
                self.run("desk", self.device, lines=text, loaded=loaded) == wanted,
                "read line by line, interrupted at",
                interrupted,
            )
        made = counts(self.program, self.library, ["desk", self.device], self.folder, text)["read"]
        check(made <= len(text) // PIECE + 3, len(text), "bytes at once are taken by", made, "reads")


def main():
    program, is_full, folder = begin("sizes", sys.argv, True, False)
    started = time.monotonic()
    sizes, dice = Sizes(program, folder), random.Random(7)
    try:
        for alarms in [1_001, 9_999, *(dice.randrange(2, 16_384) for _ in range(20 if is_full else 2))]:
            sizes.plant(alarms, dice.choice([LEAST_SEGMENT, LEAST_SEGMENT, 100_000, 1_000_000]))
        sizes.plant(9_999, LEAST_SEGMENT)
        sizes.plant(1_001, GREATEST_SEGMENT)
        epoch = sizes.epochs(700 if is_full else 130)
        sizes.long_segment(300_000 if is_full else 2_000)
        sizes.reads(5_000)
    except Wrong as wrong:
        sys.exit(f"sizes: {wrong}; devices are in {folder}")
    finish(
        "sizes",
        folder,
        f"{sizes.runs} runs at sizes between, epochs to {epoch}, none wrong, {time.monotonic() - started:.0f} s",
    )


if __name__ == "__main__":
    main()
