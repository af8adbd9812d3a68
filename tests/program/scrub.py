#!/usr/bin/env python3
"""Damages the file of a running server that scrubs it, each second.

    tests/program/scrub.py PROGRAM [--short]

Over a device of version 03 a bit flips where an opening reads, or an open gate becomes 5A. The server says what
FORMAT has of it, heals it by a checkpoint, says so, and serves meanwhile; the file then opens with all that was
answered. The header is never written again: there the damage is said, and stays. Of what isn't read, of a read that
fails once, and under a load with many checkpoints it says nothing. A read that fails for good is said.
"""
import os
import random
import shutil
import sys
import threading
import time
from typing import Optional, Sequence

from lib.places import EXAMPLES
from lib.program import PLANT, Fault, begin, check, count_of, finish, preload, run_words, show
from lib.summed_device import CLOSED, SummedDevice
from surrounded import Served, until

CLOCK = 17
SCRUBS = ("--scrub", "1")
# Seconds within which damage is found and healed: two looks, a checkpoint in pieces of a tenth of a second, one look.
WITHIN = 30.0
# Bytes of the larger device under load. The smaller one turns its halves each 59 frames of one action.
REFINERY = 4_000_000
# What an opening reads. A short run damages the first of them, and lasts so many seconds under each load.
PARTS = ("image", "gate", "half", "head", "frame")
SHORT = 2.0
DICE = random.Random(5)


class Said:
    """What a server prints, line by line, as it comes."""

    def __init__(self, server: Served):
        self.lines: list[bytes] = []
        self.reader = threading.Thread(target=self.read, args=(server.process.stdout,), daemon=True)
        self.reader.start()

    def read(self, stream) -> None:
        for line in stream:
            self.lines.append(line)

    def wait(self, count: int, *said) -> list[bytes]:
        """The first lines, once there are so many."""
        end = time.monotonic() + WITHIN
        while len(self.lines) < count and time.monotonic() < end:
            time.sleep(0.05)
        check(len(self.lines) >= count, *said, "only these lines came:", self.lines)
        return self.lines[:count]


class Damages:
    """Devices of version 03 under servers that scrub them."""

    def __init__(self, program: str, folder: str):
        self.program, self.folder, self.done = program, folder, 0
        self.path = os.path.join(folder, "scrubbed.device")

    def format(self, table: str = PLANT, size: int = 0, version: str = "03") -> None:
        """A new device of a version, of at least this size."""
        if os.path.exists(self.path):
            os.remove(self.path)
        if size:
            with open(self.path, "wb") as file:
                file.truncate(size)
        run = run_words(self.program, ["format", self.path, table, "--version", version])
        check(run.returncode == 0, "format", run.stderr)

    def served(self, loaded: Optional[dict[str, str]] = None) -> Served:
        return Served(self.program, self.path, options=SCRUBS, loaded=loaded)

    def advance(self, server: Served, first: int, last: int) -> None:
        """Actions of the clock, sent together, each answered."""
        numbers = range(first, last + 1)
        with server.connect(CLOCK) as clock:
            clock.sendall(b"".join(b"%d CLOCK %d\n" % (number, number) for number in numbers))
            replies = clock.makefile("rb")
            for number in numbers:
                check(replies.readline() == b"%d OK %d\n" % (number, number), "action", number, "isn't answered")

    def device(self) -> SummedDevice:
        return SummedDevice(self.path)

    def write(self, at: int, text: bytes) -> None:
        with open(self.path, "r+b") as file:
            file.seek(at)
            file.write(text)

    def shown(self) -> bytes:
        """What the device's file opens as, by a copy."""
        copy = self.path + ".copy"
        shutil.copyfile(self.path, copy)
        return show(self.program, copy)

    def heal(self, name: str, at: int, text: bytes, line: bytes) -> None:
        """Damage that is found and healed, while actions go on."""
        before = self.shown()
        count = count_of(before)
        with self.served() as server:
            said = Said(server)
            self.write(at, text)
            check(self.shown() != before, name, "changes nothing at", at)
            check(said.wait(1, name) == [line], name, "at", at, "is said as", said.lines, "and not as", line)
            self.advance(server, count + 1, count + 3)
            check(said.wait(2, name)[1] == b"scrub healed\n", name, said.lines)
            check(len(said.lines) == 2, name, "then:", said.lines)
        check(count_of(self.shown()) == count + 3, name, "the healed device shows", self.shown())
        self.done += 1

    def heals(self, parts: Sequence[str]) -> None:
        """A byte of each of these parts, or a gate that becomes 5A."""
        for part in parts:
            device, frames = self.worked()
            half = device.standing()
            at = {
                "image": device.image_at(half) + 40,
                "head": device.half(half) + 3,
                "frame": frames[-1] + 5,
                "gate": frames[-2],
                "half": device.half(half),
            }[part]
            text = bytes([CLOSED if part in ("gate", "half") else device.bytes[at] ^ 4])
            self.heal(part, at, text, self.line(at, text))

    def heals_older(self) -> None:
        """A bit of a gate of version 02, which no checksum shows."""
        device, frames = self.worked("02")
        text = bytes([device.bytes[frames[5]] ^ 4])
        check(self.line(frames[5], text) == b"scrub older 5\n", "version 02 shows", self.line(frames[5], text))
        self.heal("version 02", frames[5], text, b"scrub older 5\n")

    def worked(self, version: str = "03") -> tuple[SummedDevice, list[int]]:
        """A device with nine frames of an action each, and where they begin."""
        self.format(version=version)
        with self.served() as server:
            for number in range(1, 10):
                self.advance(server, number, number)
        device = self.device()
        frames = [at for at, _ in device.frames(version == "03", device.standing())]
        check(len(frames) == 9, "frames:", frames)
        return device, frames

    def line(self, at: int, text: bytes) -> bytes:
        """What is to be said of this change: the fault of an opening, or how many actions an older plant has."""
        copy = self.path + ".changed"
        shutil.copyfile(self.path, copy)
        with open(copy, "r+b") as file:
            file.seek(at)
            file.write(text)
        shown = show(self.program, copy)
        if shown.startswith(b"NOW "):
            return b"scrub older %d\n" % count_of(shown)
        return b"scrub " + shown.removeprefix(b"fault ") + b"\n"

    def passes(self, seconds: float) -> None:
        """What isn't read may change: nothing is said."""
        self.format()
        with self.served() as server:
            self.advance(server, 1, 9)
            device = self.device()
            said, half = Said(server), device.standing()
            for at in (device.image_at(1 - half) + 40, device.journal(half) + device.segment - 1):
                self.write(at, bytes([device.bytes[at] ^ 4]))
            time.sleep(seconds)
            check(not said.lines, "of what isn't read is said", said.lines)
        self.done += 1

    def header(self) -> None:
        """A header is damaged for good: that is said, and the server goes on."""
        self.format()
        with self.served() as server:
            said = Said(server)
            self.advance(server, 1, 3)
            self.write(5, bytes([self.device().bytes[5] ^ 4]))
            line = self.line(5, bytes([self.device().bytes[5]]))
            check(said.wait(1, "header") == [line], "the header:", said.lines, "and not", line)
            until(lambda: self.device().standing() == 1, "no checkpoint is made for a damaged header")
            self.advance(server, 4, 6)
            check(said.lines == [line], "then of the header:", said.lines)
            self.write(5, bytes([self.device().bytes[5] ^ 4]))
            check(said.wait(2, "header")[1] == b"scrub healed\n", "the header that is mended:", said.lines)
        self.done += 1

    def reads(self, library: str) -> None:
        """A read that fails once says nothing; reads that fail for good are said."""
        for kind, is_said in (("eio", False), ("from", True)):
            self.format()
            fault = Fault(library, "pread", self.first_read(library) + 1, kind)
            with self.served(fault.loaded) as server:
                said = Said(server)
                until(fault.was_met, "no read failed")
                if is_said:
                    check(said.wait(1, kind) == [b"scrub disk\n"], "reads that fail:", said.lines)
                else:
                    time.sleep(3)
                    check(not said.lines, "a read that fails once:", said.lines)
                self.advance(server, 1, 3)
            check(count_of(self.shown()) == 3, "after reads that fail:", self.shown())
            self.done += 1

    def first_read(self, library: str) -> int:
        """How many reads an opening makes."""
        counts = os.path.join(self.folder, "counts")
        shutil.copyfile(self.path, self.path + ".counted")
        run = run_words(self.program, ["desk", self.path + ".counted"], {"LD_PRELOAD": library, "ALM_COUNTS": counts})
        check(run.returncode == 0, "a desk", run.stderr)
        with open(counts, encoding="ascii") as file:
            return int(dict(line.split() for line in file)["pread"])

    def load(self, table: str, size: int, seconds: float) -> int:
        """Under a load with checkpoints nothing is said. How many actions were answered."""
        self.format(table, size)
        end, number = time.monotonic() + seconds, 0
        with self.served() as server:
            said = Said(server)
            while time.monotonic() < end:
                more = DICE.choice((1, 2, 50, 1000))
                self.advance(server, number + 1, number + more)
                number += more
                check(not said.lines, "under load:", said.lines)
        check(count_of(self.shown()) == number, "the device under load shows", self.shown())
        self.done += 1
        return number


def main() -> None:
    program, seconds, folder = begin("scrub", sys.argv, 120.0, SHORT)
    damages = Damages(program, folder)
    damages.heals(PARTS if seconds > SHORT else PARTS[:3])
    damages.heals_older()
    damages.passes(3.0)
    damages.header()
    damages.reads(preload(folder))
    answered = damages.load(PLANT, 0, seconds)
    answered += damages.load(str(EXAMPLES / "refinery.toml"), REFINERY, seconds)
    finish("scrub", folder, f"{damages.done} servers, {answered} actions under load, no damage missed, none made up")


if __name__ == "__main__":
    main()
