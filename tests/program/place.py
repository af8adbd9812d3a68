#!/usr/bin/env python3
"""The device's file goes away, is replaced or changes its size while a server or a desk runs.

    tests/program/place.py PROGRAM [--short]

Three actions are answered. Then the file is treated as by hand at a shell, and a fourth action is asked. If the file
has no name any more, or another size, that action isn't answered; nor is it by a server whose path names another file
or none. The program ends by itself with `fault stopped` and status 3. What was answered is in the file that was the
device, if it still has a name. Two more lists: ways that do no harm, after which it answers and loses nothing; and ways
that the program doesn't notice, since path, file and size are as before.
"""
import os
import random
import re
import shutil
import subprocess
import sys
import time

from lib.program import PLANT, Wrong, begin, check, count_of, finish, run_words
from lib.server import Lines

# What is done, in the device's folder; and where the file is then that was the device. It has no name any more, or
# another size.
NOTICED = {
    "rm plant.device": None,
    "mv other.device plant.device": None,
    "cp plant.device copy.device && mv copy.device plant.device": None,
    ": > plant.device": None,
    "truncate -s -1 plant.device": None,
    "truncate -s +1 plant.device": "plant.device",
    "head -c 20000 other.device > short && cp short plant.device": None,
}
# It has another name, so the path names another file or none: a server notices it, and a desk doesn't.
MOVED = {
    "mv plant.device away.device": "away.device",
    "ln plant.device replaced.device && mv other.device plant.device": "replaced.device",
    "ln plant.device away.device && rm plant.device": "away.device",
    "mv ../here ../there": "../there/plant.device",
    "mv ../here ../there && cp -r ../there ../here": "../there/plant.device",
    "ln -sf other.device link.device": "plant.device",
}
# After these the path names the same file, with the same bytes.
HARMLESS = [
    "mv plant.device away.device && mv away.device plant.device",
    "ln plant.device second.device",
    "ln plant.device second.device && rm plant.device && mv second.device plant.device",
    "chmod 000 plant.device && touch plant.device",
    "ln -sf ../here/plant.device link.device",
]
# Another writer changes bytes of the same file, whose size stays: this isn't noticed.
UNNOTICED = [
    "cp other.device plant.device",
    "printf X | dd of=plant.device bs=1 seek=9700 conv=notrunc status=none",
    "fallocate -p -o 8192 -l 4096 plant.device",
]
FEW = [(b"17 1 CLOCK 1000\n", b"17 1 OK 1\n"), (b"16 1 VAL 0 800\n", b"16 1 OK 2\n"), (b"3 1 ACK 0\n", b"3 1 OK 3\n")]
FOURTH, ANSWER = b"4 1 OOS 1 ON\n", b"4 1 OK 4\n"


class Place:
    """The program over a device whose file is moved, replaced or cut."""

    def __init__(self, program, folder):
        self.program, self.folder = program, folder
        self.here = os.path.join(folder, "here")
        self.dice = random.Random(time.time_ns())
        self.done = 0

    def make_devices(self):
        """The device, another one of its size, and a link to the device."""
        for name in ("here", "there"):
            shutil.rmtree(os.path.join(self.folder, name), ignore_errors=True)
        os.mkdir(self.here)
        for name in ("plant.device", "other.device"):
            check(
                run_words(self.program, ["format", os.path.join(self.here, name), PLANT]).returncode == 0,
                "format",
                name,
            )
        os.symlink("plant.device", os.path.join(self.here, "link.device"))

    def treated(self, way, is_served):
        """The program over a device that is treated so: the reply to the fourth action, and how it ended by itself."""
        self.make_devices()
        name = "link.device" if "link.device" in way else "plant.device"
        lines = Lines(self.program, os.path.join(self.here, name), {}, is_served, self.dice)
        for line, reply in FEW:
            said = lines.ask(line)
            check(said == reply, way, line, "was answered", said)
        subprocess.run(["sh", "-ec", way], cwd=self.here, check=True)
        said = lines.ask(FOURTH)
        ended = lines.ended() if said != ANSWER or not is_served else None
        lines.end()
        self.done += 1
        return said, ended

    def kept(self, file, least, *said):
        """The file has at least this number of actions, and at most those that were asked."""
        run = run_words(self.program, ["show", os.path.normpath(os.path.join(self.here, file))])
        check(run.returncode == 0 and least <= count_of(run.stdout) <= 4, *said, "left", run.stdout[:30], run.stderr)

    def noticed(self, way, left, is_served):
        said, ended = self.treated(way, is_served)
        check(re.fullmatch(rb"|4 1 NO 15\n", said), way, "and the action is answered:", said)
        check(ended == (b"fault stopped\n", 3), way, "and the program ended with", ended)
        if left == "plant.device" and "truncate" in way:
            os.truncate(os.path.join(self.here, left), 28_997)
        if left:
            self.kept(left, 3, way)

    def unnoticed(self, way, is_served, kept):
        said, ended = self.treated(way, is_served)
        check(said == ANSWER and ended in (None, (b"", 0)), way, "and the action was answered", said, ended)
        if kept:
            self.kept(kept, 4, way)


def main():
    program, _, folder = begin("place", sys.argv, 1, 1)
    started = time.monotonic()
    place = Place(program, folder)
    try:
        for is_served in (True, False):
            for way, left in NOTICED.items():
                place.noticed(way, left, is_served)
            for way, left in MOVED.items():
                if is_served:
                    place.noticed(way, left, is_served)
                else:
                    place.unnoticed(way, is_served, left)
            for way in HARMLESS:
                place.unnoticed(way, is_served, "plant.device")
            for way in UNNOTICED:
                place.unnoticed(way, is_served, None)
    except Wrong as wrong:
        sys.exit(f"place: {wrong}; devices are in {folder}")
    finish(
        "place",
        folder,
        (
            f"{len(NOTICED)} ways are noticed, {len(MOVED)} more by a server, {len(HARMLESS)} do no harm,"
            f" {len(UNNOTICED)} aren't noticed; {place.done} runs of server and desk,"
            f" {time.monotonic() - started:.0f} s"
        ),
    )


main()
