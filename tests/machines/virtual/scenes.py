"""What the machine does while the log runs, and what has to be there wherever the power fails.

A scene is a script for the machine, which runs in the file system's folder, and a judge of a disk. The marks in the log
say how far the scene was: "ready" when its device was made, "r:N" after the N-th reply.
"""
import os
import random
import re
import shutil
import subprocess

from lib import calls
from lib import program as common
from lib.program import show
from machine import read

from writes import PAGE
from page_scenes import ChangeEarlier, ChangeTable, NameUnsynced, Restore, RestoreEarlier, WayBack
from scene import DEVICE, Scene, compiled


class Format(Scene):
    """`format` of an old device: it is as it was, not formatted, or the new plant."""

    count = 20
    setup = (
        "cp /tmp/old.device plant.device && sync plant.device . && guest mark $LOG old &&"
        " alm_server format plant.device /tmp/plant.toml --version {version} > /tmp/said && guest mark $LOG ready"
    )

    def more_files(self):
        device = os.path.join(self.folder, "old.device")
        shutil.copyfile(self.course.fresh, device)
        subprocess.run(
            [self.program, "desk", device],
            input=b"17 1 CLOCK 77\n16 1 VAL 0 900\n",
            check=True,
            stdout=subprocess.DEVNULL,
        )
        self.old = show(self.program, device)
        return {"old.device": read(device)}

    def judge(self, at, marks):
        if "old" not in marks:
            return None
        now = show(self.program, os.path.join(at, DEVICE))
        if "ready" not in marks and now == self.old:
            return None
        return super().judge(at, marks)


class Serve(Scene):
    """A served device with clients at four slots, each with one request out. The device stands for a prefix of the
    accepted actions, in the order of their numbers, with all that were answered."""

    count = 100
    asks = (
        "; alm_server serve plant.device --port 5000 > /tmp/serving & P=$!; while ! grep -q serving /tmp/serving; do"
        " sleep 0.1; done; guest serve $LOG 5000 {count} {seed}; S=$?; kill $P; wait $P; [ $S = 0 ]"
    )

    def prepare(self):
        self.asks = self.asks.replace("{count}", str(self.count)).replace("{seed}", str(self.seed))
        super().prepare()

    def lines(self):
        """Those that were accepted are known when the run is recorded."""
        return [b"17 1 CLOCK 1\n"]

    def recorded(self, marks):
        """The accepted actions, and what the device stands for after each."""
        actions = {}
        for mark in marks:
            if mark.startswith("s:"):
                _, slot, number, request = mark.split(":", 3)
                actions[int(number)] = f"{slot} 1 {request.replace('_', ' ')}\n".encode()
        common.check(actions and sorted(actions) == list(range(1, len(actions) + 1)), "a number is missing")
        course = self.course_of(0, 0, [actions[number] for number in sorted(actions)])
        for number, reply in enumerate(course.replies, 1):
            common.check(reply.endswith(b" OK %d\n" % number), "the action", number, "isn't accepted:", reply)
        self.states = course.states

    def summary(self):
        return f"{4 * self.count} requests at 4 slots, {len(self.states) - 1} actions"

    def answered(self, marks):
        return max((int(mark.split(":")[2]) for mark in marks if mark.startswith("s:")), default=0)

    def judge_kept(self, now, answered, doubted):
        return super().judge_kept(now, answered, 4)


class Refinery(Scene):
    """200 alarms and a short segment: checkpoints in pieces of 65,536 bytes."""

    SIZE = 160_000

    def prepare(self):
        text = read(os.path.join(os.path.dirname(common.PLANT), "refinery.toml"))
        self.table = os.path.join(self.folder, "refinery.toml")
        with open(self.table, "wb") as file:
            file.write(re.sub(rb"(?m)^size = \d+", b"size = %d" % self.SIZE, text))
        super().prepare()

    def lines(self):
        dice, lines = random.Random(self.seed), []
        for number in range(1, self.count + 1):
            alarm = dice.randrange(200)
            requests = [
                f"17 {number} CLOCK {number}",
                f"17 {number} CLOCK {number}",
                f"16 {number} VAL {alarm} {dice.choice([0, 9000])}",
                f"3 {number} SHELVE {alarm} 60",
                f"4 {number} OOS {alarm} ON",
            ]
            lines.append(dice.choice(requests).encode() + b"\n")
        return lines


class Holes(Scene):
    """A device that was copied with holes."""

    setup = (
        "alm_server format full.device /tmp/plant.toml --version {version} > /tmp/said"
        " && guest holes full.device plant.device && guest mark $LOG ready"
    )

    def judge_made(self, now):
        return None


class Pages(Scene):
    """Many accepted actions. Judged are those whose frame crosses the end of a page: there frame and gate reach the
    disk apart."""

    count = 1500
    SIZE = 28_997 + 2 * 12_288

    def prepare(self):
        self.table = os.path.join(self.folder, "pages.toml")
        with open(self.table, "wb") as file:
            file.write(re.sub(rb"(?m)^size = \d+", b"size = %d" % self.SIZE, read(common.PLANT)))
        layout = calls.Layout(self.SIZE, 4, 2)
        frames = [call for call in calls.commits(layout, self.count) if call[0] == "pwrite" and call[2] == calls.FRAME]
        ends = [(at - 1) // PAGE != (at + length) // PAGE for _, at, length in frames]
        self.crossing = {number for number, ends_page in enumerate(ends) if ends_page}
        super().prepare()

    def lines(self):
        return [b"17 %d CLOCK %d\n" % (number, number) for number in range(1, self.count + 1)]

    def summary(self):
        return f"{self.count} requests, {len(self.crossing)} frames across the end of a page"

    def most(self, marks, draws):
        return 6 * draws if self.answered(marks) in self.crossing else 0


class Unsynced(Scene):
    """A program whose syncs do nothing. It has to be found out."""

    is_control = True
    count = 120
    before = "env LD_PRELOAD=/tmp/lies.so"
    asks = " && {before} guest desk $LOG plant.device /tmp/lines"
    LIES = "int fdatasync(int file) { return file < 0; }\n"

    def more_files(self):
        return {"lies.so": compiled(self.folder, "lies", self.LIES)}


class FirstUnsynced(Pages):
    """A program that doesn't sync a frame before its gate. It can be found out only if a frame crosses the end of a
    page, and not on btrfs: there what one sync brings is seen whole or not at all."""

    is_control = True
    systems = ("ext4", "xfs")
    asks = " && env LD_PRELOAD=/tmp/lies.so guest desk $LOG plant.device /tmp/lines"
    # A gate is one byte.
    LIES = (
        "#include <sys/syscall.h>\n#include <sys/types.h>\n#include <unistd.h>\nstatic size_t last;\nssize_t pwrite(int"
        " file, const void *bytes, size_t length, off_t at) { last = length; return syscall(SYS_pwrite64, file, bytes,"
        " length, at); }\nssize_t pwrite64(int file, const void *bytes, size_t length, off_t at) { return pwrite(file,"
        " bytes, length, at); }\nint fdatasync(int file) { return last > 1 ? 0 : syscall(SYS_fdatasync, file); }\n"
    )

    def more_files(self):
        return {"lies.so": compiled(self.folder, "lies", self.LIES)}


SCENES = {
    "format": Format,
    "desk": Scene,
    "serve": Serve,
    "refinery": Refinery,
    "holes": Holes,
    "pages": Pages,
    "restore": Restore,
    "change": ChangeTable,
    "way-back": WayBack,
    "restore-earlier": RestoreEarlier,
    "change-earlier": ChangeEarlier,
    "unsynced": Unsynced,
    "first-unsynced": FirstUnsynced,
    "name-unsynced": NameUnsynced,
}
