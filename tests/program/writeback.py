#!/usr/bin/env python3
"""A sync fails once, the server is started again, and the power fails, on a real file system.

    tests/program/writeback.py PROGRAM [--short]

The device, of version 02 and then of 03, lies on ext4, and on xfs if mkfs.xfs is installed, over a disk whose writes
fail on demand (badfs.c). What the kernel does with the bytes that the disk refused is the kernel's own. In each way the
disk fails while one sync runs:

    desk, serve   each sync of a run with a checkpoint. The failure is reported, and the program ends by itself. A
                  second later it is started again, as its unit does, and answers further requests.
    opening       the program is killed before a sync, and the disk fails while it is started again: `fault disk`. A
                  second later it is started once more, and answers.
    show          after the failed sync the device is only shown: what the disk has, and nothing else.

The same is tried while another process has the file mapped, or reads it without pause (check_cached.py).

Between these requests, and after them, the power fails: a copy of what the disk has is mounted. It holds all that was
answered, and no more. Last, the script itself is tested: a program that ignores a failed sync, and one that never lets
the kernel forget, are refused.

It needs root, /dev/fuse, loop devices, mkfs.ext4 and a C compiler. Without them it is skipped, with status 77.
"""
import collections
import concurrent.futures
import functools
import itertools
import os
import queue
import random
import re
import shutil
import subprocess
import sys
import time

from lib.calls import Layout, read_calls
from check_cached import Holding, may_start
from lib.program import (
    TESTS,
    VERSIONS,
    Course,
    Fault,
    Wrong,
    begin,
    check,
    count_of,
    draw_lines,
    finish,
    preload,
    run_words,
)
from lib.disks import SKIPPED
from lib.server import Lines
from failing_disk import Disk, SYSTEMS

LAYOUT = Layout(28_997, 4, 2)  # of the worked plant
# How many lines: before the run, with a checkpoint; in the run, with the next one, which closes a half's gate as well;
# after the failure.
BEFORE, RUN, AFTER = 150, 64, 34
BODIES = {"ignores": "ignores a failed sync", "keeps": "never lets the kernel forget"}
RESTART = 1.0  # seconds, as in the unit
PARALLEL = 4  # disks
ATTEMPTS = 4  # until one loses what it should


def draw_course(seed, count):
    """Drawn lines, each second one of which the clock's, so that most are accepted."""
    ticks = [f"17 {number} CLOCK {100_000 + number}\n".encode() for number in range(count)]
    return [tick if at % 2 else line for at, (line, tick) in enumerate(zip(draw_lines(seed, count), ticks))]


class Way:
    """One run in which a sync fails, and what comes after it."""

    def __init__(self, course, disk, start, kind, call, at, body=None):
        self.course, self.disk, self.start, self.kind = course, disk, start, kind
        self.call, self.at, self.body = call, at, {"LD_PRELOAD": disk.library, "ALM_BODY": body} if body else {}
        self.dice = random.Random(time.time_ns() + at)
        self.unreported = None

    def name(self):
        return f"{self.disk.system} {self.kind} {self.call} {self.at}"

    def lines(self, loaded):
        return Lines(self.course.program, self.disk.device, {**self.body, **loaded}, self.kind == "serve", self.dice)

    def ask(self, lines, begin, end):
        """The first of these lines that isn't answered as expected, or the end."""
        for at in range(begin, end):
            if lines.ask(self.course.lines[at]) != self.course.replies[at]:
                return at
        return end

    def run(self):
        self.disk.put(self.start)
        if self.kind == "opening":
            answered = self.killed()
            self.refused_opening()
        else:
            answered = self.failed()
        if self.kind == "show":
            shown = run_words(self.course.program, ["show", self.disk.device], self.body)
            check(
                re.sub(rb" EPOCH \d+", b"", shown.stdout) == self.disk.cut(self.course.program),
                "show prints what the disk doesn't have",
            )
            return
        time.sleep(RESTART)
        self.goes_on(answered)

    def failed(self):
        """The first unanswered line of the run in which the sync fails. If there was anything to write, the failure is
        reported."""
        fault = Fault(self.disk.library, self.call, self.at, "disk")
        with self.lines({**fault.loaded, "ALM_DISK": self.disk.failing}) as lines:
            answered = self.ask(lines, BEFORE, BEFORE + RUN)
            if self.disk.has_refused():
                self.check_reported(lines.ended(), b"fault stopped\n")
            else:
                check(answered == BEFORE + RUN, "line", answered, "without a failure isn't answered")
        check(fault.was_met(), "the sync didn't come")
        return answered

    def check_reported(self, ended, due):
        """The failure was reported. A wrong body that doesn't report it goes on, so that its loss is seen too."""
        if ended != (due, 3):
            self.unreported = f"the failure isn't reported: {ended}"
            check(self.body, self.unreported)

    def killed(self):
        """The first unanswered line of the run that is killed before the sync. What it wrote waits in the kernel."""
        fault = Fault(self.disk.library, self.call, self.at, "kill")
        with self.lines(fault.loaded) as lines:
            answered = self.ask(lines, BEFORE, BEFORE + RUN)
        check(fault.was_met(), "the sync didn't come")
        return answered

    def refused_opening(self):
        """The disk fails as the program starts again."""
        self.disk.fail(True)
        with self.lines({}) as lines:
            lines.ask(b"0 1 STATE 0\n")
            self.disk.fail(False)
            if self.disk.has_refused():
                self.check_reported(lines.ended(), b"fault disk\n")

    def goes_on(self, answered):
        """It is started again, has all that was answered, and answers further lines. The power fails between them and
        at the end."""
        with self.lines({}) as lines:
            said = lines.ask(b"0 1 STATE 0\n")
            found = re.match(rb"0 1 STATE (\d+) ", said)
            check(found, "started again it says", said, lines.ended() if not said else "")
            at = self.place(answered, int(found[1]))
            shown = self.unkept(at)
            for end in range(at + AFTER // 4, at + AFTER + 1, AFTER // 4):
                at = self.ask(lines, at, end)
                check(at == end, "started again it doesn't answer line", at)
                lost = self.unkept(at)
                check(not lost, "answered actions are lost:", lost)
            check(not shown, "what it shows isn't on the disk:", shown)

    def unkept(self, at):
        """What the disk lacks if the power fails after this number of lines."""
        left, wanted = self.disk.cut(self.course.program), self.course.states[at]
        if left == wanted:
            return None
        return f"of {count_of(wanted)} it has {count_of(left) if left.startswith(b'NOW ') else left.decode()}"

    def place(self, answered, count):
        """The line to go on with, by the count of stored actions."""
        counts = [count_of(one) for one in self.course.states]
        check(
            count >= counts[answered], "answered actions are lost: started again it has", count, "of", counts[answered]
        )
        near = [line for line in (answered, answered + 1) if line < len(counts) and counts[line] == count]
        check(near, "started again it has", count, "actions, and not", counts[answered])
        return near[0]


class CachedWay(Way):
    """A sync of a desk fails while another process keeps the file in the cache. The kind is `mapped`, `read`, or
    `mapped, no tool`."""

    def run(self):
        self.disk.put(self.start)
        how, _, without = self.kind.partition(", ")
        holding = Holding(self.disk.device, how)
        try:
            answered = self.failed()
            time.sleep(RESTART)
            if not without:
                may_start(self.disk.device, holding, how)
            self.goes_on(answered)
        finally:
            holding.end()


class Writeback:
    """A course of lines, and the disks over which the ways are tried."""

    def __init__(self, program, folder, version):
        self.folder = folder
        os.mkdir(folder)
        self.library, self.badfs = preload(folder), os.path.join(folder, "badfs")
        subprocess.run(["cc", "-O2", "-o", self.badfs, os.path.join(TESTS, "program", "badfs.c")], check=True)
        self.course = Course(program, folder, 7, 0, lines=draw_course(7, BEFORE + RUN + AFTER + 1), version=version)
        self.start, self.made = self.rehearse()
        self.failures, self.disks = itertools.count(), itertools.count()

    def rehearse(self):
        """The device that a run begins with, and the calls of a run without a failure."""
        device, path = self.course.device(), os.path.join(self.folder, "calls")
        run_words(self.course.program, ["desk", device], lines=b"".join(self.course.lines[:BEFORE]))
        with open(device, "rb") as file:
            start = file.read()
        lines = b"".join(self.course.lines[BEFORE : BEFORE + RUN])
        run_words(self.course.program, ["desk", device], {"LD_PRELOAD": self.library, "ALM_CALLS": path}, lines)
        return start, read_calls(path, device)

    def ways(self):
        """Each sync of the run, by a desk and by a server. Each second one also before an opening that fails, the
        others before a `show`."""
        syncs = sum(call[0] == "fdatasync" for call in self.made)
        names = sum(call[0] == "fsync" for call in self.made)
        every = [(kind, "fdatasync", at) for kind in ("desk", "serve") for at in range(1, syncs + 1)]
        every += [(kind, "fsync", at) for kind in ("desk", "serve") for at in range(1, names + 1)]
        every += [("opening", "fdatasync", at) for at in range(2, syncs + 1, 2)]
        every += [("show", "fdatasync", at) for at in range(3, syncs + 1, 2)]
        return every

    def gates(self):
        """The syncs after the writes of a half's gate."""
        halves = (LAYOUT.half(0), LAYOUT.half(1))
        written = [
            at for at, call in enumerate(self.made) if call[0] == "pwrite" and call[1] in halves and call[2] == 1
        ]
        check(len(written) == 2, "the run has no checkpoint")
        return [sum(call[0] == "fdatasync" for call in self.made[:at]) + 1 for at in written]

    def all(self, system, ways, body=None, kind=Way):
        """Goes all these ways of a kind, several at once. What was wrong in them."""
        disks, free = [], queue.SimpleQueue()
        try:
            for _ in range(PARALLEL):
                disks.append(
                    Disk(os.path.join(self.folder, f"{system}{next(self.disks)}"), self.library, self.badfs, system)
                )
                free.put(disks[-1])
            with concurrent.futures.ThreadPoolExecutor(PARALLEL) as pool:
                found = list(pool.map(lambda way: self.one(free, way, body, kind), ways))
        finally:
            for disk in disks:
                disk.close()
        return [wrong for wrong in found if wrong]

    def one(self, free, way, body, kind):
        """What is wrong in one way."""
        disk = free.get()
        try:
            going = kind(self.course, disk, self.start, *way, body)
            going.run()
            check(not going.unreported, going.unreported)
        except Wrong as wrong:
            return f"{going.name()}: {wrong}"
        finally:
            if disk.has_refused():
                next(self.failures)
            free.put(disk)
        return None


def missing():
    """What this machine doesn't have of what is needed."""
    lacks = [] if os.geteuid() == 0 else ["root"]
    lacks += [path for path in ("/dev/fuse", "/dev/loop-control") if not os.path.exists(path)]
    return lacks + [tool for tool in ("mkfs.ext4", "losetup", "cc") if not shutil.which(tool)]


def summary(wrong, count):
    """The ways that are wrong, by kind, with the first of each."""
    kinds = collections.defaultdict(list)
    for one in wrong:
        kinds[one.split(": ")[1]].append(one)
    return f"{len(wrong)} of {count} ways are wrong" + "".join(
        f"\n{len(some)} times {kind}: {some[0]}" for kind, some in kinds.items()
    )


def try_ways(writeback, gates, first, step):
    """Goes the ways on each file system, in a short run some of them, from one on, and those at gates. How many there
    were."""
    ways, counts = writeback.ways(), {}
    for system in [name for name in SYSTEMS if shutil.which(SYSTEMS[name][1][0])]:
        here = ways[first::step] + gates if step > 1 else ways
        wrong = writeback.all(system, here)
        check(not wrong, system + ":", summary(wrong, len(here)))
        failures = next(writeback.failures)
        check(2 * failures > len(here), system + ": the disk has failed in", failures, "ways alone")
        counts[system] = f"{len(here)}, {failures} of them with a failure"
        writeback.failures = itertools.count()
    return counts


def lost_by(attempt):
    """What is wrong in the first of some attempts that loses answered actions; nothing where none does. A kernel that
    is short of memory may forget by itself what such a way has it keep."""
    for _ in range(ATTEMPTS):
        found = attempt()
        if any("lost" in one for one in found):
            return found
    return []


def try_bodies(writeback, gates):
    """Goes some ways with the wrong bodies. How many were refused."""
    counts = {}
    for body, does in BODIES.items():
        found = lost_by(functools.partial(writeback.all, "ext4", gates, body))
        losing = sum("lost" in one for one in found)
        check(losing, "a program that", does, "isn't refused")
        counts[f"of a program that {does}"] = f"{len(found)} of {len(gates)} refused ({losing} lose answered actions)"
    return counts


def try_cached(writeback, gates):
    """The failures at a half's gate while the file is kept in the cache, with the tool before each start, and without.
    How many there were."""
    kept = [(how, call, at) for how in ("mapped", "read") for _, call, at in gates]
    wrong = writeback.all("ext4", kept, kind=CachedWay)
    check(not wrong, "with the file kept in the cache:", summary(wrong, len(kept)))
    bare = [("mapped, no tool", call, at) for _, call, at in gates]
    found = lost_by(lambda: writeback.all("ext4", bare, kind=CachedWay))
    check(found, "with the file mapped, and without the tool, nothing is lost")
    return {
        "with the file mapped or read": f"{len(kept)}",
        "with it mapped, and without the tool": f"{len(found)} of {len(gates)} refused",
    }


def main():
    if missing():
        print("writeback: skipped, since there is no", ", ".join(missing()))
        sys.exit(SKIPPED)
    program, step, folder = begin("writeback", sys.argv, 1, 18)
    started = time.monotonic()
    counts = {}
    try:
        for version in VERSIONS:
            writeback = Writeback(program, os.path.join(folder, version), version)
            gates = [("desk", "fdatasync", at) for at in writeback.gates()]
            # A short run tries others of each version.
            ways = try_ways(writeback, gates, step // 2 * VERSIONS.index(version), step)
            # In a short run one version tries the cache and the script itself.
            if step == 1 or version == VERSIONS[0]:
                ways |= try_cached(writeback, gates) | try_bodies(writeback, gates)
            counts |= {f"{what} of {version}": count for what, count in ways.items()}
    except Wrong as wrong:
        shutil.rmtree(folder)
        sys.exit(f"writeback: version {version}: {wrong}")
    said = ", ".join(f"{what} {count}" for what, count in counts.items())
    finish("writeback", folder, f"ways: {said}; none wrong, {time.monotonic() - started:.0f} s")


if __name__ == "__main__":
    main()
