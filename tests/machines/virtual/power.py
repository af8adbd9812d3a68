#!/usr/bin/env python3
"""The power fails under a real kernel's file systems: what does the device stand for then?

    tests/machines/virtual/power.py PROGRAM PACKAGES [--short] [--systems ext4,xfs,btrfs] [--scenes desk,..]
    [--versions 02,03] [--scale N] [--draws N] [--seed N] [--seconds N]

A virtual machine (tests/machines/virtual/machine.py) runs the program on ext4, xfs and btrfs, over a disk whose writes
the kernel's dm-log-writes records. Then the states that a power failure may leave on the disk are put together here
(tests/machines/virtual/writes.py): after each flush, after each forced write, and for drawn sets of the writes between
two flushes. Each is mounted, and `show` judges the device (tests/machines/virtual/scenes.py). Each scene runs over a
device of version 02 and over one of 03. The blocks of docs/OPERATING.md that replace a device are among them, word for
word. The controls are programs whose syncs do nothing: they have to be found out.

PACKAGES is a folder with Debian's packages unpacked; nothing of them is installed, and what this system has needn't be
there:

    apt-get install -yd --no-install-recommends -o Dir::Cache::archives=$PWD qemu-system-x86 busybox-static kmod dmsetup
    xfsprogs btrfs-progs apt-get download $(apt-cache depends linux-image-amd64 | awk '/Depends/ { print $2 }') for file
    in *.deb; do dpkg -x "$file" PACKAGES; done

It needs root, loop devices, a kernel that mounts the three file systems, and a C compiler with a static C library. It
uses no network and no KVM. If something is missing it says so, and ends with status 77.
"""
import argparse
import collections
import concurrent.futures
import fcntl
import itertools
import os
import queue
import random
import re
import shutil
import string
import struct
import subprocess
import sys
import tempfile
import time


import writes
from machine import Machine, Packages
from lib.program import VERSIONS, Wrong, check
from scenes import SCENES
from lib.disks import FIBMAP, PAGE, SKIPPED, copy_filled, loop_over, mount, unmount

SYSTEMS = {  # the disk's bytes, how it is made, how a copy of it is mounted
    "ext4": (64 << 20, ["mkfs.ext4", "-q", "-F", "-E", "lazy_itable_init=0,lazy_journal_init=0"], ""),
    "xfs": (320 << 20, ["mkfs.xfs", "-q", "-f"], "nouuid"),
    "btrfs": (128 << 20, ["mkfs.btrfs", "-q", "-f"], ""),
}
LOG = 4 << 30
PARALLEL = 8  # mounts: they wait more than they work
AT_ONCE = 10  # scenes of one machine: each has two disks
BTRFS_ID = (65_536 + 32, 16)  # where a disk of btrfs has its name, which each block of its own has too

START = """
# The N-th disk.
disk() {{ echo /dev/$(echo {letters} | cut -d' ' -f$1); }}
"""
# One scene: its file system goes through the log.
SCENE = """
export LOG=log{number}
D=$(disk {disk})
dmsetup create $LOG --noudevsync --noudevrules --table "0 $(cat /sys/block/${{D#/dev/}}/size) log-writes $D $(disk {log})"
mount -t {system} /dev/$(basename /sys/block/$(basename $D)/holders/*) /var/lib/alarms
cp /task/scene{number}/* /tmp
guest mark $LOG mounted
(
cd /var/lib/alarms
{script}
)
S=$?
guest mark $LOG end
umount /var/lib/alarms
dmsetup remove --noudevsync --noudevrules $LOG
rm -rf /tmp/* /backup/*
echo "scene {number} ended with $S after $(cut -d' ' -f1 /proc/uptime) s" > $SAY
"""


class Mounts:
    """A disk that is put together for each state. Its loop device stays, and it is mounted by system calls: that is
    twenty times as fast as mount(8) and umount(8) on a busy machine."""

    def __init__(self, system, folder, number):
        size, _, self.options = SYSTEMS[system]
        self.system, self.at = system, os.path.join(folder, f"look{number}")
        os.makedirs(self.at)
        image = os.path.join(folder, f"image{number}")
        self.file = os.open(image, os.O_RDWR | os.O_CREAT)
        os.ftruncate(self.file, size)
        self.loop = loop_over(image)

    def fill(self, base, some):
        copy_filled(base, self.file)
        for entry, sectors in some:
            writes.put(self.file, entry, sectors)

    def look(self, judge):
        """What a judge says of the disk; a refusal of the mount."""
        try:
            mount(self.loop, self.at, self.system, self.options)
        except Wrong as wrong:
            return f"it isn't mounted: {wrong}"
        try:
            return judge(self.at)
        finally:
            unmount(self.at)

    def close(self):
        os.close(self.file)
        subprocess.run(["losetup", "-d", self.loop], check=True)


class Recorded:
    """A scene that has run: the disk before it, its log, and which writes are of a device's bytes."""

    def __init__(self, system, name, scene, folder):
        self.system, self.name, self.scene, self.folder, self.left_out = system, name, scene, folder, 0
        self.image, self.log = os.path.join(folder, "image"), os.path.join(folder, "log")

    def make(self, packages):
        """Its disk, and room for the log."""
        size, make, _ = SYSTEMS[self.system]
        for path, length in ((self.image, size), (self.log, LOG)):
            with open(path, "wb") as file:
                file.truncate(length)
        packages.run(make[0], *make[1:], self.image)
        with open(self.image, "rb") as source, open(self.image + ".before", "wb") as target:
            copy_filled(source.fileno(), target.fileno())

    def find_device(self, mounts):
        """A function that says whether a write is of a device's bytes, and not one that the file system makes for
        itself."""
        if self.system == "btrfs":
            with open(self.image, "rb") as file:
                name = os.pread(file.fileno(), BTRFS_ID[1], BTRFS_ID[0])
            return lambda entry: entry.data[32:48] != name and entry.at != 65_536
        with open(self.image, "rb") as file:
            mounts.fill(file.fileno(), [])
        blocks = set()
        mounts.look(
            lambda at: blocks.update(
                *(blocks_of(os.path.join(at, name)) for name in os.listdir(at) if name.endswith(".device"))
            )
        )
        check(blocks, "no device is found on", self.image)
        return lambda entry: entry.at // PAGE in blocks

    def judged(self, draws, dice, until):
        """Judges each state of the disk. What was tried, and what was wrong."""
        free = queue.SimpleQueue()
        every = [
            Mounts(self.system, self.folder, number) for number in range(1 if self.system == "btrfs" else PARALLEL)
        ]
        for one in every:
            free.put(one)
        try:
            looking = Looking(self, free, self.find_device(every[0]), draws, dice, until)
            with concurrent.futures.ThreadPoolExecutor(len(every)) as pool:
                looking.replay(pool)
                self.left_out = looking.left_out
                return looking.tried, [(at, how, wrong.result()) for at, how, wrong in looking.looks if wrong.result()]
        finally:
            for one in every:
                one.close()


def blocks_of(path):
    """The disk's blocks that a file has."""
    with open(path, "rb") as file:
        pages = range((os.path.getsize(path) + PAGE - 1) // PAGE)
        return {struct.unpack("i", fcntl.ioctl(file, FIBMAP, struct.pack("i", page)))[0] for page in pages} - {0}


class Looking:
    """The replay of a log, in which states are judged."""

    def __init__(self, recorded, free, is_device, draws, dice, until):
        self.scene, self.free, self.is_device = recorded.scene, free, is_device
        self.draws, self.dice = draws, dice
        self.began, self.until = time.monotonic(), until
        self.base = os.open(recorded.image + ".before", os.O_RDWR)
        self.entries = writes.read_log(recorded.log)
        self.marks, self.looks, self.tried = [], [], collections.Counter()
        self.pool, self.has_time, self.judged, self.left_out = None, True, 0, 0

    def replay(self, pool):
        """After each flush, after each forced write, and for drawn sets of the writes in doubt."""
        self.pool = pool
        gaps = list(writes.gaps(self.entries))
        for number, gap in enumerate(gaps):
            self.has_time = self.draw_time(len(gaps) - number)
            is_new = False
            for entry in gap.forced:
                if entry.is_mark:
                    self.marks.append(entry.text)
                else:
                    if is_new and self.most():
                        self.look(gap, "forced", [])
                    writes.put(self.base, entry)
                is_new = True
            if self.most():
                self.judged += 1
                self.look(gap, "flush", [])
                for how, some in writes.drawn(gap.doubted, self.is_device, self.dice, self.most()):
                    self.look(gap, how, some)
            elif self.wanted():
                self.left_out += 1
            for entry in gap.doubted:
                writes.put(self.base, entry)
        self.look(gap, "end", [])
        os.close(self.base)

    def wanted(self):
        """How many sets are to be drawn here: none before the machine has mounted the file system."""
        return self.scene.most(self.marks, self.draws) if "mounted" in self.marks else 0

    def most(self):
        """How many sets are drawn here: none if there is no time for it."""
        return self.wanted() if self.has_time else 0

    def draw_time(self, left):
        """Whether there is time for this gap. If there isn't enough for all that are left, some are drawn, up to the
        end of the log."""
        if not self.judged:
            return True
        now = time.monotonic()
        return self.dice.random() * left * (now - self.began) / self.judged < self.until - now

    def look(self, gap, how, some):
        self.tried[how] += 1
        mounts, marks = self.free.get(), list(self.marks)
        mounts.fill(self.base, some)

        def judge():
            try:
                return mounts.look(lambda at: self.scene.judge(at, marks))
            finally:
                self.free.put(mounts)

        self.looks.append((gap.at, how, self.pool.submit(judge)))


def missing(packages, systems):
    """What isn't there of what is needed."""
    lacks = [] if os.geteuid() == 0 else ["root"]
    lacks += [] if os.path.exists("/dev/loop-control") else ["/dev/loop-control"]
    tools = [
        "qemu-system-x86_64",
        "busybox",
        "kmod",
        "dmsetup",
        "bash",
        "cc",
        "losetup",
        *(SYSTEMS[system][1][0] for system in systems),
    ]
    lacks += [name for name in tools if not packages.find(name)]
    lacks += [] if packages.boot else ["a kernel in PACKAGES/boot"]
    with open("/proc/filesystems", encoding="ascii") as file:
        known = file.read().split()
    return lacks + [f"a kernel here that has {system}" for system in systems if system not in known]


def record(machine, recorded, seconds):
    """Runs scenes in one machine, one after the other."""
    files, script = {}, ""
    for number, one in enumerate(recorded):
        script += SCENE.format(
            number=number, system=one.system, disk=2 * number + 1, log=2 * number + 2, script=one.scene.script
        )
        files |= {f"scene{number}/{name}": content for name, content in one.scene.files.items()}
    drives = [path for one in recorded for path in (one.image, one.log)]
    letters = " ".join("vd" + letter for letter in string.ascii_lowercase[: len(drives)])
    started = time.monotonic()
    said = machine.run({"run.sh": (START.format(letters=letters) + script).encode(), **files}, drives, seconds)
    print(f"power: a machine ran {len(recorded)} scenes in {time.monotonic() - started:.0f} s", flush=True)
    ended = [one for number, one in enumerate(recorded) if f"scene {number} ended with 0 " in said]
    check(len(ended) == len(recorded), "a scene didn't end well:", said, machine.text()[-3000:])


def report(one, tried, wrong, seconds):
    """Prints what was found in a scene. Whether it is as it has to be."""
    found = f"{sum(tried.values())} states, {len(wrong)} wrong"
    if one.scene.is_control:
        found += ", as it has to be" if wrong else ", AND IT HAS TO BE FOUND OUT"
    late = f", {one.left_out} gaps left out for time" if one.left_out else ""
    print(
        f"power: {one.system} {one.name}: {found}; {one.scene.summary()}; {dict(tried)}; {seconds:.0f} s{late}",
        flush=True,
    )
    kinds = collections.Counter(re.sub(r"\d+", "N", text) for _, _, text in wrong)
    for text, count in kinds.most_common(4 if not one.scene.is_control else 1):
        first = next(where for where in wrong if re.sub(r"\d+", "N", where[2]) == text)
        print(f"    {count} times: {text}, first at {first}", flush=True)
    return bool(wrong) == one.scene.is_control


def arguments():
    parser = argparse.ArgumentParser(description=__doc__.splitlines()[0])
    parser.add_argument("program")
    parser.add_argument("packages")
    parser.add_argument("--short", action="store_true", help="ext4 alone, few scenes, and less of each")
    parser.add_argument("--systems", help="of ext4, xfs and btrfs")
    parser.add_argument("--scenes", help="of " + ", ".join(SCENES))
    parser.add_argument("--versions", default=",".join(VERSIONS), help="of the devices")
    parser.add_argument("--scale", type=float, default=1.0, help="factor of the number of requests")
    parser.add_argument("--draws", type=int, default=6, help="sets of writes that are drawn between two flushes")
    parser.add_argument("--seconds", type=int, default=240, help="time to judge one scene")
    parser.add_argument("--seed", type=int, default=1)
    words = parser.parse_args()
    if words.short:
        words.scale, words.draws, words.seconds = words.scale / 4, 3, 60
    words.systems = (words.systems or ("ext4" if words.short else "ext4,xfs,btrfs")).split(",")
    words.scenes = (words.scenes or ("desk,serve,restore,change,unsynced" if words.short else ",".join(SCENES))).split(
        ","
    )
    return words


def scenes_of(words, program, packages, folder):
    """The scenes that are asked for, each on its file systems."""
    chosen = [(system, name) for system in words.systems for name in words.scenes if system in SCENES[name].systems]
    for (system, name), version in itertools.product(chosen, words.versions.split(",")):
        here = os.path.join(folder, f"{system}-{name}-{version}")
        os.mkdir(here)
        scene = SCENES[name](program, here, words.seed, words.scale, version)
        one = Recorded(system, f"{name} {version}", scene, here)
        one.make(packages)
        yield one


def main():
    words = arguments()
    packages, program = Packages(words.packages), os.path.abspath(words.program)
    lacks = missing(packages, words.systems)
    if lacks:
        print("power: skipped, since there is no", ", ".join(lacks))
        sys.exit(SKIPPED)
    folder = tempfile.mkdtemp(prefix="power", dir="/dev/shm")
    started, states, bad = time.monotonic(), 0, []
    try:
        machine = Machine(packages, program, folder)
        todo = list(scenes_of(words, program, packages, folder))
        for some in (todo[at : at + AT_ONCE] for at in range(0, len(todo), AT_ONCE)):
            record(machine, some, 1200)
            for one in some:
                began = time.monotonic()
                one.scene.recorded([entry.text for entry in writes.read_log(one.log) if entry.is_mark])
                tried, wrong = one.judged(words.draws, random.Random(words.seed), began + words.seconds)
                states += sum(tried.values())
                if not report(one, tried, wrong, time.monotonic() - began):
                    bad.append(f"{one.system} {one.name}")
                shutil.rmtree(one.folder)
    except Wrong as wrong:
        sys.exit(f"power: {wrong}; disks are in {folder}")
    shutil.rmtree(folder)
    print(
        f"power: {states} states of {len(todo)} disks, {'wrong: ' + ', '.join(bad) if bad else 'none wrong'},"
        f" {time.monotonic() - started:.0f} s"
    )
    sys.exit(1 if bad else 0)


if __name__ == "__main__":
    main()
