#!/usr/bin/env python3
"""Flips bits on disks below a file system: on ext4, and on dm-integrity and btrfs as docs/DAMAGE.md sets them up.

    tests/machines/virtual/checksums.py PROGRAM PACKAGES [--short] [--seed N]

A virtual machine (tests/machines/virtual/machine.py) has three disks, makes them ready by the page's blocks, word for
word, and puts a device on each. The disks' files are then searched for the blocks of the device. The machine is started
again. For each drawn bit it changes the disk, mounts it, asks `show`, and puts the bit back.

Where a block that `show` reads was changed, dm-integrity and btrfs have to answer `fault disk`. Whatever else is shown
has to be the whole plant. On ext4 what comes is counted alone: that is what the sums are for. What is counted stands on
the page.

PACKAGES is a folder as tests/machines/virtual/power.py has it. Besides its packages it needs cryptsetup-bin and
btrfs-progs, unpacked there or installed. If something is missing it says so, and ends with status 77. It takes two
minutes.
"""
import argparse
import base64
import collections
import os
import random
import re
import shutil
import sys
import tempfile


from blocks import block_of
from machine import MODULES, TOOLS, Machine, Packages
from lib.program import PLANT, TESTS, Wrong, check

PAGE = os.path.join(TESTS, "..", "docs", "DAMAGE.md")
NEEDED = ("qemu-system-x86_64", "busybox", "kmod", "integritysetup", "mkfs.btrfs", "mkfs.ext4")
MORE_TOOLS = ["integritysetup", "mkfs.ext4", "mkfs.btrfs", "mount", "umount"]
SKIPPED = 77
SIZE, BLOCK = 128 << 20, 4096
SECONDS = 900
DEVICE = "/var/lib/alarms/plant.device"
# Each disk: its letter, how it is made ready, how it is opened later, and how it is closed.
SYSTEMS = ("ext4", "dm-integrity", "btrfs")
FUNCTIONS = """
export DM_DISABLE_UDEV=1
mkdir -p /run/cryptsetup
apt-get() { :; }
open_ext4() { mount -t ext4 $1 /var/lib/alarms; }
open_btrfs() { mount -t btrfs $1 /var/lib/alarms; }
open_dm-integrity() { integritysetup open --integrity crc32c $1 alarms && mount -t ext4 /dev/mapper/alarms /var/lib/alarms; }
close_disk() { sync; umount /var/lib/alarms; [ ! -e /dev/mapper/alarms ] || integritysetup close alarms; }
# A byte of a disk becomes another: disk, place, value in octal.
poke() { printf "\\\\$3" | dd of=$1 bs=1 seek=$2 conv=notrunc 2> /dev/null; }
"""
MADE = """
alm_server format /var/lib/alarms/plant.device /task/plant.toml > /dev/null
alm_server desk /var/lib/alarms/plant.device < /task/lines > /tmp/replies
alm_server show /var/lib/alarms/plant.device > /tmp/whole
{ echo "BEGIN $NAME"; base64 /var/lib/alarms/plant.device; echo END; echo "WHOLE $NAME $(md5sum < /tmp/whole | cut -c1-32)"; } > $SAY
close_disk
"""


def ready(name: str, disk: str) -> str:
    """What makes a disk ready: the page's block, where it has one."""
    with open(PAGE, encoding="utf-8") as page:
        text = page.read().replace("\n### ", "\n## ")
    block = f"mkfs.ext4 -q {disk}\nmount {disk} /var/lib/alarms\n" if name == "ext4" else block_of(text, name, "mount")
    check(name == "ext4" or "D=/dev/sdX1\n" in block, "the page's block of", name, "names no disk")
    return f"NAME={name}\n" + block.replace("/dev/sdX1", disk) + MADE


def standing(device: bytes) -> range:
    """The bytes of the half that stands."""
    rows, areas, segment = (
        int.from_bytes(device[9:13], "big"),
        int.from_bytes(device[13:15], "big"),
        int.from_bytes(device[15:23], "big"),
    )
    length = 25 + 16 + 4801 * areas + 182 * rows + segment
    first = max((at for at in (23, 23 + length) if device[at] == 0xA5), key=lambda at: device[at + 1 : at + 9])
    return range(first, first + length)


def is_read(device: bytes, at: int) -> bool:
    """Whether the block of a byte is one that `show` reads: it has some of the header, of a half's first bytes, or of
    the half that stands."""
    block, half = range(at // BLOCK * BLOCK, at // BLOCK * BLOCK + BLOCK), standing(device)
    other = 23 if half.start != 23 else half.stop
    return any(
        part.start < block.stop and block.start < part.stop for part in (range(23), range(other, other + 9), half)
    )


class Flip:
    """A bit of a disk's file, and what is in its place."""

    def __init__(self, name: str, disk: str, device: bytes, raw: bytes, dice: random.Random):
        self.name, self.disk, half = name, disk, standing(device)
        while True:
            self.at = dice.choice([dice.randrange(len(device)), dice.choice(half)])
            block = device[self.at // BLOCK * BLOCK :][:BLOCK]
            self.places = (
                [found.start() + self.at % BLOCK for found in re.finditer(re.escape(block), raw)] if any(block) else []
            )
            if self.places:
                break
        self.old, self.is_read = device[self.at], is_read(device, self.at)
        self.new = self.old ^ 1 << dice.randrange(8)

    def script(self) -> str:
        poked = lambda value: "".join(f"poke {self.disk} {place} {value:03o}\n" for place in self.places)
        shown = (
            f'alm_server show {DEVICE} > /tmp/shown 2> /tmp/fault; echo "FLIP'
            f' {self.name} {self.at} {int(self.is_read)} $? $(md5sum < /tmp/shown | cut -c1-32) $(cat /tmp/fault)"'
        )
        return (
            f"{poked(self.new)}echo 3 > /proc/sys/vm/drop_caches\nif open_{self.name} {self.disk}; then {shown};"
            f" close_disk; else echo FLIP {self.name} no mount; fi > $SAY\n{poked(self.old)}"
        )


def run(machine: Machine, script: str, disks: list[str], **files: str) -> str:
    return machine.run(
        {
            "run.sh": b"bash /task/steps.sh\n",
            "steps.sh": (FUNCTIONS + script).encode(),
            **{name.replace("_", "."): text.encode() for name, text in files.items()},
        },
        disks,
        SECONDS,
    )


def counts(said: str, whole: dict[str, str]) -> dict[str, collections.Counter]:
    """What `show` said of each system's flips. Where sums are, each damaged block that is read is refused, and all else
    is whole."""
    found: dict[str, collections.Counter] = {name: collections.Counter() for name in SYSTEMS}
    for name, at, read, status, shown, fault in re.findall(r"FLIP (\S+) (\d+) ([01]) (\d) (\w+) ?(.*)", said):
        words = " ".join(fault.split()[:2]) or ("whole" if shown == whole[name] else "another plant")
        if name != "ext4":
            check(
                words == ("fault disk" if read == "1" else "whole"),
                name,
                "byte",
                at,
                "of the device flipped, and show said",
                words,
            )
        found[name][words] += 1
        found[name]["read"] += read == "1"
    return found


def tried(machine: Machine, folder: str, flips: int, seed: int) -> dict[str, collections.Counter]:
    """Makes the disks, flips bits, and counts."""
    disks = [os.path.join(folder, name) for name in SYSTEMS]
    for disk in disks:
        with open(disk, "wb") as file:
            file.truncate(SIZE)
    drives = dict(zip(SYSTEMS, ("/dev/vda", "/dev/vdb", "/dev/vdc")))
    lines = "".join(f"17 {moment} CLOCK {moment}\n16 1 VAL 0 800\n16 2 VAL 0 0\n1 3 ACK 0\n" for moment in range(1, 31))
    with open(PLANT, encoding="utf-8") as table:
        said = run(
            machine,
            "".join(ready(name, drive) for name, drive in drives.items()),
            disks,
            plant_toml=table.read(),
            lines=lines,
        )
    whole = dict(re.findall(r"WHOLE (\S+) (\w+)", said))
    check(
        set(whole) == set(SYSTEMS) and len(set(whole.values())) == 1,
        "no device was made on each disk:",
        said[-500:],
        machine.text()[-500:],
    )
    dice, script = random.Random(seed), ""
    for name, path in zip(SYSTEMS, disks):
        device = base64.b64decode(re.search(rf"BEGIN {name}\n(.*?)END", said, re.DOTALL)[1])
        with open(path, "rb") as file:
            raw = file.read()
        script += "".join(Flip(name, drives[name], device, raw, dice).script() for _ in range(flips))
    found = counts(run(machine, script, disks), whole)
    for name in SYSTEMS:
        check(sum(found[name].values()) - found[name]["read"] == flips, name, "was tried", found[name])
    return found


def main() -> None:
    words = argparse.ArgumentParser(description=__doc__, formatter_class=argparse.RawDescriptionHelpFormatter)
    words.add_argument("program")
    words.add_argument("packages")
    words.add_argument("--short", action="store_true", help="10 flips of each disk")
    words.add_argument("--seed", type=int, default=1)
    chosen = words.parse_args()
    packages = Packages(chosen.packages)
    missing = [name for name in NEEDED if not packages.find(name)] + ([] if packages.boot else ["a kernel"])
    if missing:
        print("checksums: left out: no", ", ".join(missing))
        sys.exit(SKIPPED)
    folder = tempfile.mkdtemp(prefix="alarms")
    machine = Machine(
        packages, os.path.abspath(chosen.program), folder, [*MODULES, "dm_integrity"], [*TOOLS, *MORE_TOOLS]
    )
    try:
        found = tried(machine, folder, 10 if chosen.short else 30, chosen.seed)
    except Wrong as wrong:
        sys.exit(f"checksums: {wrong}; the disks are in {folder}")
    shutil.rmtree(folder)
    print(
        "checksums:",
        "; ".join(
            f"{name}: " + ", ".join(f"{count} {word}" for word, count in sorted(found[name].items()))
            for name in SYSTEMS
        ),
    )


if __name__ == "__main__":
    main()
