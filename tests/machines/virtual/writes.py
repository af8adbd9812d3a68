"""The log of dm-log-writes, and the states that a power failure may leave on a disk.

The log has a superblock and then entries, each with a sector of its own: a write with its data after it, a flush, a
discard, or a mark. The kernel (drivers/md/dm-log-writes.c) logs an entry when the disk has answered. A write that is
forced to the medium (FUA) and a mark are logged at once, each other write just before the next flush that came after
its answer. So between two flushes come first the forced writes and the marks, in their order. Then come the other
writes: none of them needs to be on the medium before the second flush was answered.
"""
import os
import struct
from dataclasses import dataclass

SECTOR, PAGE = 512, 4096
MAGIC = 0x6A736677736872
FLUSH, FUA, DISCARD, MARK = 1, 2, 4, 8


@dataclass(frozen=True)
class Entry:
    """A write, or a flush of no sectors, or a mark's text."""

    sector: int
    data: bytes
    flags: int

    @property
    def is_mark(self):
        return bool(self.flags & MARK)

    @property
    def is_write(self):
        return bool(self.data) and not self.is_mark

    @property
    def text(self):
        return self.data.decode()

    @property
    def at(self):
        return self.sector * SECTOR


def read_log(path):
    """All entries but the discards, which need do nothing."""
    entries = []
    with open(path, "rb") as file:
        magic, version, count, sector_size = struct.unpack("<QQQI", file.read(28))
        if (magic, version, sector_size) != (MAGIC, 1, SECTOR):
            raise ValueError(f"{path} is no log")
        file.seek(SECTOR)
        for _ in range(count):
            head = file.read(SECTOR)
            sector, sectors, flags, length = struct.unpack_from("<QQQQ", head)
            if flags & MARK:
                entries.append(Entry(0, head[32 : 32 + length].rstrip(b"\0"), flags))
            elif not flags & DISCARD:
                entries.append(Entry(sector, file.read(sectors * SECTOR), flags))
    return entries


def put(file, entry, sectors=None):
    """Applies a write, or some of its sectors."""
    if sectors is None:
        os.pwrite(file, entry.data, entry.at)
        return
    for sector in sectors:
        os.pwrite(file, entry.data[sector * SECTOR : (sector + 1) * SECTOR], entry.at + sector * SECTOR)


@dataclass
class Gap:
    """What comes between two flushes: forced writes and marks in their order, then the writes in doubt."""

    at: int
    forced: list
    doubted: list


def gaps(entries):
    """The log, cut at its flushes."""
    gap = Gap(0, [], [])
    for at, entry in enumerate(entries):
        if entry.flags & FLUSH and not entry.is_write:
            yield gap
            gap = Gap(at + 1, [], [])
        elif entry.is_mark or entry.flags & FUA:
            gap.forced.append(entry)
        elif entry.is_write:
            gap.doubted.append(entry)
    yield gap


def torn(entry, dice):
    """Some sectors of a write: those before one of them, or drawn ones."""
    count = len(entry.data) // SECTOR
    return (
        range(dice.randrange(1, count))
        if dice.randrange(2)
        else [sector for sector in range(count) if dice.randrange(2)]
    )


def drawn(doubted, is_device, dice, most):
    """Sets of writes that reached the medium, each with its name, at most `most` and the set of all. Drawn from: one
    write that is cut at the end of a page; one write alone; all but one; drawn ones, some torn at sectors. Only writes
    of a device's bytes are cut and torn; what the file system writes for itself is whole or not there. A set is a list
    of pairs of a write and its sectors; None is all sectors."""
    if not doubted or most < 1:
        return []
    whole = [(entry, None) for entry in doubted]
    sets = []
    for entry in filter(is_device, doubted):
        for end in range(PAGE // SECTOR, len(entry.data) // SECTOR, PAGE // SECTOR):
            sets.append(("cut", [(entry, range(end))]))
            sets.append(("cut", [(entry, range(end, len(entry.data) // SECTOR))]))
    if len(doubted) > 1:
        sets += [("only", [pair]) for pair in whole]
        sets += [("without", whole[:at] + whole[at + 1 :]) for at in range(len(whole))]
    for _ in range(most):
        lots = [(entry, dice.randrange(3)) for entry in dice.sample(doubted, len(doubted))]
        kept = [
            (entry, torn(entry, dice) if lot == 2 and is_device(entry) and len(entry.data) > SECTOR else None)
            for entry, lot in lots
            if lot
        ]
        sets.append(("drawn", kept))
    return [("all", whole), *(dice.sample(sets, most) if len(sets) > most else sets)]
