"""The calls that the program has to make on a device's file and its folder: what each of its procedures writes and
syncs, and in which order. A call that is left out can't fail, so no fault shows it; these lists do.

A call is a name with a path, or a name with a place and a length, as preload.c lists them (ALM_CALLS).
"""
import itertools
import os

from .program import check

# An image's bytes: its head, those of an area and of an alarm; and the parts of a frame of one action.
IMAGE, AREA, ALARM = 16, 4801, 182
HEADER, HEAD = 23, 25
FRAME = 35
# The most bytes of a checkpoint that one write takes.
PIECE = 65_536


NAMES = ("device", "folder", "link", "link's folder", "beside")


def read_calls(path, device):
    """The calls that were listed. The device, its folder, a symbolic link to it with its folder, and the new file of an
    upgrade have names."""
    real, given = os.path.realpath(device), os.path.abspath(device)
    named = {given: "link", os.path.dirname(given): "link's folder", real: "device", os.path.dirname(real): "folder"}
    named[f"{real}.upgrade"] = "beside"
    calls = []
    with open(path, encoding="utf-8") as file:
        for line in file:
            name, *words = line.split()
            at_place = len(words) == 2
            calls.append(
                (name, int(words[0]), int(words[1]))
                if at_place
                else (name, named.get(os.path.abspath(words[0]), words[0]))
            )
    return calls


def on_device(calls):
    """Those on the device and its folder, without the questions for their metadata."""
    return [call for call in calls if call[0] != "statx" and (len(call) == 3 or call[1] in NAMES)]


class Layout:
    """Where the parts of a device stand."""

    def __init__(self, size, alarms, areas, version="02"):
        self.size, self.version = size, version
        self.image = IMAGE + AREA * areas + ALARM * alarms
        self.segment = (size - HEADER) // 2 - HEAD - self.image
        self.used = HEADER + 2 * (HEAD + self.image + self.segment)

    def half(self, number):
        return HEADER + number * (HEAD + self.image + self.segment)

    def frames(self, number):
        """Where the segment of a half begins."""
        return self.half(number) + HEAD + self.image


SYNC = ("fdatasync", "device")
FORGET = ("fadvise", "device")
LOCK = ("lock", "device")
NAME_SYNC = [("fsync", "device"), ("openat", "folder"), ("fsync", "folder")]


def opening():
    """A device is opened to write. It is locked first. The kernel forgets what it keeps of the file, and file and name
    are brought to the disk, before anything is read."""
    return [("openat", "device"), LOCK, FORGET, *NAME_SYNC, SYNC]


def opening_by_link():
    """The same, by a symbolic link in a folder of the device's folder: each of these names is brought to the disk, and
    then the device's."""
    folder, links = NAME_SYNC[1:], [("openat", "link's folder"), ("fsync", "link's folder")]
    return [("openat", "link"), LOCK, FORGET, ("fsync", "device"), *folder, *links, *folder, SYNC]


def reading():
    """A device is opened to be read, and locked against writers until it was."""
    return [("openat", "device"), ("lock-shared", "device"), FORGET, SYNC]


def gated(at, length):
    """The bytes after a closed gate, and then the gate."""
    return [("pwrite", at + 1, length), SYNC, ("pwrite", at, 1), SYNC]


def formatting(layout):
    """What `format` makes once the file has its size, its room and its name on the disk."""
    shut = [
        ("pwrite", 0, 1),
        SYNC,
        ("pwrite", 1, HEADER - 1),
        ("pwrite", HEADER, HEAD + layout.image + 1),
        ("pwrite", layout.half(1), 1),
        SYNC,
    ]
    return [*shut, ("pwrite", HEADER, 1), SYNC, ("pwrite", 0, 1), SYNC]


def checkpoint(layout, half, is_open):
    """A checkpoint in a half, whose gate is closed first if it is open. In version 03 the other half's is closed at its
    end."""
    closes = [("pwrite", layout.half(half), 1), SYNC] if is_open else []
    body = HEAD - 1 + layout.image + 1
    pieces = [("pwrite", layout.half(half) + 1 + at, min(PIECE, body - at)) for at in range(0, body, PIECE)]
    shuts = [("pwrite", layout.half(1 - half), 1), SYNC] if layout.version == "03" else []
    return [*closes, *pieces, SYNC, ("pwrite", layout.half(half), 1), SYNC, *shuts]


def commits(layout, count):
    """A number of commits of one action each on a new device, each after the reply to the one before. If more than half
    of a segment is used, a checkpoint comes before the next commit. Only for a plant whose checkpoint is one write."""
    calls, half, at, was_open = [], 0, layout.frames(0), False
    for number in range(1, count + 1):
        if 2 * (at - layout.frames(half)) > layout.segment:
            half = 1 - half
            calls += checkpoint(layout, half, was_open)
            at, was_open = layout.frames(half), layout.version != "03"
        calls += gated(at, FRAME)
        at += FRAME
    return calls


def check_list(made, wanted, *said):
    """Compares the calls that were made with those that are to be made."""
    for number, (one, other) in enumerate(itertools.zip_longest(made, wanted), 1):
        check(one == other, *said, "call", number, "is", one, "and not", other)


def split_opening(made, wanted, *said):
    """The calls after an opening and its reads."""
    check_list(made[: len(wanted)], wanted, *said)
    rest = list(itertools.dropwhile(lambda call: call[0] == "pread", made[len(wanted) :]))
    check(len(rest) < len(made) - len(wanted), *said, "nothing is read")
    return rest


def split_room(calls, layout, *said):
    """The calls after those that take room on the disk, to the last byte that is used."""
    room = list(itertools.takewhile(lambda call: call[0] in ("pread", "pwrite"), calls))
    taken = 0
    for _, at, length in sorted(call for call in room if call[0] == "pwrite"):
        check(at <= taken, *said, "takes no room at", taken)
        taken = max(taken, at + length)
    check(taken >= layout.used, *said, "takes room for", taken, "bytes of", layout.used)
    return calls[len(room) :]


def check_made(made, layout):
    """`format` locks the file, gives it its size, and room to the last byte that is used; then its name is brought to
    the disk, and the device is written."""
    begins = [("openat", "device"), LOCK, ("ftruncate", 0, layout.size)]
    check_list(made[: len(begins)], begins, "format")
    rest = split_room(made[len(begins) :], layout, "format")
    check_list(rest, [*NAME_SYNC, *formatting(layout)], "format, after the room")


def check_upgraded(made, layout):
    """`upgrade` reads the header and opens the device, and doesn't write it. The new file has its owner before a byte.
    All of it is on the disk before it takes the device's name, and then the folder is."""
    opened = opening()
    check_list(made[: len(opened)], [*opened[:-1], ("pread", 0, HEADER)], "upgrade")
    rest = split_opening(made[len(opened) :], [SYNC], "upgrade")
    begins = [("unlink", "beside"), ("openat", "beside"), ("fchown", "beside"), ("fchmod", "beside")]
    begins += [("lock", "beside"), ("ftruncate", 0, layout.size)]
    check_list(rest[: len(begins)], begins, "upgrade, the new file")
    rest = split_room(rest[len(begins) :], layout, "upgrade")
    names = [("fsync", "beside"), *NAME_SYNC[1:]]
    writes = [("fdatasync", "beside") if call == SYNC else call for call in formatting(layout)]
    ends = [NAME_SYNC[1], ("rename", "beside"), ("onto", "device"), NAME_SYNC[2]]
    check_list(rest, [*names, *writes, *ends], "upgrade, after the room")
