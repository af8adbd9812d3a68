"""Prints the accepted actions of a plant by its server's lines; or what the journal of a device file has.

    alm_journal --port P                the actions that the server remembers: number, words, the alarm's tag, the slot
    alm_journal --port P --follow       each accepted action as it comes
    alm_journal --port P --from 5 ..    the actions from that number on, and with --follow those that come
    alm_journal DEVICE                  how full the file's journal is, actions a frame, epoch, count, clock
    alm_journal DEVICE --from 1         the actions from that number on, as far as the file has them

With --table TABLE.toml a line is for people: the plant's time, the number, the tag, what was done, and the alarm's
text.

By lines it asks at a console's slot, 14 or --slot K, with --follow ten times a second. An action is printed once a
query shows it, so none that a power failure could take. Each line ends with the slot that asked. The server remembers
65,536 actions, and none of before its start. Those that it doesn't are named in a line `(actions 5 to 9: not remembered
by the server)`. With --follow it tries again while the server can't be reached; else it ends with status 1. Where the
server has another plant than before, a line says so, and that plant's actions follow from its first one on. No line
tells how full the journal is, nor the epoch.

A DEVICE is read without its lock, and nothing is written. A server writes an action before it is stored durably, so the
file may be ahead of what was answered. It has the actions since the checkpoint before the last one, or since the last
one while a checkpoint is made. Those that it no longer has are named in a line `(actions 5 to 9: no longer in the
file)`. Of a device of version 03 a line ends with the slot that asked. A file isn't followed.
"""
import argparse
import sys
import time
from typing import Iterator, Optional

from .arguments import Parser, add_port, add_slot, seconds, whole_number
from .client import Lost
from .ending import end_of, sayer
from .device_file import Damaged, DeviceFile, Frame, Head
from .judging import Reading, read_device
from .plant_mirror import Gap, Mirror
from .served import Served
from .table_file import TableFile
from .trail import LineTrail, Wording, missing

# Seconds between two looks.
PAUSE = 0.1
# What is said of a DEVICE beside the server's place, and of one that is to be followed.
OF_A_DEVICE = "a served plant is told by its lines: leave out DEVICE"
NOT_FOLLOWED = "a device file isn't followed: alm_journal --port P --follow goes by its server's lines"

say = sayer("journal")


def summary(device: DeviceFile) -> str:
    """What the journal of the half that stands holds, up to its first damage."""
    while True:
        head = device.standing()
        frames, moment = whole_frames(device, head), device.clock(head)
        if device.standing().epoch == head.epoch:
            break
    actions = [action for frame in frames for action in frame.actions]
    clocks = [action.argument for action in actions if action.word == "CLOCK"]
    used = frames[-1].end if frames else 0
    each = len(actions) / len(frames) if frames else 0.0
    return (
        f"{device.name.decode()} alarms {device.rows} areas {device.areas} half {head.half} mark {head.mark} epoch"
        f" {head.epoch}\nclock {clocks[-1] if clocks else moment} count {head.count + len(actions)}\njournal {used} of"
        f" {device.segment} bytes, {100 * used / device.segment:.1f} %: {len(actions)} actions in {len(frames)} frames,"
        f" {each:.1f} a frame"
    )


def whole_frames(device: DeviceFile, head: Head) -> list[Frame]:
    """The frames of a half, up to the first that is damaged."""
    frames: list[Frame] = []
    try:
        frames.extend(device.frames(head))
    except Damaged:
        pass
    return frames


def print_summary(path: str) -> None:
    """Prints what the journal holds, where there is a plant."""
    reading = read_device(path)
    if reading.judged and reading.judged.plant:
        print(summary(DeviceFile(path)))
    end_by(reading)


def end_by(reading: Reading) -> None:
    """Ends with what is damaged, if something is."""
    for wrong in reading.wrong():
        sys.exit(f"journal: {wrong}")


def last_action(path: str) -> int:
    """The number of the last action that a device's file has."""
    mirror = Mirror(path)
    try:
        return mirror.last()
    finally:
        mirror.close()


def file_lines(path: str, first: int, table: Optional[TableFile]) -> Iterator[str]:
    """The lines of the actions that a device's file has, from a number on. `Damaged` comes behind what is before it."""
    total = last_action(path)
    if first > total + 1:
        say(f"the device has {total} actions, so action {first} isn't there")
    say(f"from action {min(first, total + 1)} on, as the file has them: it may be ahead of what was answered")
    mirror = Mirror(path, far=True)
    try:
        wording = Wording(mirror.plant.table(), table)
        yield from missing(first, mirror.count, "no longer in the file")
        for one in mirror.news():
            if isinstance(one, Gap):
                yield from missing(max(one.first, first), one.last, "no longer in the file")
            elif one.number >= first:
                yield wording.line(one.action, one.moment, one.slot)
    finally:
        mirror.close()


def print_file(chosen: argparse.Namespace, table: Optional[TableFile]) -> None:
    """Prints how full a device's journal is, or its actions."""
    if chosen.first is None:
        print_summary(chosen.device)
        return
    for line in file_lines(chosen.device, chosen.first, table):
        print(line, flush=True)
    end_by(read_device(chosen.device))


def print_served(chosen: argparse.Namespace, table: Optional[TableFile]) -> None:
    """Prints the actions of a served plant, with `follow` for some seconds or without end."""
    served = Served(chosen.port, chosen.slot)
    if chosen.follow:
        served.say = say
    trail = LineTrail(served, chosen.first if chosen.follow else chosen.first or 1, table, say)
    ends = time.monotonic() + chosen.seconds if chosen.seconds is not None else None
    while True:
        for line in trail.look():
            print(line, flush=True)
        if not chosen.follow:
            break
        time.sleep(PAUSE)
        if ends is not None and time.monotonic() >= ends:
            return
    if not served.is_there:
        raise Lost(served.said)


def journal(chosen: argparse.Namespace) -> None:
    """Prints what was asked for."""
    table = TableFile(chosen.table) if chosen.table else None
    (print_file if chosen.device else print_served)(chosen, table)


def main() -> None:
    words = Parser("alm_journal", __doc__)
    words.add_argument("device", metavar="DEVICE", nargs="?", help="a device file, in place of a server's place")
    words.add_argument("--follow", action="store_true", help="of a server: print accepted actions as they come")
    words.add_argument(
        "--from", dest="first", type=whole_number, metavar="N", help="print the actions from number N on"
    )
    words.add_argument("--table", metavar="TABLE.toml", help="print for people, with the texts of this table file")
    words.add_argument("--seconds", type=seconds, metavar="S", help="with --follow: end after S seconds")
    add_port(words, required=False)
    add_slot(words, 14)
    chosen = words.parse_args()
    if chosen.device is None and chosen.port is None:
        words.error("one of DEVICE, --port and --sockets is required")
    if chosen.device is not None and (chosen.port is not None or chosen.follow):
        words.error(OF_A_DEVICE if chosen.port is not None else NOT_FOLLOWED)
    end_of("journal", lambda: journal(chosen), interrupted=0)


if __name__ == "__main__":
    main()
