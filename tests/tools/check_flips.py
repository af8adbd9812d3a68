"""What alm_check says of damaged devices, against docs/develop/FORMAT.md and the program. tests/tools/flips.py runs
these checks."""
import concurrent.futures
import re
import time
from typing import Optional

from lib.tools import Yard

from alarms.client import CLOCK, FEED, Client
from alarms import judging
from alarms.judging import Reading, read_device, read_once
from lib.places import DOCS
from lib.program import PLANT, Desk, Fault, check, draw_lines, preload, run_words
from lib.summed_device import SummedDevice
from alarms.table_file import Alarm, Table, device_size
from lib.tools import toml
from check_bits import drawn_flips, each_bit
from damaged_devices import (
    CUTS,
    IMAGES,
    OPEN,
    Place,
    WIDE,
    content_of,
    fault_of,
    flipped,
    gates,
    read,
    standing,
    written,
)

PAGE = DOCS / "develop" / "FORMAT.md"
# Frames of one action, and a segment whose half they don't fill once more.
FRAME, SEGMENT, GATES = 35, 12_000, 165
# What looks damaged is read again at once.
judging.PAUSE = 0.0


def example(yard: Yard, _step: int) -> str:
    """The rows of the page: a byte is changed, and then. In version 03 the same device has other rows."""
    device = yard.format("example.device", PLANT)
    yard.run("desk", device, lines="17 1 CLOCK 1000\n16 2 VAL 0 800\n")
    page = PAGE.read_text(encoding="utf-8")
    earlier = page.partition("With one byte of it changed:\n")[2].partition("\n## ")[0]
    done = judge_rows(yard, content_of(device), earlier)
    check(done == 14, "the page's example has", done, "rows")
    summed = SummedDevice(device)
    summed.spell_03((CLOCK, FEED))
    listing, _, rows = page.partition("## Version 03\n")[2].partition("14510: 5a\n")
    judge_listing(bytes(summed.bytes), listing)
    newer = judge_rows(yard, bytes(summed.bytes), rows)
    check(newer == 12, "the page's example of version 03 has", newer, "rows")
    return f"{done + newer} rows of the page"


def judge_listing(device: bytes, listing: str) -> None:
    """Holds the bytes of a device against those that the page lists."""
    lines = re.findall(r"^ *(\d+): ([0-9a-f ]+)$", listing, re.MULTILINE)
    check(len(lines) == 5, "the page lists", len(lines), "places of version 03")
    for place, digits in lines:
        listed, at = bytes.fromhex(digits), int(place)
        found = device[at : at + len(listed)]
        check(found == listed, "at", at, "the device has", found.hex(" "))


def judge_rows(yard: Yard, before: bytes, table: str) -> int:
    """Holds each row of a table against what is read of a device with that change, and counts the rows."""
    rows = re.findall(r"^\| ([0-9 and]+) \| ([0-9a-f, ]+) \| (.+) \|$", table, re.MULTILINE)
    for place, to, then in rows:
        changed = bytearray(before)
        for at, value in zip(place.split(" and "), to.split(", ")):
            changed[int(at)] = int(value, 16)
        judge_row(read(written(yard, "row.device", bytes(changed))), then)
    return len(rows)


def judge_row(reading: Optional[Reading], then: str) -> None:
    """Holds a reading against the words of the page."""
    damaged = re.match(r"half (\d), at (\d+)", then)
    if then == "Unformatted":
        check(reading is None, "the page says that it isn't formatted, and alm_check", reading)
    elif damaged:
        check(
            reading and fault_of(reading) == f"fault damaged {damaged[1]} {damaged[2]}\n",
            then,
            "and alm_check says",
            reading,
        )
    else:
        count = {"it stands with no actions": 0, "it stands with one action": 1}.get(then, 2)
        check(reading and reading.damage is None and reading.judged.count == count, then, "and alm_check says", reading)
        check((reading.closed is not None) == (count == 0), then, "of the gate alm_check says", reading.closed)


# Bytes that break a rule of the page for an image: the place of the field in the image, or in that of an alarm; and
# where the fault is, if elsewhere. Alarms 0 and 3 are unacknowledged, 2 is discrete, latches and is normal, 1 is
# shelved. The clock is above 600 and the count small.
LAST_AGE = 17 + 8 * 599
OF_IMAGE = [
    (0, 2**40, 8, 0),
    (8, 0, 8, 8),
    (8, 2**60, 8, 8),
    (16, 2, 1, 16),
    (16, 1, 1, LAST_AGE),
    (17, 11, 8, LAST_AGE),
    (17 + 4801, 11, 8, LAST_AGE + 4801),
]
OF_ALARMS = {
    0: [
        (0, 0, 1),
        (0, 4, 1),
        (1, 0, 1),
        (1, 5, 1),
        (2, 2, 1),
        (3, 2, 1),
        (4, 10**12 + 1, 8),
        (4, -(10**12) - 1, 8),
        (12, 10**12 + 1, 8),
        (20, 604_801, 4),
        (24, 0, 1),
        (24, 33, 1),
        (25, 0x20, 1),
        (25, 0x7F, 1),
        (57, 81, 1),
        (138, 2, 1),
        (139, 6, 1),
        (139, 4, 1),
        (140, 8, 1),
        (140, 4, 1),
        (141, 4, 1),
        (141, 0, 1),
        (142, 1, 8),
        (150, 0, 8),
        (150, 2**40, 8),
        (158, 2**40 - 1, 8),
        (166, 1, 8),
        (174, 1, 8),
    ],
    1: [(142, 0, 8), (142, 600, 8), (142, 2**40, 8), (150, 0, 8)],
    2: [(12, 1, 8), (138, 1, 1, 140), (139, 3, 1), (139, 5, 1, 141), (150, 1, 8)],
    3: [(57, 81, 1), (58, 0x1F, 1), (58, 0x7F, 1)],
}


def rules(yard: Yard, _step: int) -> str:
    """Each rule of an image, broken by a value just beyond it: the fault is at the page's place, and the program's
    is."""
    device = yard.format("rules.device", PLANT)
    states = "17 1 CLOCK 1000\n16 2 VAL 0 800\n16 3 VAL 3 50\n0 4 SHELVE 1 600\n"
    yard.run("desk", device, lines=states + "".join(f"17 5 CLOCK {moment}\n" for moment in range(1001, 1070)))
    before = content_of(device)
    place = Place.of(before)
    image = place.half(standing(before)) + 25
    alarms = [image + 16 + 4801 * place.areas + 182 * number for number in range(4)]
    rows = [(image, *row) for row in OF_IMAGE]
    rows += [
        (alarms[number], *(row if row[3:] else (*row, row[0])))
        for number, of_alarm in OF_ALARMS.items()
        for row in of_alarm
    ]
    rows.append((alarms[3], 150, int.from_bytes(before[alarms[0] + 150 : alarms[0] + 158], "big"), 8, 150))
    check(
        before[alarms[0] + 139] == before[alarms[3] + 139] == 1 and before[alarms[1] + 140] == 1,
        "the alarms are in other states",
    )
    for start, at, value, length, fault in rows:
        changed = bytearray(before)
        changed[start + at : start + at + length] = (value % 2 ** (8 * length)).to_bytes(length, "big")
        path = written(yard, "row.device", bytes(changed))
        wanted = f"fault damaged {standing(before)} {start + fault}\n"
        run, reading = run_words(yard.program, ["show", path]), read_once(path)
        said = run.stderr.decode(), fault_of(reading)
        check(
            said == (wanted, wanted),
            "byte",
            at,
            "of",
            start,
            "set to",
            value,
            "is",
            wanted,
            "by the page, and by program and alm_check",
            *said,
        )
    return f"{len(rows)} rules of images"


def each_gate(yard: Yard, _step: int) -> str:
    """Each bit of each gate of a half and of its journal. Behind the last frame nothing stands."""
    table = yard.write("gates.toml", toml(Table(device_size(1, 1, SEGMENT), 1, [Alarm("high", 5, 1, 0, "TI-1")])))
    device = yard.format("gates.device", table)
    full = SEGMENT // 2 // FRAME + 1
    yard.run("desk", device, lines="".join(f"17 1 CLOCK {moment}\n" for moment in range(1, full + GATES + 1)))
    before = content_of(device)
    places = gates(before)
    check(len(places) == GATES + 1 and places[-1][1] == full + GATES + 1, "the journal has", len(places) - 1, "frames")
    half, seen = Place.of(before).half(standing(before)), 0
    for at, first in [(half, places[0][1]), *places[:-1]]:
        for bit in range(8):
            closed = read_once(written(yard, "flip.device", flipped(before, at, bit))).closed
            wanted = (at, first, full + GATES) if at != places[-2][0] else None
            check(
                (closed and (closed.at, closed.first, closed.last)) == wanted,
                "a gate at",
                at,
                "bit",
                bit,
                "is said to be",
                closed,
            )
            seen += closed is not None
    check(read_once(device).place is None, "of a whole device it says", read_once(device).wrong())
    return f"{seen} of {8 * (GATES + 1)} flips of gates seen"


def crash_images(yard: Yard, step: int) -> str:
    """What a power failure leaves: nothing of it is called damage."""
    library, copied, count = preload(yard.folder), 0, IMAGES // step
    plants = [yard.format("crash.device", PLANT), yard.format("wide.device", yard.write("wide.toml", toml(WIDE)))]
    lines = draw_lines(1, 200)
    calls = [range(1, 700), checkpoint_calls(yard, library, plants[1], lines)]
    for number in range(count):
        device, at = plants[number % 2], calls[number % 2][97 * number % len(calls[number % 2])]
        fault = Fault(library, "device", at, CUTS[number // 2 % len(CUTS)], number)
        copy = written(yard, "copy.device", content_of(device))
        cut(yard, copy, lines, fault.loaded)
        reading = read_once(copy)
        check(reading.place is None, "a power failure,", fault.text, "leaves", *reading.wrong())
        shown = run_words(yard.program, ["show", copy])
        check(
            shown.stdout.decode() == reading.judged.plant.show(reading.judged.head.epoch),
            fault.text,
            "shows another plant than alm_check has",
        )
        copied += has_copied_frames(content_of(copy))
    check(copied, "no checkpoint was cut behind the frames that it copied")
    return f"{count} images of power failures, {copied} with a checkpoint's copied frames behind its closed gate"


def cut(yard: Yard, device: str, lines: list[bytes], loaded: dict[str, str]) -> None:
    """A desk that is asked line by line, until it ends."""
    with Desk(yard.program, device, loaded) as desk:
        for line in lines:
            if not desk.ask(line):
                break


def checkpoint_calls(yard: Yard, library: str, device: str, lines: list[bytes]) -> range:
    """The numbers of the calls on a device from the last piece of its first checkpoint on, and some behind: commits
    come between the pieces."""
    copy, path = written(yard, "copy.device", content_of(device)), yard.path("calls")
    cut(yard, copy, lines, {"LD_PRELOAD": library, "ALM_CALLS": path})
    with open(path, encoding="utf-8") as file:
        calls = [call for call in map(str.split, file) if call[0] in ("pwrite", "pread", "fdatasync")]
    pieces = [number for number, call in enumerate(calls, 1) if call[0] == "pwrite" and int(call[2]) > 1000]
    check(len(pieces) > 2 and pieces[1] - pieces[0] > 1, "no commit comes between the pieces of a checkpoint:", pieces)
    return range(pieces[-1] - 3, pieces[-1] + 9)


def has_copied_frames(device: bytes) -> bool:
    """Whether the half that doesn't stand is of the next epoch, closed, and has an open frame of it."""
    place, half = Place.of(device), standing(device)
    other, epoch = place.half(1 - half), int.from_bytes(device[place.half(half) + 1 : place.half(half) + 9], "big") + 1
    text = epoch.to_bytes(8, "big")
    frames = place.frames(1 - half)
    return (
        device[other] != OPEN
        and device[other + 1 : other + 9] == text
        and device[frames : frames + 9] == bytes([OPEN]) + text
    )


def formatted_again(yard: Yard, step: int) -> str:
    """A device that was formatted over an older one, whose frames still stand behind its own and in its other half, is
    never called damaged."""
    device, looks = yard.format("again.device", PLANT), 0
    pairs = lambda first, count: [
        f"17 1 CLOCK {moment}\n16 1 VAL 2 {moment % 2}\n".encode().splitlines(True)
        for moment in range(first, first + count)
    ]
    cut(yard, device, [line for pair in pairs(1, 40) for line in pair], {})
    stale = content_of(yard.format("again.device", PLANT))
    place = Place.of(stale)
    left = [
        stale[place.half(1) + 8],
        stale[place.half(1)] == OPEN,
        stale[place.frames(0) + FRAME],
        stale[place.frames(1)],
    ]
    check(left == [2, False, OPEN, OPEN], "what is left of the older device is", left)
    with Desk(yard.program, device) as desk:
        for pair in pairs(1000, max(50, 300 // step)):
            for line in pair:
                desk.ask(line)
                reading = read_once(device)
                check(reading.place is None, "of a device that was formatted again it says", *reading.wrong())
                looks += 1
    return f"{looks} looks at a device that was formatted again"


# So many actions make more than five checkpoints.
SOME = 500


def running(yard: Yard, step: int) -> str:
    """A device that a server goes on with, checkpoint after checkpoint, is never called damaged."""
    device, looks, ends = yard.format("running.device", PLANT), 0, time.monotonic() + max(3, 30 // step)
    server = yard.serve(device)
    with Client.connect(server.port, CLOCK) as clock, concurrent.futures.ThreadPoolExecutor(1) as pool:
        asked = pool.submit(ask_until, clock, ends)
        while not asked.done():
            reading = read_device(device)
            check(reading.place is None, "of a device that goes on it says", *reading.wrong())
            looks += 1
        count = asked.result()
    server.end()
    reading = read_once(device)
    check(
        reading.judged.count == count and reading.judged.head.epoch > 5,
        "the server had",
        count,
        "actions, and alm_check says",
        reading,
    )
    return f"{looks} looks at a served device over {reading.judged.head.epoch} checkpoints"


def ask_until(clock: Client, ends: float) -> int:
    """Moves a clock until a moment, and for some checkpoints on a slow machine; how often."""
    count = 0
    while time.monotonic() < ends or count < SOME:
        count = clock.clock(count + 1)
    return count


CHECKS = (example, rules, each_gate, each_bit, crash_images, formatted_again, running, drawn_flips)
