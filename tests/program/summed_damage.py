#!/usr/bin/env python3
"""Damages three devices of version 03, and holds what is shown against docs/develop/FORMAT.md.

    tests/program/summed_damage.py PROGRAM [--short]

Half 0 stands, with frames; half 1 stands behind a turn, with frames; half 0 stands again behind another one. What the
program made is FORMAT's spelling. Then:

- Each bit flips that is read, in a short run some of the image's; of the others some that are drawn.
- Each byte of header, heads and frames, and each closed gate, gets twelve other values, in a short run some of them;
  each gate gets all others.
- Sectors of 512 and 4,096 bytes become zeros, ones, garbage, change places, or are again what the file had before.
- One field is changed, without its checksum and with it.
- A closed gate of a frame flips open before what a power failure has left whole; so does that of a half.

Each is refused at FORMAT's place, or shows the plant as it was. Silent, so that another plant is shown without a fault,
are a frame's gate that becomes 5A, and sectors that go back to what they were: these are counted.
"""
import random
import sys
import time
from collections import Counter
from typing import Callable, Iterator

from damaged_fields import try_fields
from lib.program import Wrong, begin, check, count_of, finish
from lib.summed_device import CLOSED, OPEN, SummedDevice
from worked_devices import FEW, PARTS, Change, Courses, Openings, Worked

VALUES, SIZES = 12, (512, 4096)
# Of the bits that are drawn one in so many: those that aren't read, and in a short run those of the image; and of the
# values of a byte.
UNREAD_STEP, IMAGE_STEP, VALUE_STEP = 16, 197, 7
OUTCOMES = ("told", "as before", "silent")
DAMAGES: dict[str, Callable[[random.Random, bytes], bytes]] = {
    "zeros": lambda _, sector: bytes(len(sector)),
    "ones": lambda _, sector: b"\xff" * len(sector),
    "garbage": lambda dice, sector: dice.randbytes(len(sector)),
}
Counts = Counter[tuple[str, str]]


def bits(worked: Worked, dice: random.Random, is_short: bool) -> list[tuple[str, Change]]:
    """Each bit that is read, in a short run some of the image's, and some that aren't read."""
    steps = {"image": IMAGE_STEP, "not read": UNREAD_STEP * IMAGE_STEP} if is_short else {"not read": UNREAD_STEP}
    return [
        (part, ((at, bytes([worked.bytes[at] ^ 1 << bit])),))
        for at, part in enumerate(worked.parts)
        for bit in range(8)
        if dice.randrange(steps.get(part, 1)) == 0
    ]


def values(worked: Worked, dice: random.Random, is_short: bool) -> list[tuple[str, Change]]:
    """Other values of each byte of header, heads and frames and of closed gates, and all of each gate."""
    gates = {*worked.gates(), worked.device.half(0), worked.device.half(1)}
    gates |= {at for at, part in enumerate(worked.parts) if part == "closed gate"}
    made = []
    for at, part in enumerate(worked.parts):
        if part in ("image", "not read"):
            continue
        others = sorted(set(range(256)) - {worked.bytes[at]})
        if at not in gates:
            first = [value for value in (CLOSED, OPEN, 0, 255) if value in others]
            others = first + dice.sample(sorted(set(others) - set(first)), VALUES - len(first))
            others = dice.sample(others, VALUES // VALUE_STEP) if is_short else others
        made += [("gate" if at in gates else part, ((at, bytes([value])),)) for value in others]
    return made


def sectors(worked: Worked, dice: random.Random) -> Iterator[tuple[str, Change]]:
    """Sectors that are damaged, each of them once in each way, where that changes a byte."""
    text = worked.bytes
    for size in SIZES:
        places = range(0, len(text), size)
        for at in places:
            sector = text[at : at + size]
            for name, damage in DAMAGES.items():
                yield f"{size} {name}", ((at, damage(dice, sector)),)
            other = dice.choice([place for place in places if place != at and place + size <= len(text)])
            if at + size <= len(text):
                yield f"{size} exchanged", ((at, text[other : other + size]), (other, sector))
            for stale in sorted({earlier[at : at + size] for earlier in worked.earlier}):
                yield f"{size} stale", ((at, stale),)


def is_change(text: bytes, change: Change) -> bool:
    return any(text[at : at + len(some)] != some for at, some in change)


def counted(openings: Openings, changes: list[tuple[str, Change]]) -> tuple[Counts, list[Change]]:
    """How often each kind of change was told, left all as before, or was silent; and the silent ones."""
    outcomes = openings.all([change for _, change in changes])
    counts = Counter((name, outcome) for (name, _), outcome in zip(changes, outcomes))
    return counts, [change for (_, change), outcome in zip(changes, outcomes) if outcome == "silent"]


def silent_gates(worked: Worked) -> list[Change]:
    """A gate of the journal that becomes 5A."""
    return [((at, bytes([CLOSED])),) for at in sorted(worked.gates())]


def try_device(worked: Worked, openings: Openings, is_short: bool) -> list[tuple[str, Counts]]:
    """Damages a device in all ways. What came of each."""
    dice = random.Random(worked.name)
    of_bits, silent = counted(openings, bits(worked, dice, is_short))
    check(not silent, worked.name, "silent bits:", silent[:3])
    of_values, silent = counted(openings, values(worked, dice, is_short))
    check(sorted(silent) == silent_gates(worked), worked.name, "silent bytes:", silent)
    damaged = [(name, change) for name, change in sectors(worked, dice) if is_change(worked.bytes, change)]
    of_sectors, _ = counted(openings, damaged)
    wrong = [name for name, outcome in of_sectors if outcome == "silent" and not name.endswith("stale")]
    check(not wrong, worked.name, "silent sectors:", wrong)
    return [("bits", of_bits), ("bytes", of_values), ("sectors", of_sectors)]


def try_cut(courses: Courses) -> None:
    """A closed gate that flips, where a power failure left something whole behind it. A frame counts then: nobody was
    answered. Of two halves none hides what the other one has."""
    device = courses.made_at(0, FEW)
    counts = try_gate(courses, device, device.frames(True)[-1][0], CLOSED)
    check(counts == (FEW - 1, {FEW}), "of a commit that was cut so many actions count, and then:", counts)
    # A checkpoint was cut before its gate, and half 0 goes on.
    turned, device = courses.made_at(1, 1), courses.made_at(0, FEW)
    device.bytes[device.half(1) :] = turned.bytes[device.half(1) :]
    device.bytes[device.journal(1)] = CLOSED
    counts = try_gate(courses, device, device.half(1), CLOSED)
    check(counts == (FEW, {FEW}), "beside a checkpoint that was cut so many actions count:", counts)
    # The power failed before the half that stood was shut: both have the same plant.
    device = courses.made_at(1, 1)
    device.bytes[device.journal(1)], device.bytes[device.half(0)] = CLOSED, OPEN
    counts = try_gate(courses, device, device.half(1), OPEN)
    check({counts[0]} == counts[1], "of two open halves so many actions count, and then:", counts)


def try_gate(courses: Courses, device: SummedDevice, gate: int, value: int) -> tuple[int, set[int]]:
    """A gate has a value, and each bit of it flips. How many actions are shown, and then with any of the flips."""
    device.bytes[gate] = value
    openings = Openings(courses.program, courses.folder, bytes(device.bytes))
    shown = {openings.shown(((gate, bytes([value ^ 1 << bit])),)) for bit in range(8)}
    return count_of(openings.before), {count_of(one) for one in shown}


def said_of(what: str, counts: Counts) -> str:
    """How often each kind of change was told, left all as before, and was silent."""
    order = {part: place for place, part in enumerate(PARTS)}
    kinds = sorted({kind for kind, _ in counts}, key=lambda kind: (order.get(kind, len(order)), kind))
    cells = (
        " ".join([kind, *(f"{counts[kind, one]} {one}" for one in OUTCOMES if counts[kind, one])]) for kind in kinds
    )
    return f"{what}: " + "; ".join(cells)


def try_all(program: str, folder: str, is_short: bool) -> str:
    """Damages each device. What came of it, a line for each way."""
    total: dict[str, Counts] = {"bits": Counter(), "bytes": Counter(), "sectors": Counter()}
    fields = 0
    courses = Courses(program, folder)
    try_cut(courses)
    for worked in courses.worked():
        openings = Openings(program, folder, worked.bytes)
        for what, counts in try_device(worked, openings, is_short):
            total[what] += counts
        fields += try_fields(worked, openings)
    lines = [f"{fields} fields told where FORMAT has them", *(said_of(what, counts) for what, counts in total.items())]
    return "\nsummed_damage: ".join(lines)


def main() -> None:
    program, is_short, folder = begin("summed_damage", sys.argv, False, True)
    began = time.monotonic()
    try:
        said = try_all(program, folder, is_short)
    except Wrong as wrong:
        sys.exit(f"summed_damage: {wrong}; devices are in {folder}")
    finish("summed_damage", folder, f"{said}\nsummed_damage: {time.monotonic() - began:.0f} s")


if __name__ == "__main__":
    main()
