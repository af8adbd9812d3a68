"""Each bit of a device flipped, and drawn ones. tests/tools/flips.py runs these checks."""
import random
import subprocess
from typing import Iterator, Optional
from damaged_devices import EARLIER, FLIPS, Place, WIDE, content_of, fault_of, flipped, gates, read, standing, written
from lib.tools import Yard
from damaged_tools import archived, look_all
from alarms.judging import Reading
from lib.places import EXAMPLES
from lib.program import PLANT, Desk, check, draw_lines, run_words
from lib.tools import toml


def plants(yard: Yard) -> Iterator[str]:
    """Devices of several kinds: frames of one action and of many, one and several areas, each version."""
    for seed, table in ((1, PLANT), (2, str(EXAMPLES / "refinery.toml")), (3, yard.write("wide.toml", toml(WIDE)))):
        device = yard.format(f"drawn{seed}.device", table)
        lines = draw_lines(seed, 400)
        run_words(yard.program, ["desk", device], lines=b"".join(lines[:300]))
        with Desk(yard.program, device) as desk:
            for line in lines[300:]:
                desk.ask(line)
        yield device
    yield written(yard, "earlier.device", content_of(str(EARLIER)))


def each_bit(yard: Yard, step: int) -> str:
    """Each bit of the header, of the gates and heads of the halves, of the alarms in the image that stands, and of the
    last frames of its journal."""
    device = next(plants(yard))
    before, done = content_of(device), 0
    place, half, ends = Place.of(before), standing(before), gates(before)
    alarms, journal = place.half(half) + 25 + 16 + 4801 * place.areas, place.frames(half)
    heads = [range(at, at + 25) for at in (place.half(0), place.half(1))]
    fields = [range(23), *heads, range(alarms, journal), range(ends[-3][0], ends[-1][0] + 1)]
    bits = [(at, bit) for field in fields for at in field for bit in range(8)]
    for at, bit in bits[::step]:
        path = written(yard, "flip.device", flipped(before, at, bit))
        judge_flip(run_words(yard.program, ["show", path]), read(path), f"bit {bit} of byte {at} of {device}")
        done += 1
    return f"{done} bits of header, heads, alarms and frames"


def places(device: bytes, dice: random.Random) -> int:
    """A place to flip: where the server reads, in the header, or anywhere."""
    place, half = Place.of(device), standing(device)
    read_from, read_to = place.half(half), gates(device)[-1][0] + 1
    journal = place.frames(half)
    anywhere = [dice.randrange(len(device)) for _ in range(2)]
    return dice.choice(
        [dice.randrange(read_from, journal), dice.randrange(journal, read_to), dice.randrange(23), *anywhere]
    )


def drawn_flips(yard: Yard, step: int) -> str:
    """A bit is flipped: alm_check says what the program says, and each tool ends by a line and a status."""
    dice, damaged, seen, devices = random.Random(80), 0, 0, list(plants(yard))
    rows = [archived(yard, device)[2] for device in devices]
    for number in range(FLIPS // step):
        before = content_of(devices[number % len(devices)])
        at, bit = places(before, dice), dice.randrange(8)
        path = written(yard, "flip.device", flipped(before, at, bit))
        run, reading = run_words(yard.program, ["show", path]), read(path)
        judge_flip(run, reading, f"bit {bit} of byte {at} of {devices[number % len(devices)]}")
        damaged += run.returncode != 0
        seen += reading is not None and reading.closed is not None
        look_all(yard, path, reading, rows[number % len(devices)])
    return (
        f"{FLIPS // step} drawn flips, {damaged} refused by the program, and by alm_check at the same place;"
        f" {seen} closed gates seen besides"
    )


def judge_flip(run: subprocess.CompletedProcess, reading: Optional[Reading], flip: str) -> None:
    """Holds a reading against what `show` says."""
    if reading is None:
        check(run.stderr == b"fault unformatted\n", flip, "isn't formatted to alm_check, and to the program", run)
    elif reading.damage:
        check(run.stderr.decode() == fault_of(reading), flip, "is", reading.damage, "and to the program", run.stderr)
    else:
        shown = reading.judged.plant.show(reading.judged.head.epoch)
        check(
            run.returncode == 0 and run.stdout.decode() == shown,
            flip,
            "is whole to alm_check, and the program says",
            run.stderr,
            run.stdout[:80],
        )
