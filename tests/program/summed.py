#!/usr/bin/env python3
"""A device of version 02 is spelled as one of version 03, by docs/develop/FORMAT.md alone, and shown.

    tests/program/summed.py PROGRAM [--short]

The same plant is shown. A half of another version under that header is refused at its mark. The desk goes on from such
a device with the same replies, and what it writes is spelled so too. `format` makes it, and of no other version but 02.
What becomes of it under damage, summed_damage.py tries.
"""
import os
import sys

from lib.program import PLANT, Course, Fault, begin, check, ends, finish, run_words
from lib.summed_device import HEADER, MARK_03, SummedDevice

MARK_02 = 2


def shown(program: str, device: SummedDevice, path: str) -> bytes:
    """What is shown of a device, or the fault's words."""
    device.write(path)
    run = run_words(program, ["show", path])
    name = ends(run, Fault("", "show", 0, ""), "show")
    return name or run.stdout


def try_marks(program: str, device: SummedDevice, path: str) -> None:
    """Header and half go together."""
    told = f"damaged 0 {HEADER + 9}".encode()
    for name, mark in (("3", MARK_02), ("3", 0), ("2", MARK_03), ("1", MARK_03)):
        device.bytes[8], device.bytes[HEADER + 9] = ord(name), mark
        said = shown(program, device, path)
        check(said == told, f"version 0{name} with mark {mark}:", said)
    device.bytes[8], device.bytes[HEADER + 9] = ord("3"), MARK_03


def goes_on(program: str, course: Course, path: str) -> None:
    """The desk does the whole course over a fresh device of version 03, and spells it as this script does."""
    fresh = SummedDevice(course.fresh)
    fresh.spell_03()
    os.remove(path)
    run = run_words(program, ["format", path, PLANT, "--version", "03"])
    check(run.returncode == 0 and run.stdout == b"formatted 4 2 4116\n", "format", run.stdout, run.stderr)
    check(SummedDevice(path).bytes == fresh.bytes, "format spells 03 otherwise than FORMAT.md")
    run = run_words(program, ["desk", path], lines=b"".join(course.lines))
    check(run.returncode == 0 and run.stdout == b"".join(course.replies), "the desk over 03:", run.stdout, run.stderr)
    written, spelled = SummedDevice(path), SummedDevice(os.path.join(course.folder, "course"))
    answered = zip(course.lines, course.replies)
    slots = [int(line.split()[0]) for line, reply in answered if b"OK" in reply.split()]
    check(len(set(slots)) > 1, "few slots asked:", slots)
    spelled.spell_03(slots)
    end = written.frames(True)[-1][1]
    check(written.bytes[: end + 1] == spelled.bytes[: end + 1], "the desk spells 03 otherwise than FORMAT.md")


def try_names(program: str, path: str) -> None:
    """Versions that `format` doesn't make, and no version, which is 02."""
    for words in (["--version", "01"], ["--version", "3"], ["--version", "04"], ["--version", ""], ["--version"]):
        run = run_words(program, ["format", path, PLANT, *words])
        check((run.returncode, run.stderr) == (1, b"fault usage\n"), words, run.returncode, run.stderr)
    for words in ([], ["--version", "02"]):
        run = run_words(program, ["format", path, PLANT, *words])
        with open(path, "rb") as file:
            name = file.read(9)[1:]
        check(run.returncode == 0 and name == b"ALMSRV02", words, run.returncode, name)


def main() -> None:
    program, count, folder = begin("summed", sys.argv, 40, 20)
    course, path = Course(program, folder, 5, count), os.path.join(folder, "summed")
    device = SummedDevice(os.path.join(folder, "course"))
    before = shown(program, device, path)
    device.spell_03()
    check(shown(program, device, path) == before, "version 03 shows another plant")
    check(device.frames(True), "the lines made no frame")
    try_marks(program, device, path)
    goes_on(program, course, path)
    try_names(program, path)
    finish("summed", folder, f"a device with {len(device.frames(True))} frames, as FORMAT spells it")


if __name__ == "__main__":
    main()
