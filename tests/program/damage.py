#!/usr/bin/env python3
"""Sets every byte of a device to 00, 01, A5 and FF in turn, and shows it.

    tests/program/damage.py PROGRAM [--short]

Each is shown whole, or refused with a fault line that has the place; it is never written to, and the program never ends
in another way. The format has no check sums, so a byte of an image that still fits its rules is shown as it stands:
those that change what is shown are counted.
"""
import collections
import multiprocessing
import os
import re
import sys
import time

from lib.program import Course, Fault, Wrong, begin, check, ends, finish, run_words

VALUES = (0x00, 0x01, 0xA5, 0xFF)


def is_place(name, size):
    """Whether a fault is one of an unformatted or damaged device, at a place in it."""
    if name == b"unformatted":
        return True
    found = re.fullmatch(rb"damaged [012] (\d+)", name)
    return bool(found) and int(found.group(1)) < size


def is_whole(text):
    """Whether all of a plant is shown."""
    return re.fullmatch(rb"NOW \d+ COUNT \d+ EPOCH \d+\n(ALARM .*\n){4}(P .*\n){4}(A .* FLOOD \d+ [01]\n){2}", text)


def try_byte(program, device, at, value, old, shown, size):
    """What opening says: shown as before, shown otherwise, or the fault's first word."""
    fault = Fault("", "byte", at, f"{value:02x}")
    with open(device, "r+b") as file:
        file.seek(at)
        file.write(bytes([value]))
    run = run_words(program, ["show", device])
    name = ends(run, fault, "show")
    check(is_whole(run.stdout) if name == b"" else is_place(name, size), fault.text, name, run.stdout)
    with open(device, "r+b") as file:
        file.seek(at)
        check(file.read(1) == bytes([value]), fault.text, "show wrote")
        file.seek(at)
        file.write(bytes([old]))
    if name:
        return name.split()[0].decode()
    return "shown as before" if run.stdout == shown else "shown otherwise"


def try_bytes(job):
    """The bytes of a device from one on, every so many: how often opening said what, or what is wrong."""
    program, folder, first, step = job
    device = os.path.join(folder, f"device{first}")
    with open(os.path.join(folder, "course"), "rb") as file:
        before = file.read()
    with open(device, "wb") as file:
        file.write(before)
    shown = run_words(program, ["show", device]).stdout
    found = collections.Counter()
    try:
        for at in range(first, len(before), step):
            for value in VALUES:
                found[try_byte(program, device, at, value, before[at], shown, len(before))] += 1
    except Wrong as wrong:
        return str(wrong)
    return found


def main():
    program, step, folder = begin("damage", sys.argv, 1, 41)
    started = time.monotonic()
    Course(program, folder, 5, 12)
    found, workers = collections.Counter(), os.cpu_count()
    jobs = [(program, folder, step * worker, step * workers) for worker in range(workers)]
    with multiprocessing.Pool(workers) as pool:
        for answer in pool.imap_unordered(try_bytes, jobs):
            if isinstance(answer, str):
                sys.exit(f"damage: {answer}; devices are in {folder}")
            found += answer
    told = ", ".join(f"{count} {word}" for word, count in sorted(found.items()))
    finish("damage", folder, f"{sum(found.values())} bytes changed: {told}, {time.monotonic() - started:.0f} s")


if __name__ == "__main__":
    main()
