#!/usr/bin/env python3
"""Refuses each request for memory of the tests named `refused` in turn.

    tests/program/refused.py PROGRAM [--short]

These tests of the crates pass with ample memory in the gate, and have to pass as well where any one request is refused:
a maker answers a whole value or none, and what was refused goes on when it is asked again. `rt ci` leaves the programs
that run them. With --short at most 250 requests of a test are refused: of one that makes more every second, every third
or so on, from a place that its name draws.
"""
import glob
import os
import shutil
import subprocess
import sys
import time
import zlib

from lib.program import TESTS, Fault, Wrong, begin, check, counts, finish, preload

CRATES = os.path.join(TESTS, "..", "crates")


def run_test(program, name, loaded):
    """A test ends with status 0 where it passes, and says else where it stopped."""
    return subprocess.run([program, name], capture_output=True, env={**os.environ, **loaded}, timeout=120)


def programs():
    """The crates with such tests, each with the program of its tests."""
    for source in sorted(glob.glob(os.path.join(CRATES, "*_tests", "src", "refused.rt"))):
        crate = os.path.dirname(os.path.dirname(source))
        name = os.path.basename(crate)
        program = os.path.join(crate, "out", f"{name}_tests")
        yield name, os.path.abspath(program)


def names_in(program):
    """The full names of the tests that refuse."""
    listed = subprocess.run([program, "--list"], capture_output=True, text=True, check=True).stdout
    return [line.removesuffix(": test") for line in listed.splitlines() if line.startswith("refused::")]


def places(name, made, most):
    """The requests of a test that are refused: each, or evenly as many as may be, from a place that is drawn by its
    name."""
    step = -(-made // most)
    return range(1 + zlib.crc32(name.encode()) % step, made + 1, step)


def refuse_each(program, name, library, folder, most):
    """How many requests of a test were refused."""
    made = counts(program, library, [name], folder)["memory"]
    check(made > 0, name, "takes no memory")
    chosen = places(name, made, most)
    for at in chosen:
        fault = Fault(library, "memory", at, "enospc")
        run = run_test(program, name, fault.loaded)
        check(run.returncode == 0, name, "request", at, "of", made, run.stderr)
    return len(chosen)


def main():
    unbuilt = [crate for crate, program in programs() if not os.access(program, os.X_OK)]
    if unbuilt:
        print(f"refused: left out: rt ci hasn't built the tests of {', '.join(unbuilt)}")
        sys.exit(77)
    _, most, folder = begin("refused", sys.argv, sys.maxsize, 250)
    started = time.monotonic()
    library = preload(folder)
    tests = refused = 0
    try:
        for crate, program in programs():
            names = names_in(program)
            check(names, crate, "has no test named so")
            for name in names:
                tests += 1
                refused += refuse_each(program, name, library, folder, most)
    except Wrong as wrong:
        shutil.rmtree(folder)
        sys.exit(f"refused: {wrong}")
    finish(
        "refused",
        folder,
        f"{refused} requests for memory refused in {tests} tests, each passed, {time.monotonic() - started:.0f} s",
    )


main()
