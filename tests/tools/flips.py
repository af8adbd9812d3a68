#!/usr/bin/env python3
"""Flips bits of devices, and holds what the tools say of them against docs/develop/FORMAT.md, and against the program's
own fault lines.

    tests/tools/flips.py PROGRAM [--short]

- The page's example, with one byte changed as the page has it: alm_check says the page's fault. - Each bit of each gate
of a journal: alm_check sees all but those of the last frame. No power failure leaves what it calls damage: none of the
  images that a power failure in any call leaves, some of them in a checkpoint that goes out in pieces with commits
  between; and nothing that is read while a desk goes on.
- Drawn flips: alm_check names the place of the program's `fault damaged`, and else the plant that `show` shows. No tool
ends in another way than by a
  line and a status. The archive has the actions before the damage and no others.
- What alm_salvage brings onto a new device is what `show` showed at that action. - A served device that is damaged:
alm_check says so, also as metrics; alm_journal and the archive say a line, and go on after the next checkpoint.
"""
import os
import sys
import time

from lib.tools import Yard, end_all

import check_flips
import check_salvage
from lib.program import Wrong, begin, finish


def new_yard(program: str, folder: str, name: str) -> Yard:
    """A folder of its own for each check."""
    os.mkdir(os.path.join(folder, name))
    return Yard(program, os.path.join(folder, name))


def main() -> None:
    program, step, folder = begin("flips", sys.argv, 1, 10)
    began = time.monotonic()
    try:
        said = [
            check(new_yard(program, folder, check.__name__), step)
            for check in (*check_flips.CHECKS, *check_salvage.CHECKS)
        ]
    except Wrong as wrong:
        sys.exit(f"flips: {wrong}; devices are in {folder}")
    finally:
        end_all()
    finish("flips", folder, f"{'; '.join(said)}; none wrong, {time.monotonic() - began:.0f} s")


if __name__ == "__main__":
    main()
