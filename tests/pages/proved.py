#!/usr/bin/env python3
"""Writes the table of docs/proof/CLAIMS.md from the lines under `Proved:` in the root file of each crate.

    tests/pages/proved.py             whether the page has that table
    tests/pages/proved.py --write     writes it

A line is a claim, and in brackets the public calls or laws whose contracts carry it. The page has the first claim of a
crate, or those of CHOSEN, each with the first call that carries it; the root file has all.
"""
import re
import sys
from pathlib import Path

TOP = Path(__file__).resolve().parents[2]
PAGE = TOP / "docs" / "proof" / "CLAIMS.md"
# How each claim begins that stands on the page in place of its crate's first one; none, if what a crate is for is said
# by the claims of those above it, or by another page.
CHOSEN = {
    "alm_laws": ["of core states, alarms and plants", "no active alarm is hidden"],
    "alm_desk_laws": ["OK answers exactly"],
    "alm_links": [],
    "alm_wheel": [],
    "alm_measure": [],
    "alm_export": [],
    "alm_progress": [],
    "alm_wake": [],
    "alm_history": [],
    "alm_moments": [],
    "alm_keeper": ["a crash at any moment of a commit", "opening returns the plant"],
    "alm_shared": ["a look of the threads", "**what a look answers", "**what a receipt reports"],
    "alm_flush": ["a verdict is released only if"],
    "alm_threads": [
        "of a run that ended",
        "**that history answers each",
        "**single calls led from",
        "**that prefix reaches",
        "**all that was sent and received",
        "**a run that isn't whole",
    ],
    "alm_serve": [
        "over any wire a slot's service",
        "**of an open store and its ports",
        "**of each connection of",
        "what the server writes",
        "**from a plant that an image",
    ],
}
LISTED = re.compile(r"^//! Proved:\n((?://!.*\n)*)", re.MULTILINE)
CLAIM = re.compile(r"(.*) \(by (.*)\)")
# Where the table stands on the page: after the first line and before the second.
BEGIN, END = "table from there.\n", "\nThe rows of alm_threads and alm_serve"


def root(crate):
    """The root file of a crate."""
    source = TOP / "crates" / crate / "src"
    return next(path for path in (source / "lib.rt", source / "main.rt") if path.exists())


def claims(crate):
    """Each claim of a crate, with what carries it."""
    listed = LISTED.search(root(crate).read_text(encoding="utf-8"))
    lines = "" if listed is None else "".join(line.removeprefix("//!") for line in listed[1].split("\n"))
    for item in lines.split(" - ")[1:]:
        found = CLAIM.fullmatch(" ".join(item.split()))
        if found is None:
            sys.exit(f"proved.py: {crate}: no claim in brackets at the end of: {item}")
        yield found.groups()


def groups():
    """The groups of crates.txt by their titles, with the crates of each of which anything is claimed."""
    found, title = {}, ""
    for line in (TOP / "crates.txt").read_text(encoding="utf-8").splitlines():
        if line.startswith("# "):
            title = line.removeprefix("# ")
        elif line and LISTED.search(root(crate := line.split(":")[0].split()[0]).read_text(encoding="utf-8")):
            found.setdefault(title, []).append(crate)
    return found


def crates():
    """The crates of which anything is claimed, in the order of the page."""
    return [crate for group in groups().values() for crate in group]


def chosen(crate):
    """Each claim of a crate that stands on the page, with what carries it."""
    every = list(claims(crate)) or sys.exit(f"proved.py: {crate}: its root file claims nothing")
    for begins in CHOSEN.get(crate, [every[0][0]]):
        found = [(claim, by) for claim, by in every if claim.startswith(begins)]
        if len(found) != 1:
            sys.exit(f"proved.py: {crate}: {len(found)} claims begin: {begins}")
        yield from found


def shortened(by):
    """The first call of those that carry a claim."""
    first, *others = by.split(", ")
    return first + " .." * bool(others)


def table():
    """The table, each group of crates after its title."""
    yield "\n| crate | what is proved | by |\n|---|---|---|\n"
    for title, group in groups().items():
        yield f"| **{title}** | | |\n"
        for crate in group:
            yield from (f"| {crate} | {claim} | {shortened(by)} |\n" for claim, by in chosen(crate))


def page():
    """The page, its table made again."""
    before, _, rest = PAGE.read_text(encoding="utf-8").partition(BEGIN)
    _, _, after = rest.partition(END)
    return before + BEGIN + "".join(table()) + END + after


def main():
    if sys.argv[1:] == ["--write"]:
        PAGE.write_text(page(), encoding="utf-8")
    elif page() != PAGE.read_text(encoding="utf-8"):
        sys.exit("proved.py: docs/proof/CLAIMS.md isn't what the crates say: tests/pages/proved.py --write")
    else:
        print(f"proved.py: docs/proof/CLAIMS.md has the claims of {len(crates())} crates, as their root files say")


if __name__ == "__main__":
    main()
