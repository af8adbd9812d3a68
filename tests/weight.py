#!/usr/bin/env python3
"""What the gate costs: processor minutes of each crate, of its proof, its tests and its wrong bodies.

    tests/weight.py [COMMAND ..]      while this runs; without one `rt ci`

Looks twice a second at the prover's processes, of any folder, so nothing else may prove meanwhile. A process that lives
for less isn't seen. Prints a line for each crate, the heaviest first, and the sum; then the wrong bodies of the gate
that took longest. Its status is the command's.
"""
import os
import subprocess
import sys
import time
from pathlib import Path

TOP = Path(__file__).resolve().parent.parent
PERIOD = 0.5
KINDS = ("proof", "tests", "wrong bodies")
# How the folders are called in which `rt` tries wrong bodies, and how many of these are printed.
TRIED, HEAVIEST = "rt-edit-", 12
PER_SECOND = os.sysconf("SC_CLK_TCK")


def words_of(process: Path) -> list[str]:
    """A process' command line; empty where it has ended."""
    try:
        return (process / "cmdline").read_bytes().decode(errors="replace").split("\0")
    except OSError:
        return []


def seconds_of(process: Path) -> float:
    """Processor seconds of a process; 0 where it has ended."""
    try:
        fields = (process / "stat").read_text(encoding="utf-8").rpartition(")")[2].split()
    except OSError:
        return 0.0
    return (int(fields[11]) + int(fields[12])) / PER_SECOND


def place_of(process: Path) -> str:
    """The folder in which a process runs; empty where it has ended."""
    try:
        return os.readlink(process / "cwd")
    except OSError:
        return ""


def changed(crate: Path, lines: list[str]) -> dict[str, str]:
    """A crate's files as the lines of a wrong body change them."""
    texts, name, old = {}, "", ""
    for kind, _, said in (line.partition(": ") for line in lines):
        if kind == "file":
            name = said
            texts.setdefault(name, (crate / name).read_text(encoding="utf-8"))
        elif kind == "old":
            old = said
        elif kind == "new":
            texts[name] = texts[name].replace(old, said)
    return texts


def edit_of(crate: str, room: str) -> str:
    """The wrong body that is tried in a folder; empty where it is none of this repository, or the crate as it is."""
    folder = TOP / "crates" / crate
    for edit in sorted(folder.glob("must-fail/*.edit")):
        try:
            texts = changed(folder, edit.read_text(encoding="utf-8").splitlines())
            if all(Path(room, name).read_text(encoding="utf-8") == text for name, text in texts.items()):
                return edit.stem
        except OSError:
            pass
    return ""


def account_of(process: Path) -> tuple[str, str] | None:
    """The crate and the kind to whose account a process goes; none where it is no prover."""
    words = words_of(process)
    if not words or Path(words[0]).name != "rattle" or "--crate-name" not in words:
        return None
    crate = words[words.index("--crate-name") + 1]
    if Path(place_of(process)).name.startswith(TRIED):
        return crate, "wrong bodies"
    return crate, "tests" if "--test" in words else "proof"


class Weights:
    """Processor seconds by crate and kind. A process counts by the last look at it."""

    def __init__(self) -> None:
        self.accounts: dict[str, tuple[str, str]] = {}
        self.seconds: dict[str, float] = {}
        self.edits: dict[str, str] = {}

    def look(self) -> None:
        """Looks at each process that there is now."""
        for process in Path("/proc").glob("[0-9]*"):
            account = account_of(process)
            if account:
                began = f"{process.name} {account}"
                self.accounts[began] = account
                if account[1] == KINDS[-1] and began not in self.edits:
                    self.edits[began] = edit_of(account[0], place_of(process))
                self.seconds[began] = max(self.seconds.get(began, 0.0), seconds_of(process))

    def of(self, crate: str | None) -> list[float]:
        """Seconds of a crate, or of all, by kind."""
        sums = dict.fromkeys(KINDS, 0.0)
        for began, (name, kind) in self.accounts.items():
            if crate in (None, name):
                sums[kind] += self.seconds[began]
        return list(sums.values())

    def table(self) -> str:
        """The lines of the table, in minutes."""
        crates = {crate: self.of(crate) for crate in {crate for crate, _ in self.accounts.values()}}
        rows = sorted(crates.items(), key=lambda one: -sum(one[1]))
        head = f"| crate | {' | '.join(KINDS)} | sum |\n|{'---|' * (len(KINDS) + 2)}"
        return "\n".join([head, *(line(name, cells) for name, cells in [*rows, ("all", self.of(None))])])

    def heaviest(self) -> str:
        """The lines of the wrong bodies that took longest, in minutes."""
        sums: dict[str, float] = {}
        for began, edit in self.edits.items():
            if edit:
                name = f"{self.accounts[began][0]}/{edit}"
                sums[name] = sums.get(name, 0.0) + self.seconds[began]
        rows = sorted(sums.items(), key=lambda one: -one[1])[:HEAVIEST]
        return "\n".join(
            ["| wrong body | minutes |\n|---|---|", *(f"| {name} | {sum / 60:.1f} |" for name, sum in rows)]
        )


def line(name: str, cells: list[float]) -> str:
    """A line of the table."""
    return f"| {name} | {' | '.join(f'{cell / 60:.1f}' for cell in [*cells, sum(cells)])} |"


def main() -> int:
    weights, began = Weights(), time.monotonic()
    with subprocess.Popen(sys.argv[1:] or ["rt", "ci"], cwd=TOP) as command:
        while command.poll() is None:
            weights.look()
            time.sleep(PERIOD)
    print(weights.table())
    if any(weights.edits.values()):
        print(weights.heaviest())
    print(f"{(time.monotonic() - began) / 60:.0f} minutes")
    return command.returncode


if __name__ == "__main__":
    sys.exit(main())
