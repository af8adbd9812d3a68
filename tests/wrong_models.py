#!/usr/bin/env python3
"""Tries the wrong models: each is proved in its own crates, code and definition together, and refused by alm_laws.

    tests/wrong_models.py            every model of tests/models/
    tests/wrong_models.py NAME ..    these
    tests/wrong_models.py --gate     the eight that the gate tries

A model is a patch of definitions, of the code that follows them, and of proofs about both. Its first line says what is
wrong, its second which law says otherwise. It is applied to a copy of the crates below alm_laws, where those that it
changes have to be proved. Each line of the table has that law, and how many others aren't proved there either: some say
otherwise too, some only share a proof with one that does. The last line is `N passed, N failed`. With status 1 a model
meets that law, isn't proved in its own crates, or no longer applies.
"""
import concurrent.futures
import re
import shutil
import subprocess
import sys
import tempfile
from pathlib import Path

TOP = Path(__file__).resolve().parent.parent
MODELS = TOP / "tests" / "models"
BELOW = ["alm_types", "alm_lists", "alm_state", "alm_model"]
LAWS = "alm_laws"
# In the gate: all of them met the laws that came before the ones that leave one model.
GATE = [
    "returned_acknowledged_asks_again",
    "a_latching_alarm_ends_by_itself",
    "no_acknowledgement_is_accepted",
    "no_high_alarm_comes",
    "every_shelving_lasts_its_longest",
    "out_of_service_never_ends",
    "priority_4_is_never_listed",
    "acknowledged_is_shown_normal",
]
# How many are tried at once: a check takes up to 2 GB.
AT_ONCE = 2
# What a check ends by where a crate below isn't proved.
BELOW_FAILED = "did not build"
NOT_PROVED = re.compile(r"^(?:fn|impl) alm_laws::(\S+): not proved", re.MULTILINE)
VERDICT = re.compile(r"^logic=(\S+)", re.MULTILINE)


def copied(room: Path) -> None:
    """Copies the crates that a model concerns, without their wrong bodies. What a model leaves as it is isn't proved
    again."""
    left_out = shutil.ignore_patterns("must-fail", "wrong")
    for crate in [*BELOW, LAWS]:
        shutil.copytree(TOP / "crates" / crate, room / "crates" / crate, ignore=left_out)
    lines = (TOP / "crates.txt").read_text(encoding="utf-8").splitlines()
    listed = [line for line in lines if line.partition(":")[0] in [*BELOW, LAWS]]
    (room / "crates.txt").write_text("".join(f"{line}\n" for line in listed), encoding="utf-8")
    shutil.copy(TOP / "HANDLES", room)


def run(words: list[str], folder: Path) -> subprocess.CompletedProcess[str]:
    """A command in a folder, with its errors among its output."""
    return subprocess.run(words, cwd=folder, text=True, stdout=subprocess.PIPE, stderr=subprocess.STDOUT, check=False)


def checked(room: Path, crate: str) -> str:
    """What a check of a crate prints."""
    return run(["rt", "check"], room / "crates" / crate).stdout


def touched(patch: Path) -> list[str]:
    """The crates that a model changes, and those between them and the laws, lowest first."""
    changed = set(re.findall(r"^\+\+\+ b/crates/(\w+)/", patch.read_text(encoding="utf-8"), re.MULTILINE))
    first = min(BELOW.index(crate) for crate in changed)
    return [crate for crate in BELOW[first:] if crate != "alm_lists"]


def said(patch: Path) -> tuple[str, str]:
    """What is wrong with a model, and the law against it."""
    says, against, *_ = patch.read_text(encoding="utf-8").splitlines()
    return says, against.removeprefix("Against: ")


def tried(patch: Path, room: Path) -> tuple[bool, str]:
    """Whether the law against a model refuses it where it is proved, and what came of it."""
    applied = run(["patch", "-p1", "-s", "-f", "-i", str(patch)], room)
    if applied.returncode != 0:
        return False, "no longer applies: " + applied.stdout.strip().replace("\n", " ")
    for crate in touched(patch):
        told = checked(room, crate)
        if VERDICT.findall(told)[-1:] != ["proved"] or BELOW_FAILED in told:
            return False, f"isn't proved in {crate}"
    told = checked(room, LAWS)
    refused = set(NOT_PROVED.findall(told))
    _, against = said(patch)
    if against not in refused:
        return False, f"meets {against}; refused by {len(refused)} others"
    return True, f"`{against}`, {len(refused) - 1} others"


def row(patch: Path) -> tuple[bool, str]:
    """Whether the law against a model refuses it, and its row of the table."""
    with tempfile.TemporaryDirectory() as folder:
        copied(Path(folder))
        refused, by = tried(patch, Path(folder))
    return refused, f"| {said(patch)[0]} | {'' if refused else 'NOT REFUSED: '}{by} |"


def main() -> int:
    named = GATE if sys.argv[1:] == ["--gate"] else sys.argv[1:]
    patches = [MODELS / f"{name}.patch" for name in named] or sorted(MODELS.glob("*.patch"))
    missing = [patch.stem for patch in patches if not patch.exists()]
    if missing or not patches:
        print(f"wrong_models.py: no such model: {' '.join(missing)}", file=sys.stderr)
        return 2
    failed = 0
    print("| wrong model | the law that refuses it |\n|---|---|", flush=True)
    with concurrent.futures.ThreadPoolExecutor(AT_ONCE) as pool:
        for refused, line in pool.map(row, patches):
            failed += not refused
            print(line, flush=True)
    print(f"{len(patches) - failed} passed, {failed} failed")
    return 1 if failed else 0


if __name__ == "__main__":
    sys.exit(main())
