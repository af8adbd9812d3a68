"""What CONTRIBUTING and the page of the tests count of the tree. A part of pages.py."""
import re
import shlex
import subprocess
from pathlib import Path

import rules

TOP = Path(__file__).resolve().parents[2]
# `git grep` that counts files, and how many the page says: "some" is right to a twentieth.
GREP = re.compile(r"`(git grep [^`]*)`(?: shows some (\d+) files)?")
# How many crates a change of these makes, itself among them.
AMONG = re.compile(r"Of (\d+) crates that is ([^.]*)\.")
GROUP = re.compile(r"(\d+)(?: to (\d+))? for (alm_\w+(?:(?:, | and )alm_\w+)*)")
NAMED = re.compile(r"`((?:src|specs|proofs)/[\w/]+(?:\.rt|\.antt|/))`")
WORDS = {1: "one", 6: "six", 7: "seven", 8: "eight", 9: "nine", 10: "ten"}


def text_of(path):
    return path.read_text(encoding="utf-8")


def stands_on():
    """Each crate of crates.txt, and those on which it stands."""
    lines = (line.partition("#")[0].partition(":") for line in text_of(TOP / "crates.txt").splitlines())
    return {words.split()[0]: set(rest.split()) for words, colon, rest in lines if colon}


def with_above(name, below):
    """A crate, and all that stand on it."""
    found = {name}
    while more := {crate for crate, others in below.items() if crate not in found and found & others}:
        found |= more
    return found


def crates(found, page):
    """How many crates are proved again."""
    below, said = stands_on(), AMONG.search(page)
    found.check(said, "CONTRIBUTING.md doesn't say how many crates a change is of")
    total, groups = said.groups() if said else ("", "")
    found.check(total == str(len(below)), "CONTRIBUTING.md: there are", len(below), "crates")
    for least, most, names in GROUP.findall(groups):
        counts = [len(with_above(name, below)) for name in re.findall(r"alm_\w+", names)]
        right = (int(least), int(most or least)) == (min(counts), max(counts))
        found.check(right, "CONTRIBUTING.md: of", names, "are proved again", counts)
    tops = re.search(r"end with (alm_\w+) and (alm_\w+), on which no other crate stands", page)
    above = set().union(*(with_above(name, below) for name in tops.groups())) if tops else set()
    found.check(tops and above == set(tops.groups()), "CONTRIBUTING.md: on the last two crates stand", above)


def groups(found, _):
    """The groups of crates.txt, without the last one, are those of ARCHITECTURE."""
    page = text_of(TOP / "docs" / "develop" / "ARCHITECTURE.md")
    table = page.partition("| crate | does |\n|---|---|\n")[2].partition("\n\n")[0]
    drawn = [line.split("|")[1].strip().strip("*") for line in table.splitlines()]
    *blocks, tests = text_of(TOP / "crates.txt").split("\n\n")[1:]
    lines = [line for block in blocks for line in block.splitlines()]
    listed = [line.removeprefix("# ") if line[0] == "#" else line.split(":")[0].split()[0] for line in lines]
    found.check(
        listed == drawn, "crates.txt has other groups than docs/develop/ARCHITECTURE.md:", set(listed) ^ set(drawn)
    )
    found.check(tests.startswith("# Tests"), "crates.txt: its last group is that of tests")


def greps(found, page):
    """What a command of the page finds, and in how many files."""
    for command, number in GREP.findall(page):
        run = subprocess.run(shlex.split(command), cwd=TOP, capture_output=True, text=True, check=False)
        lines = len(run.stdout.splitlines())
        found.check(lines, "CONTRIBUTING.md: nothing is found by", command)
        if number:
            near = abs(lines - int(number)) <= int(number) / 20
            found.check(near, "CONTRIBUTING.md says", number, "files of", command, "which finds", lines)


def files(found, page):
    """The files that the tables name, in the crate of their row or in one that the row names."""
    crate = []
    for line in page.splitlines():
        first, _, rest = line.removeprefix("|").partition("|")
        if not line.startswith("|") or not rest:
            crate = []
            continue
        crate = re.findall(r"alm_\w+", first) or (crate if not first.strip() else [])
        for name in NAMED.findall(rest) if crate else ():
            places = [*crate, *re.findall(r"alm_\w+", rest)]
            there = any((TOP / "crates" / place / name).exists() for place in places)
            found.check(there, "CONTRIBUTING.md names", name, "which isn't in", *crate)


def bounds(found, page):
    """The bounds of files, and of wrong bodies a crate."""
    for text in (
        f"Lines of {rules.COLUMNS} columns, functions of {rules.FUNCTION} lines ",
        f"files of {rules.FILE}, of JavaScript {rules.SCRIPT}.",
    ):
        found.check(text in page, "CONTRIBUTING.md doesn't say:", text)
    most = max(len(list(folder.glob("*.edit"))) for folder in TOP.glob("crates/*/must-fail"))
    bound = next(number for number, word in WORDS.items() if f"at most {word} a crate" in page)
    found.check(most <= bound, "CONTRIBUTING.md: a crate has", most, "wrong bodies in the gate")


def models(found, page):
    """How many wrong models there are, and how many of them the gate tries."""
    tests = text_of(TOP / "tests" / "README.md")
    listed = tests.partition("\n## Wrong models\n")[2].partition("\n## ")[0]
    rows, patches = len(re.findall(r"^\| .* \| `\w+` \|$", listed, re.M)), len(list(TOP.glob("tests/models/*.patch")))
    found.check(rows == patches, "tests/README.md has", rows, "wrong models, and there are", patches)
    found.check(f"these {patches} was proved" in listed, "tests/README.md: there are", patches, "wrong models")
    gate = re.search(r"^GATE = \[\n(.*?)^\]", text_of(TOP / "tests" / "wrong_models.py"), re.M | re.S)[1]
    number = WORDS.get(len(gate.splitlines()), "?")
    found.check(f"{number} wrong models" in page, "CONTRIBUTING.md: the gate tries", number, "wrong models")
    found.check(f"first {number} are in the gate" in listed, "tests/README.md: the gate tries", number, "wrong models")


def counted(found):
    """All of these."""
    whole = text_of(TOP / "CONTRIBUTING.md")
    page = " ".join(whole.split())
    for look in (crates, groups, greps, bounds, models):
        look(found, page)
    files(found, whole)
