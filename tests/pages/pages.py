#!/usr/bin/env python3
"""Checks what the pages say that can be counted or looked up.

    tests/pages/pages.py

Each link to a file of the repository leads to one, and to a heading of it where it names one. Each block of Rust that a
page of docs/ quotes stands in a source, whatever its spaces. The counts of wrong bodies and of crates below the program
are the tree's, and of what was checked by reading the list's; so are those of CONTRIBUTING and the files that it names
(counted.py). The sums of
docs/proof/BELIEVED.md stand in docs/proof/README.md. Each call that a root file names as carrying a claim is in the
code of its crate or of those below it. docs/ALARMS.md has each law. Each wrong body and each wrong model applies:
`rt ci` passes over a body that doesn't. A body changes code alone, but in the crates of laws, which have none.
"""
import re
import sys
from pathlib import Path

import proved as root_files
from counted import WORDS, counted

TOP = Path(__file__).resolve().parents[2]
PROOF = TOP / "docs" / "proof"

# Crates of laws: these have no code.
LAWS = ("alm_laws", "alm_desk_laws")
LAW = re.compile(r"^pub fn (\w+)", re.MULTILINE)
PAGES = sorted(
    [
        *TOP.glob("*.md"),
        *TOP.glob("docs/**/*.md"),
        *TOP.glob("tests/*.md"),
        *TOP.glob("examples/*.md"),
        *TOP.glob("tools/*.md"),
        *TOP.glob("deploy/*.md"),
        *TOP.glob("bench/*.md"),
    ]
)
LINK = re.compile(r"\[[^\]]*\]\(([^)\s]+)\)")
RUST = re.compile(r"```rust\n(.*?)```", re.DOTALL)
FENCE = re.compile(r"```.*?```", re.DOTALL)
COMMENT = re.compile(r"//.*")
QUOTED = re.compile(r"`([A-Za-z_][A-Za-z_0-9:]*)`")


class Found:
    """What is wrong, and how much was looked at."""

    def __init__(self):
        self.wrong, self.looked = [], 0

    def check(self, holds, *said):
        self.looked += 1
        if not holds:
            self.wrong.append(" ".join(str(word) for word in said))


def text_of(path):
    return path.read_text(encoding="utf-8")


def anchors(path):
    """The names that the headings of a page have as targets of links."""
    headings = re.findall(r"^#+ (.*)$", FENCE.sub("", text_of(path)), re.MULTILINE)
    return {re.sub(r"[^\w\- ]", "", heading.lower()).replace(" ", "-") for heading in headings}


def links_of(page):
    """Each link of a page to a file: where that has to be, the heading that is named, and the link."""
    for link in LINK.findall(FENCE.sub("", text_of(page))):
        name, _, anchor = link.partition("#")
        if "://" not in link:
            yield (page.parent / name).resolve() if name else page, anchor, link


def links(found):
    for page in PAGES:
        for target, anchor, link in links_of(page):
            said = page.relative_to(TOP), "links to", link
            found.check(target.exists(), *said, "which isn't there")
            if anchor and target.suffix == ".md" and target.exists():
                found.check(anchor in anchors(target), *said, "which has no such heading")


def bare(text):
    return re.sub(r"\s+", "", text)


def quotes(found):
    sources = [bare(text_of(path)) for path in TOP.glob("crates/*/src/**/*.rt")]
    for page in TOP.glob("docs/**/*.md"):
        for quote in RUST.findall(text_of(page)):
            found.check(
                any(bare(quote) in source for source in sources),
                page.name,
                "quotes what stands in no source:",
                quote.strip().splitlines()[0],
            )


def crates_below(name):
    """The crates of crates.txt on which one stands, and itself."""
    below = {}
    for line in text_of(TOP / "crates.txt").splitlines():
        words, colon, rest = line.partition("#")[0].partition(":")
        if colon:
            below[words.split()[0]] = rest.split()
    seen, left = set(), [name]
    while left:
        crate = left.pop()
        if crate in below and crate not in seen:
            seen.add(crate)
            left += below[crate]
    return seen


def counts(found):
    readme = text_of(TOP / "README.md")
    in_gate, beside = len(list(TOP.glob("crates/*/must-fail/*.edit"))), len(list(TOP.glob("crates/*/wrong/*.edit")))
    found.check(f"each of {in_gate} wrong bodies" in readme, "README.md: the gate has", in_gate, "wrong bodies")
    found.check(
        f"{beside} more stand beside the gate" in readme, "README.md:", beside, "wrong bodies stand beside the gate"
    )
    crates = len(crates_below("alm_server"))
    found.check(
        f"it proves {crates} crates" in readme, "README.md: the program stands on", crates, "crates, itself among them"
    )
    section = text_of(PROOF / "README.md").partition("\n## Checked by reading\n")[2].partition("\n## ")[0]
    number = WORDS.get(len(re.findall(r"^\d+\. ", section, re.MULTILINE)), "?").capitalize()
    for page in (readme, text_of(TOP / "docs" / "START.md")):
        said = f"{number} things that no clause says of the program were" in " ".join(page.split())
        found.check(said, "README.md and docs/START.md: checked by reading were", number, "things")


def promise(found):
    """README quotes what START promises."""
    quoted = re.findall(r"^> .*$", text_of(TOP / "README.md"), re.MULTILINE)
    found.check(quoted, "README.md promises nothing")
    for line in quoted:
        found.check(line in text_of(TOP / "docs" / "START.md"), "docs/START.md doesn't promise:", line)


def waits(found):
    """The page of the theorems has the number of functions below the server that may wait, and each without an end."""
    page = text_of(PROOF / "README.md")
    listed = (line.split("#")[0] for line in text_of(TOP / "crates.txt").splitlines())
    heads = [line.split(":")[0].split() for line in listed if ":" in line]
    below = crates_below("alm_server")
    words = (word for name, *words in heads if name in below for word in words)
    number = sum(int(word.partition("=")[2]) for word in words if word.startswith("may_wait="))
    found.check(f"on {number} such functions" in page, "proof/README.md: the server stands on", number, "that may wait")
    for crate in sorted(below):
        for path in TOP.glob(f"crates/{crate}/src/**/*.rt"):
            for before in text_of(path).split(".forever()")[:-1]:
                name = re.findall(r"\bfn (\w+)", before)[-1]
                found.check(f"`{name}`" in page, "proof/README.md doesn't name", name, "of", crate, "which has no end")


def edits(found):
    """Each wrong body applies to its files, in each of which an old text stands once, and it changes no contract."""
    for edit in sorted([*TOP.glob("crates/*/must-fail/*.edit"), *TOP.glob("crates/*/wrong/*.edit")]):
        crate = edit.parent.parent
        where, name, source, old = f"{crate.name}/{edit.parent.name}/{edit.name}", "", "", ""
        for kind, _, text in (line.partition(": ") for line in text_of(edit).split("\n")):
            if kind == "file":
                name, source = text, text_of(crate / text) if (crate / text).is_file() else ""
                found.check(name.startswith("src/") or crate.name in LAWS, where, "changes what isn't code:", name)
            elif kind == "old":
                old = text
                found.check(
                    source.count(old) == 1,
                    where,
                    "has an old text that stands",
                    source.count(old),
                    "times in",
                    f"{name}:",
                    old,
                )
                found.check(not old.strip().startswith(("ensures ", "requires ")), where, "changes a contract:", old)
            elif kind == "new":
                source = source.replace(old, text)


def believed(found):
    """The sums of docs/proof/BELIEVED.md stand in docs/proof/README.md."""
    page = text_of(PROOF / "BELIEVED.md")
    theorems = " ".join(text_of(PROOF / "README.md").split())
    for total in re.findall(r"\d+ files, \d+ definitions, \d+ lines", page):
        found.check(total in theorems, "docs/proof/README.md doesn't say", total)


def claims(found):
    """The calls that carry the claims of each root file, each in the code of its crate or of those below it."""
    for claimed in root_files.crates():
        source = COMMENT.sub(
            "",
            "".join(
                text_of(path) for crate in crates_below(claimed) for path in TOP.glob(f"crates/{crate}/src/**/*.rt")
            ),
        )
        for word in {
            word for _, by in root_files.claims(claimed) for name in QUOTED.findall(by) for word in name.split("::")
        }:
            found.check(
                re.search(rf"\b{word}\b", source), "the root file of", claimed, "names as what carries a claim:", word
            )


def laws(found):
    """Each law of the alarm model stands on docs/ALARMS.md, and each word in code on that page that reads as one is a
    law."""
    every = {law for path in TOP.glob("crates/alm_laws/src/*.rt") for law in LAW.findall(text_of(path))}
    page = set(re.findall(r"`([a-z_0-9]+)`", text_of(TOP / "docs" / "ALARMS.md")))
    found.check(page == every, "docs/ALARMS.md and the laws of alm_laws differ in", " ".join(sorted(page ^ every)))


def models(found):
    """Each wrong model names a law of alm_laws, and applies: what it takes away stands in its files."""
    every = {
        f"{path.stem}::{law}" for path in TOP.glob("crates/alm_laws/src/*.rt") for law in LAW.findall(text_of(path))
    }
    for patch in sorted(TOP.glob("tests/models/*.patch")):
        head, *files = re.split(r"^--- a/.*\n", text_of(patch), flags=re.MULTILINE)
        against = head.splitlines()[1].removeprefix("Against: ")
        found.check(against in every, patch.name, "names what is no law:", against)
        for file in files:
            name, *hunks = re.split(r"^@@ .*\n", file, flags=re.MULTILINE)
            name = name.removeprefix("+++ b/").strip()
            for hunk in hunks:
                old = "".join(f"{line[1:]}\n" for line in hunk.splitlines() if line[:1] in (" ", "-"))
                found.check(old in text_of(TOP / name), patch.name, "no longer applies to", name)


def main():
    found = Found()
    for look in (links, quotes, counts, promise, waits, edits, believed, claims, laws, models, counted):
        look(found)
    if found.wrong:
        sys.exit("\n".join(f"pages.py: {wrong}" for wrong in found.wrong))
    print(f"pages.py: {found.looked} links, quotes, counts and names of the pages, none wrong")


if __name__ == "__main__":
    main()
