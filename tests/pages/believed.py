#!/usr/bin/env python3
"""Writes what a reader of the theorems has to believe: the definitions to which their contracts unfold, by name.

    tests/pages/believed.py             whether docs/proof/BELIEVED.md is that; and which files no claim needs
    tests/pages/believed.py --write     writes the page
    tests/pages/believed.py --names     the same for each theorem apart
    tests/pages/believed.py --mark      begins each of these files with the line that says so
    tests/pages/believed.py CRATE.FILE:NAME ..     what these definitions unfold to

The words of a claim are read from the contract of its call. A call without one, and a word that its file doesn't
define, is a fault.
"""
import re
import sys
from pathlib import Path

import proved

TOP = Path(__file__).resolve().parents[2]
CRATES, PAGE = TOP / "crates", TOP / "docs" / "proof" / "BELIEVED.md"
# The crate of each call, whose contract's words are read from its code. After it, words that a type which the call
# names says besides.
CLAIMS = {
    "The program's own file: `serve_file`": [
        "alm_server",
        "alm_file.Replay:IsHonestFile",
        "alm_file.Replay:replayed_state",
        "alm_file.Noted:IsNoted",
    ],
    "A desk over such a file: `run_device_desk`": ["alm_program"],
    "The server: `serve_ports`": ["alm_serve"],
    "A server's run: `serve_store`": ["alm_serve", "alm_threads.Answered:AllAnswered"],
    "The server's threads: `run_with_bells`": ["alm_threads", "alm_threads.Answered:AllAnswered"],
    "A receipt and a look: `what_is_told_stays_stored`": ["alm_shared", "alm_moments.Moments:AreHeld"],
    "Any number of outages: `what_was_told_outlasts_outages`": ["alm_threads"],
    "One thread: `life`": ["alm_bench"],
}
LAWS = ["alm_laws", "alm_progress"]
MARK = "-- For the proofs.\n"
# The theorem that takes an hour, by its title.
FIRST = "A receipt and a look: `what_is_told_stays_stored`"
HEAD = """# What to believe

Whoever believes these definitions, and the Rust types that they name, need not read the code to know what [the theorems](README.md) say.
[DEFINITIONS](DEFINITIONS.md) says what each file is for. The page is made by `tests/pages/believed.py`, which with `--names` prints it for each theorem
apart. A case or a field counts as the definition that it belongs to.

## How much

| | contract | unfolds to |
|---|---|---|
"""
BEGINS = re.compile(r"\s*(?:(?:pub|abbrev|unfoldable|opaque) )*(?:(?:pub|abbrev|unfoldable|opaque|record|data) )(\S+)")
IMPORT = re.compile(r"\s*use Rattle\.(alm_\w+)\.specs\.(\w+)\.\{(.*)\}")
WORD = re.compile(r"[^\s(){}\[\];,.]+")
GHOST = re.compile(r"^\s*ghost use Rattle\.(alm_\w+)\.specs\.(\w+)\.\{(.*?)\}", re.MULTILINE | re.DOTALL)
# A call and its clauses: they are indented deeper than it, and its body begins at its own depth.
CALL = re.compile(r"^( *)(?:pub(?:\(\w+\))? )?fn (\w+).*\n((?:\1(?:[ )>]|where).*\n)*)", re.MULTILINE)
CLAUSES = re.compile(r"^ *(?:requires|ensures)\b.*", re.MULTILINE | re.DOTALL)
COMMENT = re.compile(r"//.*")


class Specs:
    """A file of definitions: the lines of each by its name, and where each word that it brings in is defined."""

    def __init__(self, path):
        self.lines, self.brings = {}, {}
        name, depth = None, 0
        for line in path.read_text(encoding="utf-8").splitlines():
            if brought := IMPORT.match(line):
                crate, file, words = brought.groups()
                for word in words.split(", "):
                    origin, _, here = word.partition(" as ")
                    self.brings[here or origin] = f"{crate}.{file}", origin
            elif re.match(r"\s*module ", line):
                name = None
            elif line.strip() and not re.match(r"\s*(--|use |infix)", line):
                begins = BEGINS.match(line)
                indent = len(line) - len(line.lstrip())
                if begins and not (name and indent > depth):
                    name, depth = begins.group(1), indent
                if name:
                    self.lines.setdefault(name, []).append(line)

    def holder(self, word):
        """The definition that a word is, or of which it is a case or a field."""
        if word in self.lines:
            return word
        return next((name for name, lines in self.lines.items() if word in WORD.findall(" ".join(lines))), None)


def words_in(text):
    """The words of a text, each also as an operator, which is used without its places."""
    words = set(WORD.findall(text))
    return words | {f"◌{word}◌" for word in words}


def unfold(specs, names):
    """All definitions to which these unfold."""
    seen, left = set(), [tuple(name.split(":")) for name in names]
    while left:
        file, word = left.pop()
        name = specs[file].holder(word) if file in specs else None
        if name is None:
            sys.exit(f"believed.py: no definition {word} in {file}")
        if (file, name) in seen:
            continue
        seen.add((file, name))
        for used in words_in(" ".join(specs[file].lines[name])) - {name}:
            if used in specs[file].lines:
                left.append((file, used))
            elif used in specs[file].brings:
                left.append(specs[file].brings[used])
    return seen


def contracts(text, call):
    """The clauses of each function of this name."""
    return [
        clauses
        for _, name, rest in CALL.findall(text)
        if name == call
        for clauses in CLAUSES.findall(COMMENT.sub("", rest))
    ]


def cited(crate, chosen):
    """The definitions that parts of a crate's code cite, of each file those that are chosen by its path and its
    text."""
    for path in (CRATES / crate / "src").rglob("*.rt"):
        text = path.read_text(encoding="utf-8")
        brings = {}
        for holder, file, words in GHOST.findall(text):
            for word in words.strip(", \n").split(","):
                origin, _, here = word.strip().partition(" as ")
                brings[here or origin] = f"{holder}.{file}:{origin}"
        yield from (brings[word] for part in chosen(path, text) for word in words_in(part) & brings.keys())


def carried(crate, call):
    """What the contract of a call cites, or those of all calls in the file of a type; the calls of laws are all
    claimed."""
    is_whole = (
        lambda path, text: path.stem == "laws" or crate in LAWS or re.search(rf"\b(?:struct|enum|trait) {call}\b", text)
    )
    return cited(crate, lambda path, text: [text] if is_whole(path, text) else contracts(text, call))


def claimed(title):
    """What the contract of a claim's call cites, and the words besides."""
    (crate, *besides), call = CLAIMS[title], title.split("`")[1]
    found = sorted(set(cited(crate, lambda _, text: contracts(text, call)))) or sys.exit(
        f"believed.py: no contract of {call} in {crate}"
    )
    return found + besides


def needed(specs):
    """The files of definitions that a claim of a root file needs, or the headline."""
    names = [name for title in CLAIMS for name in claimed(title)] + [
        name for crate in LAWS for name in carried(crate, "")
    ]
    for claiming in proved.crates():
        for _, by in proved.claims(claiming):
            calls = {call for quoted in re.findall(r"`([^`]+)`", by) for call in re.findall(r"\w+", quoted)}
            names += [
                name
                for crate in [claiming, *re.findall(r"alm_\w+", by)]
                for call in calls
                for name in carried(crate, call)
            ]
    return {file for file, _ in unfold(specs, names)}


def misplaced(specs, paths):
    """The files that say of themselves otherwise than a claim needs them, and whether one does."""
    wanted = needed(specs)
    for file, path in paths.items():
        if path.read_text(encoding="utf-8").startswith(MARK) == (file in wanted):
            yield file, path, file in wanted


def by_file(specs, names):
    """The definitions to which these unfold, in the order of their files: the names of each, and their lines."""
    found = {}
    for file, name in sorted(unfold(specs, names)):
        found.setdefault(file, []).append(name)
    return {file: (named, sum(len(specs[file].lines[name]) for name in named)) for file, named in found.items()}


def sums(found):
    """How much that is."""
    return (
        f"{len(found)} files, {sum(len(named) for named, _ in found.values())} definitions,"
        f" {sum(lines for _, lines in found.values())} lines"
    )


def after(below):
    """Names in an order in which each comes after those below it."""
    ordered = []

    def visit(name):
        if name not in ordered:
            for other in sorted(below[name] - {name}):
                visit(other)
            ordered.append(name)

    for name in sorted(below):
        visit(name)
    return ordered


def crate_of(file):
    return file.partition(".")[0]


def reading_order(specs, files):
    """These files, crate after crate, each after those on whose words it stands."""
    below = {file: {holder for holder, _ in specs[file].brings.values()} & set(files) for file in files}
    crates = {crate: set() for crate in map(crate_of, files)}
    for file, others in below.items():
        crates[crate_of(file)] |= {crate_of(other) for other in others}
    place = {crate: number for number, crate in enumerate(after(crates))}
    return sorted(after(below), key=lambda file: place[crate_of(file)])


def which(specs, file, named):
    """The names of the definitions of a file that are needed."""
    others = sorted(specs[file].lines.keys() - set(named))
    quoted = lambda names: ", ".join(f"`{name}`" for name in names)
    return "all" if not others else f"all but {quoted(others)}" if len(others) < len(named) else quoted(named)


def named_table(specs, names):
    """The files to which these definitions unfold, each with its definitions, and their counts."""
    found = by_file(specs, names)
    lines = ["| file | definitions | lines |", "|---|---|---|"]
    for file in reading_order(specs, found):
        lines.append(f"| {linked(file)} | {which(specs, file, found[file][0])} | {found[file][1]} |")
    return [*lines, "", sums(found)]


def linked(file):
    """A file as a link from the page."""
    crate, _, name = file.partition(".")
    return f"[{crate} {name}](../../crates/{crate}/specs/{name}.antt)"


def page(specs):
    """The whole page: how much each contract unfolds to, the definitions of one, and those of all."""
    found = {title: by_file(specs, claimed(title)) for title in CLAIMS}
    every = by_file(specs, [name for title in CLAIMS for name in claimed(title)])
    letters = dict(zip(CLAIMS, "ABCDEFGH"))
    lines = [f"| {letters[title]} | {title} | {sums(files)} |" for title, files in found.items()]
    lines += [f"| | all of them | {sums(every)} |", "", f"## {FIRST.partition(':')[0]}", ""]
    lines += ["In reading order: each file stands on those before it.", "", *named_table(specs, claimed(FIRST))[:-2]]
    lines += ["", "## All of them", "", "| file | definitions | lines | of |", "|---|---|---|---|"]
    for file in reading_order(specs, every):
        named, count = every[file]
        users = " ".join(letters[title] for title in CLAIMS if file in found[title])
        lines.append(f"| {linked(file)} | {which(specs, file, named)} | {count} | {users} |")
    return HEAD + "\n".join(lines) + "\n"


def main(words):
    paths = {
        f"{path.parent.parent.name}.{path.stem}": path for path in CRATES.glob("*/specs/*.antt") if path.stem != "Lib"
    }
    specs = {file: Specs(path) for file, path in paths.items()}
    if not words:
        if PAGE.read_text(encoding="utf-8") != page(specs):
            sys.exit("believed.py: docs/proof/BELIEVED.md isn't that: tests/pages/believed.py --write")
        wrong = [
            f"{file} is {'needed by a claim' if is_needed else 'for the proofs alone'}"
            for file, _, is_needed in misplaced(specs, paths)
        ]
        if wrong:
            sys.exit("\n".join(f"believed.py: {line}: tests/pages/believed.py --mark" for line in wrong))
        print(f"believed.py: docs/proof/BELIEVED.md is what {len(specs)} files of definitions unfold to")
    elif words == ["--mark"]:
        for _, path, is_needed in misplaced(specs, paths):
            text = path.read_text(encoding="utf-8")
            path.write_text(text.removeprefix(MARK) if is_needed else MARK + text, encoding="utf-8")
    elif words == ["--names"]:
        print(
            "\n".join(line for title in CLAIMS for line in (f"## {title}", "", *named_table(specs, claimed(title)), ""))
        )
    elif words == ["--write"]:
        PAGE.write_text(page(specs), encoding="utf-8")
    else:
        print("\n".join(named_table(specs, words)))


if __name__ == "__main__":
    main(sys.argv[1:])
