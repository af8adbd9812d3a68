#!/usr/bin/env python3
"""Checks how the pages and the comments of the crates are written.

    tests/pages/prose.py [PAGE..]      without a PAGE, all but BELIEVED and all comments

A sentence has at most 30 words, a cell of a table at most 150 characters, and no page has a word of the list below. A
comment has none of a second list either. Code in blocks and in backticks, quotes and the targets of links are no words.
"""
import re
import sys
from pathlib import Path

TOP = Path(__file__).resolve().parents[2]
# A page that a script writes by lines of names is none to be read from its first line to its last.
WRITTEN = TOP / "docs" / "proof" / "BELIEVED.md"
PAGES = sorted(
    {
        *TOP.glob("*.md"),
        *TOP.glob("docs/**/*.md"),
        *(TOP / folder / "README.md" for folder in ("tools", "deploy", "examples", "tests")),
    }
    - {WRITTEN}
)
MOST_WORDS = 30
MOST_CHARACTERS = 150
# A pattern of words that went, and what stands in their place.
WENT = {
    r"so many": "a number of, n",
    r"wants? of memory": "out of memory",
    r"(?:stands?|stood|standing) for": "holds, encodes, means",
    r"(?<!in )fronts? of|fronts": "a prefix",
    r"lookers?": "a reader",
    r"just where": "exactly if",
    r"for good|once and for all": "permanently",
    r"anew": "again",
    r"(?:hands?|handed|handing) on": "passes on",
    r"(?:lets?|letting) go": "drops, releases",
    r"(?:goes|went) (?:its|their) way": "succeeds",
    r"beside (?:plain|a loop|the same|channels)": "compared with",
}
# The same of comments.
WENT_FROM_COMMENTS = WENT | {
    r"behind": "after",
    r"beside": "next to, compared with",
    r"told|tells?": "reported, returned, sent",
    r"gives? back|lets? go": "returns, drops",
    r"once it was done": "after",
}
COMMENT = re.compile(r"\s*(?://[/!]?|--)(?: |$)(.*)")
FENCE = re.compile(r"^ *```.*?^ *```", re.DOTALL | re.MULTILINE)
CODE = re.compile(r"``.+?``|`[^`]+`", re.DOTALL)
LINK = re.compile(r"\[([^\]]*)\]\([^)]*\)")
URL = re.compile(r"https?://\S+")
ITEM = re.compile(r"^\s*(?:[-*]|\d+\.)\s+", re.MULTILINE)
END = re.compile(r"(?<=[.!?])[*)\"]*\s+")
HOLDER = "\x00"  # in the place of code, which ends no sentence and is no word


def words_alone(text):
    """A text without its code, its quotes and the targets of its links."""
    text = re.sub(r"^>.*$", "", FENCE.sub("\n\n", text), flags=re.MULTILINE)
    return URL.sub(HOLDER, LINK.sub(r"\1", CODE.sub(HOLDER, text)))


def sentences(text):
    prose = "\n".join("" if line.startswith(("|", "#")) else line for line in words_alone(text).split("\n"))
    for part in re.split(r"\n\s*\n", ITEM.sub("\n\n", prose)):
        yield from END.split(" ".join(part.split()))


def length(sentence):
    return sum(bool(re.search(r"\w", word)) for word in sentence.split())


def cells(text):
    """Each cell with the number of its line, without the targets of its links."""
    for number, line in enumerate(FENCE.sub(lambda block: "\n" * block[0].count("\n"), text).split("\n"), 1):
        if line.startswith("|"):
            for cell in re.split(r"(?<!\\)\|", LINK.sub(r"\1", line).strip().strip("|")):
                yield number, cell.strip()


def wrong_of(text, went=WENT):
    """What is wrong with a page, as lines."""
    for sentence in sentences(text):
        if length(sentence) > MOST_WORDS:
            yield f"a sentence of {length(sentence)} words: {sentence.replace(HOLDER, '`..`')[:90]}.."
    for number, cell in cells(text):
        if len(cell) > MOST_CHARACTERS:
            yield f"line {number}: a cell of {len(cell)} characters: {cell[:60]}.."
    whole = " ".join(words_alone(text).split())
    for pattern, instead in went.items():
        for found in re.finditer(rf"\b(?:{pattern})\b", whole, re.IGNORECASE):
            around = whole[max(0, found.start() - 30) : found.end() + 30].replace(HOLDER, "`..`")
            yield f'"{found[0]}" (say: {instead}) in: {around}'


def comments(path):
    """The comments of a file, those of neighbouring lines as one text."""
    block = []
    for line in [*path.read_text(encoding="utf-8").split("\n"), ""]:
        if found := COMMENT.match(line):
            block.append(found[1])
        elif block:
            yield "\n".join(block)
            block = []


def sources():
    return [
        path
        for crate in sorted((TOP / "crates").iterdir())
        for part in ("src", "specs", "proofs")
        for path in sorted((crate / part).rglob("*.*t*"))
        if path.suffix in (".rt", ".antt")
    ]


def main():
    pages = [Path(word) for word in sys.argv[1:]] or PAGES
    wrong = [f"prose.py: {page.name}: {said}" for page in pages for said in wrong_of(page.read_text(encoding="utf-8"))]
    files = [] if sys.argv[1:] else sources()
    wrong += [
        f"prose.py: {path.relative_to(TOP)}: {said}"
        for path in files
        for text in comments(path)
        for said in wrong_of(text, WENT_FROM_COMMENTS)
    ]
    if wrong:
        sys.exit("\n".join(wrong))
    print(f"prose.py: {len(pages)} pages, and the comments of {len(files)} files, none wrong")


if __name__ == "__main__":
    main()
