#!/usr/bin/env python3
"""Checks the pages of the package, in the tree that it unpacks to.

    tests/pages/packaged.py

deploy/debian/build makes the tarball, of any program, since the pages don't depend on it. Each link of a page there
leads to a file of that tree, and to a heading of it where it names one. The pages are those of users: no page is there
of whoever checks the proof or changes the code. Each command has a page of the manual. No user but this one is needed;
without strip (Debian: binutils) it ends with status 77.
"""
import shutil
import subprocess
import sys
import tarfile
import tempfile
import tomllib
from pathlib import Path

import pages

BUILD = pages.TOP / "deploy" / "debian" / "build"
# Any program whose symbols can be taken away.
PROGRAM = "/bin/true"
NOT_OF_USERS = {"README.md", "CONTRIBUTING.md", "docs/DECISIONS.md", "docs/proof", "docs/develop", "tests", "crates"}


def unpacked(room: Path) -> Path:
    """The tree of the package, made in a folder."""
    subprocess.run([BUILD, "--tar", PROGRAM, room], check=True, stdout=subprocess.DEVNULL)
    (packed,) = room.glob("*.tar.gz")
    with tarfile.open(packed) as tar:
        tar.extractall(room)
    (top,) = (path for path in room.iterdir() if path.is_dir())
    return top


def look(top: Path, found: pages.Found) -> None:
    """Looks at each page, each link, and the manual."""
    doc = top / "usr/share/doc/alarms"
    for name in sorted(NOT_OF_USERS):
        found.check(not (doc / name).exists(), name, "is in the package")
    for page in sorted(doc.rglob("*.md")):
        for target, anchor, link in pages.links_of(page):
            said = page.relative_to(doc), "links to", link
            found.check(target.exists() and target.is_relative_to(top), *said, "which isn't in the package")
            if anchor and target.suffix == ".md" and target.exists():
                found.check(anchor in pages.anchors(target), *said, "which has no such heading")
    for command in tomllib.loads((pages.TOP / "pyproject.toml").read_text(encoding="utf-8"))["project"]["scripts"]:
        found.check((top / f"usr/share/man/man1/{command}.1.gz").is_file(), command, "has no page of the manual")


def main() -> None:
    if not shutil.which("strip"):
        print("packaged.py: left out: no strip")
        sys.exit(77)
    found = pages.Found()
    with tempfile.TemporaryDirectory() as room:
        look(unpacked(Path(room).resolve()), found)
    if found.wrong:
        sys.exit("\n".join(f"packaged.py: {wrong}" for wrong in found.wrong))
    print(f"packaged.py: {found.looked} links and names of the package's pages, none wrong")


if __name__ == "__main__":
    main()
