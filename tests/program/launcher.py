#!/usr/bin/env python3
"""The launcher `alm_server` at the top of the repository: when it proves and builds, and what it passes to the program.

    tests/program/launcher.py

It runs in a small repository with a stub in the place of `rt`, which notes its calls and makes a program of shell. A
first run builds in a copy of the crates below the program. Later ones build again only if something was changed that
the program stands on: a source, a specification, a proof, a line of crates.txt. Words, standard input, folder, process
and status are the caller's. Without `rt` the status is 127, and if `rt` fails 126: then no older program runs in its
place. No folder of a build is left. tests/gate.sh reads the sum of the sources that the launcher keeps.
"""
import os
import re
import shutil
import subprocess
import sys
import tempfile

from lib.program import TESTS, Wrong, check

LAUNCHER = os.path.join(TESTS, "..", "alm_server")
CRATES = """# The crates, lowest first: NAME: what it stands on.
alm_types:
alm_file may_wait=1: alm_types libc
alm_file_tests: alm_types alm_file
alm_server may_wait=5: alm_file libc
"""
BELOW = ["alm_types", "alm_file", "alm_server"]
COPIED = [
    "alm_types/src/lib.rt",
    "alm_types/specs/Types.antt",
    "alm_file/src/lib.rt",
    "alm_file/src/lock.rt",
    "alm_file/proofs/Locks.antt",
    "alm_server/src/main.rt",
    "alm_server/stdin",
]
BESIDE = [
    "alm_types/must-fail/half.edit",
    "alm_types/wrong/none.edit",
    "alm_types/out/old.rt",
    "alm_file_tests/src/lib.rt",
]
# It reads its standard input, which isn't the program's, and makes a program that says by which build it was made.
STUB = """#!/bin/sh
cat >/dev/null
echo "$*" >>"$NOTES/calls"
find HANDLES crates* -type f | sort >"$NOTES/copied"
cat crates.txt >"$NOTES/lines"
if [ -e "$NOTES/fails" ]; then echo 'no proof'; exit 1; fi
for crate in crates/*; do echo "rt: ${crate#crates/} proved"; done
mkdir -p crates/alm_server/out
{
    echo '#!/bin/sh'
    echo "echo build $(wc -l <"$NOTES/calls")"
    echo 'echo "$$ $PWD"; for word; do echo "<$word>"; done; cat; exit 7'
} >crates/alm_server/out/alm_server
chmod +x crates/alm_server/out/alm_server
"""
NOT_PROVED, NO_RT, OF_PROGRAM = 126, 127, 7


def write(path, text):
    os.makedirs(os.path.dirname(path), exist_ok=True)
    with open(path, "w", encoding="utf-8") as file:
        file.write(text)


def read(path):
    with open(path, encoding="utf-8") as file:
        return file.read()


def link_commands(folder):
    """Makes a folder that has each command of the PATH but rt."""
    os.mkdir(folder)
    for place in os.environ["PATH"].split(os.pathsep):
        for name in os.listdir(place) if os.path.isdir(place) and os.access(place, os.R_OK) else []:
            if name != "rt" and not os.path.lexists(os.path.join(folder, name)):
                os.symlink(os.path.join(place, name), os.path.join(folder, name))


class Launcher:
    """A small repository with the launcher, the stub, and folders for its notes and for what the launcher makes for a
    while."""

    def __init__(self, folder):
        self.done, self.calls = 0, 0
        self.top, self.rt, self.commands, self.notes, self.room = (
            os.path.join(folder, name) for name in ("a top", "rt", "commands", "notes", "room")
        )
        for path in (self.top, self.notes, self.room):
            os.mkdir(path)
        self.launcher, self.program = os.path.join(self.top, "alm_server"), self.crate("alm_server/out/alm_server")
        shutil.copy(LAUNCHER, self.launcher)
        write(os.path.join(self.top, "HANDLES"), "Handles allowed: Net.\n")
        write(os.path.join(self.top, "crates.txt"), CRATES)
        for name in COPIED + BESIDE:
            write(self.crate(name), f"{name}\n")
        write(os.path.join(self.rt, "rt"), STUB)
        os.chmod(os.path.join(self.rt, "rt"), 0o755)
        link_commands(self.commands)

    def crate(self, name):
        return os.path.join(self.top, "crates", name)

    def environment(self, has_rt=True):
        path = f"{self.rt}:{self.commands}" if has_rt else self.commands
        return {**os.environ, "PATH": path, "NOTES": self.notes, "TMPDIR": self.room}

    def note(self, name):
        """The lines that the stub noted, or none."""
        path = os.path.join(self.notes, name)
        return read(path).splitlines() if os.path.exists(path) else []

    def run(self, *words, builds=False, launcher=None, has_rt=True, lines="", cwd=None):
        """A run of the launcher, which leaves nothing behind, and calls rt if it is to build."""
        with subprocess.Popen(
            [launcher or self.launcher, *words],
            stdin=subprocess.PIPE,
            stdout=subprocess.PIPE,
            stderr=subprocess.PIPE,
            text=True,
            cwd=cwd or self.top,
            env=self.environment(has_rt),
        ) as process:
            printed, said = process.communicate(lines, timeout=60)
        check(os.listdir(self.room) == [], "it left", os.listdir(self.room))
        self.done += 1
        self.calls += builds
        check(
            self.note("calls") == ["ci"] * self.calls,
            "rt was called by",
            self.note("calls"),
            "and not",
            self.calls,
            "times",
        )
        return process, printed, said

    def runs(self, *words, lines="", cwd=None, **more):
        """Runs the program of the last build, with all that is the caller's. What the launcher said."""
        process, printed, said = self.run(*words, lines=lines, cwd=cwd, **more)
        wanted = (
            f"build {self.calls}\n{process.pid} {cwd or self.top}\n" + "".join(f"<{word}>\n" for word in words) + lines
        )
        check((process.returncode, printed) == (OF_PROGRAM, wanted), words, process.returncode, printed, said)
        return said

    def refused(self, status, word, **how):
        """Runs nothing, and says why."""
        process, printed, said = self.run("desk", lines="1 STATE 0\n", **how)
        check(
            (process.returncode, printed) == (status, ""),
            "status",
            process.returncode,
            "and not",
            status,
            printed,
            said,
        )
        check(re.search(rf"\b{word}\b", said), "status", status, "and no", repr(word), "in", said)

    def without_rt(self):
        self.refused(NO_RT, "rt", has_rt=False)
        check(not os.path.exists(self.program), "something was built without rt")

    def failing(self):
        """The proof fails twice: nothing runs, and each run tries it again."""
        write(os.path.join(self.notes, "fails"), "")
        for _ in range(2):
            self.refused(NOT_PROVED, "no proof", builds=True)
        os.remove(os.path.join(self.notes, "fails"))

    def first_build(self):
        """The crates below the program are built, and nothing else; each is told as it is done."""
        said = self.runs("desk", lines="1 STATE 0\n2 STATE 1\n", builds=True)
        check(
            sorted(self.note("copied")) == sorted(["HANDLES", "crates.txt", *(f"crates/{name}" for name in COPIED)]),
            "the copy has",
            self.note("copied"),
        )
        lines = [line for line in CRATES.splitlines() if re.split("[ :]", line)[0] in BELOW]
        check(self.note("lines") == lines, "its crates.txt has", self.note("lines"))
        for number, name in enumerate(sorted(BELOW), 1):
            check(f" {number} of 3 crates, {name}, " in said, name, "wasn't told in", said)

    def passes_on(self):
        """Without a build, and without rt: words, standard input, folder, process and status; also by a link from
        elsewhere."""
        check(self.runs(has_rt=False) == "", "it says something")
        self.runs("serve", "a b", "", "*", "$HOME", "--port", lines="1 STATE 0\n", cwd=self.notes)
        link = os.path.join(self.notes, "link")
        os.symlink(self.launcher, link)
        self.runs("show", launcher=link, cwd=self.room)

    def changes(self):
        """Of each change: whether it builds again."""
        table = os.path.join(self.top, "crates.txt")
        lock, named = self.crate("alm_file/src/lock.rt"), self.crate("alm_file/src/named.rt")
        builds = [
            ("a source", lambda: write(self.crate("alm_server/src/main.rt"), "other")),
            ("a source of a crate far below", lambda: write(self.crate("alm_types/src/lib.rt"), "other")),
            ("a specification", lambda: write(self.crate("alm_types/specs/Types.antt"), "other")),
            ("a proof", lambda: write(self.crate("alm_file/proofs/Locks.antt"), "other")),
            ("a new source", lambda: write(self.crate("alm_file/src/more/new.rt"), "")),
            ("another name", lambda: os.rename(lock, named)),
            ("one less", lambda: os.remove(named)),
            ("another word in a line", lambda: write(table, read(table).replace("may_wait=5", "may_wait=6"))),
            (
                "another crate in a line",
                lambda: write(table, read(table).replace("alm_file libc", "alm_file alm_types libc")),
            ),
            ("no program", lambda: os.remove(self.program)),
            ("no sum", lambda: os.remove(self.program + ".sources")),
        ]
        stays = [
            ("an edit", lambda: write(self.crate("alm_types/must-fail/half.edit"), "other")),
            ("a new edit", lambda: write(self.crate("alm_server/wrong/new.edit"), "")),
            ("what was made", lambda: write(self.crate("alm_types/out/old.rt"), "other")),
            ("a crate of tests", lambda: write(self.crate("alm_file_tests/src/lib.rt"), "other")),
            (
                "its line",
                lambda: write(table, read(table).replace("alm_file_tests:", "alm_file_tests tests_may=Threads:")),
            ),
            ("a comment", lambda: write(table, read(table).replace("# The crates", "# All crates"))),
            ("another time", lambda: os.utime(self.crate("alm_types/src/lib.rt"), (0, 0))),
        ]
        for what, change in builds + stays:
            change()
            try:
                self.runs(builds=(what, change) in builds)
            except Wrong as wrong:
                raise Wrong(f"changed: {what}: {wrong}") from None

    def kept_sum(self):
        """The gate reads the launcher and keeps the sum of the sources: the one that the launcher keeps, and nothing
        runs."""
        words = ["bash", "-c", '. "$1" && sum_of_sources', "gate", self.launcher]
        run = subprocess.run(words, capture_output=True, text=True, timeout=60, cwd="/", env=self.environment())
        check(
            (run.returncode, run.stderr) == (0, "") and len(self.note("calls")) == self.calls,
            "read by another script:",
            run,
        )
        check(
            run.stdout == read(self.program + ".sources"),
            "the sum is",
            run.stdout,
            "and the kept one",
            read(self.program + ".sources"),
        )
        self.done += 1


def main():
    with tempfile.TemporaryDirectory() as folder:
        launcher = Launcher(os.path.realpath(folder))
        try:
            launcher.without_rt()
            launcher.failing()
            launcher.first_build()
            launcher.passes_on()
            launcher.changes()
            launcher.kept_sum()
            write(launcher.crate("alm_server/src/main.rt"), "changed")
            launcher.failing()
            launcher.runs(builds=True)
        except Wrong as wrong:
            sys.exit(f"launcher.py: {wrong}")
    print(f"launcher.py: {launcher.done} runs of the launcher over a stub of rt, none wrong")


if __name__ == "__main__":
    main()
