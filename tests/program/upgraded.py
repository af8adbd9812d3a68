"""Runs of `upgrade`, and each call of one that fails, for upgrade.py."""
import collections
import contextlib
import os
import shutil
import subprocess
import time
from typing import Iterator, Optional

from lib.calls import Layout, check_upgraded, on_device, read_calls
from lib.program import QUERIES, Fault, check, counts, ends, preload, run_words

LAYOUT = Layout(28_997, 4, 2)
CUTS = ["kill", "old", "new", "zeros", "alternating", "a5", "ff", "mixed"]
CALLS = ["openat", "statx", "lock", "realpath", "unlink", "fchown", "fchmod", "ftruncate", "fsync", "rename"]
# Failures that change nothing and aren't reported: the rest is read or written, or it was only advice.
UNREPORTED = {("pread", "short"), ("pwrite", "short"), ("fadvise", "eio")}
NONE = Fault("", "upgrade", 0, "")


def content(path: str) -> bytes:
    """A file's bytes."""
    with open(path, "rb") as file:
        return file.read()


def answers(program: str, device: str) -> list[bytes]:
    """What a device shows but for its epoch, its table, and its answers to queries."""
    shown, exported = (run_words(program, [word, device]) for word in ("show", "export"))
    lines = "".join(f"0 {number} {query}\n" for number, query in enumerate(QUERIES, 1))
    asked = run_words(program, ["desk", device], lines=lines.encode())
    for run in (shown, exported, asked):
        check(run.returncode == 0, device, run.args, run.stderr)
    first, _, rest = shown.stdout.partition(b"\n")
    return [first[: first.index(b" EPOCH")], rest, exported.stdout, asked.stdout]


class Upgrades:
    """The program over a device that is brought to the other version, in a folder of its own."""

    def __init__(self, program: str, folder: str, step: int):
        self.program, self.folder, self.step = program, folder, step
        self.library = preload(folder)
        self.here = os.path.join(folder, "here")
        os.mkdir(self.here)
        self.device = os.path.join(self.here, "plant.device")
        self.beside = f"{self.device}.upgrade"
        self.done = 0

    def put(self, source: str) -> int:
        """Puts a copy of a device into a folder of its own, and nothing else. Its number there."""
        shutil.rmtree(self.here)
        os.mkdir(self.here)
        shutil.copyfile(source, self.device)
        return os.stat(self.device).st_ino

    def upgrade(
        self, version: str, loaded: Optional[dict[str, str]] = None, device: str = ""
    ) -> subprocess.CompletedProcess:
        """A run of `upgrade` to a version: 03 isn't named."""
        words = [] if version == "03" else ["--version", version]
        return run_words(self.program, ["upgrade", device or self.device, *words], loaded)

    def upgrades(self, version: str, count: int, device: str = "") -> None:
        """It has to be done, and not again."""
        for word in (b"upgraded", b"unchanged"):
            run = self.upgrade(version, None, device)
            said = b"%s %s %d\n" % (word, version.encode(), count)
            check((run.returncode, run.stdout, run.stderr) == (0, said, b""), "upgrade", version, run)
            if word == b"upgraded":
                before = os.stat(self.device).st_ino, content(self.device)
        check((os.stat(self.device).st_ino, content(self.device)) == before, "an upgrade in vain changes the file")
        check(not os.path.exists(self.beside), "a file is left beside", self.device)

    def refused(self, name: bytes, *said: object, device: str = "") -> None:
        """It has to be refused, with nothing changed in the folder."""
        before = {path: content(os.path.join(self.here, path)) for path in os.listdir(self.here)}
        run = self.upgrade("03", None, device)
        check(ends(run, NONE, *said) == name and not run.stdout, *said, run)
        after = {path: content(os.path.join(self.here, path)) for path in os.listdir(self.here)}
        check(after == before, *said, "changes", before.keys(), after.keys())


class Failing(Upgrades):
    """The same, and each call or each request for memory of it fails."""

    def made(self, version: str) -> list:
        """The calls of a run in which none fails."""
        path = os.path.join(self.folder, "calls")
        run = self.upgrade(version, {"LD_PRELOAD": self.library, "ALM_CALLS": path})
        check(run.returncode == 0, "upgrade", run)
        calls = read_calls(path, self.device)
        os.remove(path)
        return calls

    @contextlib.contextmanager
    def held(self, call: str, at: int) -> Iterator[subprocess.Popen]:
        """An upgrade that waits before this call, up to the end of the block."""
        fault = Fault(self.library, call, at, "held")
        words, loaded = [self.program, "upgrade", self.device], {**os.environ, **fault.loaded}
        process = subprocess.Popen(words, env=loaded, stdout=subprocess.PIPE, stderr=subprocess.PIPE)
        for _ in range(2000):
            if fault.was_met():
                break
            time.sleep(0.01)
        yield process
        fault.forget()

    def faults(self, made: collections.Counter) -> list[Fault]:
        """Each call of a run, with each of its ways to fail; in a short run some of them."""
        ways = {call: ["eio", *CUTS] for call in CALLS}
        ways |= {
            "pwrite": ["eio", "enospc", "short", *CUTS],
            "fdatasync": ["eio", *CUTS],
            "pread": ["eio", "short", "kill"],
        }
        ways |= {"fadvise": ["eio", "kill"]}
        all_of = [(call, at, kind) for call, kinds in ways.items() for at in range(1, made[call] + 1) for kind in kinds]
        kept = [one for place, one in enumerate(all_of) if one[0] in ("rename", "fsync") or place % self.step == 0]
        return [Fault(self.library, call, at, kind, place) for place, (call, at, kind) in enumerate(kept)]

    def calls_fail(self, source: str, version: str) -> None:
        """Each call fails once, of a device that isn't of this version yet."""
        self.put(source)
        before = answers(self.program, self.device)
        made = self.made(version)
        check_upgraded(on_device(made), LAYOUT)
        names = collections.Counter(call[0] for call in made)
        names["realpath"] = 1
        for fault in self.faults(names):
            inode = self.put(source)
            run = self.upgrade(version, fault.loaded)
            check(fault.was_met(), fault.text, "the call didn't come")
            self.judge(run, fault, fault.call == "fsync" and fault.at == names["fsync"], source, inode)
            check(answers(self.program, self.device) == before, fault.text, "another plant stands")
            run = self.upgrade(version)
            check(run.returncode == 0 and not os.path.exists(self.beside), fault.text, "can't be done again", run)
            check(answers(self.program, self.device) == before, fault.text, "another plant stands after the next")
            self.done += 1

    def judge(self, run: subprocess.CompletedProcess, fault: Fault, is_last: bool, source: str, inode: int) -> None:
        """What was reported of a failed call, and what stands."""
        check(os.path.exists(self.device), fault.text, "no file has the name")
        is_old = os.stat(self.device).st_ino == inode
        if is_old:
            check(content(self.device) == content(source), fault.text, "the old device was written")
        if fault.kills:
            check(run.returncode < 0 and run.stdout == b"", fault.text, run)
            return
        name = ends(run, fault, "upgrade")
        left = os.listdir(self.here)
        check(len(left) == 1 or fault.call == "unlink" and fault.at > 1, fault.text, "left", left)
        if (fault.call, fault.kind) in UNREPORTED:
            check(name == b"" and not is_old, fault.text, "ended with", name)
            return
        due = {"fsync": [b"disk"], "fdatasync": [b"disk"], "pread": [b"disk", b"io"], "pwrite": [b"disk", b"io"]}
        due["statx"] = [b"disk", b"io"]
        check(name in due.get(fault.call, [b"io"]), fault.text, "is reported as", name)
        check(
            is_old != is_last and run.stdout == b"", fault.text, "refused, and the name has the new device:", not is_old
        )

    def memory_fails(self, source: str) -> None:
        """Each request for memory is refused, or some."""
        self.put(source)
        count = counts(self.program, self.library, ["upgrade", self.device], self.folder)["memory"]
        for at in range(1, count + 1, self.step):
            inode = self.put(source)
            run = self.upgrade("03", Fault(self.library, "memory", at, "eio").loaded)
            name = ends(run, NONE, "memory", at)
            check(name in (b"", b"memory"), "memory", at, "is reported as", name)
            stands = os.stat(self.device).st_ino == inode and content(self.device) == content(source)
            check(name == b"" or stands and os.listdir(self.here) == ["plant.device"], "memory", at, "leaves another")
            self.done += 1
