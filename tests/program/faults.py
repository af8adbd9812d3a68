#!/usr/bin/env python3
"""Makes each call of the program on its device's file fail in turn, and kills it or cuts the power there.

    tests/program/faults.py PROGRAM [--short]

`format`, `show`, `export` and `desk` run over devices of versions 02 and 03. First without a fault: they make the calls
that calls.py lists. Then once for each call that they make and each way in which it may go wrong (preload.c lists
them). After each:

- the failure was reported, by the fault line that is due and its status, and the device wasn't called any more; - no
reply was given that the device didn't keep: it stands for what was answered, or for that with the one line in doubt; -
a desk over it goes on with the replies that it owes; - a `format` that was cut short can be done again.

`format` also runs on a full disk, as root.

Last, the script itself is tested: programs that ignore failures are refused.
"""
import collections
import os
import re
import shutil
import sys
import time

from lib.calls import (
    FORGET,
    SYNC,
    Layout,
    check_list,
    check_made,
    commits,
    on_device,
    opening,
    opening_by_link,
    read_calls,
    reading,
    split_opening,
)
from lib.program import (
    PLANT,
    VERSIONS,
    Course,
    Desk,
    Fault,
    Wrong,
    begin,
    check,
    ends,
    finish,
    preload,
    run_words,
    show,
    state,
    stopped_reply,
)
from lib.disks import mount, unmount

ERRORS = ["eio", "enospc"]
GARBLES = ["a5", "5a", "ff", "any", "mixed", "sectors"]
CUTS = ["kill", "old", "new", "00", "alternating", *GARBLES]

# The worked plant on its device.
LAYOUT = Layout(28_997, 4, 2)
# A longer device's bytes.
LONG = 200_000

# Failures that change nothing and aren't reported. After a short read or write the rest is read or written. The advice
# to forget is only advice: a program can do nothing if the kernel doesn't take it.
UNREPORTED = {("pread", "short"), ("pwrite", "short"), ("fadvise", "eio")}
# The first calls of statx in `format` ask whether device and table are one file. If they fail, they are taken for two.
COMPARISONS = 2


def is_unreported(command, fault):
    return (fault.call, fault.kind) in UNREPORTED or (
        command == "format" and fault.call == "statx" and fault.at <= COMPARISONS
    )


def due_faults(command, at, made):
    """Which faults may report the failure of this call of a run: `io` if a file, its folder or its room can't be had,
    `disk` while the device is opened or formatted, `stopped` later."""
    name, before = made[at][0], made[:at]
    if name == "statx" and SYNC not in before:
        return (b"io", b"disk")
    if command == "format" and name != "openat":
        return (b"disk",) if name == "fsync" or ("fsync", "folder") in before else (b"io",)
    if name == "openat" or FORGET not in before:
        return (b"io",)
    return (b"disk",) if any(call[0] == "pread" for call in made[at:]) else (b"stopped",)


class Faults:
    """The program over a device, each of whose calls fails in turn."""

    def __init__(self, program, folder, step):
        self.program, self.folder, self.step = program, folder, step
        self.library = preload(folder)
        self.list = os.path.join(folder, "calls")
        self.done = self.refused = 0

    def run(self, words, loaded, lines=b""):
        """A run, and the calls that it made. The device is its second word."""
        if os.path.exists(self.list):
            os.remove(self.list)
        run = run_words(self.program, words, {"LD_PRELOAD": self.library, "ALM_CALLS": self.list, **loaded}, lines)
        return run, read_calls(self.list, words[1])

    def whole(self, words, lines=b""):
        """A run without a fault: what it printed, and its calls."""
        run, made = self.run(words, {}, lines)
        check(run.returncode == 0, words, run.stderr)
        return run.stdout, made

    def each(self, made, kinds, step=None):
        """Each call of a run, with each of the ways of its kind; in a short run each of some."""
        step = step or self.step
        counts = collections.Counter(call[0] for call in made)
        counts["device"] = counts["pwrite"] + counts["pread"] + counts["fdatasync"]
        for call, ways in kinds.items():
            for kind in ways:
                for at in range(1 + self.done % step, counts[call] + 1, step):
                    self.done += 1
                    yield Fault(self.library, call, at, kind, self.done)

    def failed(self, words, fault, whole, lines=b"", body=None):
        """A run in which a call fails. That is reported, by a line that is due and its status, and the device isn't
        called any more, but for the advice to forget after a failed sync. If it needn't be reported, the run ends
        well."""
        run, made = self.run(words, {**fault.loaded, **(body or {})}, lines)
        name = ends(run, fault, words[0])
        check(fault.was_met(), fault.text, "the call didn't come")
        if is_unreported(words[0], fault):
            check(name == b"", fault.text, words[0], "ended with", name)
            return run, name
        at = [place for place, call in enumerate(whole) if call[0] == fault.call][fault.at - 1]
        check(name in due_faults(words[0], at, whole), fault.text, words[0], "reported", whole[at], "as", name)
        after = [FORGET] if whole[at] == SYNC else []
        check_list(on_device(made), on_device(whole[: at + 1]) + after, fault.text, words[0])
        return run, name

    def ignored(self, words, whole, prepare, lines=b""):
        """The script's own test: a program that ignores a failed write or sync is refused, at the first, a middle and
        the last one."""
        for call in ("pwrite", "fdatasync", "fsync"):
            count = sum(one[0] == call for one in whole)
            for at in sorted({1, (count + 1) // 2, count} if count else ()):
                prepare()
                fault = Fault(self.library, call, at, "eio")
                try:
                    self.failed(words, fault, whole, lines, {"ALM_BODY": "ignores"})
                except Wrong:
                    self.refused += 1
                    continue
                raise Wrong(f"{words[0]} that ignores {fault.text} isn't refused")

    def desk(self, seed, count, version):
        course = Course(self.program, self.folder, seed, count, version=version)
        lines = b"".join(course.lines)
        said, made = self.whole(["desk", course.device()], lines)
        wanted = commits(Layout(LAYOUT.size, 4, 2, version), said.count(b" OK "))
        check_list(split_opening(on_device(made), opening(), "desk"), wanted, "desk")
        kinds = {
            "pwrite": ERRORS + ["short"],
            "fdatasync": ERRORS,
            "fsync": ERRORS,
            "pread": ["eio", "short"],
            "openat": ["eio"],
            "fadvise": ["eio"],
            "statx": ["eio"],
            "device": CUTS,
        }
        for fault in self.each(made, kinds):
            self.one_desk(course, course.device(), fault, made)
        self.ignored(["desk", course.device()], made, course.device, lines)

    def linked(self):
        """A desk over a symbolic link to a device: each of its syncs fails in turn."""
        room = os.path.join(self.folder, "links")
        os.mkdir(room)
        link = os.path.join(room, "link")
        os.symlink(os.path.join(self.folder, "course"), link)
        _, made = self.whole(["desk", link])
        check_list(split_opening(on_device(made), opening_by_link(), "desk of a link"), [], "desk of a link")
        for fault in self.each(made, {"fsync": ["eio"], "fdatasync": ["eio"]}):
            self.failed(["desk", link], fault, made)

    def folders(self):
        """A device by a path whose links stand before the last name: a link to a link to a folder. The folder of each
        name is brought to the disk."""
        room = os.path.join(self.folder, "names")
        for name in ("links", "middle", "data/new"):
            os.makedirs(os.path.join(room, name))
        os.symlink("../data/new", os.path.join(room, "middle", "current"))
        os.symlink(os.path.join(room, "middle", "current"), os.path.join(room, "links", "plant"))
        device = os.path.join(room, "links", "plant", "device")
        shutil.copy(os.path.join(self.folder, "course"), device)
        self.whole(["desk", device])
        with open(self.list, encoding="utf-8") as calls:
            synced = {os.path.realpath(call.split()[1]) for call in calls if call.startswith("fsync ")}
        for name in ("links", "middle", "data", "data/new", ""):
            check(
                os.path.realpath(os.path.join(room, name)) in synced,
                "the folder",
                name or room,
                "of a name in the path isn't synced:",
                synced,
            )

    def one_desk(self, course, device, fault, made):
        if fault.kills:
            answered = self.cut_desk(course, device, fault)
        else:
            answered = self.failed_desk(course, device, fault, made)
        course.goes_on(device, answered, fault)

    def cut_desk(self, course, device, fault):
        """How many lines were answered when the desk was killed. They were asked one after another."""
        answered = 0
        with Desk(self.program, device, fault.loaded) as desk:
            for line, reply in zip(course.lines, course.replies):
                said = desk.ask(line)
                if not said.endswith(b"\n"):
                    break
                check(said == reply, fault.text, line, said)
                answered += 1
        return answered

    def failed_desk(self, course, device, fault, made):
        """How many lines were answered before the desk stopped. Behind them each line is answered so."""
        run, name = self.failed(["desk", device], fault, made, b"".join(course.lines))
        replies = run.stdout.splitlines(True)
        if name in (b"disk", b"io"):
            check(not replies, fault.text, name, "and replies")
            return 0
        check(len(replies) == len(course.lines), fault.text, "a reply for each line")
        answered = len(replies)
        for at, (line, reply, said) in enumerate(zip(course.lines, course.replies, replies)):
            if said != reply:
                answered = min(answered, at)
            if at >= answered:
                check(said == stopped_reply(line, reply), fault.text, line, said)
        check((name == b"") == (answered == len(replies)), fault.text, name, answered)
        return answered

    def format(self, version, over):
        """`format` of a new file, or over a device that stands for something."""
        device = os.path.join(self.folder, "made")
        words = ["format", device, PLANT, "--version", version]
        before = self.put(device, over)
        _, made = self.whole(words)
        check_made(on_device(made), LAYOUT)
        check(over or os.stat(device).st_mode & 0o777 == 0o600, "others than its owner may open a new device")
        fresh = state(self.program, device)
        kinds = {call: ERRORS + ["kill"] for call in ("openat", "ftruncate", "fsync", "pread")}
        kinds |= {
            "pwrite": ERRORS + ["short"],
            "fdatasync": ERRORS,
            "fadvise": ["eio"],
            "statx": ["eio"],
            "device": CUTS,
        }
        for fault in self.each(made, kinds):
            self.put(device, over)
            if fault.kills:
                run_words(self.program, words, fault.loaded)
            else:
                run, name = self.failed(words, fault, made)
                check((name == b"") == (run.stdout != b""), fault.text, name, run.stdout)
            self.judge_made(words, fault, [fresh, before], over is not None or fault.kind in GARBLES)
        self.ignored(words, made, lambda: self.put(device, over))

    def put(self, device, over):
        """Puts what stood there before: nothing, or a device. What that stands for."""
        if os.path.exists(device):
            os.remove(device)
        if over is None:
            return None
        with open(device, "wb") as file:
            file.write(over)
        return state(self.program, device)

    def judge_made(self, words, fault, states, may_be_damaged):
        """A format that was cut short leaves what was there, nothing, or the new plant. Where the power failed over
        bytes that were pending, it may leave damage, which the next format mends."""
        device = words[1]
        run = run_words(self.program, ["show", device])
        name = ends(run, fault, "show")
        if name == b"":
            check(state(self.program, device) in states, fault.text, "stands for something else")
        else:
            damaged = may_be_damaged and name.startswith(b"damaged")
            check(damaged or name in (b"unformatted", b"io"), fault.text, name)
        run = run_words(self.program, words)
        check(run.returncode == 0 and state(self.program, device) == states[0], fault.text, "can't be formatted again")

    def show(self, command, device):
        """`show` or `export` of a device: few calls, and each of them in a short run too."""
        with open(device, "rb") as file:
            bytes_before = file.read()
        _, made = self.whole([command, device])
        check_list(split_opening(on_device(made), reading(), command), [("unlock", "device")], command)
        kinds = {
            "pread": ["eio", "short", "kill"],
            "fdatasync": ["eio", "kill"],
            "openat": ["eio"],
            "fadvise": ["eio"],
            "statx": ["eio"],
        }
        for fault in self.each(made, kinds, 1):
            if fault.kills:
                run_words(self.program, [command, device], fault.loaded)
            else:
                run, name = self.failed([command, device], fault, made)
                check((name == b"") == (run.stdout != b""), fault.text, name)
            with open(device, "rb") as file:
                check(file.read() == bytes_before, fault.text, command, "wrote")
        self.ignored([command, device], made, lambda: None)

    def old_device(self, seed, version):
        """The bytes of a device with stored actions. It is shown and exported."""
        Course(self.program, self.folder, seed, 40, version=version)
        device = os.path.join(self.folder, "course")
        for command in ("show", "export"):
            self.show(command, device)
        with open(device, "rb") as file:
            return file.read()

    def full_disk(self):
        """`format` on a disk that has no room: `fault io` and nothing else. The file has its new size. Nothing is
        called formatted, and an old device that the new one would have been longer than is still there. What was tried,
        in a word."""
        if os.geteuid() != 0:
            return "no full disk, which needs root"
        table, small = os.path.join(self.folder, "long.toml"), os.path.join(self.folder, "small")
        with open(PLANT, "rb") as source, open(table, "wb") as file:
            file.write(re.sub(rb"(?m)^size = \d+", b"size = %d" % LONG, source.read()))
        os.mkdir(small)
        mount("none", small, "tmpfs", f"size={LONG // 2}")
        try:
            for before in (b"", self.old_device(4, "02")):
                self.no_room(os.path.join(small, "device"), table, before)
        finally:
            unmount(small)
        return "2 full disks"

    def no_room(self, device, table, before):
        """The same over a file of these bytes."""
        with open(device, "wb") as file:
            file.write(before)
        stood = show(self.program, device)
        run = run_words(self.program, ["format", device, table])
        check((run.returncode, run.stdout, run.stderr) == (3, b"", b"fault io\n"), "format on a full disk", run)
        check(os.path.getsize(device) == LONG, "a full disk leaves a size of", os.path.getsize(device))
        check(show(self.program, device) == stood, "a full disk leaves", show(self.program, device))
        os.remove(device)


def main():
    program, step, folder = begin("faults", sys.argv, 1, 29)
    started = time.monotonic()
    os.umask(0)
    faults = Faults(program, folder, step)
    try:
        olds = [faults.old_device(1, version) for version in VERSIONS]
        for version in VERSIONS:
            for over in (None, *olds):
                faults.format(version, over)
        for seed, count, version in ((2, 150, "02"), (3, 420, "02"), (5, 420, "03")):
            faults.desk(seed, count, version)
        faults.linked()
        faults.folders()
        full = faults.full_disk()
    except Wrong as wrong:
        sys.exit(f"faults: {wrong}; devices are in {folder}")
    finish(
        "faults",
        folder,
        f"{faults.done} faults, kills and power cuts, {full}, none wrong;"
        f" {faults.refused} programs that ignore a failure, all refused; {time.monotonic() - started:.0f} s",
    )


main()
