#!/usr/bin/env python3
"""Holds the calls that the program makes on a device's file against the record that its contracts speak of.

    tests/program/record.py PROGRAM [--short]

Contracts see of a file the record of its calls: what was read, written and synced, where, and with which bytes. No code
sees it. In three bodies of alm_file a call and its note stand side by side, so a note without its call, or of another
one, would be proved. Here a library beneath the program writes down each call that was made, with its bytes. After each
run of `desk`, `serve`, `show` and `format` over devices of versions 02 and 03:

- the calls are those that are due, in their order, at their places (calls.py): no call is missing, and none is made
besides; - by what the file held and by these calls alone, each read gave what the file had then, and at the end the
file is what they made of it; - at each sync behind an answer the file has that answer's action, and no other: its
number and its bytes; - what was answered is what the file's own bytes say.

Last, the script is tested by programs in which such a body is wrong: a sync that isn't made; a write that isn't, or
elsewhere, or twice; a read of another place; one that gives back yesterday's bytes. Each is refused, in each command
that makes the call.
"""
import os
import shutil
import socket
import subprocess
import sys
import time

from lib.calls import FRAME, HEAD, HEADER, SYNC, Layout, commits, formatting
from lib.program import PLANT, VERSIONS, Wrong, begin, check, finish, free_ports, preload, run_words

from alarms.device_file import DeviceFile, NoDevice

LAYOUT = Layout(28_997, 4, 2)
CLOCK = 17
SHORT = 150
# A wrong body, and the commands whose runs have to show it.
BODIES = {
    "unsynced": ("desk", "serve", "format", "show"),
    "unwritten": ("desk", "serve", "format"),
    "misplaced": ("desk", "serve", "format"),
    "twice": ("desk", "serve", "format"),
    "misread": ("desk", "serve", "show"),
    "stale": ("desk", "serve", "show"),
}


class Event:
    """A call that was made, as the library wrote it down."""

    def __init__(self, line):
        self.name, at, *text = line.split(" ")
        self.at, self.bytes = int(at), bytes.fromhex(text[0].strip()) if text else b""

    def call(self):
        """The same as calls.py has it."""
        return SYNC if self.name == "fdatasync" else (self.name, self.at, len(self.bytes))


class Replay:
    """What a file holds by the bytes that it held at first, and by the calls made since."""

    def __init__(self, start):
        self.bytes = bytearray(start)

    def take(self, event):
        here = slice(event.at, event.at + len(event.bytes))
        if event.name == "pread":
            check(bytes(self.bytes[here]) == event.bytes, "a read at", event.at, "gave what the file doesn't have")
        if event.name == "pwrite":
            self.bytes[here] = event.bytes


def stored(folder, held):
    """How many actions these bytes of a device hold, and those behind its checkpoint."""
    path = os.path.join(folder, "held")
    with open(path, "wb") as file:
        file.write(held)
    device = DeviceFile(path)
    try:
        head = device.standing()
        actions = [action for frame in device.frames(head) for action in frame.actions]
        return head.count + len(actions), actions
    finally:
        device.close()


def reads(half):
    """What an opening reads, if this half stands: header, both heads, its image and its segment."""
    image = LAYOUT.half(half) + HEAD
    return [
        ("pread", 0, HEADER),
        ("pread", LAYOUT.half(0), HEAD),
        ("pread", LAYOUT.half(1), HEAD),
        ("pread", image, LAYOUT.image),
        ("pread", LAYOUT.frames(half), LAYOUT.segment),
    ]


class Records:
    """The calls on a device's file, as the system and as the record have them."""

    def __init__(self, program, folder, count, version):
        self.program, self.folder, self.count, self.version = program, folder, count, version
        self.library = preload(folder)
        self.list, self.device = os.path.join(folder, "bytes"), os.path.join(folder, "device")
        self.new, self.older = os.path.join(folder, "new"), os.path.join(folder, "older")
        self.events = self.runs = self.refused = 0

    def formatting(self, path):
        """The words that make a device."""
        return ["format", path, PLANT, "--version", self.version]

    def prepare(self):
        """A new device; and one of the same plant, some actions on, whose bytes are yesterday's."""
        check(run_words(self.program, self.formatting(self.new)).returncode == 0, "format")
        shutil.copy(self.new, self.older)
        lines = b"".join(b"%d %d CLOCK %d\n" % (CLOCK, n, n) for n in range(1, 4))
        check(run_words(self.program, ["desk", self.older], {}, lines).stdout.count(b" OK ") == 3, "desk")

    def loaded(self, body):
        """What the program runs with."""
        if os.path.exists(self.list):
            os.remove(self.list)
        loaded = {"LD_PRELOAD": self.library, "ALM_BYTES": self.list}
        if body:
            loaded |= {"ALM_BODY": body}
        if body == "stale":
            loaded |= {"ALM_STALE": self.older}
        return loaded

    def made(self):
        """The calls of the last run."""
        if not os.path.exists(self.list):
            return []
        with open(self.list, encoding="ascii") as file:
            return [Event(line) for line in file]

    def judge(self, start, wanted, answered):
        """A run over a file of these bytes made the calls that are due, and each sync behind an answer has its
        action."""
        made, replay, done = self.made(), Replay(start), 0
        for place, event in enumerate(made):
            check(
                place < len(wanted) and event.call() == wanted[place],
                "call",
                place + 1,
                "is",
                event.call(),
                "and not",
                wanted[place] if place < len(wanted) else "none",
            )
            replay.take(event)
            if event.name == "fdatasync" and place in answered:
                done += 1
                check(
                    self.last_of(replay.bytes) == (done, done),
                    "behind answer",
                    done,
                    "the file has",
                    self.last_of(replay.bytes),
                )
        check(len(made) == len(wanted), len(made), "calls, and", len(wanted), "are due")
        with open(self.device, "rb") as file:
            check(file.read() == bytes(replay.bytes), "the file isn't what the calls made of it")
        self.events += len(made)
        self.runs += 1

    def last_of(self, held):
        """The count of stored actions, and the moment of the last, a CLOCK; it is its number."""
        count, actions = stored(self.folder, held)
        return (count, actions[-1].argument if actions else count)

    def due(self):
        """The calls of a run that answers this many actions, one after the other, and the places of the syncs behind
        which each has to be stored."""
        calls = [SYNC, *reads(0), *commits(Layout(LAYOUT.size, 4, 2, self.version), self.count)]
        gates = [
            place
            for place, call in enumerate(calls)
            if call[0] == "pwrite" and call[2] == 1 and calls[place - 2][0] == "pwrite" and calls[place - 2][2] == FRAME
        ]
        return calls, {place + 1 for place in gates}

    def lines(self):
        return [b"%d CLOCK %d\n" % (number, number) for number in range(1, self.count + 1)]

    def desk(self, body=None):
        shutil.copy(self.new, self.device)
        lines = b"".join(b"%d " % CLOCK + line for line in self.lines())
        run = run_words(self.program, ["desk", self.device], self.loaded(body), lines)
        check(
            run.stdout == self.replies(b"%d " % CLOCK) and run.returncode == 0,
            "desk answers",
            run.stdout[:80],
            run.stderr,
        )
        self.judge_new(*self.due())

    def replies(self, before=b""):
        return b"".join(before + b"%d OK %d\n" % (number, number) for number in range(1, self.count + 1))

    def judge_new(self, wanted, answered):
        with open(self.new, "rb") as file:
            self.judge(file.read(), wanted, answered)

    def serve(self, body=None):
        """The same by a client at the clock's port. A commit comes with each line, since the next is sent behind its
        answer."""
        shutil.copy(self.new, self.device)
        port = free_ports()
        words = [self.program, "serve", self.device, "--port", str(port), "--conns", "1"]
        with subprocess.Popen(
            words, stdout=subprocess.PIPE, stderr=subprocess.PIPE, env={**os.environ, **self.loaded(body)}
        ) as server:
            try:
                check(server.stdout.readline() == b"serving %d\n" % port, "serve doesn't begin")
                check(self.converse(port) == self.replies(), "serve answers otherwise")
                check(
                    server.stdout.read() == b"stopped %d\n" % self.count and server.wait(20) == 0,
                    "serve ends otherwise",
                )
            finally:
                server.kill()
        self.judge_new(*self.due())

    def converse(self, port):
        with socket.create_connection(("127.0.0.1", port + CLOCK), 20) as client, client.makefile("rb") as replies:
            said = b""
            for line in self.lines():
                client.sendall(line)
                said += replies.readline()
            return said

    def show(self, body=None):
        shutil.copy(self.new, self.device)
        run = run_words(self.program, ["show", self.device], self.loaded(body))
        check(run.returncode == 0 and b" COUNT 0 " in run.stdout, "show says", run.stdout[:80], run.stderr)
        self.judge_new([SYNC, *reads(0)], set())

    def format(self, body=None):
        """Over a file of another plant's bytes. What takes its room is before the record, and writes each byte as it
        was read."""
        with open(self.device, "wb") as file:
            file.write(b"\xa5" * LAYOUT.size)
        run = run_words(self.program, self.formatting(self.device), self.loaded(body))
        check(run.returncode == 0, "format", run.stderr)
        made = self.made()
        behind = next((place for place, event in enumerate(made) if event.call() == ("pwrite", 0, 1)), len(made))
        replay = Replay(b"\xa5" * LAYOUT.size)
        for event in made[:behind]:
            check(
                event.name != "fdatasync" and event.bytes.count(0xA5) == len(event.bytes), "taking room changes bytes"
            )
            replay.take(event)
        check([event.call() for event in made[behind:]] == formatting(LAYOUT), "format makes other calls")
        for event in made[behind:]:
            replay.take(event)
        with open(self.device, "rb") as file:
            check(file.read() == bytes(replay.bytes), "the file isn't what format made of it")
        check(stored(self.folder, replay.bytes) == (0, []), "format leaves another plant")
        self.events += len(made)
        self.runs += 1

    def refuse(self, body, command):
        """A program with this wrong body isn't taken for right."""
        try:
            getattr(self, command)(body)
        except (Wrong, NoDevice, OSError, subprocess.TimeoutExpired):
            self.refused += 1
            return
        raise Wrong(f"{command} of a program that is {body} isn't refused")


def tried(records, bodies):
    """Tries each command, and these wrong bodies."""
    records.prepare()
    for command in ("desk", "serve", "show", "format"):
        getattr(records, command)()
    for body, commands in bodies.items():
        for command in commands:
            records.refuse(body, command)


def main():
    program, count, folder = begin("record", sys.argv, 500, SHORT)
    started = time.monotonic()
    every = [Records(program, folder, count, version) for version in VERSIONS]
    for records in every:
        try:
            # In a short run the script is tried by one version.
            tried(records, {} if count == SHORT and records is not every[0] else BODIES)
        except Wrong as wrong:
            sys.exit(f"record: version {records.version}: {wrong}; devices are in {folder}")
    runs, events, refused = (sum(getattr(one, what) for one in every) for what in ("runs", "events", "refused"))
    finish(
        "record",
        folder,
        (
            f"{runs} runs with {events} calls, over devices of versions {' and '.join(VERSIONS)}, each as the record"
            f" has it; {refused} wrong bodies refused; {time.monotonic() - started:.0f} s"
        ),
    )


main()
