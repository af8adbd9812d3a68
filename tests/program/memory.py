#!/usr/bin/env python3
"""Refuses each request for memory of the program in turn.

    tests/program/memory.py PROGRAM [--short]

After each the program has said `fault memory`, or it gives the right answer: a list alone may be answered by want of
memory. `show` may have printed a front of its text before, a desk and `format` nothing. What is left of a device opens
and stands for what was answered.

Then requests are counted, and none is refused. A desk that has answered some hundred lines makes not one request more
for thousands of further actions, refusals and queries, through their commits and checkpoints. A server makes one for
each batch of actions that it publishes, and else none. Programs that take a copy with each write are refused; the
script plays them.
"""
import collections
import os
import socket
import struct
import subprocess
import sys
import time

from lib.program import (
    PLANT,
    Course,
    Fault,
    Wrong,
    begin,
    check,
    counts,
    draw_lines,
    ends,
    finish,
    free_ports,
    preload,
    run_words,
    state,
)

LISTS = (b"LIST", b"STALE", b"CHATTER")
# The first words of the replies that a desk has to have given without a request for memory.
KINDS = b"OK NO STATE LIST FLOOD CHATTER PLANT ATTR ROW SINCE".split()
OUT = 64  # so many requests of a connection may be unanswered


def is_right(line, expected, said):
    """Whether a reply is the expected one, or says of a list that there was no memory for it."""
    if said == expected:
        return True
    words = line.split()
    return words[2] in LISTS and said == b" ".join(words[:2]) + b" NO 16\n"


class Refusals:
    """The program, to which each request for memory is refused in turn."""

    def __init__(self, program, folder, step):
        self.program, self.folder, self.step = program, folder, step
        self.library = preload(folder)
        self.done = self.told = 0

    def each(self, words, lines=b""):
        made = counts(self.program, self.library, words, self.folder, lines)
        for at in range(1, made["memory"] + 1, self.step):
            self.done += 1
            yield Fault(self.library, "memory", at, "enospc")

    def run(self, words, fault, lines=b""):
        """The output, and whether the program said that there was no memory."""
        run = run_words(self.program, words, fault.loaded, lines)
        name = ends(run, fault, words[0])
        check(name in (b"", b"memory"), words, fault.text, name)
        self.told += name != b""
        return run.stdout, name != b""

    def show(self, device):
        expected = run_words(self.program, ["show", device]).stdout
        for fault in self.each(["show", device]):
            said, refused = self.run(["show", device], fault)
            check(expected.startswith(said) if refused else said == expected, "show", fault.text, said)

    def format(self):
        device = os.path.join(self.folder, "made")
        words = ["format", device, PLANT]
        expected = run_words(self.program, words).stdout
        fresh = state(self.program, device)
        for fault in self.each(words):
            os.remove(device)
            said, refused = self.run(words, fault)
            check(said == (b"" if refused else expected), "format", fault.text, said)
            if refused:
                self.refused_format(device, words)
            check(state(self.program, device) == fresh, fault.text, "not what was formatted")

    def refused_format(self, device, words):
        """A format without memory leaves no device that opens."""
        check(run_words(self.program, ["show", device]).returncode != 0, "a device of a format without memory")
        check(run_words(self.program, words).returncode == 0, "can't be formatted again")

    def desk(self, course):
        lines = b"".join(course.lines)
        for fault in self.each(["desk", course.device()], lines):
            device = course.device()
            refused = self.one_desk(["desk", device], course, fault, lines)
            check(state(self.program, device) == course.states[0 if refused else -1], fault.text, "another state")

    def memory_desk(self, course):
        """The desk over no device."""
        lines = b"".join(course.lines)
        for fault in self.each(["desk"], lines):
            self.one_desk(["desk"], course, fault, lines)

    def one_desk(self, words, course, fault, lines):
        """A desk answers every line, or says before the first that it has no memory."""
        said, refused = self.run(words, fault, lines)
        check(not refused or said == b"", words, fault.text, "replies, and no memory")
        if not refused:
            for line, expected, reply in zip(course.lines, course.replies, said.splitlines(True), strict=True):
                check(is_right(line, expected, reply), words, fault.text, line, reply)
        return refused


class CountedServer:
    """A server whose requests for memory are counted, and a connection at each of some slots."""

    def __init__(self, program, device, library, body):
        self.count = os.path.join(os.path.dirname(library), "requests")
        self.port, self.number = free_ports(), 0
        loaded = {"LD_PRELOAD": library, "ALM_MEMORY": self.count, "ALM_BODY": body}
        self.process = subprocess.Popen(
            [program, "serve", device, "--port", str(self.port)], stdout=subprocess.PIPE, env={**os.environ, **loaded}
        )
        check(self.process.stdout.readline() == b"serving %d\n" % self.port, "the server doesn't serve")
        self.sockets = {
            slot: socket.create_connection(("127.0.0.1", self.port + slot), timeout=20) for slot in (0, 16, 17)
        }
        self.replies = {slot: one.makefile("rb") for slot, one in self.sockets.items()}

    def __enter__(self):
        return self

    def __exit__(self, *_):
        for one in [*self.replies.values(), *self.sockets.values()]:
            one.close()
        self.process.kill()
        self.process.communicate()

    def ask(self, slot, request):
        """The first word of the reply."""
        self.number += 1
        self.sockets[slot].sendall(f"{self.number} {request}\n".encode())
        return self.replies[slot].readline().split()[1].decode()

    def together(self, slot, request, times):
        """How many requests it makes while as many of these as may be unanswered are asked at once, some times; and
        whether all were refused."""
        before, refused = self.made(), True
        for _ in range(times):
            self.sockets[slot].sendall(f"1 {request}\n".encode() * OUT)
            refused = all(self.replies[slot].readline().startswith(b"1 NO ") for _ in range(OUT)) and refused
        return self.made() - before, refused

    def requests(self, asked):
        """How many requests it makes while these are asked, one after another, and how often each reply came."""
        before = self.made()
        replies = collections.Counter(self.ask(slot, request) for slot, request in asked)
        return self.made() - before, replies

    def made(self):
        """How many it made so far, once it makes no more."""
        while True:
            with open(self.count, "rb") as file:
                first = file.read()
            time.sleep(0.05)
            with open(self.count, "rb") as file:
                if file.read() == first:
                    return struct.unpack("<Q", first)[0]


def with_looks(lines):
    """Desk lines, with a look at what is remembered behind each tenth."""
    return [part for at, line in enumerate(lines) for part in ([line] if at % 10 else [line, b"0 1 SINCE\n"])]


class Steady:
    """Counts requests for memory behind the first few hundred lines."""

    def __init__(self, program, folder, more):
        self.program, self.folder, self.more = program, folder, more
        self.library = preload(folder)
        self.device = os.path.join(folder, "steady")

    def fresh(self):
        if os.path.exists(self.device):
            os.remove(self.device)
        check(run_words(self.program, ["format", self.device, PLANT]).returncode == 0, "format")

    def desk_requests(self, lines, body):
        """How many requests a desk makes over a new device, and its replies."""
        self.fresh()
        counted = os.path.join(self.folder, "counted")
        loaded = {"LD_PRELOAD": self.library, "ALM_COUNTS": counted, "ALM_BODY": body}
        run = run_words(self.program, ["desk", self.device], loaded, b"".join(lines))
        check(run.returncode == 0, "desk", run.stderr)
        with open(counted, encoding="ascii") as file:
            return dict(line.split() for line in file)["memory"], run.stdout.splitlines()

    def desk(self, body=""):
        """Whether more lines made no more requests. They have actions, refusals, queries and checkpoints among them."""
        few = with_looks(draw_lines(11, 400))
        lines = with_looks(draw_lines(11, 400 + self.more))
        check(lines[: len(few)] == few, "the lines don't begin alike")
        first, _ = self.desk_requests(few, body)
        all_of_them, replies = self.desk_requests(lines, body)
        kinds = collections.Counter(reply.split()[2] for reply in replies[len(few) :])
        check(min(kinds[word] for word in KINDS) >= self.more // 800, "too few of", kinds)
        longest = max(int(reply.split()[5]) for reply in replies if reply.split()[2] == b"SINCE")
        check(longest == 256, "no reply to SINCE has 256 entries")
        epoch = int(run_words(self.program, ["show", self.device]).stdout.split()[5])
        check(epoch > 5, "no checkpoints, epoch", epoch)
        return first == all_of_them

    def server(self, body=""):
        """Whether a server makes one request for each batch of actions, and none for anything else, through
        checkpoints."""
        self.fresh()
        values = [(16, f"VAL 0 {800 if number % 2 else 700}") for number in range(self.more // 4)]
        asked = "STATE 0;RESET 0;FLOOD 1;LIST P 1;LIST A 0;CHATTER;ACK 9;ACK 0 0;SINCE".split(";")
        others = [(0, request) for request in asked]
        with CountedServer(self.program, self.device, self.library, body) as server:
            server.requests(values[:100] + others)
            actions, replies = server.requests(values)
            check(replies["OK"] == len(values), "refused", replies)
            clocks, replies = server.requests((17, f"CLOCK {number}") for number in range(1, 101))
            check(replies["OK"] == 100, "refused", replies)
            none, replies = server.requests(others * 50)
            check((replies["NO"], replies["SINCE"]) == (150, 50), "not refused, or not told", replies)
            batched, refused = server.together(0, "ACK 9", 50)
            check(refused, "not refused")
        return (actions, clocks, none, batched) == (len(values), 100, 0, 0)

    def judge(self):
        for name, steady in (("desk", self.desk), ("serve", self.server)):
            check(steady(), name, "asks for memory where none is to be taken")
            check(not steady("copies"), name, "that takes a copy with each write isn't found out")


def main():
    program, step, folder = begin("memory", sys.argv, 1, 7)
    started = time.monotonic()
    refusals = Refusals(program, folder, step)
    try:
        course = Course(program, folder, 4, 60)
        refusals.show(os.path.join(folder, "course"))
        refusals.format()
        refusals.desk(course)
        refusals.memory_desk(course)
        check(refusals.done > 0, "the program asks for no memory")
        steady = Steady(program, folder, 20_000 if step == 1 else 4_000)
        steady.judge()
    except Wrong as wrong:
        sys.exit(f"memory: {wrong}; devices are in {folder}")
    finish(
        "memory",
        folder,
        (
            f"{refusals.done} refused requests, {refusals.told} told, none wrong; {steady.more} lines without a request"
            f" more, {time.monotonic() - started:.0f} s"
        ),
    )


main()
