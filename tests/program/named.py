#!/usr/bin/env python3
"""The device that is named is the one that is run, at each length of its path, and the server serves at each number of
connections.

    tests/program/named.py PROGRAM [--short]

No contract says which file a path opens. So a program that takes another device, or none, at one length of the path or
at one number of connections would be proved too. Each device has a number of actions that no other one has here: who
opens it can be seen by what it answers. A second device stands beside it, whose bytes stay as they are.

Lengths 1 to 200, with --short 1 to 60; the numbers of connections are the same. What is expected follows from
docs/START.md and docs/PROTOCOL.md.
"""
import os
import socket
import subprocess
import sys
import time

from lib.program import PLANT, Wrong, begin, check, count_of, finish, run_words

VALUES = (700, 800)  # at which alarm 0 of the worked plant goes and comes
FIELD = 16  # the slot that sends values
PATIENCE = 20  # seconds


def value(number):
    """The line of action `number` from 1: alarm 0 comes and goes in turns. And its reply."""
    return f"VAL 0 {VALUES[number % 2]}".encode(), f"OK {number}".encode()


class Named:
    """Devices with names of each length, and one that nobody names."""

    def __init__(self, program, folder):
        self.program, self.folder, self.runs = program, folder, 0
        os.chdir(folder)
        os.mkdir("s")
        self.run("format", "beside.device", PLANT)
        self.beside = self.bytes_beside()

    @staticmethod
    def bytes_beside():
        with open("beside.device", "rb") as file:
            return file.read()

    def run(self, *words, lines=b""):
        """What a run prints that ends well."""
        run = run_words(self.program, words, lines=lines)
        self.runs += 1
        check((run.returncode, run.stderr) == (0, b""), words, run.returncode, run.stderr)
        return run.stdout

    def desk(self, device, first, count):
        """A desk over a device that has `first` actions does so many more."""
        asked = [value(first + each) for each in range(1, count + 1)]
        lines = b"".join(b"%d %d %s\n" % (FIELD, each, line) for each, (line, _) in enumerate(asked))
        wanted = b"".join(b"%d %d %s\n" % (FIELD, each, reply) for each, (_, reply) in enumerate(asked))
        said = self.run("desk", device, lines=lines)
        check(said == wanted, f"a desk over a name of {len(device)} letters says", said[:80])

    def serve(self, device, first, conns):
        """A server takes so many connections, each of which does an action, and ends well."""
        said = f"at {conns} connections"
        words = [self.program, "serve", device, "--sockets", "s", "--conns", str(conns)]
        with subprocess.Popen(words, stdout=subprocess.PIPE, stderr=subprocess.PIPE) as process:
            try:
                check(process.stdout.readline() == b"serving s\n", said, "it doesn't serve")
                for number in range(first + 1, first + conns + 1):
                    self.ask(number, said)
                printed, errors = process.communicate(timeout=PATIENCE)
            except subprocess.TimeoutExpired:
                raise Wrong(f"{said} the server goes on") from None
            finally:
                process.kill()
        self.runs += 1
        wanted = (0, f"stopped {first + conns}\n".encode(), b"")
        check((process.returncode, printed, errors) == wanted, said, process.returncode, printed, errors)

    @staticmethod
    def ask(number, said):
        """One connection, whose action is answered by its number."""
        line, reply = value(number)
        try:
            with socket.socket(socket.AF_UNIX) as client:
                client.settimeout(PATIENCE)
                client.connect(f"s/{FIELD}")
                client.sendall(b"1 " + line + b"\n")
                came = client.makefile("rb").readline()
        except OSError as error:
            raise Wrong(f"{said} action {number} isn't answered: {error}") from None
        check(came == b"1 " + reply + b"\n", said, "action", number, "is answered", came)

    def named(self, length):
        """A device whose name has this length: by desk and server each of its actions is there."""
        device = "d" * length
        check(self.run("format", device, PLANT).startswith(b"formatted 4 "), device, "isn't formatted")
        own = 1 + length % 7
        self.desk(device, 0, own)
        self.serve(device, own, length)
        kept = count_of(self.run("show", device))
        check(kept == own + length, f"a name of {length} letters keeps", kept, "of", own + length)
        check(self.bytes_beside() == self.beside, f"a name of {length} letters changes another device")
        os.remove(device)
        check(sorted(os.listdir(".")) == ["beside.device", "s"], "left there:", os.listdir("."))


def main():
    program, most, folder = begin("named", sys.argv, 200, 60)
    started = time.monotonic()
    try:
        named = Named(program, folder)
        for length in range(1, most + 1):
            named.named(length)
    except Wrong as wrong:
        sys.exit(f"named: {wrong}; devices are in {folder}")
    finish("named", folder, f"{most} lengths of a path, {named.runs} runs, {time.monotonic() - started:.0f} s")


main()
