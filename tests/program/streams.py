#!/usr/bin/env python3
"""Starts the program with standard streams that are closed, or that are the device's own file.

    tests/program/streams.py PROGRAM [--short]

Each command runs with each of the eight sets of closed streams over a device with stored actions: the device is
afterwards byte for byte what the command leaves there with open streams, or what it was, and status and fault line are
those of the page. Then streams that are the device, and files that are none: nothing is lost.
"""
import fcntl
import itertools
import os
import shutil
import socket
import subprocess
import sys
import time

from lib.program import PLANT, Wrong, begin, check, finish, free_ports, run_words

STORED = b"17 1 CLOCK 1000\n16 2 VAL 0 800\n16 3 VAL 1 100\n"
ASKED = b"0 4 ACK 0\n1 5 ACK 1\n"
INPUT, OUTPUT, ERRORS = range(3)
PORT = free_ports()


def read(path):
    with open(path, "rb") as file:
        return file.read()


def closing(descriptors):
    """What a child does before it becomes the program."""

    def close():
        for descriptor in descriptors:
            os.close(descriptor)

    return close


class Run:
    """The program's status and what it printed, with some streams closed."""

    def __init__(self, words, closed=(), lines=b"", **streams):
        open_streams = {"stdin": subprocess.PIPE, "stdout": subprocess.PIPE, "stderr": subprocess.PIPE, **streams}
        process = subprocess.Popen(words, preexec_fn=closing(closed), **open_streams)
        out, errors = process.communicate(lines if open_streams["stdin"] == subprocess.PIPE else None, timeout=60)
        self.status, self.out, self.errors = process.returncode, out or b"", errors or b""


class Streams:
    """The program with standard streams that are closed, or are the device."""

    def __init__(self, program, folder):
        self.program, self.folder, self.done = program, folder, 0
        self.fresh = self.path("fresh")
        run = run_words(program, ["format", self.fresh, PLANT])
        check(run.returncode == 0, "format", run.stderr)
        self.stored = self.path("stored")
        shutil.copyfile(self.fresh, self.stored)
        check(run_words(program, ["desk", self.stored], lines=STORED).returncode == 0, "desk")
        self.answered = self.path("answered")
        shutil.copyfile(self.stored, self.answered)
        check(run_words(program, ["desk", self.answered], lines=ASKED).returncode == 0, "desk")
        self.formatted = self.path("formatted")
        shutil.copyfile(self.stored, self.formatted)
        check(run_words(program, ["format", self.formatted, PLANT]).returncode == 0, "format")
        self.acked = self.path("acked")
        shutil.copyfile(self.stored, self.acked)
        check(run_words(program, ["desk", self.acked], lines=b"0 4 ACK 0\n").returncode == 0, "desk")
        self.shown = self.show(self.stored)
        self.printed = {word: self.show(self.stored, word) for word in ("show", "export")}

    def path(self, name):
        return os.path.join(self.folder, name)

    def device(self):
        """A copy of the device with stored actions."""
        device = self.path("device")
        shutil.copyfile(self.stored, device)
        return device

    def show(self, device, word="show"):
        run = run_words(self.program, [word, device])
        check(run.returncode == 0, word, device, run.stderr)
        return run.stdout

    def ends(self, run, closed, status, fault, said):
        """Status, fault line and output, as far as they can be seen."""
        self.done += 1
        errors = b"" if ERRORS in closed or not fault else b"fault " + fault + b"\n"
        check(run.status == status, said, closed, "status", run.status)
        check(run.errors == errors, said, closed, run.errors)

    def closed_streams(self):
        sets = itertools.chain.from_iterable(itertools.combinations(range(3), count) for count in range(4))
        for closed in sets:
            self.desk_in_memory(closed)
            self.desk(closed)
            for word in self.printed:
                self.show_with(word, closed)
            self.format_with(closed)
            self.serve_with(closed)

    def desk_in_memory(self, closed):
        run = Run([self.program, "desk"], closed, STORED)
        says = INPUT not in closed
        fails = says and OUTPUT in closed
        self.ends(run, closed, 3 if fails else 0, b"io" if fails else b"", "desk")
        check(run.out == (b"17 1 OK 1\n16 2 OK 2\n16 3 OK 3\n" if says and not fails else b""), "desk", closed, run.out)

    def desk(self, closed):
        device = self.device()
        run = Run([self.program, "desk", device], closed, ASKED)
        says = INPUT not in closed
        fails = says and OUTPUT in closed
        self.ends(run, closed, 3 if fails else 0, b"io" if fails else b"", "desk DEVICE")
        check(run.out == (b"0 4 OK 4\n1 5 OK 5\n" if says and not fails else b""), "desk DEVICE", closed, run.out)
        check(read(device) == read(self.answered if says else self.stored), "desk DEVICE", closed, "the device")

    def show_with(self, word, closed):
        device = self.device()
        run = Run([self.program, word, device], closed)
        fails = OUTPUT in closed
        self.ends(run, closed, 3 if fails else 0, b"io" if fails else b"", word)
        check(run.out == (b"" if fails else self.printed[word]), word, closed, run.out)
        check(read(device) == read(self.stored), word, closed, "the device")
        check(self.show(device) == self.shown, word, closed)

    def full_output(self):
        """What can't be printed since the disk under the output is full is `fault io`, also where all of it fits the
        program's buffer."""
        device, table = self.device(), self.path("full.device")
        for words, lines in (
            (["show", device], b""),
            (["export", device], b""),
            (["desk"], STORED),
            (["desk", device], ASKED),
            (["format", table, PLANT], b""),
        ):
            with open("/dev/full", "wb") as full:
                run = Run([self.program, *words], lines=lines, stdout=full)
            self.ends(run, (), 3, b"io", f"{words[0]} on a full disk")

    def format_with(self, closed):
        device = self.device()
        run = Run([self.program, "format", device, PLANT], closed)
        fails = OUTPUT in closed
        self.ends(run, closed, 3 if fails else 0, b"io" if fails else b"", "format")
        check(run.out == (b"" if fails else b"formatted 4 2 4116\n"), "format", closed, run.out)
        check(read(device) == read(self.formatted), "format", closed, "the device")

    def serve_with(self, closed):
        device = self.device()
        if OUTPUT in closed:
            run = Run([self.program, "serve", device, "--port", str(PORT)], closed)
            self.ends(run, closed, 3, b"io", "serve")
            check(read(device) == read(self.stored), "serve", closed, "the device")
            return
        words = [self.program, "serve", device, "--port", str(PORT), "--conns", "1"]
        process = subprocess.Popen(
            words, stdin=subprocess.PIPE, stdout=subprocess.PIPE, stderr=subprocess.PIPE, preexec_fn=closing(closed)
        )
        check(process.stdout.readline() == b"serving %d\n" % PORT, "serve", closed)
        with socket.create_connection(("127.0.0.1", PORT)) as client:
            client.sendall(b"4 ACK 0\n")
            check(client.recv(64) == b"4 OK 4\n", "serve", closed)
        out, errors = process.communicate(timeout=60)
        self.done += 1
        check(process.returncode == 0 and out == b"stopped 4\n" and errors == b"", "serve", closed, out, errors)
        check(read(device) == read(self.acked), "serve", closed, "the device")

    def streams_that_are_the_device(self):
        """Each is wrong usage, and the device is as it was. Where standard error is the device no line is told."""
        for words in (["desk"], ["show"], ["serve", "--port", str(PORT)]):
            for stream in ("stdin", "stdout", "stderr"):
                self.stream(words, {stream})
            self.stream(words, {"stdout", "stderr"})
            self.stream(words, {"stdin", "stdout", "stderr"})
        for stream in ("stdin", "stdout", "stderr"):
            self.stream(["format"], {stream}, [PLANT])

    def stream(self, words, streams, behind=()):
        device = self.device()
        with open(device, "r+b") as file:
            argv = [self.program, words[0], device, *words[1:], *behind]
            run = Run(argv, **{stream: file for stream in streams})
        told = ERRORS if "stderr" in streams else -1
        self.ends(run, (told,), 1, b"usage", " ".join([*words, *sorted(streams)]))
        check(run.out == b"", words, streams, run.out)
        check(read(device) == read(self.stored), words, streams, "the device")

    def appended(self):
        """The device at the end of which a stream writes."""
        for words in (["show"], ["desk"], ["serve", "--port", str(PORT)]):
            device = self.device()
            with open(device, "ab") as file:
                run = Run([self.program, words[0], device, *words[1:]], stdout=file)
            self.ends(run, (), 1, b"usage", f"{words[0]} appended")
            check(read(device) == read(self.stored), words, "appended")

    def no_devices(self):
        """Files that are no device: a fault line, and nothing is lost."""
        folder, pipe, link = self.path("folder"), self.path("pipe"), self.path("link")
        os.mkdir(folder)
        os.mkfifo(pipe)
        table = self.path("table.toml")
        shutil.copyfile(PLANT, table)
        os.symlink(table, link)
        place = self.path("socket")
        with socket.socket(socket.AF_UNIX) as bound:
            bound.bind(place)
            for device in (folder, pipe, place, "/dev/null", "/dev/stdin"):
                for words in (
                    ["desk", device],
                    ["show", device],
                    ["serve", device, "--port", str(PORT)],
                    ["format", device, table],
                ):
                    self.ends(Run([self.program, *words]), (), 3, b"io", " ".join(words))
        self.ends(Run([self.program, "format", link, table]), (), 1, b"usage", "format LINK TABLE")
        with open(self.device(), "rb") as file:
            self.ends(
                Run([self.program, "format", self.path("device"), "/dev/stdin"], stdin=file),
                (),
                1,
                b"usage",
                "format, the device as table",
            )
        with open(table, "rb") as file:
            self.ends(
                Run([self.program, "format", "/dev/stdin", table], stdin=file), (), 1, b"usage", "format /dev/stdin"
            )
        check(read(table) == read(PLANT), "format", "the table")
        check(read(self.path("device")) == read(self.stored), "format", "the device")
        with open(table, "rb") as file:
            new = self.path("new")
            self.ends(
                Run([self.program, "format", new, "/dev/stdin"], stdin=file),
                (),
                0,
                b"",
                "format of a table on standard input",
            )
        check(self.show(new) == self.show(self.fresh), "format of a table on standard input")

    def read_alone(self):
        """A device that can't be written is shown, twice at once, and beside no desk."""
        device = self.device()
        os.chmod(device, 0o444)
        with open(device, "rb") as reader:
            fcntl.flock(reader, fcntl.LOCK_SH)
            check(self.show(device) == self.shown, "show beside a reader")
            run = run_words(self.program, ["desk", device])
            check(run.returncode == 3 and run.stderr == b"fault io\n", "desk beside a reader", run.stderr)
        os.chmod(device, 0o644)
        desk = subprocess.Popen([self.program, "desk", device], stdin=subprocess.PIPE, stdout=subprocess.PIPE)
        desk.stdin.write(b"17 9 CLOCK 2000\n")
        desk.stdin.flush()
        check(desk.stdout.readline() == b"17 9 OK 4\n", "desk")
        run = run_words(self.program, ["show", device])
        check(run.returncode == 3 and run.stderr == b"fault io\n", "show beside a desk", run.stderr)
        desk.communicate()
        self.done += 3
        self.read_only_system()

    def read_only_system(self):
        """A file system that can't be written, where this user may mount one."""
        script = 'mount -t tmpfs none "$1" && cp "$2" "$1/device" && mount -o remount,ro "$1" && "$3" show "$1/device"'
        place = self.path("mounted")
        os.mkdir(place)
        words = ["unshare", "-m", "sh", "-c", script, "", place, self.stored, self.program]
        run = subprocess.run(words, capture_output=True, timeout=60)
        if b"unshare" in run.stderr or b"mount" in run.stderr:
            print("streams.py: no file system could be mounted, so none that is read-only was tried")
            return
        self.done += 1
        check(run.returncode == 0 and run.stdout == self.shown, "show on a read-only file system", run.stderr)


def main(argv):
    program, _, folder = begin("streams.py", argv, 1, 1)
    began = time.monotonic()
    streams = Streams(program, folder)
    streams.closed_streams()
    streams.full_output()
    streams.streams_that_are_the_device()
    streams.appended()
    streams.no_devices()
    streams.read_alone()
    finish(
        "streams.py",
        folder,
        (
            f"{streams.done} runs with streams that are closed or the device's, none wrong,"
            f" {time.monotonic() - began:.0f} s"
        ),
    )


if __name__ == "__main__":
    try:
        main(sys.argv)
    except Wrong as wrong:
        sys.exit(f"streams.py: {wrong}")
