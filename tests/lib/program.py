"""What the scripts here have in common: the program, its devices, drawn lines, and what is expected of them.

The expected replies and states come of a run of the same program in which nothing fails; what is judged is that a fault
takes nothing back and invents nothing.
"""
import os
import random
import re
import shutil
import socket
import subprocess
import sys
import tempfile
import threading
import time

from .places import EXAMPLES, TESTS

PLANT = str(EXAMPLES / "plant.toml")

# Those that `format` makes.
VERSIONS = ("02", "03")

# What drawn lines ask besides plain actions. Each reply is of the plant alone: what SINCE tells of the actions up to a
# count goes by the program that counts them, so here it has no entry, or the number is none.
QUERIES = ["LIST P 1", "LIST A 0", "STATE 0", "CHATTER", "NOTHING", "FLOOD 1", "ATTR 1", "ROW 1", "PLANT"]
QUERIES += ["SINCE 281474976710656", "SINCE 281474976710657", "SINCE 01"]

# Where the first of a server's ports is looked for: below those that the system gives to clients.
PORTS = (10_000, 32_000)

# The lines that `fault` may end with, and their statuses.
FAULT = re.compile(
    rb"fault (usage|toml|table (\d+|-) .*|rows|too-small|unformatted|damaged [012] \d+|disk|stopped|memory|net|io)\n"
)
STATUS = {b"usage": 1, b"toml": 2, b"table": 2, b"rows": 2, b"too-small": 2, b"unformatted": 2, b"damaged": 2}


def free_ports():
    """The first of 18 ports that are free, found at a drawn place, so that two scripts rarely meet."""
    while True:
        first = random.randrange(*PORTS)
        try:
            for port in range(first, first + 18):
                with socket.socket() as one:
                    one.bind(("127.0.0.1", port))
            return first
        except OSError:
            pass


class Wrong(Exception):
    """The program did what it must not do."""


def as_user(user, group, groups, function):
    """What a function gives as another user, in a process of its own: a text, or an exception's. No thread runs beside:
    the copy would wait for its locks."""
    assert threading.active_count() == 1, "a fork beside threads"
    there, here = os.pipe()
    child = os.fork()
    if child == 0:
        try:
            os.setgroups(groups)
            os.setgid(group)
            os.setuid(user)
            said = str(function())
        except Exception as error:
            said = type(error).__name__
        os.write(here, said.encode())
        os._exit(0)
    os.close(here)
    with open(there, "rb") as said:
        text = said.read().decode()
    os.waitpid(child, 0)
    return text


def check(holds, *said):
    if not holds:
        raise Wrong(" ".join(str(word) for word in said))


def begin(name, argv, full, short):
    """The program's path, how much is to be done, and a folder for devices, which goes with the script."""
    words = [word for word in argv[1:] if word != "--short"]
    if len(words) != 1 or not os.access(words[0], os.X_OK):
        sys.exit(f"{name}: give the built program's path, and --short for a run below half a minute")
    folder = tempfile.mkdtemp(prefix="alarms", dir="/dev/shm" if os.path.isdir("/dev/shm") else None)
    return os.path.abspath(words[0]), short if "--short" in argv else full, folder


def preload(folder):
    """The library that makes calls fail, compiled."""
    library = os.path.join(folder, "preload.so")
    parts = [str(TESTS / "lib" / f"{name}.c") for name in ("preload", "preload_memory", "preload_names")]
    subprocess.run(["cc", "-O2", "-shared", "-fPIC", "-o", library, *parts], check=True)
    return library


class Fault:
    """A call that shall fail."""

    def __init__(self, library, call, at, kind, seed=0):
        self.text, self.call, self.at, self.kind = f"{call}:{at}:{kind}:{seed}", call, at, kind
        self.kills = kind not in ("eio", "enospc", "short", "from", "disk", "held")
        self.met = os.path.join(os.path.dirname(library), "met")
        self.loaded = {"LD_PRELOAD": library, "ALM_FAULT": self.text, "ALM_MET": self.met}
        self.forget()

    def forget(self):
        """Before a run: the call didn't come."""
        if os.path.exists(self.met):
            os.remove(self.met)

    def was_met(self):
        """Whether the call came."""
        return os.path.exists(self.met)


def ends(run, fault, *words):
    """A status and a fault line that belong together. What no fault killed ends by itself."""
    if run.returncode == 0:
        check(run.stderr == b"", words, fault.text, "status 0 and", run.stderr)
        return b""
    check(FAULT.fullmatch(run.stderr), words, fault.text, "status", run.returncode, "and", run.stderr)
    name = run.stderr[6:-1]
    check(run.returncode == STATUS.get(name.split()[0], 3), words, fault.text, run.returncode, run.stderr)
    return name


def run_words(program, words, loaded=None, lines=b"", patience=60):
    """The program's run with these words, over so many seconds at most."""
    return subprocess.run(
        [program, *words], input=lines, capture_output=True, env={**os.environ, **(loaded or {})}, timeout=patience
    )


def counts(program, library, words, folder, lines=b""):
    """How often each call is made in a run without a fault."""
    path = os.path.join(folder, "counts")
    run = run_words(program, words, {"LD_PRELOAD": library, "ALM_COUNTS": path}, lines)
    check(run.returncode == 0, words, run.stderr)
    with open(path, encoding="ascii") as file:
        return {name: int(number) for name, number in (line.split() for line in file)}


def state(program, device):
    """What a device stands for, without its epoch: a checkpoint that was cut short is made again."""
    run = run_words(program, ["show", device])
    check(run.returncode == 0, "show", device, run.stderr)
    return re.sub(rb" EPOCH \d+", b"", run.stdout)


def draw_lines(seed, count):
    """Desk lines, most of which are accepted."""
    dice = random.Random(seed)
    lines, clock = [], 0
    for number in range(1, count + 1):
        alarm, console, clock = dice.randrange(4), dice.randrange(16), clock + dice.randrange(1, 90)
        kind = dice.randrange(20)
        if kind < 7:
            line = f"16 {number} VAL {alarm} {dice.choice([0, 1, 49, 50, 90, 110, 789, 790, 800, 900])}"
        elif kind < 10:
            line = f"{console} {number} ACK {alarm}" + dice.choice(["", f" {dice.randrange(1, 2 + number // 3)}"])
        elif kind == 10:
            line = f"{console} {number} SHELVE {alarm} {dice.randrange(1, 4000)}"
        elif kind == 11:
            line = f"{console} {number} OOS {alarm} {dice.choice(['ON', 'OFF'])}"
        elif kind == 12:
            line = f"{console} {number} RESET {alarm}"
        elif kind == 13:
            line = f"{console} {number} {dice.choice(QUERIES)}"
        elif kind == 14:
            line = f"{console} {number} UNSHELVE {alarm}"
        elif kind == 15:
            line = f"16 {number} DESIGN {alarm} {dice.choice(['ON', 'OFF'])}"
        elif kind == 16:
            line = f"{console} {number} PRIO {alarm} {dice.randrange(1, 5)}"
        elif kind == 17:
            line = f"{console} {number} SETP {alarm} {dice.choice([1, 49, 100, 800])}"
        else:
            line = f"17 {number} CLOCK {clock}"
        lines.append(line.encode() + b"\n")
    return lines


def stopped_reply(line, reply):
    """The reply of a desk whose storage has stopped: a line that asks nothing is refused as ever."""
    if reply.endswith(b" NO 13\n"):
        return reply
    slot, number = line.split()[:2]
    return slot + b" " + number + b" NO 15\n"


class Course:
    """A device, lines for a desk over it, their replies, and what the device stands for after each."""

    def __init__(self, program, folder, seed, count, table=PLANT, lines=None, start=None, version="02"):
        self.program, self.folder = program, folder
        self.lines = lines or draw_lines(seed, count)
        self.fresh = os.path.join(folder, f"fresh{seed}")
        if start:
            shutil.copyfile(start, self.fresh)
        else:
            run = run_words(program, ["format", self.fresh, table, "--version", version])
            check(run.returncode == 0, "format", run.stderr)
        self.states, self.replies = [state(program, self.fresh)], []
        device, copy = os.path.join(folder, "course"), os.path.join(folder, "copy")
        shutil.copyfile(self.fresh, device)
        with Desk(program, device) as desk:
            for line in self.lines:
                self.replies.append(desk.ask(line))
                shutil.copyfile(device, copy)
                self.states.append(state(program, copy))

    def device(self):
        """A copy of the fresh device."""
        device = os.path.join(self.folder, "device")
        shutil.copyfile(self.fresh, device)
        return device

    def goes_on(self, device, answered, fault):
        """Judges a device after so many answered lines, then gives it the rest."""
        now = state(self.program, device)
        near = [at for at in (answered, answered + 1) if at < len(self.states) and self.states[at] == now]
        check(near, fault.text, "after", answered, "answers the device stands for", now)
        run = run_words(self.program, ["desk", device], lines=b"".join(self.lines[near[0] :]))
        check(run.returncode == 0, fault.text, run.stderr)
        check(run.stdout == b"".join(self.replies[near[0] :]), fault.text, "the desk goes on with other replies")
        check(state(self.program, device) == self.states[-1], fault.text, "the desk goes on to another state")


class Desk:
    """A desk that is asked line by line."""

    def __init__(self, program, device, loaded=None):
        self.process = subprocess.Popen(
            [program, "desk", device],
            stdin=subprocess.PIPE,
            stdout=subprocess.PIPE,
            stderr=subprocess.PIPE,
            bufsize=0,
            env={**os.environ, **(loaded or {})},
        )

    def __enter__(self):
        return self

    def __exit__(self, *_):
        self.process.communicate()

    def ask(self, line):
        """The reply, or what there is of it where the process has ended."""
        try:
            self.process.stdin.write(line)
        except BrokenPipeError:
            return b""
        return self.process.stdout.readline()


def finish(name, folder, said):
    for _ in range(50):
        try:  # a process that was killed may still leave a file there
            shutil.rmtree(folder)
            break
        except OSError:
            time.sleep(0.1)
    print(f"{name}: {said}")


def show(program, device):
    """What `show` prints of a device, without its epoch, or its fault line."""
    run = run_words(program, ["show", device])
    return re.sub(rb" EPOCH \d+", b"", run.stdout) if run.returncode == 0 else run.stderr.strip()


def count_of(shown):
    return int(re.match(rb"NOW \d+ COUNT (\d+)", shown)[1])
