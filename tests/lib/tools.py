"""What the scripts over the tools have in common: tools that are run and started, patience, tables, and a terminal.

Whatever is started here is ended by `end_all`, also where a check fails.
"""
import itertools
import os
import pathlib
import re
import select
import signal
import subprocess
import sys
import threading
import time
from typing import Callable, Iterator


from alarms.client import PRIORITIES, Client
from .places import AT_TOOLS, EXAMPLES, TOOLS
from .program import Wrong, check, free_ports, run_words
from .server import Server
from alarms.table_file import Table, written

# Seconds to wait for something on a machine that has nothing else to do.
PATIENCE = 30.0
# Seconds of the processor for a look at how busy the machine is, and seconds between two looks.
SUM, LOOK = 0.03, 2.0
# What changes the style on a terminal: 0 ends all, 7 is reverse, 31 to 37 are colours.
ESCAPE = re.compile(r"\x1b\[([0-9;]*)m")
STARTED: list[subprocess.Popen] = []
TERMINALS: list["Terminal"] = []
NUMBERS = itertools.count()
ENDED = threading.Event()


def slowness() -> float:
    """How many times longer work takes by now than on a machine that has nothing else to do."""
    began, own = time.monotonic(), time.thread_time()
    while time.thread_time() - own < SUM:
        pass
    return max(1.0, (time.monotonic() - began) / SUM)


def await_true(what: str, holds: Callable[[], bool], patience: float = PATIENCE) -> None:
    """Waits until it holds, the longer the busier the machine is."""
    left, factor, before = patience, 1.0, time.monotonic()
    looked = before - LOOK
    while not holds():
        check(left > 0 and not ENDED.is_set(), what, "didn't come")
        if before - looked >= LOOK:
            factor, looked = slowness(), before
        time.sleep(0.05)
        now = time.monotonic()
        left, before = left - (now - before) / factor, now


def words_of(name: str, words: tuple[object, ...]) -> list[str]:
    """The command of a tool, as `alm_feed`, or of a script of examples/."""
    return [sys.executable, str((EXAMPLES if name.endswith(".py") else TOOLS) / name), *map(str, words)]


def tool(name: str, *words: object, text: str = "") -> subprocess.CompletedProcess:
    """Runs a tool to its end."""
    return subprocess.run(
        words_of(name, words),
        input=text,
        capture_output=True,
        text=True,
        timeout=PATIENCE * 2 * slowness(),
        env=AT_TOOLS,
    )


def start(name: str, *words: object, **streams: object) -> subprocess.Popen:
    """Starts a tool that runs on. Its streams are pipes where no others are named."""
    pipes = dict.fromkeys(("stdin", "stdout", "stderr"), subprocess.PIPE)
    return started(subprocess.Popen(words_of(name, words), text=True, **{**pipes, "env": AT_TOOLS, **streams}))


def started(process: subprocess.Popen) -> subprocess.Popen:
    """Takes note of a process, so that it is ended."""
    STARTED.append(process)
    return process


def await_said(process: subprocess.Popen, text: str) -> str:
    """What a tool says on standard error, up to a text and the end of its line."""
    said = bytearray()

    def is_there() -> bool:
        if select.select([process.stderr], [], [], 0)[0]:
            said.extend(os.read(process.stderr.fileno(), 65_536))
        return text.encode() in said and said.endswith(b"\n")

    await_true(f"{text!r} of {process.args[1]}", is_there)
    return said.decode()


def stop(process: subprocess.Popen) -> tuple[str, str]:
    """Ends a tool; what it printed and what it said."""
    process.kill()
    return process.communicate()


def ended(process: subprocess.Popen) -> tuple[int, str, str]:
    """Waits for a tool that ends by itself: its status, what it printed and what it said."""
    await_true(f"the end of {process.args[1]}", lambda: process.poll() is not None)
    printed, said = process.communicate()
    return process.returncode, printed, said


def end_all() -> None:
    """Ends what was started and still runs, and whoever waits for it."""
    ENDED.set()
    for terminal in TERMINALS:
        terminal.end()
    for process in STARTED:
        if process.poll() is None:
            if os.getpgid(process.pid) == process.pid:  # it leads a group of its own
                os.killpg(process.pid, signal.SIGKILL)
            process.kill()
            process.wait()


def toml(table: Table, left_out: Callable[[], bool] = lambda: False) -> str:
    """A table file. Keys that have their default are left out where the caller says so."""
    defaults = {"deadband": 0, "max_shelve": 0, "latching": False, "text": ""}
    return "\n".join([f"size = {table.size}", f"areas = {table.areas}", *alarm_lines(table, defaults, left_out)]) + "\n"


def alarm_lines(table: Table, defaults: dict[str, object], left_out: Callable[[], bool]) -> Iterator[str]:
    for alarm in table.alarms:
        yield "[[alarm]]"
        for key, value in vars(alarm).items():
            if value != defaults.get(key) or not left_out():
                yield f"{key} = {written(value)}"


class Terminal:
    """alm_console in a window of tmux, of 80 by 24. Behind its end its status stands there."""

    def __init__(self, port: int, *words: str):
        self.name = f"alarms{os.getpid()}-{next(NUMBERS)}"
        self.words = words_of("alm_console", ("--port", port, *words))
        TERMINALS.append(self)

    def tmux(self, *words: str) -> str:
        return subprocess.run(
            ["tmux", "-L", self.name, *words], capture_output=True, text=True, timeout=20 * slowness()
        ).stdout

    def __enter__(self) -> "Terminal":
        shell = ["sh", "-c", '"$@"; echo "status $?"; exec sleep 600', "sh"]
        self.tmux("-f", "/dev/null", "new-session", "-d", "-x", "80", "-y", "24", *shell, *self.words)
        return self

    def __exit__(self, *_: object) -> None:
        self.end()

    def end(self) -> None:
        self.tmux("kill-server")

    def text(self) -> str:
        return self.tmux("capture-pane", "-p")

    def said(self) -> str:
        """What stands on the screen and what has gone from it, each line whole."""
        return self.tmux("capture-pane", "-p", "-J", "-S", "-")

    def styles(self, tag: str) -> set[str]:
        """The styles of a tag on the screen, by their numbers. The escapes are those of changes alone, on from row to
        row."""
        styles: set[str] = set()
        text = self.tmux("capture-pane", "-p", "-e")
        for found in ESCAPE.finditer(text[: max(0, text.find(f" {tag} "))]):
            for number in found[1].split(";"):
                if number in ("", "0"):
                    styles.clear()
                elif number.startswith("3"):
                    styles = {one for one in styles if not one.startswith("3")} | {number}
                else:
                    styles.add(number)
        return styles

    def shows(self, *texts: str) -> None:
        for text in texts:
            self.until(text, lambda: text in self.text())

    def hides(self, text: str) -> None:
        self.until(f"an end of {text}", lambda: text not in self.text())

    def until(self, what: str, holds: Callable[[], bool]) -> None:
        try:
            await_true(what, holds)
        except Wrong as wrong:
            raise Wrong(f"{wrong}: on the screen stands\n{self.text()}") from None

    def in_order(self, *texts: str) -> None:
        places = [self.text().index(text) for text in texts]
        check(places == sorted(places), "the rows stand in another order", self.text())

    def press(self, *keys: str) -> None:
        self.tmux("send-keys", *keys)

    def type(self, text: str) -> None:
        """Types a text, and the end of its line."""
        self.tmux("send-keys", "-l", "--", text)
        self.tmux("send-keys", "Enter")


class Yard:
    """The program, a folder for devices and tables, and servers."""

    def __init__(self, program: str, folder: str):
        self.program, self.folder = program, folder

    def path(self, name: str) -> str:
        return os.path.join(self.folder, name)

    def write(self, name: str, text: str) -> str:
        with open(self.path(name), "w", encoding="utf-8") as file:
            file.write(text)
        return self.path(name)

    def read(self, name: str) -> str:
        return pathlib.Path(self.path(name)).read_text(encoding="utf-8")

    def with_commands(self) -> dict[str, str]:
        """What a process has that runs blocks of the pages: the program and the tools are commands there."""
        os.makedirs(self.path("commands"), exist_ok=True)
        if not os.path.exists(self.path("commands/alm_server")):
            os.symlink(self.program, self.path("commands/alm_server"))
        return {**os.environ, "PATH": f"{self.path('commands')}:{TOOLS}:{os.environ['PATH']}"}

    def run(self, *words: str, lines: str = "") -> str:
        """What the program prints; it ends with status 0."""
        run = run_words(self.program, list(words), lines=lines.encode())
        check(run.returncode == 0 and run.stderr == b"", words, run.returncode, run.stderr)
        return run.stdout.decode()

    def format(self, name: str, table: str) -> str:
        """A new device for a table file."""
        self.run("format", self.path(name), table)
        return self.path(name)

    def serve(self, device: str, port: int = 0, loaded: dict[str, str] | None = None) -> Server:
        """A server, at a port or at ports that are free."""
        for _ in range(20):
            server = Server(self.program, device, port or free_ports(), loaded)
            started(server.process)
            if server.serves:
                return server
            check(server.errors == b"fault net\n", "serve", server.errors)
        raise Wrong("no ports")

    def now(self, device: str) -> int:
        """The clock of a device that may be served."""
        return int(self.summary(device)["clock"])

    def summary(self, device: str) -> dict[str, str]:
        """Words and numbers of what alm_journal says of a device."""
        said = tool("alm_journal", device).stdout.split()
        return dict(zip(said, said[1:]))

    def annunciated(self, port: int) -> set[int]:
        """The annunciated alarms of a server."""
        with Client.connect(port, 9) as client:
            return {alarm for priority in PRIORITIES for alarm in client.priority_list(priority).alarms}

    def shown(self, device: str) -> tuple[str, dict[str, list[str]], list[list[int]]]:
        """What `show` says of a stopped device: the clock, the words of each alarm by its tag, and the lists."""
        head, *lines = (line.split() for line in self.run("show", device).splitlines())
        alarms = {words[2]: words[3:] for words in lines if words[0] == "ALARM"}
        return (
            head[1],
            alarms,
            [[int(number) for number in words[3 : 3 + int(words[2])]] for words in lines if words[0] != "ALARM"],
        )
