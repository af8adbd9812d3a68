#!/usr/bin/env python3
"""How tools end: whatever is wrong is a line and a status, and never a traceback.

    tests/tools/ends.py PROGRAM [--short]

Each tool is given files that aren't what it wants, ports and numbers that are none, and an output that is full, closed
or a pipe whose reader has gone. alm_console is started without a terminal, at one that nobody knows, at one that can't
place text, and at one that can't hide its cursor. The script's own test: a tool that prints a traceback is refused.
"""
import concurrent.futures
import os
import pty
import select
import shutil
import subprocess
import sys
import time
from typing import Optional

from lib.places import AT_TOOLS, EXAMPLES, TOOLS
from lib.program import Wrong, begin, check, finish
from lib.tools import PATIENCE, Yard, slowness

# Files that are no device, no table, no archive and no map; DEVICE and TABLE are a good one of each.
FILES = {"empty": b"", "bytes": b"\xff\xfe\0", "text": b"nothing", "odd.toml": b"size = 1\nareas = 1\nalarm = [1]\n"}
OF_A_FILE = (
    "check FILE; journal FILE; journal FILE --from 1; journal DEVICE --from 1 --table FILE; mirror FILE; uncache FILE;"
    " salvage FILE --table; salvage DEVICE FILE; change_table DEVICE FILE --program PROGRAM;"
    " change_table FILE TABLE --program PROGRAM; csv2toml FILE; archive run FILE new.sqlite --stopped;"
    " archive list FILE; archive prune FILE --name x --before 2026-01-31; reports FILE; feed --port 1024 --table FILE;"
    " feed --port 1024 --map FILE; metrics --port 1024 --listen 0 --table FILE; console --port 1024 --table FILE;"
    " journal --port 1024 --table FILE"
)
NUMBERS = ("0", "-1", "x", "", "1023", "65519", "70000", "99999999999999999999")
OF_A_NUMBER = (
    "export --port N; feed --port N; clock --port N --seconds 1; metrics --port N; console --port N;"
    " await_server --port N; metrics --port 1024 --listen N; clock --port 1024 --seconds 1 --jump N;"
    " journal --port N; journal --port 1024 --from N; export --port 1024 --slot N; csv2toml TABLE --segment N; uncache DEVICE --within N;"
    " archive run new.sqlite --port 1024 --metrics N --once; browser --port 1024 --listen 0 --metrics N;"
    " await_server --sockets none --let root N --pid 4194305"
)
# What prints something for a good device.
PRINTING = "check DEVICE; journal DEVICE; journal DEVICE --from 1; mirror DEVICE; salvage DEVICE --table"
# Of a kind of terminal the status of alm_console, and what it says; q ends it where it runs.
TERMINALS = {"vt100": (0, ""), "xterm": (0, ""), "dumb": (1, "can't place text"), "nosuch": (1, "isn't known")}


def commands(text: str, **places: str) -> list[list[str]]:
    """The commands of a list, with these words in the place of others."""
    return [[places.get(word, word) for word in one.split()] for one in text.split(";")]


def judge(words: list[str], status: int, said: str) -> None:
    """A status without a traceback; a fault has a line, or some where it says more before."""
    check("Traceback" not in said and "Exception ignored" not in said, "alm_" + " ".join(words), "said", said)
    # What the program says of a file is passed on.
    right = (0, 1, 2, 4, 3) if words[0] == "change_table" else (0, 1, 2, 4)
    check(status in right and (status == 0 or said.strip()), words, "ended with", status, "and said", said)


def run(yard: Yard, words: list[str], output: Optional[int] = None) -> int:
    """Runs a tool in the yard's folder; its status. One that waits for a server is ended: it has said nothing wrong."""
    command = [sys.executable, str(TOOLS / f"alm_{words[0]}"), *words[1:]]
    to = subprocess.PIPE if output is None else output
    tool = subprocess.Popen(
        command, cwd=yard.folder, env=AT_TOOLS, stdin=subprocess.DEVNULL, stdout=to, stderr=subprocess.PIPE, text=True
    )
    try:
        _, said = tool.communicate(timeout=4 * slowness())
    except subprocess.TimeoutExpired:
        tool.kill()
        _, said = tool.communicate()
        judge(words, 0, said)
        return 0
    judge(words, tool.returncode, said)
    return tool.returncode


def outputs(yard: Yard, words: list[str]) -> None:
    """A full disk is a fault, and so is a pipe whose reader has gone."""
    with open("/dev/full", "w", encoding="ascii") as full:
        check(run(yard, words, full.fileno()) == 1, words, "ended well at a full disk")
    reader, writer = os.pipe()
    os.close(reader)
    check(run(yard, words, writer) == 1, words, "ended well at a closed pipe")
    os.close(writer)


def at_terminal(kind: str) -> tuple[int, str]:
    """The status of alm_console at a kind of terminal, and what came there."""
    child, terminal = pty.fork()
    if child == 0:
        os.environ.update(AT_TOOLS, TERM=kind)
        os.execv(sys.executable, [sys.executable, str(TOOLS / "alm_console"), "--port", "1024"])
    came, end = "", time.monotonic() + PATIENCE * slowness()
    while time.monotonic() < end:
        if select.select([terminal], [], [], 1)[0]:
            try:
                piece = os.read(terminal, 65_536)
            except OSError:
                break
            came += piece.decode(errors="replace")
        else:
            os.write(terminal, b"q")
    status = os.waitstatus_to_exitcode(os.waitpid(child, 0)[1])
    os.close(terminal)
    return status, came


def terminals(yard: Yard) -> int:
    """alm_console at each kind of terminal; how many."""
    for kind, (status, says) in TERMINALS.items():
        found, came = at_terminal(kind)
        check(found == status and says in came and "Traceback" not in came, kind, "gave", found, came[-300:])
    check(run(yard, ["console", "--port", "1024"]) == 1, "alm_console runs without a terminal")
    return len(TERMINALS) + 1


def refuses_a_traceback() -> None:
    """The script's own test."""
    try:
        judge(["own"], 1, "Traceback (most recent call last):\n")
    except Wrong:
        return
    raise Wrong("a traceback isn't refused")


def try_all(yard: Yard) -> str:
    """Everything that is wrong, beside each other where it may be."""
    for name, content in FILES.items():
        with open(yard.path(name), "wb") as file:
            file.write(content)
    os.mkdir(yard.path("folder"))
    good = {"DEVICE": yard.path("good.device"), "TABLE": str(EXAMPLES / "plant.toml"), "PROGRAM": yard.program}
    shutil.copyfile(EXAMPLES / "earlier_release" / "plant.device", good["DEVICE"])
    asked = [one for name in (*FILES, "folder", "none") for one in commands(OF_A_FILE, FILE=name, **good)]
    asked += [one for number in NUMBERS for one in commands(OF_A_NUMBER, N=number, **good)]
    with concurrent.futures.ThreadPoolExecutor(4) as pool:
        list(pool.map(lambda words: run(yard, words), asked))
    printing = commands(PRINTING, **good)
    for words in printing:
        outputs(yard, words)
    return f"{len(asked)} wrong words, {2 * len(printing)} wrong outputs, {terminals(yard)} terminals"


def main() -> None:
    program, _, folder = begin("ends", sys.argv, 1, 1)
    began = time.monotonic()
    try:
        refuses_a_traceback()
        said = try_all(Yard(program, folder))
    except Wrong as wrong:
        sys.exit(f"ends: {wrong}")
    finish("ends", folder, f"{said}, none with a traceback, {time.monotonic() - began:.0f} s")


if __name__ == "__main__":
    main()
