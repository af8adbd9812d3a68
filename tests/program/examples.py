#!/usr/bin/env python3
"""The built program over each example: what it prints, and its status.

Each folder of examples/ with a `stdin` has a `stdout` beside it: what the desk prints for it, over a copy of
`plant.device` where the folder has one. The desk answers the blocks of docs/PROTOCOL.md as they stand. Without words
the program says `fault usage`, by `--version` what the file VERSION has, by `--help` the words of alm_server(8), as the
completion does. `refinery.toml` is what `make_refinery.py` prints. Each fault of a table file that docs/TABLE.md lists
is told by its line, and but for `too-small` no file is made. `alarms_alone` of deploy/standby/ resumes nothing that the
other machine's switch doesn't allow: switch and DRBD are played by scripts.
"""
import os
import re
import shutil
import subprocess
import sys

from lib.places import AT_TOOLS, DEPLOY, DOCS, EXAMPLES, TOP
from lib.program import Wrong, begin, check, finish, run_words

TABLE = DOCS / "TABLE.md"
# A block of a page in which a desk is asked and answers, and its lines.
EXCHANGE = re.compile(rb"```\n((?:[<>] [^\n]+\n)+)```")
# A whole table, and for each row of the page changes of it with the line that each of them brings about.
HEAD, FIRST = (
    "size = 28997\nareas = 2\n",
    '[[alarm]]\nkind = "high"\nsetpoint = 800\npriority = 1\narea = 0\ntag = "TI-101"\n',
)
SECOND = '[[alarm]]\nkind = "discrete"\nsetpoint = 1\npriority = 1\narea = 1\ntag = "XS-201"\n'
WHOLE = HEAD + FIRST + SECOND
FAULTS = [
    ([WHOLE.replace("28997", ""), "areas = 2\n" + WHOLE, WHOLE + "# \xff"], "fault toml"),
    ([WHOLE.replace("areas = 2\n", "")], "fault table - areas"),
    ([WHOLE.replace("areas = 2", "areas = 65"), WHOLE.replace("areas = 2", "areas = 0")], "fault table - areas"),
    ([HEAD], "fault table - alarm"),
    ([HEAD + "alarm = []\n", HEAD + FIRST * 16_385], "fault rows"),
    ([HEAD + FIRST + "prio = 1\n" + SECOND], "fault table 0 prio"),
    ([WHOLE.replace('kind = "discrete"\n', "")], "fault table 1 kind"),
    ([WHOLE.replace('"discrete"', '"higher"')], "fault table 1 kind"),
    ([HEAD + FIRST + SECOND.replace("setpoint = 1", "setpoint = 80.5")], "fault table 1 setpoint"),
    ([HEAD + FIRST + SECOND.replace("priority = 1", "priority = 5")], "fault table 1 priority"),
    ([WHOLE + "deadband = 5\n"], "fault table 1 deadband"),
    ([WHOLE.replace('"XS-201"', '"TI 101"')], "fault table 1 tag"),
    ([WHOLE.replace("28997", "1000")], "fault too-small"),
]
# What the switch prints, what DRBD says of the connection and of the roles, and whether alarms_alone may resume what is
# suspended.
ALONE = [
    ("off", "WFConnection", "Primary/Unknown", True),
    ("on", "WFConnection", "Primary/Unknown", False),
    ("", "WFConnection", "Primary/Unknown", False),
    ("OFFLINE", "WFConnection", "Primary/Unknown", False),
    ("off", "Connected", "Primary/Secondary", False),
    ("off", "WFConnection", "Secondary/Unknown", False),
]
DRBDADM = """#!/bin/sh
echo "$*" >> {folder}/asked
case $1 in
    cstate) echo {connection} ;;
    role) echo {roles} ;;
    resume-io) exit {resumes} ;;
esac
"""


def read(*path):
    with open(os.path.join(*path), "rb") as file:
        return file.read()


def names():
    return sorted(name for name in os.listdir(EXAMPLES) if os.path.exists(os.path.join(EXAMPLES, name, "stdin")))


def words_of(example, folder):
    """The desk's words: over a copy of the example's device, where it has one."""
    device = os.path.join(example, "plant.device")
    if not os.path.exists(device):
        return ["desk"]
    return ["desk", shutil.copy(device, folder)]


def run_example(program, name, folder):
    example = os.path.join(EXAMPLES, name)
    run = run_words(program, words_of(example, folder), lines=read(example, "stdin"))
    check((run.returncode, run.stderr) == (0, b""), name, run.returncode, run.stderr)
    check(run.stdout == read(example, "stdout"), name, "printed", run.stdout)


def run_exchanges(program):
    """The desk over the lines of each block of the page about them, from a new plant on; how many blocks there are."""
    blocks = EXCHANGE.findall(read(DOCS, "PROTOCOL.md"))
    for block in blocks:
        lines = block.splitlines(True)
        asked, told = ([line[2:] for line in lines if line[:1] == mark] for mark in (b">", b"<"))
        run = run_words(program, ["desk"], lines=b"".join(asked))
        check(run.stdout.splitlines(True) == told, "of the page's lines", asked, "it printed", run.stdout)
    check(len(blocks) == 3, "the page has other blocks of lines:", len(blocks))
    return len(blocks)


def run_without_words(program):
    run = run_words(program, [])
    check((run.returncode, run.stdout, run.stderr) == (1, b"", b"fault usage\n"), "no words", run)


def words_in(text):
    """Commands, options and what stands for a value, in this order, of each line."""
    return [re.findall(r"--[a-z]+|\b[a-z_]+\b|\b[A-Z]+\b", line) for line in text.splitlines() if line.strip()]


def run_about(program):
    """What the program says of itself."""
    run = run_words(program, ["--version"])
    check((run.returncode, run.stdout) == (0, b"alm_server " + read(TOP, "VERSION")), "--version", run)
    manual = read(DEPLOY, "debian", "alm_server.8").decode().split(".SH SYNOPSIS")[1].split(".SH DESCRIPTION")[0]
    manual = re.sub(r"(?m)^\.br$", "BREAK", manual.replace("\\-", "-"))
    manual = re.sub(r"(?m)^\.[A-Z]+ ", "", manual).replace("\n", " ").replace("BREAK", "\n")
    run = run_words(program, ["--help"])
    said = words_in(run.stdout.decode().removeprefix("usage:"))
    check(run.returncode == 0 and said == words_in(manual), "--help says", said, "alm_server(8)", words_in(manual))
    completion = re.search(r'"desk ([^"]+)"', read(DEPLOY, "debian", "alm_server.bash").decode())[1]
    check({"desk", *completion.split()} == {line[1] for line in said}, "the completion has", completion)


def run_maker():
    run = subprocess.run(
        [sys.executable, os.path.join(EXAMPLES, "make_refinery.py")], capture_output=True, timeout=60, env=AT_TOOLS
    )
    check(
        run.returncode == 0 and run.stdout == read(EXAMPLES, "refinery.toml"),
        "make_refinery.py prints another table",
        run.stderr,
    )


def run_faults(program, folder):
    """Each fault of a table file, by the lines of the page and in its order."""
    page = read(TABLE).decode().split("\n## Faults\n")[1]
    told = re.findall(r"\| `(fault [^`]+)` \|\n", page)
    check(told == [line for _, line in FAULTS], "the page tells of other faults:", told)
    device, table = os.path.join(folder, "device"), os.path.join(folder, "table.toml")
    for texts, line in [([WHOLE], None), *FAULTS]:
        for text in texts:
            with open(table, "wb") as file:
                file.write(text.encode("latin-1"))
            run = run_words(program, ["format", device, table])
            wanted = (0, b"formatted 2 2 4480\n", b"") if line is None else (2, b"", line.encode() + b"\n")
            check((run.returncode, run.stdout, run.stderr) == wanted, text[:200], "gave", run)
            made = os.path.exists(device)
            check(
                made == (line in (None, "fault too-small")), "of", line, "a file was" if made else "no file was", "made"
            )
            if made:
                os.remove(device)


def write_script(path, text):
    with open(path, "w", encoding="ascii") as file:
        file.write(text)
    os.chmod(path, 0o755)


def run_alone(folder, status, connection, roles, is_allowed, resumes=0):
    """alarms_alone as it is, but for the folder of its settings. Where drbdadm itself fails, nobody knows whether
    something was resumed."""
    asked = os.path.join(folder, "asked")
    open(asked, "w", encoding="ascii").close()
    write_script(os.path.join(folder, "power"), f"#!/bin/sh\n[ $1 != status ] || echo {status}\n")
    write_script(
        os.path.join(folder, "drbdadm"),
        DRBDADM.format(folder=folder, connection=connection, roles=roles, resumes=resumes),
    )
    write_script(os.path.join(folder, "standby.env"), f"POWER={folder}/power\n")
    text = read(DEPLOY, "standby", "alarms_alone").decode()
    check("/etc/alarms/" in text, "alarms_alone has no settings")
    write_script(os.path.join(folder, "alarms_alone"), text.replace("/etc/alarms/", folder + "/"))
    run = subprocess.run(
        [os.path.join(folder, "alarms_alone"), "alarms"],
        env={**os.environ, "PATH": f"{folder}:{os.environ['PATH']}"},
        capture_output=True,
        timeout=60,
    )
    is_resumed = b"resume-io alarms" in read(asked)
    check(
        (run.returncode == 0, is_resumed) == (is_allowed and resumes == 0, is_allowed),
        "alarms_alone, with a switch that says",
        status,
        "and DRBD",
        connection,
        roles,
        "ended with",
        run,
    )
    check(
        (b"nothing was resumed" in run.stderr) != is_allowed and (b"look at" in run.stderr) == (resumes != 0),
        "alarms_alone said",
        run.stderr,
    )


def main():
    program, _, folder = begin("examples", sys.argv, 1, 1)
    found = names()
    try:
        check(len(found) >= 2, "examples are missing:", found)
        for name in found:
            run_example(program, name, folder)
        blocks = run_exchanges(program)
        run_without_words(program)
        run_about(program)
        run_maker()
        run_faults(program, folder)
        for case in ALONE:
            run_alone(folder, *case)
        run_alone(folder, *ALONE[0], resumes=20)
    except Wrong as wrong:
        sys.exit(f"examples: {wrong}")
    finish(
        "examples",
        folder,
        (
            f"{len(found)} examples, {blocks} blocks of a page, its own words, the refinery,"
            f" {len(FAULTS)} faults of tables, and {len(ALONE)} words of a switch"
        ),
    )


if __name__ == "__main__":
    main()
