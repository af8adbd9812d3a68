"""A Debian with systemd in a container (systemd-nspawn), in which a script of tests/ runs its parts as root. The Debian
isn't changed:

    P=systemd,systemd-sysv,python3,python3-aiohttp,netcat-openbsd,iproute2,procps,passwd,nftables,nginx,openssl
    debootstrap --include=$P,mosquitto-clients,python3-paho-mqtt,sqlite3 stable FOLDER

`run_script` runs a script within it, `booted` lets one outside do there what it likes.
"""
import contextlib
import os
import shutil
import subprocess
import tempfile
import time
from typing import Iterator

TOP = os.path.join(os.path.dirname(os.path.abspath(__file__)), "..", "..")
HERE, RESULT = "/alarms", "/result"
UNIT = """[Unit]
After=multi-user.target
[Service]
Type=oneshot
ExecStart=/bin/sh -c 'python3 {here}/tests/machines/{script} --within > {result}/said 2>&1; echo $? > {result}/status; sync; systemctl exit --force'
"""
PLACE = "/etc/systemd/system/parts-test.service"
# What a process has that is let into the container.
ENVIRONMENT = [
    "HOME=/root",
    "TERM=xterm",
    "LANG=C.UTF-8",
    "PATH=/usr/local/sbin:/usr/local/bin:/usr/sbin:/usr/bin:/sbin:/bin",
]


class NoSystem(Exception):
    """No systemd came up."""


def lacks(root):
    """What is missing here."""
    if os.geteuid() != 0:
        return "it needs root"
    if not shutil.which("systemd-nspawn"):
        return "no systemd-nspawn"
    if root is None or not os.path.exists(os.path.join(root, "usr/lib/systemd/systemd")):
        return "no --root FOLDER with a systemd, see its page"
    return None


def furnish(folder, program):
    """What the container sees as HERE: the tools, clients, pages and tests, and the program with a launcher."""
    here = os.path.join(folder, "alarms")
    os.makedirs(os.path.join(here, "crates/alm_server/out"))
    for name in ("deploy", "docs", "examples", "tests", "tools"):
        shutil.copytree(
            os.path.join(TOP, name),
            os.path.join(here, name),
            symlinks=True,
            ignore=shutil.ignore_patterns("__pycache__"),
        )
    shutil.copy(os.path.join(TOP, "VERSION"), here)
    shutil.copy(program, os.path.join(here, "crates/alm_server/out/alm_server"))
    with open(os.path.join(here, "alm_server"), "w", encoding="ascii") as launcher:
        launcher.write(f'#!/bin/sh\nexec {HERE}/crates/alm_server/out/alm_server "$@"\n')
    os.chmod(os.path.join(here, "alm_server"), 0o755)
    return here


@contextlib.contextmanager
def layered(root: str) -> Iterator[str]:
    """A system that has all of a Debian, and what is written there in a folder of its own until the end. That folder is
    on a disk: a server's unit asks that the kernel can forget the device's pages."""
    with tempfile.TemporaryDirectory(dir="/var/tmp") as room:
        upper, work, whole = (os.path.join(room, name) for name in ("upper", "work", "whole"))
        for folder in (upper, work, whole):
            os.mkdir(folder)
        subprocess.run(
            [
                "mount",
                "-t",
                "overlay",
                "overlay",
                "-o",
                f"lowerdir={os.path.abspath(root)},upperdir={upper},workdir={work}",
                whole,
            ],
            check=True,
        )
        try:
            yield whole
        finally:
            subprocess.run(["umount", whole], check=True)


def run_parts(script, root, folder, here):
    """Starts the Debian, runs `script --within` in it, and gives its status and what it said."""
    result = os.path.join(folder, "result")
    os.mkdir(result)
    with open(os.path.join(folder, "parts-test.service"), "w", encoding="ascii") as unit:
        unit.write(UNIT.format(here=HERE, result=RESULT, script=script))
    with layered(root) as whole, open(os.path.join(folder, "console"), "wb") as console:
        words = [
            "systemd-nspawn",
            "--quiet",
            "--register=no",
            "--keep-unit",
            "-D",
            whole,
            f"--bind={here}:{HERE}",
            f"--bind={result}:{RESULT}",
            f"--bind-ro={folder}/parts-test.service:{PLACE}",
            *os.environ.get("NSPAWN_WORDS", "").split(),
            "--boot",
            "systemd.wants=parts-test.service",
        ]
        try:
            subprocess.run(words, stdin=subprocess.DEVNULL, stdout=console, stderr=console, timeout=900, check=False)
        except subprocess.TimeoutExpired:
            pass
    try:
        with open(os.path.join(result, "said"), encoding="utf-8") as file:
            said = file.read()
        with open(os.path.join(result, "status"), encoding="ascii") as file:
            return int(file.read()), said
    except OSError:
        raise NoSystem(f"no systemd came up; what it printed is in {folder}/console") from None


class Booted:
    """A Debian that runs. Its files are below `root`, also its sockets, and `words` begin a command there."""

    def __init__(self, leader: int):
        self.root = f"/proc/{leader}/root"
        self.network = ["nsenter", f"--net=/proc/{leader}/ns/net", "--"]
        self.words = ["nsenter", "-t", str(leader), "-m", "-u", "-i", "-p", "-n", "-C", "--", "env", "-i", *ENVIRONMENT]


def first_process(nspawn: subprocess.Popen) -> int:
    """The number that the container's first process has here."""
    for _ in range(300):
        with open(f"/proc/{nspawn.pid}/task/{nspawn.pid}/children", encoding="ascii") as file:
            for child in file.read().split():
                with open(f"/proc/{child}/comm", encoding="ascii") as comm:
                    if comm.read() == "systemd\n":
                        return int(child)
        time.sleep(0.1)
    raise NoSystem("no systemd came up")


@contextlib.contextmanager
def booted(root: str, folder: str, *more: str) -> Iterator[Booted]:
    """Starts a Debian, and ends it."""
    with layered(root) as whole, open(os.path.join(folder, "console"), "wb") as console:
        words = [
            "systemd-nspawn",
            "--quiet",
            "--register=no",
            "--keep-unit",
            "-D",
            whole,
            *more,
            *os.environ.get("NSPAWN_WORDS", "").split(),
            "--boot",
        ]
        nspawn = subprocess.Popen(words, stdin=subprocess.DEVNULL, stdout=console, stderr=console)
        try:
            there = Booted(first_process(nspawn))
            subprocess.run(
                [*there.words, "systemctl", "is-system-running", "--wait"],
                stdout=subprocess.DEVNULL,
                stderr=subprocess.DEVNULL,
                timeout=120,
                check=False,
            )
            yield there
        finally:
            nspawn.terminate()
            try:
                nspawn.wait(60)
            except subprocess.TimeoutExpired:
                nspawn.kill()
                nspawn.wait()


def run_script(name, parts, within, furnish_more=None):
    """The whole of a script whose parts run in the container, `NAME PROGRAM --root FOLDER`; `within` runs them
    there."""
    import sys
    import time

    words = [word for word in sys.argv[1:] if word != "--short"]
    if words == ["--within"]:
        within()
        return
    root = words.pop(words.index("--root") + 1) if "--root" in words else os.environ.get("DEBIAN_ROOT")
    words = [word for word in words if word != "--root"]
    missing = lacks(root)
    if missing:
        print(f"{name}: left out:", missing)
        sys.exit(77)
    from lib.program import begin, finish

    program, _, folder = begin(name, [sys.argv[0], *words], 1, 1)
    began = time.monotonic()
    here = furnish(folder, program)
    more = furnish_more(here, program) if furnish_more else ""
    try:
        status, said = run_parts(name, root, folder, here)
    except NoSystem as none:
        sys.exit(f"{name}: {none}")
    if status != 0:
        sys.exit(f"{name}: {said}")
    finish(name, folder, f"{len(parts)} parts under a real systemd{more}, none wrong, {time.monotonic() - began:.0f} s")
