#!/usr/bin/env python3
"""The Debian package under a real systemd: installed, upgraded, removed, purged.

    tests/machines/package.py PROGRAM --root FOLDER [--short]

FOLDER is the root of a Debian with systemd, which is started in a container over it: container.py says how it is made.
The blocks of the package's own pages lead through a plant's life. Two plants are served from one package within a
minute. An upgrade leaves running servers alone, a removal stops them, and nothing of a plant goes, not even with a
purge. With python3-aiohttp in FOLDER the alarm list's unit serves too. lintian finds no error, if it is there. Two
builds over the same files are the same bytes.

It needs root, systemd-nspawn and dpkg-deb, and ends with status 77 where one isn't there or no FOLDER is given.
"""
import filecmp
import grp
import importlib.util
import os
import shutil
import socket
import stat
import subprocess
import time

import systemd
import units
from container import HERE, TOP, run_script
from systemd import active, ask, await_true, check, count, moves, output, shared, state_of

VERSIONS = ("0.4.0", "0.4.1")
DEVICES = ("/var/lib/alarms/plant.device", "/var/lib/alarms/north.device")
UNITS = [f"alm_{part}@{plant}" for part in ("server", "clock", "archive") for plant in ("plant", "north")]
COMPLETE = (
    "source /usr/share/bash-completion/completions/alm_server; COMP_WORDS=(alm_server se); COMP_CWORD=1; _alm_server;"
    " echo ${COMPREPLY[@]}"
)


# ---- in the container


def dpkg(*words):
    return output("dpkg", *words, env={**os.environ, "DEBIAN_FRONTEND": "noninteractive"})


def package(version):
    return f"{HERE}/alarms_{version}_amd64.deb"


def install():
    """The program, its users and folders, its manual and its completion are there."""
    dpkg("-i", package(VERSIONS[0]))
    run = subprocess.run(["alm_server"], capture_output=True, text=True, check=False)
    check(run.returncode == 1 and run.stderr == "fault usage\n", "alm_server said", run)
    found = os.stat("/var/lib/alarms")
    check(
        stat.S_IMODE(found.st_mode) == 0o700 and output("stat", "-c", "%U", "/var/lib/alarms") == "alarms\n",
        "/var/lib/alarms",
    )
    check(output("bash", "-c", COMPLETE) == "serve\n", "the completion")
    check("CLOCK" in output("zcat", "/usr/share/man/man1/alm_clock.1.gz"), "alm_clock has no page of the manual")
    for page in ("man8/alm_server.8.gz", "man5/alm_server.5.gz"):
        check(
            "fault damaged" in output("zcat", f"/usr/share/man/{page}")
            or "max_shelve" in output("zcat", f"/usr/share/man/{page}"),
            page,
        )
    for tool in (
        "await_server",
        "console",
        "feed",
        "clock",
        "metrics",
        "journal",
        "export",
        "csv2toml",
        "change_table",
        "check",
        "salvage",
        "uncache",
    ):
        check("--" in output(f"alm_{tool}", "--help"), tool)
    for client in ("alm_archive", "alm_mirror", "alm_reports"):
        check(client in output(client, "--help"), client)


def life():
    """The blocks of the package's own pages, as units.py runs those of the repository; then nothing of that plant is
    left."""
    systemd.PAGES = "/usr/share/doc/alarms/docs"
    for step in units.LIFE:
        step()
    output("systemctl", "disable", "--now", *(f"alm_{part}@plant" for part in ("server", "clock", "feed", "metrics")))
    for folder in ("/var/lib/alarms", "/etc/alarms"):
        for name in os.listdir(folder):
            os.remove(os.path.join(folder, name))


def two_plants():
    """From the package to two plants whose clocks run, within a minute."""
    began = time.monotonic()
    for device, table in zip(DEVICES, ("refinery", "plant")):
        output(
            "runuser",
            "-u",
            "alarms",
            "--",
            "alm_server",
            "format",
            device,
            f"/usr/share/doc/alarms/examples/{table}.toml",
        )
    output("systemctl", "enable", "--now", *UNITS)
    active(*UNITS)
    for plant in ("plant", "north"):
        shared(f"/run/alarms/{plant}")
        moves(f"/run/alarms/{plant}")
    said = output("alm_feed", "--sockets", "/run/alarms/north", input="TI-101,800\n")
    check(said.startswith("1 changed a condition"), "alm_feed said", said)
    check(time.monotonic() - began < 60, "two plants took", time.monotonic() - began)


def visit(path, host, **headers):
    """The status of the alarm list's page, asked for at its Unix socket as a proxy does."""
    lines = [
        f"GET {path} HTTP/1.1",
        f"Host: {host}",
        "Connection: close",
        "Sec-Fetch-Dest: document",
        *(f"{name.replace('_', '-')}: {text}" for name, text in headers.items()),
    ]
    with socket.socket(socket.AF_UNIX) as client:
        client.settimeout(20)
        client.connect("/run/alarms-browser/plant/socket")
        client.sendall("\r\n".join([*lines, "", ""]).encode())
        return int(client.makefile("rb").readline().split()[1])


def browser():
    """The alarm list's unit serves at its socket, to whoever a proxy names and to nobody else. Its socket is its
    group's."""
    if importlib.util.find_spec("aiohttp") is None:
        print("browser: left out: no aiohttp in this Debian")
        return
    output("systemctl", "enable", "--now", "alm_browser@plant")
    active("alm_browser@plant")
    await_true("the alarm list's socket", lambda: os.path.exists("/run/alarms-browser/plant/socket"))
    found = os.lstat("/run/alarms-browser/plant/socket")
    check(
        stat.S_IMODE(found.st_mode) == 0o660 and grp.getgrgid(found.st_gid).gr_name == "alarms-browser",
        "the socket",
        oct(found.st_mode),
        found.st_gid,
    )
    check(visit("/", "alarms.example", X_Alarms_User="anna", X_Alarms_Role="operator") == 200, "the page isn't there")
    check(
        visit("/", "alarms.example") == 401 and visit("/", "elsewhere.example", X_Alarms_User="anna") == 421,
        "the page is anybody's",
    )
    output("systemctl", "disable", "--now", "alm_browser@plant")


def pid(unit):
    return output("systemctl", "show", "-P", "MainPID", unit).strip()


def upgrade():
    """Running servers go on; once they are started again, their plants are as they were."""
    before = [pid(unit) for unit in UNITS]
    places = [os.stat(device).st_ino for device in DEVICES]
    dpkg("-i", package(VERSIONS[1]))
    check([pid(unit) for unit in UNITS] == before, "the upgrade touched running servers")
    stood = count("/run/alarms/plant")
    output("systemctl", "restart", "alm_server@plant", "alm_server@north")
    active(*UNITS)
    check(
        count("/run/alarms/plant") >= stood and [os.stat(device).st_ino for device in DEVICES] == places,
        "another plant behind the upgrade",
    )
    check("UNACK" in ask("/run/alarms/north", 3, b"1 STATE 0\n"), "an alarm behind the upgrade")


def remove():
    """Servers are stopped, the program is gone, and the plants are there."""
    stood = count("/run/alarms/plant")
    dpkg("-r", "alarms")
    for unit in UNITS:
        check(state_of(unit) in ("inactive", "failed"), unit, "is", state_of(unit))
    check(shutil.which("alm_server") is None, "the program is there")
    kept = [open(device, "rb").read() for device in DEVICES]
    dpkg("--purge", "alarms")
    check([open(device, "rb").read() for device in DEVICES] == kept, "a purge changed a device")
    check(stat.S_IMODE(os.stat(DEVICES[0]).st_mode) == 0o600 and os.path.isdir("/etc/alarms"), "what a purge left")
    dpkg("-i", package(VERSIONS[0]))
    output("systemctl", "start", "alm_server@plant")
    await_true("the plant of before", lambda: state_of("alm_server@plant") == "active")
    check(count("/run/alarms/plant") >= stood, "the plant is at", count("/run/alarms/plant"), "and was at", stood)


STEPS = [install, life, two_plants, browser, upgrade, remove]


def within():
    for step in STEPS:
        began = time.monotonic()
        step()
        print(f"{step.__name__}: {time.monotonic() - began:.0f} s", flush=True)


# ---- around it


def next_version(folder):
    """The repository's files as those of the next version."""
    for name in ("deploy", "docs", "examples", "tools"):
        if os.path.isdir(os.path.join(TOP, name)):
            shutil.copytree(
                os.path.join(TOP, name),
                os.path.join(folder, name),
                symlinks=True,
                ignore=shutil.ignore_patterns("__pycache__"),
            )
    for name in ("README.md", "CHANGELOG.md", "VERSION", "pyproject.toml"):
        shutil.copy(os.path.join(TOP, name), folder)
    for top, _, names in os.walk(folder):
        for name in names:
            path = os.path.join(top, name)
            with open(path, "rb") as file:
                text = file.read()
            if VERSIONS[0].encode() in text:
                with open(path, "wb") as file:
                    file.write(text.replace(VERSIONS[0].encode(), VERSIONS[1].encode()))


def build(top, program, folder):
    subprocess.run(
        [os.path.join(top, "deploy", "debian", "build"), program, folder], check=True, stdout=subprocess.DEVNULL
    )


def packages(here, program):
    """Both packages; what was found of them."""
    build(TOP, program, here)
    again, later = os.path.join(here, "again"), os.path.join(here, "later")
    os.mkdir(again)
    build(TOP, program, again)
    name = os.path.basename(package(VERSIONS[0]))
    check(filecmp.cmp(os.path.join(here, name), os.path.join(again, name), shallow=False), "two builds differ")
    os.mkdir(later)
    next_version(later)
    build(later, program, here)
    if not shutil.which("lintian"):
        return ", no lintian"
    run = subprocess.run(
        ["lintian", "--fail-on", "error", os.path.join(here, name)], capture_output=True, text=True, check=False
    )
    check(run.returncode == 0, run.stdout, run.stderr)
    return ", lintian"


if __name__ == "__main__":
    run_script("package.py", STEPS, within, packages)
