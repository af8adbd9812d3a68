"""The list of two plants as its units start it. tests/tools/browser.py runs this."""
import os
import re
import shlex
import socket
import sqlite3
import subprocess
import sys
import time
from typing import Iterator
from lib.drawn_plants import new_device
from lib.places import AT_TOOLS, DEPLOY, DOCS, TOOLS
from lib.program import check
from alarms.table_file import Alarm, Table, device_size
from lib.tools import Yard, slowness, started

# The priorities of the two plants' alarms, by number; the tags are N-0.. and S-0..
NORTH, SOUTH = (2, 1, 2, 3, 2), (1, 2, 2, 2, 4, 2)


def table_of(name: str, priorities: tuple[int, ...]) -> Table:
    alarms = [
        Alarm("high", 100, priority, number % 2, f"{name}-{number}", 10, 3600, text=f"Text {number} of {name}")
        for number, priority in enumerate(priorities)
    ]
    return Table(device_size(len(alarms), 2), 2, alarms)


def who_asked(yard: Yard) -> None:
    """One file has the notes of both, by their names."""
    with sqlite3.connect(yard.path("notes.sqlite")) as kept:
        rows = set(kept.execute("SELECT name, word, tag, user, reason, outcome FROM note"))
    for row in (
        ("south", "ACK", "S-1", "anna", "", "OK"),
        ("north", "ACK", "N-2", "anna", "", "OK"),
        ("south", "SHELVE", "S-2", "anna", "pump in test", "OK"),
    ):
        check(row in rows, row, "isn't among the notes", rows)
    check(
        {(row[0], row[2][0]) for row in rows} == {("north", "N"), ("south", "S"), ("south", "W")}, "the notes are", rows
    )


def site(yard: Yard, _count: int) -> str:
    """The list of two plants as its unit starts it, with the lines of the page: both are told, by their names."""
    places = {
        "/var/lib/alarms-browser": yard.folder,
        "/var/lib/alarms": yard.folder,
        "/run/alarms-browser/site": yard.folder,
        "/run/alarms-list/site/socket": yard.path("list"),
        "/run/alarms": yard.folder,
        "alm_browser ": f"{sys.executable} {TOOLS}/alm_browser ",
        "--group alarms-browser ": "",
        "--group alarms-web ": "",
    }
    servers = [serve_at_sockets(yard, name, priorities) for name, priorities in (("north", NORTH), ("south", SOUTH))]
    words = words_of_unit("alm_list@.service", places)
    folders = [after for word, after in zip(words, words[1:]) if word == "--sockets"]
    check(folders == [yard.path("north"), yard.path("south")], "the unit's words are", words)
    parts = []
    for each, said in (
        (words, yard.path("list")),
        (words_of_unit("alm_browser@.service", places), "https://alarms.example/"),
    ):
        with open(yard.path("errors"), "a", encoding="utf-8") as errors:
            parts.append(
                started(subprocess.Popen(each, env=AT_TOOLS, stdout=subprocess.PIPE, stderr=errors, text=True))
            )
        line = parts[-1].stdout.readline()
        check(line == f"alm_browser: {said}\n", "it says", line, yard.read("errors"))
    await_told(
        yard, '"plants":["north","south"]', '"plant":0,"rows":[[0,2,', '"plant":1,"rows":[[0,1,', '["N-0",', '["S-0",'
    )
    for one in (*parts, *servers):
        one.terminate()
        one.wait(timeout=30)
    return "units of two plants"


def serve_at_sockets(yard: Yard, name: str, priorities: tuple[int, ...]) -> subprocess.Popen:
    """A server at the sockets of a folder."""
    device, folder = new_device(yard, name, table_of(name[0].upper(), priorities)), yard.path(name)
    os.mkdir(folder)
    server = started(
        subprocess.Popen([yard.program, "serve", device, "--sockets", folder], stdout=subprocess.PIPE, text=True)
    )
    check(server.stdout.readline() == f"serving {folder}\n", "no server at", folder)
    return server


def words_of_unit(name: str, places: dict[str, str]) -> list[str]:
    """The command of a unit's instance `site`, with the environment file of the page, and with the test's places."""
    unit = (DEPLOY / "systemd" / name).read_text(encoding="utf-8").replace("\\\n", " ")
    page = (DOCS / "CONTROL_ROOM.md").read_text(encoding="utf-8")
    lines = (
        shlex.split(re.search(r"(?m)^Environment=(.*)$", unit)[1])
        + re.search(r"(?s)site\.env <<'END'\n(.*?)END\n", page)[1].splitlines()
    )
    given = dict(line.split("=", 1) for line in lines)
    command = re.search(r"(?m)^ExecStart=(.*)$", unit)[1]
    text = " ".join(given[word[1:]] if word.startswith("$") else word for word in command.split()).replace("%i", "site")
    for place, there in places.items():
        text = text.replace(place, there)
    return text.split()


def await_told(yard: Yard, *texts: str) -> None:
    """Waits until a stream has told what is wanted, to a user whom the proxy names."""
    named = "Host: alarms.example\r\nX-Alarms-User: anna\r\nX-Alarms-Role: viewer\r\n"
    cookie = re.search(
        r"(?i)set-cookie: ([^;]+)", "".join(told_at(yard, f"GET / HTTP/1.1\r\nConnection: close\r\n{named}\r\n"))
    )[1]
    told = ""
    for part in told_at(yard, f"GET /stream HTTP/1.1\r\nCookie: {cookie}\r\n{named}\r\n"):
        told += part
        if all(text in told for text in texts):
            return
    check(False, "the stream told", told[:2000])


def told_at(yard: Yard, request: str, seconds: float = 30) -> Iterator[str]:
    """What comes at the socket of the list, for so long at most."""
    until = time.monotonic() + seconds * slowness()
    with socket.socket(socket.AF_UNIX) as one:
        one.settimeout(5 * slowness())
        one.connect(yard.path("socket"))
        one.sendall(request.encode())
        while time.monotonic() < until and (data := one.recv(65_536)):
            yield data.decode()
