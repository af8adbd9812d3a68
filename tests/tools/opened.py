#!/usr/bin/env python3
"""Which tools open a device's file: those that docs/develop/TOOLS.md names, and no others.

    tests/tools/opened.py PROGRAM [--short]

Each command is run over a served plant, or over a device that isn't served, and Python notes whether it opens the
device. What runs on does so until it has been asked once, or for some seconds. What the commands have others open,
as alm_change_table the program, isn't noted. alm_browser is left out where aiohttp isn't there. It takes half a minute.
"""
import importlib.util
import os
import re
import subprocess
import sys
import tomllib
import urllib.request

from lib.places import AT_TOOLS, DOCS, EXAMPLES, TOP
from lib.program import Wrong, begin, check, finish
from lib.tools import PATIENCE, Yard, await_said, end_all, slowness, started, words_of

# What each process of Python runs first.
NOTING = """
import os, sys
DEVICE, NOTES = os.environ["OPENED"], os.open(os.environ["NOTES"], os.O_WRONLY | os.O_APPEND | os.O_CREAT)
def note(event, words):
    if event == "open" and isinstance(words[0], str) and os.path.realpath(words[0]) == DEVICE:
        os.write(NOTES, b"opened\\n")
sys.addaudithook(note)
"""
# Commands by the server's lines, or by no plant at all.
ARCHIVED = "archive run ARCHIVE --port P --once --name plant"
BY_LINES = (
    f"await_server --port P; clock --port P --seconds 1; {ARCHIVED}; feed --port P; {ARCHIVED}; archive list ARCHIVE;"
    " reports ARCHIVE; export --port P; export --port P --device DEVICE; mirror --port P;"
    " journal --port P; csv2toml SHEET"
)
# The same, of those that run on: what they say once they can be asked, with their address.
ASKED = {"metrics --port P --listen 0": "/metrics", "browser --port P --listen 0": "/?token="}
# The same, of those that nobody asks.
LEFT = "console --port P; alertmanager --port P --to http://127.0.0.1:9; journal --port P --follow"
# Commands that open the device.
BY_FILE = (
    "check DEVICE; check DEVICE --metrics; salvage DEVICE --table; uncache DEVICE; journal DEVICE;"
    " journal DEVICE --from 1; mirror DEVICE"
)
# Both, of a device that isn't served.
STOPPED, CHANGED = "archive run DEVICE OTHER --stopped", "change_table DEVICE TABLE --program PROGRAM"
# What TOOLS names besides: the program opens the device for the one, and the other asks for its size alone.
OTHERS = {"alm_change_table", "alm_export"}
AT_A_TERMINAL = "import pty, sys; pty.spawn(sys.argv[1:])"
SECONDS = 3


class Site(Yard):
    """A device, and commands over it."""

    def __init__(self, program: str, folder: str):
        super().__init__(program, folder)
        self.device = self.format("plant.device", str(EXAMPLES / "refinery.toml"))
        self.write("sitecustomize.py", NOTING)
        self.places = {
            "DEVICE": self.device,
            "TABLE": str(EXAMPLES / "refinery.toml"),
            "SHEET": self.write("sheet.csv", "tag,kind,setpoint,priority,area\nTI-1,high,1,1,0\n"),
            "ARCHIVE": self.path("lines.sqlite"),
            "OTHER": self.path("file.sqlite"),
            "PROGRAM": program,
        }
        self.ways: set[str] = set()

    def words(self, way: str) -> list[str]:
        """A command of one of the lists."""
        name, *words = way.split()
        self.ways.add(f"alm_{name}")
        words = words_of(f"alm_{name}", tuple(self.places.get(word, word) for word in words))
        return [sys.executable, "-c", AT_A_TERMINAL, *words] if name == "console" else words

    def environment(self) -> dict[str, str]:
        path = os.pathsep.join((self.folder, AT_TOOLS["PYTHONPATH"]))
        there = {"OPENED": os.path.realpath(self.device), "NOTES": self.path("notes"), "TERM": "vt100"}
        return {**AT_TOOLS, "PYTHONPATH": path, **there}

    def has_opened(self) -> bool:
        """Whether the device was opened since this was asked last."""
        opened = bool(self.read("notes"))
        os.truncate(self.path("notes"), 0)
        return opened

    def try_way(self, way: str, runs_on: bool = False) -> bool:
        """Whether a command opens the device. It ends by itself, with status 0, or it runs on."""
        patience = (SECONDS if runs_on else PATIENCE * 2) * slowness()
        streams = {"stdin": subprocess.PIPE, "stdout": subprocess.PIPE, "stderr": subprocess.PIPE, "text": True}
        process = started(subprocess.Popen(self.words(way), env=self.environment(), **streams))
        try:
            said = process.communicate("" if runs_on else "TI-101,3900\n", timeout=patience)
            check(process.returncode == 0 and not runs_on, way, "ended with", process.returncode, *said)
        except subprocess.TimeoutExpired:
            process.kill()
            said = process.communicate()
            check(runs_on, way, "runs on", *said)
        return self.has_opened()

    def ask(self, way: str, text: str) -> bool:
        """Whether a command that runs on opens the device, also once it was asked."""
        words = ["sh", "-c", 'exec "$@" >&2', "sh", *self.words(way)]
        process = started(subprocess.Popen(words, env=self.environment(), stderr=subprocess.PIPE, text=True))
        address = re.search(r"http://\S+", await_said(process, text))
        with urllib.request.urlopen(address[0] if address else "", timeout=PATIENCE) as page:
            page.read()
        process.kill()
        process.communicate()
        return self.has_opened()


def tried(site: Site) -> int:
    """Runs each command; how many there were."""
    listed = lambda ways: [way.strip() for way in ways.split(";")]
    asked = {way: text for way, text in ASKED.items() if "browser" not in way or importlib.util.find_spec("aiohttp")}
    server = site.serve(site.device)
    site.places["P"] = str(server.port)
    lines = {way: site.try_way(way) for way in listed(BY_LINES)}
    lines |= {way: site.ask(way, text) for way, text in asked.items()}
    lines |= {way: site.try_way(way, runs_on=True) for way in listed(LEFT)}
    named, site.ways = site.ways, set()
    files = {way: site.try_way(way) for way in listed(BY_FILE)}
    server.end()
    files[STOPPED] = site.try_way(STOPPED)
    by_file, site.ways = site.ways, named
    lines[CHANGED] = site.try_way(CHANGED)
    check(not any(lines.values()), "a device is opened by", [way for way, opened in lines.items() if opened])
    check(all(files.values()), "no device is opened by", [way for way, opened in files.items() if not opened])
    judge(named, by_file)
    return len(lines) + len(files)


def judge(by_lines: set[str], by_file: set[str]) -> None:
    """Each command is among them, and the page names those by file."""
    page = (DOCS / "develop" / "TOOLS.md").read_text(encoding="utf-8")
    section = page.partition("\n## Who opens a device's file\n")[2].partition("\n## ")[0]
    rows = [row.split("|")[1] for row in section.splitlines() if row.startswith("| `")]
    on_page = set(re.findall(r"alm_\w+", "".join(rows)))
    check(on_page == by_file | OTHERS, "docs/develop/TOOLS.md names", on_page, "and not", by_file | OTHERS)
    commands = set(tomllib.loads((TOP / "pyproject.toml").read_text(encoding="utf-8"))["project"]["scripts"])
    left = commands - by_lines - by_file
    check(left <= {"alm_browser"}, "never run:", left)


def main() -> None:
    program, _, folder = begin("opened", sys.argv, 0, 0)
    try:
        number = tried(Site(program, folder))
    except Wrong as wrong:
        sys.exit(f"opened: {wrong}; devices are in {folder}")
    finally:
        end_all()
    finish("opened", folder, f"{number} commands, of which those open the device's file that TOOLS names; none wrong")


if __name__ == "__main__":
    main()
