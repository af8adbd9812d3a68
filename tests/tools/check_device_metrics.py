"""What a device's file shows as metrics, by alm_check, and how its unit hands that to the node exporter.
tests/tools/clients.py runs these checks."""
import itertools
import os
import random
import re
import shlex
import subprocess
import threading
import time
from typing import Callable

from alarms import device_metrics
from alarms.client import CLOCK, Client
from alarms.table_file import image_length
from check_metrics import REFINERY, taken
from lib.drawn_plants import draw_plant, new_device
from lib.places import AT_TOOLS, DEPLOY, TOOLS
from lib.program import check
from lib.tools import Yard, tool

UNIT = DEPLOY / "systemd" / "alm_device_metrics@.service"
COLLECTED = "/var/lib/prometheus/node-exporter/"
ACTIONS, SEGMENT = 15, 20_000


def page(yard: Yard) -> str:
    """alm_check prints what the file of a served plant shows, whose actions have a frame each, and Prometheus' own tool
    takes it. alm_metrics says who shows that; what is no device gives a line and nothing else."""
    device, plant = yard.format("refinery.device", REFINERY), '{plant="refinery"}'
    server = yard.serve(device)
    with Client.connect(server.port, CLOCK) as clock:
        for moment in range(1, 1 + ACTIONS):
            clock.clock(moment)
    run, size = tool("alm_check", device, "--metrics"), (16_777_216 - 23) // 2 - 25 - image_length(200, 8)
    server.end()
    wanted = [
        "# HELP alarms_device_damaged Whether bytes of the device are damaged, and where.",
        "# TYPE alarms_device_damaged gauge",
        f"alarms_device_damaged{plant} 0",
        "# HELP alarms_journal_bytes Used bytes of the journal.",
        "# TYPE alarms_journal_bytes gauge",
        f"alarms_journal_bytes{plant} {ACTIONS * 35}",
        "# HELP alarms_journal_size_bytes Bytes of the journal.",
        "# TYPE alarms_journal_size_bytes gauge",
        f"alarms_journal_size_bytes{plant} {size}",
        "# HELP alarms_epoch Epoch of the device: checkpoints and the formatting.",
        "# TYPE alarms_epoch gauge",
        f"alarms_epoch{plant} 1",
    ]
    check((run.returncode, run.stderr, run.stdout.splitlines()) == (0, "", wanted), "alm_check --metrics", run)
    checked = taken(run.stdout)
    for status, said, name, *words in (
        (2, "by alm_check DEVICE --metrics", "alm_metrics", "--port", 5000, "--device", device),
        (1, "isn't formatted", "alm_check", yard.write("text", "none" * 99), "--metrics"),
        (1, "No such file", "alm_check", yard.path("none"), "--metrics"),
    ):
        run = tool(name, *words)
        is_line = run.stderr.count("\n") == 1 and said in run.stderr
        check((run.returncode, run.stdout) == (status, "") and is_line, name, words, run)
    return f"alm_check --metrics, {checked}"


class Writing:
    """Clocks that come in crowds, over a device that turns some times a second."""

    def __init__(self, yard: Yard, name: str):
        self.device = new_device(yard, name, draw_plant(random.Random(15), 6, 2, SEGMENT))
        self.server, self.ended, self.moments = yard.serve(self.device), threading.Event(), itertools.count(1)
        self.thread = threading.Thread(target=self.write, daemon=True)

    def write(self) -> None:
        with Client.connect(self.server.port, CLOCK, patience=60) as clock:
            while not self.ended.is_set():
                list(clock.ask_all([f"CLOCK {next(self.moments)}" for _ in range(20)]))
                time.sleep(0.002)

    def __enter__(self) -> "Writing":
        self.thread.start()
        return self

    def __exit__(self, *_: object) -> None:
        self.ended.set()
        self.thread.join()
        self.server.end()


def while_written(yard: Yard, looks: int) -> str:
    """Of a device that is written, over checkpoints, no page says that it is damaged; one does once a byte is."""
    epochs, looked = set[int](), 0
    with Writing(yard, "written") as written:
        while looked < looks or len(epochs) < 5:
            text, looked = device_metrics.page(written.device), looked + 1
            check('alarms_device_damaged{plant="written"} 0\n' in text, "of a written device it says", text)
            epochs.add(int(re.findall(r"(?m)^alarms_epoch\S* (\d+)$", text)[0]))
    with open(written.device, "r+b") as file:
        file.seek(9)
        file.write(b"\xff")
    text = device_metrics.page(written.device)
    check('\nalarms_device_damaged{plant="written",half="2",at="9"} 1\n' in text, "of a damaged header it says", text)
    return f"{looked} looks at a written device, in {len(epochs)} epochs"


def unit_lines(name: str) -> list[str]:
    """The values of a setting of the unit."""
    return re.findall(rf"(?m)^{name}=(.*)$", UNIT.read_text(encoding="utf-8"))


def collected(yard: Yard) -> str:
    """What the unit does, run as systemd would: its output goes into the file that it names, which isn't cut. Whoever
    reads the page meanwhile has it whole, and a run that fails leaves the one before."""
    folder, seen = yard.path("collected"), set[str]()
    os.mkdir(folder)
    final = os.path.join(folder, "alarms_plant.prom")

    def here(text: str) -> str:
        for page_has, is_here in ((COLLECTED, f"{folder}/"), ("/var/lib/alarms", yard.folder), ("%i", "plant")):
            text = text.replace(page_has, is_here)
        return text

    def starts() -> int:
        (output,) = unit_lines("StandardOutput")
        check(output.startswith("file:") and unit_lines("StandardError") == ["journal"], "its output goes to", output)
        for line in (*unit_lines("ExecStartPre"), *unit_lines("ExecStart"), *unit_lines("ExecStartPost")):
            name, *words = shlex.split(here(line).removeprefix("+"))
            to = os.open(here(output.removeprefix("file:")), os.O_WRONLY | os.O_CREAT, 0o644)
            command = [str(TOOLS / name) if name.startswith("alm_") else name, *words]
            status = subprocess.run(command, stdout=to, stderr=subprocess.DEVNULL, env=AT_TOOLS).returncode
            os.close(to)
            if status:
                return status
        return 0

    yard.write("collected/alarms_plant.new", "what a run that was ended left\n" * 99)
    watched = watch(final, seen)
    with Writing(yard, "plant") as written:
        for _ in range(5):
            check(starts() == 0, "the unit fails")
    os.replace(written.device, yard.path("away"))
    check(starts() == 1 and os.path.exists(final), "without a device the unit doesn't fail, or takes the page away")
    watched()
    check(os.stat(final).st_mode & 0o777 == 0o644, "nobody else may read it")
    check(len(seen) > 2 and all(text.count("\n") == 12 and text.endswith("\n") for text in seen), "a page was", seen)
    return f"{len(seen)} pages of a unit, each whole"


def watch(path: str, seen: set[str]) -> Callable[[], None]:
    """Reads a file all the time, once it is there, into what was seen; what is called to end that."""
    ended = threading.Event()

    def read() -> None:
        while not ended.is_set():
            if os.path.exists(path):
                with open(path, encoding="ascii") as file:
                    seen.add(file.read())

    def end() -> None:
        ended.set()
        thread.join()

    thread = threading.Thread(target=read, daemon=True)
    thread.start()
    return end
