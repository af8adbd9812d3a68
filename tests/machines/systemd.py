"""Blocks of the pages and units under a real systemd: how they are run, and what is judged of them."""
import grp
import os
import pty
import re
import select
import socket
import stat
import subprocess
import time
from container import HERE


SERVER, CLOCK_UNIT, FEED_UNIT, METRICS_UNIT = (
    "alm_server@plant",
    "alm_clock@plant",
    "alm_feed@plant",
    "alm_metrics@plant",
)
# Its timer starts it.
DEVICE_METRICS = "alm_device_metrics@plant"


FOLDER = "/run/alarms/plant"


# The pages whose blocks are run, below the folder of the pages.
PAGES, OF_UNITS, PROGRAM = os.path.join(HERE, "docs"), ("START.md", "OPERATING.md"), "alm_server"


GROUPS = {**dict.fromkeys(range(16), "alarms-consoles"), 16: "alarms-feed", 17: "alarms-clock"}


class Wrong(Exception):
    """What came isn't what the page says."""


def check(holds, *said):
    if not holds:
        raise Wrong(" ".join(str(word) for word in said))


def blocks_of(heading, page=None):
    """The blocks of a section, of START or OPERATING if no page is named."""
    found = []
    for path in [page] if page else [os.path.join(PAGES, name) for name in OF_UNITS]:
        with open(path, encoding="utf-8") as file:
            found += re.findall(rf"(?ms)^## {re.escape(heading)}\n(.*?)(?=^## |\Z)", file.read())
    check(len(found) == 1, len(found), "sections of the pages are called", heading)
    return re.findall(r"(?ms)^```sh\n(.*?)^```", found[0])


def block_of(heading, word):
    found = [block for block in blocks_of(heading) if word in block]
    check(len(found) == 1, len(found), "blocks with", word, "under", heading)
    return found[0]


def run(block, folder=HERE, keys=b"", shell=("bash", "-ec")):
    """Runs a block as it is pasted, at a terminal; its output. Keys are sent each three seconds."""
    child, terminal = pty.fork()
    if child == 0:
        os.chdir(folder)
        os.environ["TERM"] = "xterm"
        os.execvp(shell[0], [*shell, block])
    came, sent, end = b"", time.monotonic(), time.monotonic() + 120
    while time.monotonic() < end:
        if select.select([terminal], [], [], 0.2)[0]:
            try:
                piece = os.read(terminal, 65_536)
            except OSError:
                break
            if not piece:
                break
            came += piece
        if keys and time.monotonic() - sent > 3:
            os.write(terminal, keys)
            sent = time.monotonic()
    status = os.waitstatus_to_exitcode(os.waitpid(child, 0)[1])
    os.close(terminal)
    text = came.decode(errors="replace").replace("\r\n", "\n")
    check(status == 0, "status", status, "of\n", block, "\nwhich printed\n", text)
    return text


def output(*words, status=0, **more):
    run = subprocess.run(words, capture_output=True, text=True, timeout=120, **more)
    check(status is None or run.returncode == status, words, "ended with", run.returncode, run.stdout, run.stderr)
    return run.stdout


def state_of(unit):
    return output("systemctl", "is-active", unit, status=None).strip()


def await_true(what, holds, patience=30):
    end = time.monotonic() + patience
    while not holds():
        check(
            time.monotonic() < end, what, "didn't come\n", output("journalctl", "-n", "40", "--no-pager", status=None)
        )
        time.sleep(0.1)


def active(*units):
    for unit in units:
        await_true(f"{unit}, which is {state_of(unit)},", lambda: state_of(unit) == "active")


def ask(place, slot, line):
    """The reply to a line; none where this user may not connect."""
    return ask_all(place, slot, line)[0]


def ask_all(place, slot, lines):
    """The replies to lines."""
    if isinstance(place, int):
        client = socket.create_connection(("127.0.0.1", place + slot), timeout=10)
    else:
        client = socket.socket(socket.AF_UNIX)
        client.settimeout(10)
        client.connect(f"{place}/{slot}")
    with client:
        client.sendall(lines)
        replies = client.makefile("rb")
        return [replies.readline().decode() for _ in lines.splitlines()]


def as_user(name, *words):
    return subprocess.run(
        ["runuser", "-u", name, "--", *words], capture_output=True, text=True, timeout=60, check=False
    )


def may_connect(name, slot):
    script = f"import socket; socket.socket(socket.AF_UNIX).connect('{FOLDER}/{slot}')"
    run = as_user(name, "python3", "-c", script)
    check(run.returncode == 0 or "PermissionError" in run.stderr, run.stderr)
    return run.returncode == 0


def shared(folder=FOLDER):
    """Each socket has its group and its mode."""
    for slot, group in GROUPS.items():
        found = os.lstat(f"{folder}/{slot}")
        check(stat.S_ISSOCK(found.st_mode) and stat.S_IMODE(found.st_mode) == 0o660, "slot", slot, oct(found.st_mode))
        check(
            grp.getgrgid(found.st_gid).gr_name == group,
            "slot",
            slot,
            "has the group",
            grp.getgrgid(found.st_gid).gr_name,
        )


def moves(place=FOLDER):
    """The plant's clock runs."""
    before = count(place)
    await_true("a moment of the clock", lambda: count(place) > before)


def count(place=FOLDER):
    return int(ask(place, 3, b"1 FLOOD 0\n").split()[2])
