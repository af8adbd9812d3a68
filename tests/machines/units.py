#!/usr/bin/env python3
"""The pages' blocks and the units under a real systemd.

    tests/machines/units.py PROGRAM --root FOLDER [--short]

FOLDER is the root of a Debian with systemd, which is started in a container over it: container.py says how it is made.

The blocks of docs/START.md and docs/OPERATING.md are run word for word, as root, in the order of a plant's life: try
it, install, format, start, feed and consoles, watch, a second plant, backup, restore, a change of the table, a clock
that ran ahead, upgrade and the way back. Behind each it is judged what runs, who may open which socket, and what the
plant shows. A server that is killed comes back; one whose device is missing or damaged stays down. An archive is begun
by the block of docs/HISTORY.md: in the end it has each action of each plant, whatever was killed.

It needs root and systemd-nspawn (Debian: systemd-container), and ends with status 77 where one isn't there or no FOLDER
is given.
"""
import os
import re
import shutil
import subprocess
import threading
import time
import urllib.request

from archive_unit import archive_end, archive_part
from container import run_script
from systemd import (
    CLOCK_UNIT,
    DEVICE_METRICS,
    FEED_UNIT,
    FOLDER,
    METRICS_UNIT,
    PROGRAM,
    SERVER,
    active,
    as_user,
    ask,
    await_true,
    block_of,
    blocks_of,
    check,
    count,
    may_connect,
    moves,
    output,
    run,
    shared,
    state_of,
)
from web_unit import web_part

# The units of an earlier release, in short.
EARLIER = {
    "alm_server.service": (
        "[Service]\nExecStart=/opt/alarms-0.2.0/alm_server serve /var/lib/alarms/plant.device --port"
        " 5000\nUser=alarms\nRestart=always\n[Install]\nWantedBy=multi-user.target\n"
    ),
    "alm_clock.service": (
        "[Service]\nExecStart=/usr/bin/python3 /opt/alarms-0.2.0/examples/clock.py --port 5000 --jump"
        " 86400\nDynamicUser=yes\nRestart=always\n[Install]\nWantedBy=multi-user.target\n"
    ),
}
# The clock of an earlier release is this one's.
EARLIER_CLOCK = "import os, sys\nos.execv('/usr/lib/alarms/tools/alm_clock', ['alm_clock', *sys.argv[1:]])\n"


# ---- in the container


def try_it():
    text = run(blocks_of("Try it")[0])
    for line in (
        "formatted 4 2 4116",
        "serving 5000",
        "1 OK 1",
        "1 OK 2",
        "1 OK 3",
        "2 STATE 3 ACKED 1 - -",
        "1 STATE 3 ACKED 1 - -",
        "COUNT 3",
    ):
        check(line in text, "try it printed no", line, ":", text)


def install():
    run(blocks_of("Install")[0])


def format_plant():
    check("formatted 200 8 8313747" in run(blocks_of("Format")[0]), "format")


def without_systemd():
    """Server and clock run at a terminal, until it is closed."""
    block = block_of("Start, and the clock", "alm_await_server")
    terminal = threading.Thread(target=run, args=(f"{block}\nsleep 8",))
    terminal.start()
    await_true("a server without its unit", lambda: answers(FOLDER))
    moves()  # its clock begins once the sockets have their groups
    shared()
    terminal.join()
    await_true("the end of that server", lambda: not answers(FOLDER))


def start():
    text = run(block_of("Start, and the clock", "enable --now"))
    check("Alarm server" in text, "status", text)
    await_true("the server's line", lambda: f"serving {FOLDER}\n" in output("journalctl", "-u", SERVER, "--no-pager"))
    active(SERVER, CLOCK_UNIT)
    shared()
    moves()


def users():
    """An operator has the consoles' slots, the feed and the clock their own, another user none."""
    output("useradd", "anna", "-G", "alarms-consoles")
    output("useradd", "otto")
    for name, slots in (
        ("anna", range(16)),
        ("otto", []),
        ("alarms-feed", [16]),
        ("alarms-clock", [17]),
        ("alarms-metrics", range(16)),
        ("alarms-list", [12]),
    ):
        for slot in range(18):
            check(may_connect(name, slot) == (slot in slots), name, "at slot", slot)
    check(as_user("otto", "ls", FOLDER).returncode != 0, "another user reads the folder")
    check(as_user("otto", "flock", "-n", FOLDER, "true").returncode != 0, "another user locks the folder")


def feed_and_consoles():
    text = run(block_of("Feed and consoles", "alm_console"), keys=b"q")
    check("1 changed a condition" in text, "the feed printed", text)
    check("TI-101" in text, "the console shows", text)
    run(block_of("Feed and consoles", "alm_feed@plant"))
    active(FEED_UNIT, METRICS_UNIT)
    number = tag_number("TI-101")
    await_true("the value by the pipe", lambda: ask(FOLDER, 2, f"1 STATE {number}\n".encode()).split()[4] == "0")
    await_true("the metrics", lambda: b"alarms_up 1" in metrics())


def metrics():
    """What Prometheus reads; nothing while nobody listens."""
    try:
        with urllib.request.urlopen("http://127.0.0.1:9464/metrics", timeout=10) as page:
            return page.read()
    except OSError:
        return b""


def tag_number(tag):
    with open("/etc/alarms/plant.toml", encoding="utf-8") as file:
        return re.findall(r'^tag = "([^"]*)"', file.read(), re.M).index(tag)


def watch():
    """Who is connected, the journal, a page of metrics, the audit trail, and the page of the device."""
    blocks = blocks_of("Watch")
    text = run(blocks[0])
    check(
        f"{FOLDER}/17" in text and re.search(r"\bepoch 1\b", text) and "is whole: half 0" in text, "watch printed", text
    )
    output("systemctl", "stop", METRICS_UNIT)
    shown, trail = blocks[1].splitlines()
    page = "from urllib.request import urlopen; print(urlopen('http://127.0.0.1:9466/metrics').read().decode())"
    text = run(f'{shown}\nsleep 3\npython3 -c "{page}"\nkill %1\ntimeout -s INT 4 {trail.partition("#")[0]} || true')
    check("alarms_up 1\n" in text, "the metrics are", text)
    check(len(re.findall(r"(?m) \d+ +- +clock$", text)) >= 2, "the audit trail is", text)
    output("systemctl", "start", METRICS_UNIT)
    device_page()


def device_page():
    """The timer's unit writes the page of the device for the node exporter, whose folder its package makes."""
    folder = "/var/lib/prometheus/node-exporter"
    os.makedirs(folder, exist_ok=True)
    run(block_of("Watch", f"{DEVICE_METRICS}.timer"))
    active(f"{DEVICE_METRICS}.timer")
    output("systemctl", "start", DEVICE_METRICS)
    path = f"{folder}/alarms_plant.prom"
    with open(path, encoding="ascii") as file:
        text = file.read()
    check('alarms_device_damaged{plant="plant"} 0\n' in text, "the device's page is", text)
    check(re.search(r'(?m)^alarms_journal_bytes\{plant="plant"\} [1-9]', text), "the device's page is", text)
    check(os.stat(path).st_mode & 0o777 == 0o644, "nobody else reads the device's page")
    output("systemctl", "disable", "--now", f"{DEVICE_METRICS}.timer")


def killed():
    """It comes back, with its sockets' groups."""
    before = output("systemctl", "show", "-P", "MainPID", SERVER).strip()
    os.kill(int(before), 9)
    await_true(
        "another server", lambda: output("systemctl", "show", "-P", "MainPID", SERVER).strip() not in (before, "0")
    )
    active(SERVER, CLOCK_UNIT, FEED_UNIT, METRICS_UNIT)
    shared()
    moves()


def second_plant():
    """It has sockets of its own, and then ports."""
    run(block_of("A second plant, or ports", "north.env"))
    shutil.copy("/etc/alarms/plant.toml", "/etc/alarms/north.toml")
    output("runuser", "-u", "alarms", "--", PROGRAM, "format", "/var/lib/alarms/north.device", "/etc/alarms/north.toml")
    units = ["alm_server@north", "alm_clock@north", "alm_metrics@north"]
    output("systemctl", "enable", "--now", *units)
    active(*units, SERVER, METRICS_UNIT)
    shared("/run/alarms/north")
    moves("/run/alarms/north")
    with open("/etc/alarms/north.env", "a", encoding="ascii") as file:
        file.write("PLACE=--port 5000\n")
    output("systemctl", "restart", "alm_server@north")
    active(*units)
    moves(5000)
    check(os.listdir("/run/alarms/north") == [], "sockets beside ports")
    output("systemctl", "disable", "--now", *units)


def stopped():
    """Stop takes the units beside it along and its folder away; start brings those that are enabled."""
    run("systemctl stop alm_server@plant")
    for unit in (SERVER, CLOCK_UNIT, FEED_UNIT, METRICS_UNIT):
        check(state_of(unit) == "inactive", unit, "is", state_of(unit))
    check(not os.path.exists(FOLDER), "the folder of a stopped server")
    run("systemctl start alm_server@plant")
    active(SERVER, CLOCK_UNIT, FEED_UNIT, METRICS_UNIT)


def acknowledged():
    number = tag_number("TI-101")
    return ask(FOLDER, 2, f"1 STATE {number}\n".encode()).split()[3]


def back_up_and_restore():
    os.makedirs("/backup", exist_ok=True)
    run(block_of("Back up and restore", "install -d"))
    active(SERVER, CLOCK_UNIT)
    at_copy = count()
    check(ask(FOLDER, 1, f"1 PRIO {tag_number('TI-101')} 4\n".encode()).startswith("1 OK"), "an action behind the copy")
    await_true("more actions", lambda: count() > at_copy + 5)
    began, late = time.monotonic(), count()
    run(block_of("Back up and restore", "restored.device"))
    active(SERVER, CLOCK_UNIT)
    check(
        count() < late + time.monotonic() - began
        and ask(FOLDER, 1, f"1 PRIO {tag_number('TI-101')} 4\n".encode()).startswith("1 OK"),
        "the copy isn't back",
    )
    moves()


def change_the_table():
    """An alarm is shelved, and stays so under a table with one alarm more in front."""
    check(ask(FOLDER, 0, f"1 OOS {tag_number('TI-101')} ON\n".encode()).startswith("1 OK"), "an alarm out of service")
    run(block_of("Change the table", "export"))
    text = open("/etc/alarms/new.toml", encoding="utf-8").read()
    size = int(re.search(r"(?m)^size = (\d+)", text)[1])
    head, _, rows = text.replace(f"size = {size}", f"size = {size + 364}").partition("[[alarm]]")
    first = '[[alarm]]\nkind = "high"\nsetpoint = 7\npriority = 1\narea = 0\ntag = "NEW-1"\n\n'
    with open("/etc/alarms/new.toml", "w", encoding="utf-8") as file:
        file.write(head + first + "[[alarm]]" + rows)
    run(block_of("Change the table", "alm_change_table"), "/var/lib/alarms")
    active(SERVER, CLOCK_UNIT)
    check(tag_number("NEW-1") == 0 and acknowledged() == "OOSRV", "behind a change of the table it is", acknowledged())
    moves()


def clock_ran_ahead():
    run("systemctl stop alm_clock@plant")
    ahead = int(time.time()) + 400_000
    await_true("a clock ahead", lambda: ask(FOLDER, 17, f"1 CLOCK {ahead}\n".encode()).startswith("1 OK"))
    run(block_of("A clock that ran ahead", "--now"))
    active(SERVER, CLOCK_UNIT)
    moves()
    check(acknowledged() == "OOSRV", "the states behind a clock that was set back")


def device_version():
    """The device becomes one of version 03 with its count of actions, and goes back."""
    before, block = count(), block_of("The device's version", "upgrade")
    check("upgraded 03 " in run(block), "the device isn't upgraded")
    active(SERVER, CLOCK_UNIT)
    with open("/var/lib/alarms/plant.device", "rb") as file:
        name = file.read(9)[1:]
    check(name == b"ALMSRV03" and count() >= before, "a device", name, "of", count(), "actions, and before of", before)
    back = block.replace("upgrade plant.device", "upgrade plant.device --version 02")
    check("upgraded 02 " in run(back), "the device doesn't go back")
    active(SERVER, CLOCK_UNIT)
    moves()


def upgrade():
    """From an earlier release's units at ports, and back to them."""
    output("systemctl", "disable", "--now", SERVER, CLOCK_UNIT, FEED_UNIT, METRICS_UNIT)
    for name in os.listdir("/etc/systemd/system"):
        if name.startswith("alm_"):
            os.remove(f"/etc/systemd/system/{name}")
    os.makedirs("/opt/alarms-0.2.0/examples")
    shutil.copy(os.path.realpath("/usr/lib/alarms/alm_server"), "/opt/alarms-0.2.0/")
    with open("/opt/alarms-0.2.0/examples/clock.py", "w", encoding="ascii") as file:
        file.write(EARLIER_CLOCK)
    for name, text in EARLIER.items():
        for folder in ("/opt/alarms-0.2.0/examples", "/etc/systemd/system"):
            with open(f"{folder}/{name}", "w", encoding="ascii") as file:
                file.write(text)
    output("systemctl", "daemon-reload")
    output("systemctl", "enable", "--now", "alm_server", "alm_clock")
    await_true("the earlier release", lambda: answers(5000))
    blocks = blocks_of("Upgrade")
    check(len(blocks) == 3, "the page has", len(blocks), "blocks under Upgrade")
    run(blocks[0] + blocks[1])
    active(SERVER, CLOCK_UNIT)
    moves(5000)
    run("V=$(cat VERSION)\n" + blocks[2])
    active("alm_server", "alm_clock")
    await_true("the earlier release", lambda: answers(5000))
    moves(5000)
    check(state_of(SERVER) == "inactive", SERVER, "is", state_of(SERVER))
    output("systemctl", "disable", "--now", "alm_server", "alm_clock")


def answers(place):
    try:
        return ask(place, 4, b"1 STATE 0\n").startswith("1 STATE")
    except OSError:
        return False


def stays_down():
    """Without a device it isn't started; over a damaged one it isn't started again."""
    units = "/usr/lib/alarms/deploy/systemd"
    output(
        "cp",
        *(f"{units}/{name}" for name in os.listdir(units) if name.endswith(("@.service", "@.timer"))),
        "/etc/systemd/system/",
    )
    output("systemctl", "daemon-reload")
    output("systemctl", "start", "alm_server@none")
    check(state_of("alm_server@none") == "inactive", "without a device it is", state_of("alm_server@none"))
    with open("/var/lib/alarms/bad.device", "wb") as file:
        file.write(bytes(30_000))
    shutil.chown("/var/lib/alarms/bad.device", "alarms", "alarms")
    subprocess.run(["systemctl", "start", "alm_server@bad"], capture_output=True, check=False)
    await_true("the end of a server over no device", lambda: state_of("alm_server@bad") == "failed")
    time.sleep(3)
    check(state_of("alm_server@bad") == "failed", "over a damaged device it is", state_of("alm_server@bad"))
    check(
        output("journalctl", "-u", "alm_server@bad", "--no-pager").count("fault unformatted") == 1,
        "it was started again",
    )


# A plant's life, which is the same of a repository and of the package.
LIFE = [
    format_plant,
    without_systemd,
    start,
    users,
    feed_and_consoles,
    web_part,
    archive_part,
    watch,
    killed,
    second_plant,
    stopped,
    back_up_and_restore,
    change_the_table,
    clock_ran_ahead,
    device_version,
    archive_end,
]
STEPS = [try_it, install, *LIFE, upgrade, stays_down]


def within():
    for step in STEPS:
        began = time.monotonic()
        step()
        print(f"{step.__name__}: {time.monotonic() - began:.0f} s", flush=True)


if __name__ == "__main__":
    run_script("units.py", STEPS, within)
