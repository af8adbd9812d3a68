"""The unit that the network reaches: what code in it can do."""
import grp
import importlib.util
import json
import os
import re
import shutil
import socket
import stat
from systemd import SERVER, active, await_true, check, moves, output, state_of


WEB_UNIT, LIST_UNIT = "alm_browser@plant", "alm_list@plant"


# What is run in the place of the web part of the alarm list, with all that its unit gives it: what it can open, and
# whom it can signal.
BROKEN_INTO = """
import json, os, signal, socket, time
while not os.path.exists('/run/numbers'):
    time.sleep(0.1)
time.sleep(0.5)
server, listed = map(int, open('/run/numbers').read().split())
def tried(does):
    try:
        does()
        return 'done'
    except OSError as error:
        return type(error).__name__
def connect(place, family=socket.AF_UNIX):
    def does():
        with socket.socket(family) as one:
            one.settimeout(5)
            one.connect(place)
    return does
found = {f'slot {slot}': tried(connect(f'/run/alarms/plant/{slot}')) for slot in range(18)}
private = ('/var/lib/alarms/plant.device', '/var/lib/alarms-browser/plant.sqlite')
folders = ('/run/alarms/plant', '/var/lib/alarms', '/run/alarms-feed/plant')
found |= {f'read {path}': tried(lambda: open(path, 'rb').close()) for path in private}
found |= {f'list {path}': tried(lambda: os.listdir(path)) for path in folders}
found |= {f'write {path}': tried(lambda: open(path, 'ab').close()) for path in (*private, '/etc/alarms/plant.env')}
found['signal the server'] = tried(lambda: os.kill(server, signal.SIGSTOP))
found['signal alm_list'] = tried(lambda: os.kill(listed, signal.SIGSTOP))
found['metrics by a port'] = tried(connect(('127.0.0.1', 9464), socket.AF_INET))
found['the list'] = tried(connect('/run/alarms-list/plant/socket'))
print(json.dumps({'uid': os.getuid(), **found}), flush=True)
time.sleep(600)
"""


BROKEN_UNIT = """[Service]
ExecStart=
ExecStart=/usr/bin/python3 {script}
"""


def web_part():
    """Code that runs in the unit that the network reaches has its own user, the list's socket, and nothing of the
    plant's."""
    if importlib.util.find_spec("aiohttp") is None:
        print("web_part: left out: no aiohttp in this Debian")
        return
    output("systemctl", "enable", "--now", WEB_UNIT)
    active(WEB_UNIT, LIST_UNIT)
    for path, group in (
        ("/run/alarms-browser/plant/socket", "alarms-browser"),
        ("/run/alarms-list/plant/socket", "alarms-web"),
    ):
        await_true(path, lambda: os.path.exists(path))
        found = os.lstat(path)
        check(
            stat.S_IMODE(found.st_mode) == 0o660 and grp.getgrgid(found.st_gid).gr_name == group,
            path,
            oct(found.st_mode),
            found.st_gid,
        )
    await_true("the list by the web part", lambda: b'"TI-101"' in told_by_web())
    runs_as = os.stat(f"/proc/{output('systemctl', 'show', '-P', 'MainPID', LIST_UNIT).strip()}").st_uid
    check(runs_as == int(output("id", "-u", "alarms-list")), "the list's unit runs as", runs_as)
    found = broken_into()
    uids = {name: int(output("id", "-u", name)) for name in ("alarms", "alarms-web")}
    check(found.pop("uid") == uids["alarms-web"] != uids["alarms"], "it runs as", found)
    check(found.pop("the list") == "done", "it doesn't come to the list, but", found)
    check(found["signal the server"] == found["signal alm_list"] == "PermissionError", "of signals it says", found)
    check(
        "done" not in found.values(), "code in the web part did", [name for name, how in found.items() if how == "done"]
    )
    check(
        output("ps", "-o", "stat=", "-p", output("systemctl", "show", "-P", "MainPID", SERVER).strip()).strip()[0]
        != "T",
        "the server stands still",
    )
    moves()
    output("systemctl", "disable", "--now", WEB_UNIT)
    await_true("an end of the list's unit", lambda: state_of(LIST_UNIT) == "inactive")


def broken_into():
    """What code could do in the place of the web part, in its unit."""
    script, folder = "/usr/local/lib/broken.py", f"/run/systemd/system/{WEB_UNIT}.service.d"
    os.makedirs(folder, exist_ok=True)
    for path, text in ((script, BROKEN_INTO), (f"{folder}/broken.conf", BROKEN_UNIT.format(script=script))):
        with open(path, "w", encoding="ascii") as file:
            file.write(text)
    main_process = lambda: output("systemctl", "show", "-P", "MainPID", LIST_UNIT).strip()
    before = main_process()
    output("systemctl", "daemon-reload")
    output("systemctl", "restart", WEB_UNIT)
    await_true("another process of the list", lambda: main_process() not in (before, "0"))
    await_true("the list's socket", lambda: os.path.exists("/run/alarms-list/plant/socket"))
    active(WEB_UNIT, LIST_UNIT)
    numbers = " ".join(output("systemctl", "show", "-P", "MainPID", unit).strip() for unit in (SERVER, LIST_UNIT))
    with open("/run/written", "w", encoding="ascii") as file:
        file.write(numbers)
    os.rename("/run/written", "/run/numbers")  # the code reads it as soon as it is there
    said = lambda: re.findall(r"^\{.*\}$", output("journalctl", "-u", WEB_UNIT, "-o", "cat", "--no-pager"), re.M)
    await_true("what the code says", said)
    shutil.rmtree(folder)
    output("systemctl", "daemon-reload")
    return json.loads(said()[-1])


def told_by_web():
    """The beginning of a stream, as the proxy gets it for a user; empty where nobody listens."""
    named = b"Host: alarms.example\r\nX-Alarms-User: anna\r\nX-Alarms-Role: viewer\r\n"
    replies = []
    for line in (b"GET / HTTP/1.1\r\nConnection: close\r\n", b"GET /stream HTTP/1.1\r\nCookie: "):
        cookie = re.findall(rb"(?i)set-cookie: ([^;]+)", b"".join(replies))
        with socket.socket(socket.AF_UNIX) as client:
            client.settimeout(3)
            try:
                client.connect("/run/alarms-browser/plant/socket")
            except ConnectionRefusedError:  # it is bound, and doesn't listen yet
                return b""
            client.sendall(line + (cookie[0] + b"\r\n" if cookie else b"") + named + b"\r\n")
            replies.append(all_of(client))
    return replies[1]


def all_of(client):
    """What comes until an end, a pause, or the first rows."""
    came = b""
    try:
        while piece := client.recv(65_536):
            came += piece
            if b'"rows":[[' in came and len(came) > 20_000:
                break
    except TimeoutError:
        pass
    return came
