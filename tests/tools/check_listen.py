"""What the alarm list's port of this machine lets in, and what whoever may connect can do to it. tests/tools/browser.py
runs these checks."""
import json
import resource
import socket
import subprocess
import time

from lib.browsers import List, Page, Plant, engineer
from check_doors import Raw
from lib.drawn_plants import module
from lib.program import check
from lib.tools import Yard, await_true, slowness

# More connections than a process of Debian may have descriptors by default, which is 1,024.
CROWD = 1200
# Seconds that a connection may take for the head of its first request, and a little longer.
HEAD = 13
# Seconds in which operators are served amid a crowd, on a machine that has nothing else to do.
AMID = 4
# Lines of the log that some hundred requests may bring about.
FEW = 12


def listen(yard: Yard, _count: int) -> str:
    """A token is good once, a cookie alone for nothing, and a sign-in that is none is refused in a line."""
    plant = Plant(yard)
    plant.comes("TI-101")
    listed = engineer(yard, plant)
    token_once(listed)
    cookie_alone(plant, listed)
    refused = bad_sign_ins(listed)
    listed.end()
    plant.end()
    return f"a token once, a cookie alone, {refused} bad sign-ins"


def token_once(listed: List) -> None:
    """The address that let a browser in lets no other in; the next one does."""
    first = Raw(listed)
    first.enter()
    again = Raw(listed)
    check(again.token != first.token, "it printed no other address")
    status, headers, _ = again.ask("GET", f"/?token={first.token}")
    check(status == 401 and "Set-Cookie" not in headers, "a token that was used is answered", status)
    form = b"token=" + first.token.encode()
    check(
        again.ask("POST", "/sign-in", form, Content_Type="application/x-www-form-urlencoded")[0] == 401,
        "typed it is good again",
    )
    check(first.ask("GET", f"/?token={first.token}")[0] == 303, "whoever is in isn't led to the list by the address")
    again.enter()
    check(first.ask("GET", "/stream")[0] == 200, "another browser's sign-in ends the first one's")


def cookie_alone(plant: Plant, listed: List) -> None:
    """A browser sends its cookies to each port of the host. Who has them has no key by that, no list, and can do
    nothing."""
    raw = Raw(listed)
    raw.enter()
    key, raw.key = raw.key, ""
    count = plant.console.plant().count
    tried = [
        (401, raw.ask("GET", "/stream")),
        (403, raw.ask("POST", "/do", raw.order())),
        (200, raw.ask("GET", "/")),
        (401, raw.ask("GET", "/stream", X_Alarms_Key="guess")),
    ]
    for wanted, (status, _, said) in tried:
        check(
            status == wanted and key.encode() not in said and b"TI-101" not in said,
            "with a cookie alone",
            status,
            "and not",
            wanted,
            said[:200],
        )
    check(plant.console.plant().count == count, "something was done")
    check(raw.ask("GET", "/stream", X_Alarms_Key=key)[0] == 200, "with its key it has no list")


def bad_sign_ins(listed: List) -> int:
    """Forms that aren't ours: 400 with all headers, and no line of a traceback."""
    raw = Raw(listed)
    form = "application/x-www-form-urlencoded"
    bodies = [
        ("multipart/form-data; boundary=x", b"--y\r\nno form"),
        ("multipart/form-data", b"--x"),
        ("multipart/form-data; boundary=x", b"--x\r\n\r\n\xff"),
        (None, b"token=x"),
        (f"{form}; charset=utf-16", b"\xff\xfe\x00"),
        (form, b"\xff\xfe"),
        (form, b"token=%ff%fe"),
        (form, b"&".join(b"a=1" for _ in range(50))),
        ("text/plain; charset=nope", b"token=x"),
    ]
    for kind, body in bodies * 10:
        status, headers, said = raw.ask("POST", "/sign-in", body, Content_Type=kind)
        check(status == 400, kind, body, "is answered", status, said[:100])
        check(
            "script-src 'self'" in headers.get("Content-Security-Policy", "")
            and headers.get("X-Content-Type-Options") == "nosniff"
            and headers.get("X-Frame-Options") == "DENY",
            "without headers:",
            headers,
        )
    check(raw.ask("POST", "/sign-in", b"token=x", Content_Type=f"{form}; charset=nope")[0] == 401, "a charset is read")
    check("Traceback" not in listed.said() and listed.said().count("\n") <= FEW, "it says", listed.said()[:500])
    return len(bodies)


def started_again(yard: Yard, _count: int) -> str:
    """alm_browser is started again, and one window of a browser is let in: the others go on with it."""
    plant = Plant(yard)
    plant.comes("TI-101")
    with socket.socket() as one:
        one.bind(("127.0.0.1", 0))
        port = one.getsockname()[1]
    listed = List(yard, plant.device, plant.port, "--listen", port, listen=False)
    page = Page(yard, listed.url)
    page.shows("TI-101", "Unack")
    first = page.driver.current_window_handle
    listed.end()
    listed.start()
    page.until("a word", lambda: page.of("#trouble").startswith("SIGNED OUT"))
    page.driver.switch_to.new_window("tab")
    page.driver.get(listed.url)
    page.shows("TI-101", "Unack")
    page.driver.switch_to.window(first)
    page.until("the list again", lambda: "SIGNED OUT" not in page.of("#trouble") and "NO " not in page.of("#trouble"))
    page.rest()
    page.choose("TI-101")
    page.act("ACK")
    page.until("an acknowledgement", lambda: plant.shown("TI-101") == "ACKED")
    page.end()
    listed.end()
    plant.end()
    return "all windows by one sign-in"


def crowd(yard: Yard, _count: int) -> str:
    """Somebody who may connect, and isn't let in, opens more connections than a process may have: operators don't
    notice it, and the log doesn't grow."""
    plant = Plant(yard)
    plant.comes("TI-101")
    listed = engineer(yard, plant)
    subprocess.run(["prlimit", f"--pid={listed.process.pid}", "--nofile=1024:1024"], check=True)
    soft, hard = resource.getrlimit(resource.RLIMIT_NOFILE)
    resource.setrlimit(resource.RLIMIT_NOFILE, (min(hard, 4096), hard))
    page = Page(yard, listed.url)
    page.shows("TI-101", "Unack")
    page.rest()
    began = time.monotonic()
    idle = [
        socket.create_connection(
            (listed.place.split("/")[2].split(":")[0], int(listed.place.split(":")[2].strip("/"))), timeout=20
        )
        for _ in range(CROWD)
    ]
    try:
        for one in idle[::2]:
            one.sendall(b"GET / HTTP/1.1\r\nHost: ")  # half of a head
        took = works_amid(plant, page, listed, began)
        log = len(listed.said())
        last = idle[-1]
        await_true("an end of a connection that asks nothing", lambda: is_ended(last), HEAD)
    finally:
        for one in idle:
            one.close()
        resource.setrlimit(resource.RLIMIT_NOFILE, (soft, hard))
    check(log < 5000 and "Traceback" not in listed.said(), "the log grew to", log, listed.said()[:500])
    page.end()
    listed.end()
    plant.end()
    return f"amid {CROWD} connections let in and acknowledged in {took:.1f} s, {log} bytes logged"


def works_amid(plant: Plant, page: Page, listed: List, began: float) -> float:
    """Another browser is let in, and who is in acknowledges, long before the first of the crowd has used up its time.
    The seconds since the crowd began."""
    Raw(listed).enter()
    page.choose("TI-101")
    page.act("ACK")
    page.shows("TI-101", "Acked")
    took = time.monotonic() - began
    check(plant.shown("TI-101") == "ACKED" and took < AMID * slowness(), "it isn't acknowledged, or it was after", took)
    return took


def is_ended(one: socket.socket) -> bool:
    one.settimeout(0.05)
    try:
        return one.recv(100) == b""
    except TimeoutError:
        return False
    except OSError:
        return True


def parts(yard: Yard, _count: int) -> str:
    """The list as two processes: the one that browsers reach has a socket of the other alone. Each is killed, and
    started again."""
    plant = Plant(yard)
    plant.comes("TI-101", "LI-208", "TI-203")
    place = yard.path("list")
    telling = List(
        yard,
        plant.device,
        plant.port,
        "--tell",
        place,
        "--notes",
        yard.path("notes.sqlite"),
        "--areas",
        yard.write("areas", "Crude\nVacuum\n"),
        listen=False,
    )
    check(telling.url == place, "it says", telling.url)
    web = Web(yard, place)
    page = Page(yard, web.url)
    page.shows("TI-101", "Unack")
    check(page.row("TI-101")["cells"]["area"] == "Crude", "its area is", page.row("TI-101"))
    page.rest()
    page.choose("TI-101")
    page.act("ACK")
    page.shows("TI-101", "Acked")
    page.says("TI-101 acknowledged")
    page.choose("LI-208")
    page.act("SHELVE")
    page.answer("pump in test", duration="15 min")
    page.until("it is shelved", lambda: plant.shown("LI-208") == "SHLVD")
    page.turn("journal")
    page.until(
        "who and why",
        lambda: any((row["cells"]["user"], row["cells"]["reason"]) == ("anna", "pump in test") for row in page.rows()),
    )
    page.turn("alarms")
    telling.process.kill()
    telling.process.wait()
    page.until("no server", lambda: page.of("#trouble").startswith("NO SERVER, the list may be old: no answer for"))
    telling.start()
    page.until("the list again", lambda: "NO SERVER" not in page.of("#trouble") and page.state("TI-203") == "Unack")
    page.rest()
    page.choose("TI-203")
    page.act("ACK")
    page.shows("TI-203", "Acked")
    broken = wrong_lines(place)
    check("Traceback" not in telling.said() + web.said(), "they say", telling.said(), web.said())
    page.end()
    web.end()
    telling.end()
    plant.end()
    return f"two processes, {broken} lines that are no orders"


class Web(List):
    """The part that browsers reach."""

    def __init__(self, yard: Yard, source: str, *words: str):
        self.folder = yard.folder
        users = ("--role", "engineer", "--user", "anna")
        self.words = module("browser", "--from", source, "--listen", "0", *users, *words)
        self.start()


def wrong_lines(place: str) -> int:
    """What a part that was broken into may send: each ends the connection or is refused, and the other part goes on."""
    order = {"order": 1, "user": "x", "role": "engineer", "asked": {"era": "0", "word": "ACK", "alarms": [[0, 1]]}}
    lines = [
        b"no json",
        b"[]",
        b"7",
        b"{}",
        b"\xff\xfe",
        b"[" * 50_000,
        b"1" * 300_000,
        json.dumps({**order, "role": "root"}).encode(),
        json.dumps({**order, "order": float("inf")}).encode(),
        json.dumps({**order, "asked": {"era": "0", "word": "CLOCK", "alarms": [[0, 1]], "value": 2**40}}).encode(),
        json.dumps({**order, "asked": {"word": "VAL", "alarms": 7}}).encode(),
    ]
    for line in lines:
        with socket.socket(socket.AF_UNIX) as one:
            one.settimeout(20)
            one.connect(place)
            one.sendall(line + b"\n" + json.dumps(order).encode() + b"\n")
            said = b""
            while b"event: answers" not in said and (piece := one.recv(65_536)):
                said += piece
            check(b'"done"' not in said.partition(b"event: answers")[2], line[:80], "was done")
    return len(lines)


CHECKS = {"listen": listen, "started_again": started_again, "crowd": crowd, "parts": parts}
