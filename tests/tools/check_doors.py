"""Who may use the alarm list in a browser: pages of other origins, tokens, keys, roles, a proxy. tests/tools/browser.py
runs these checks."""
import http.client
import http.server
import json
import re
import socket
import subprocess
from typing import Any, Optional

from lib.browsers import List, Page, Plant, engineer
from lib.drawn_plants import module
from lib.places import AT_TOOLS
from lib.program import check
from lib.tools import Yard
from selenium.webdriver import ActionChains, Keys
from check_proxy import proxy
from attacker import attacks, runs_no_script_of_a_page


class Raw:
    """Requests as no browser sends them."""

    def __init__(self, listed: List):
        self.host = listed.place.split("/")[2]
        self.token = listed.url.partition("token=")[2]
        self.origin = listed.place[:-1]
        self.cookie = self.key = self.era = ""

    def ask(self, method: str, path: str, body: bytes = b"", **headers: Optional[str]) -> tuple[int, Any, bytes]:
        """The status, the headers and the beginning of a reply. A header of `None` is left out."""
        given = {
            "Host": self.host,
            "Origin": self.origin if method != "GET" else None,
            "Cookie": self.cookie or None,
            "X-Alarms-Key": self.key or None,
            "Content-Type": "application/json" if body else None,
            "Content-Length": str(len(body)) if method != "GET" else None,
        }
        given.update({name.replace("_", "-"): value for name, value in headers.items()})
        line = http.client.HTTPConnection(self.host, timeout=20)
        line.putrequest(method, path, skip_host=True, skip_accept_encoding=True)
        for name, value in given.items():
            if value is not None:
                line.putheader(name, value)
        line.endheaders(body)
        reply = line.getresponse()
        said = reply.read1(300) if "event-stream" in reply.headers.get("Content-Type", "") else reply.read()
        line.close()
        return reply.status, reply.headers, said

    def enter(self) -> None:
        """Lets itself in as the page does."""
        status, headers, said = self.ask("GET", f"/?token={self.token}")
        check(status == 200 and headers["Cache-Control"] == "no-store", "a token is answered", status, headers)
        self.cookie = headers["Set-Cookie"].split(";")[0]
        check(
            {"HttpOnly", "SameSite=Strict", "Path=/"} <= set(headers["Set-Cookie"].split("; ")),
            "the cookie is",
            headers["Set-Cookie"],
        )
        self.key = key_of(said.decode())

    def order(self, **more: Any) -> bytes:
        return json.dumps({"era": self.era, "word": "ACK", "alarms": [[0, 1]], **more}).encode()


def key_of(page: str) -> str:
    """The key that the reply to a token keeps for its origin."""
    return re.search('data-key="([^"]+)"', page)[1]


def doors(yard: Yard, _count: int) -> str:
    """A page of another origin tries each request from a browser that is signed in; then requests as no browser sends
    them."""
    plant = Plant(yard)
    plant.comes("TI-101")
    listed = engineer(yard, plant)
    page = Page(yard, listed.url)
    page.shows("TI-101", "Unack")
    check(page.driver.current_url == listed.place, "the token stays in the address", page.driver.current_url)
    count = plant.console.plant().count
    tried = attacks(plant, page, "127.0.0.1", listed) + attacks(plant, page, "localhost", listed)
    check(
        plant.console.plant().count == count and plant.shown("TI-101") == "UNACK",
        "a page of another origin did something",
    )
    runs_no_script_of_a_page(page)
    page.end()
    refused = raw_requests(plant, listed)
    check(plant.console.plant().count == count, "a request that was refused did something")
    listed.end()
    plant.end()
    return f"{tried} ways of a page of another origin, {refused} requests"


# Orders that are none, as they stand and as changes of a good one; and reasons that aren't taken, with what is said.
NO_ORDERS = [b"{", b"[" * 5000, b"[]", b"null", b'{"word":"ACK"}', b"\xff\xfe"]
WRONG_ORDERS: list[dict[str, Any]] = [
    {"word": "VAL"},
    {"word": "CLOCK", "value": 9},
    {"word": "ACK 0\n1 SHELVE"},
    {"alarms": []},
    {"alarms": [[0, 1]] * 1001},
    {"alarms": [["0", 1]]},
    {"alarms": [[-1, 1]]},
    {"alarms": [[True, 1]]},
    {"alarms": [[0]]},
    {"value": 1},
    {"era": 7},
    {"word": "SHELVE", "value": 60},
    {"word": "SHELVE", "value": 60, "reason": " "},
    {"word": "SHELVE", "value": 0, "reason": "x"},
    {"word": "SHELVE", "value": 1.5, "reason": "x"},
    {"word": "OOS", "value": 2, "reason": "x"},
    {"word": "PRIO", "value": 5, "reason": "x"},
    {"word": "SETP", "value": "1", "reason": "x"},
    {"word": "SETP", "value": 10**13, "reason": "x"},
    {"word": "SHELVE", "value": 60, "reason": "x" * 201},
    {"word": "SHELVE", "value": 60, "reason": "x\ny"},
    {"reason": ["x"]},
]
WRONG_REASONS = [
    ("x" * 201, b"at most 200 letters"),
    ("x\u00a0y", b"no blank but the plain one"),
    ("x\u200cy", b"no joined sign"),
    ("x\ny", b"no line end"),
]
Tried = list[tuple[int, tuple[int, dict[str, str], bytes]]]


def without_a_key(raw: Raw) -> Tried:
    """Requests of somebody who was never let in, each with the status that is due."""
    return [
        (401, raw.ask("GET", "/")),
        (401, raw.ask("GET", "/stream")),
        (401, raw.ask("GET", "/?token=guess")),
        (401, raw.ask("POST", "/do", raw.order())),
        (401, raw.ask("POST", "/sign-in", b"token=guess", Content_Type="application/x-www-form-urlencoded")),
        (
            403,
            raw.ask(
                "POST",
                "/sign-in",
                b"token=" + raw.token.encode(),
                Content_Type="application/x-www-form-urlencoded",
                Origin="http://evil.example",
            ),
        ),
        (401, raw.ask("GET", "/", X_Alarms_User="anna", X_Alarms_Role="engineer")),
        (404, raw.ask("GET", "/../orders.py")),
        (404, raw.ask("GET", "/page/alarms.html")),
    ]


def with_a_key(raw: Raw, other: str) -> Tried:
    """Requests of somebody who was let in, each without what it needs or with too much."""
    do = lambda body, **headers: raw.ask("POST", "/do", body, **headers)
    tried = [
        (421, raw.ask("GET", "/", Host="evil.example")),
        (421, raw.ask("GET", "/stream", Host=other)),
        (421, do(raw.order(), Host="localhost")),
        (403, do(raw.order(), Origin=None)),
        (403, do(raw.order(), Origin="null")),
        (403, do(raw.order(), Origin="http://" + other)),
        (403, raw.ask("GET", "/stream", Origin="http://" + other)),
        (403, raw.ask("GET", "/stream", Sec_Fetch_Site="same-site")),
        (403, do(raw.order(), Sec_Fetch_Site="cross-site")),
        (403, raw.ask("GET", "/", Sec_Fetch_Site="cross-site", Sec_Fetch_Dest="image")),
        (403, do(raw.order(), X_Alarms_Key=None)),
        (403, do(raw.order(), X_Alarms_Key="guess")),
        (403, do(raw.order(), X_Alarms_Key="é".encode().decode("latin-1"))),
        (401, do(raw.order(), Cookie=None)),
        (401, do(raw.order(), Cookie="alarms=x")),
        (415, do(raw.order(), Content_Type="text/plain")),
        (415, do(b"")),
        (405, raw.ask("GET", "/do")),
        (405, raw.ask("POST", "/stream")),
        (413, do(b'"' + b"x" * 70_000 + b'"')),
    ]
    bad = [*NO_ORDERS, *(raw.order(**more) for more in WRONG_ORDERS)]
    return tried + [(400, do(body)) for body in bad]


def raw_requests(plant: Plant, listed: List) -> int:
    """Each request without what it needs, and each with too much: refused by its status, with the headers of a page."""
    raw = Raw(listed)
    other = f"127.0.0.1:{int(raw.host.split(':')[1]) + 1}"
    tried = without_a_key(raw)
    raw.enter()
    check(
        raw.ask("GET", "/", Sec_Fetch_Site="cross-site", Sec_Fetch_Dest="document")[0] == 200,
        "a link from elsewhere doesn't lead to the list",
    )
    tried += with_a_key(raw, other)
    for wanted, (status, headers, said) in tried:
        check(status == wanted, "status", status, "and not", wanted, said[:100])
        check(
            "script-src 'self'" in headers.get("Content-Security-Policy", "")
            and headers.get("X-Content-Type-Options") == "nosniff",
            "without headers:",
            wanted,
            headers,
        )
        check(not any(word in said for word in (b"Traceback", b"TI-101", raw.key.encode())), "it says", said[:200])
    check("unsafe" not in headers["Content-Security-Policy"], "the policy is", headers["Content-Security-Policy"])
    for reason, why in WRONG_REASONS:
        said = raw.ask("POST", "/do", raw.order(word="SHELVE", value=60, reason=reason))[2]
        check(why in said, "of a reason it says", said)
    answers = json.loads(raw.ask("POST", "/do", raw.order())[2])["answers"]
    check(answers[0][1] == "refused", "of another plant it was answered", answers)
    return len(tried) + 1


def roles(yard: Yard, _count: int) -> str:
    """An operator has no priority and no setpoint, a viewer nothing; neither on the page nor behind it. A token is
    typed too."""
    plant = Plant(yard)
    plant.comes("TI-101")
    acts = {"ACK", "SHOWN", "RESET", "SHELVE", "UNSHELVE"}
    services = {"OOS ON", "OOS OFF"}
    for role, offered, more in (
        ("operator", acts, ()),
        ("operator", acts | services, ("--out-of-service", "operator")),
        ("viewer", set(), ()),
    ):
        listed = List(yard, plant.device, plant.port, "--role", role, "--user", "carl", *more)
        page = Page(yard, listed.place)
        check(
            page.find("#token").is_displayed() and "TI-101" not in page.text(), "without a token it shows", page.text()
        )
        page.find("#token").send_keys(listed.url.partition("token=")[2])
        page.click("button")
        page.shows("TI-101", "Unack")
        found = {
            button.get_attribute("data-act")
            for button in page.driver.find_elements("css selector", "#actions button")
            if button.is_displayed()
        }
        check(found == offered, role, "is offered", found)
        raw = Raw(listed)
        raw.enter()
        raw.era = page.era
        for word, more in (
            ("ACK", {}),
            ("RESET", {}),
            ("SHELVE", {"value": 60, "reason": "x"}),
            ("UNSHELVE", {}),
            ("OOS", {"value": 0, "reason": "x"}),
            ("PRIO", {"value": 3, "reason": "x"}),
            ("SETP", {"value": 3, "reason": "x"}),
        ):
            status, _, said = raw.ask("POST", "/do", raw.order(word=word, alarms=[[199, 0]], **more))
            allowed = word in {name.split()[0] for name in offered}
            check(status == (200 if allowed else 403), role, word, status, said)
        page.end()
        listed.end()
    plant.end()
    return "three roles"


def at_once(yard: Yard, _count: int) -> str:
    """What silences or changes alarms is for twenty at once, or as many as is said; an acknowledgement is for all."""
    plant = Plant(yard)
    tags = list(plant.numbers)
    plant.comes(*tags)
    for given, most in (((), 20), (("--most", "3"), 3)):
        listed = engineer(yard, plant, *given)
        page = Page(yard, listed.url)
        page.turn("all")
        page.until("all", lambda: page.find("#list").get_attribute("aria-rowcount") == str(len(tags) + 1))
        page.rest()
        ActionChains(page.driver).key_down(Keys.CONTROL).send_keys("a").key_up(Keys.CONTROL).perform()
        page.until("the selection", lambda: page.find("#rows tr[aria-selected=true]"))
        ActionChains(page.driver).send_keys("o").perform()
        page.says(f"that is for {most} alarms at once at most")
        check(not page.find("#asking").is_displayed(), "it asks for a reason")
        raw = Raw(listed)
        raw.enter()
        raw.era = page.era
        for word, value in (("OOS", 1), ("SHELVE", 60), ("PRIO", 1)):
            for count, wanted in ((most + 1, 403), (most, 200)):
                order = raw.order(word=word, value=value, reason="x", alarms=[[n, 0] for n in range(count)])
                status, _, said = raw.ask("POST", "/do", order)
                check(status == wanted, word, "of", count, "is answered", status, said)
        check(sum(shown == "OOSRV" for shown in plant.all_shown().values()) == 20, "not twenty are out of service")
        page.end()
        listed.end()
    plant.end()
    return "twenty at once"


def words(yard: Yard, _count: int) -> str:
    """Words that don't go together, a port and a socket that others have, files that aren't there: a line and a
    status."""
    plant = Plant(yard)
    text = yard.write("text", "no database, but a text that is long enough to be one")
    other = socket.socket()
    other.bind(("127.0.0.1", 0))
    taken = yard.path("taken")
    with socket.socket(socket.AF_UNIX) as one:
        one.bind(taken)
        one.listen()
        at = ("--port", str(plant.port))
        for given, status, said in (
            (("--help",), 0, ""),
            ((), 2, "--port"),
            (at, 2, "--listen"),
            ((*at, "--listen", "x"), 2, "is no port"),
            ((*at, "--listen", "0", "--proxy", "https://a.example"), 2, "--proxy wants --socket"),
            ((*at, "--from", yard.path("s"), "--listen", "0"), 2, "in the place of --port"),
            ((*at, "--socket", yard.path("s")), 2, "--proxy or --origin"),
            ((*at, "--socket", yard.path("s"), "--proxy", "a.example"), 2, "is no origin"),
            ((*at, "--listen", "0", "--slots", "16"), 2, "invalid choice"),
            ((*at, "--listen", str(other.getsockname()[1])), 1, "in use"),
            ((*at, "--socket", taken, "--proxy", "https://a.example"), 1, "in use"),
            ((*at, "--socket", text, "--proxy", "https://a.example"), 1, "in use"),
            ((*at, "--listen", "0", "--notes", text), 1, "not a database"),
            ((*at, "--listen", "0", "--areas", yard.path("none")), 1, "No such file"),
            ((*at, "--listen", "0", "--group", "root"), 2, "--group wants --socket"),
            ((plant.device, *at, "--listen", "0"), 2, "unrecognized arguments"),
            ((*at, *at, "--listen", "0"), 2, f"2 servers are called {plant.port}"),
            ((*at, *at, "--listen", "0", "--name", "x"), 2, "--name is given 1 times"),
        ):
            run = subprocess.run(module("browser", *given), env=AT_TOOLS, capture_output=True, text=True, timeout=60)
            check(
                run.returncode == status
                and said in run.stderr
                and "Traceback" not in run.stderr
                and (status == 0 or run.stderr.count("\n") == 1),
                given,
                run.returncode,
                run.stderr,
            )
    other.close()
    plant.end()
    return "its words"


CHECKS = {"doors": doors, "roles": roles, "at_once": at_once, "proxy": proxy, "words": words}
