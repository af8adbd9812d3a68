"""Windows of a browser, of a user and of all users: how many are served, and how those of one browser share a stream.
tests/tools/browser.py runs these checks."""
import re
import socket
import subprocess
import time
from typing import Optional

from lib.browsers import List, Page, Plant, engineer
from check_doors import Raw
from lib.program import check
from lib.tools import Yard

MOST_OF_USER = 32


def share(yard: Yard, _count: int) -> str:
    """Nine windows of a browser share one stream: in each an acknowledgement goes out at once. The one that has the
    stream is closed, and another one goes on with it."""
    plant = Plant(yard)
    tags = [alarm.tag for alarm in plant.table.alarms if alarm.priority > 2][:9]
    plant.comes(*tags)
    listed = engineer(yard, plant)
    page = Page(yard, listed.url)
    page.shows(tags[0], "Unack")
    first = page.driver.current_window_handle
    for _ in tags[1:]:
        page.driver.switch_to.new_window("tab")
        page.driver.get(listed.place)
        page.shows(tags[0], "Unack")
    took = [acknowledges_in(page, plant, handle, tag) for handle, tag in zip(page.driver.window_handles, tags)]
    streams = streams_to(listed)
    check(streams <= 2, "nine windows have", streams, "connections on which something is told")
    page.driver.switch_to.window(first)
    page.driver.close()
    page.driver.switch_to.window(page.driver.window_handles[-1])
    plant.comes("TI-102")
    page.shows("TI-102", "Unack")
    check(page.of("#trouble") == "" or "clock" in page.of("#trouble"), "it says", page.of("#trouble"))
    page.end()
    listed.end()
    plant.end()
    return f"nine windows by {streams} connections, an acknowledgement in {max(took):.1f} s at most"


def acknowledges_in(page: Page, plant: Plant, handle: str, tag: str) -> float:
    """An acknowledgement in one of several windows; the seconds until the server has it."""
    page.driver.switch_to.window(handle)
    page.rest()
    page.choose(tag)
    began = time.monotonic()
    page.act("ACK")
    page.until(f"{tag} acknowledged", lambda: plant.shown(tag) == "ACKED", 5)
    return time.monotonic() - began


def streams_to(listed: List) -> int:
    """How many connections alm_browser has had bytes for within a second."""
    said = lambda: {
        words[0]: int(words[1])
        for words in re.findall(
            rf"127\.0\.0\.1:{listed.place.split(':')[2].strip('/')}\s+(\S+)\s.*?bytes_sent:(\d+)",
            subprocess.run(["ss", "-tinHO"], capture_output=True, text=True, check=True).stdout,
        )
    }
    before = said()
    time.sleep(1.2)
    return sum(sent > before.get(peer, 0) for peer, sent in said().items())


def at_socket(path: str, target: str, user: str, cookie: Optional[str] = None) -> tuple[int, str, socket.socket]:
    """The status and the head of a reply at the proxy's side, and the connection."""
    one = socket.socket(socket.AF_UNIX)
    one.settimeout(20)
    one.connect(path)
    lines = [
        f"GET {target} HTTP/1.1",
        "Host: alarms.example",
        f"X-Alarms-User: {user}",
        "X-Alarms-Role: viewer",
        *([f"Cookie: {cookie}"] if cookie else []),
        "",
        "",
    ]
    one.sendall("\r\n".join(lines).encode())
    head = b""
    while b"\r\n\r\n" not in head:
        head += one.recv(1000)
    return int(head.split()[1]), head.decode(errors="replace"), one


def streams_of(path: str, user: str, count: int) -> tuple[list[socket.socket], list[int]]:
    """Windows that a user opens, and how each was answered."""
    _, head, first = at_socket(path, "/", user)
    cookie = head.split("et-Cookie: ")[1].split(";")[0]
    opened = [at_socket(path, "/stream", user, cookie) for _ in range(count)]
    return [first, *(one for _, _, one in opened)], [status for status, _, _ in opened]


def windows(yard: Yard, _count: int) -> str:
    """One user's windows keep no other user out; a page that gets no list says why."""
    plant = Plant(yard)
    plant.comes("TI-101")
    path = yard.path("socket")
    listed = List(yard, plant.device, plant.port, "--socket", path, "--proxy", "https://alarms.example", listen=False)
    held, answered = streams_of(path, "carl", MOST_OF_USER + 1)
    check(answered == [200] * MOST_OF_USER + [503], "of carl's windows", answered.count(200), "were served")
    for user in ("anna", "ben", "dora", "emil"):
        more, answered = streams_of(path, user, 12)
        held += more
        check(answered == [200] * 12, user, "is answered", answered)
    for one in held:
        one.close()
    listed.end()
    says_why(yard, plant)
    plant.end()
    return f"{MOST_OF_USER} windows of one user, and four users beside"


def says_why(yard: Yard, plant: Plant) -> None:
    """What it says of a port or socket that it can't have."""
    listed = engineer(yard, plant)
    raw = Raw(listed)
    raw.enter()
    head = (
        f"GET /stream HTTP/1.1\r\nHost: {raw.host}\r\nCookie: {raw.cookie}\r\nX-Alarms-Key: {raw.key}\r\n\r\n".encode()
    )
    held = [socket.create_connection(tuple(raw.host.split(":")), timeout=20) for _ in range(MOST_OF_USER)]
    for one in held:
        one.sendall(head)
        check(one.recv(100).startswith(b"HTTP/1.1 200"), "a window isn't served")
    page = Page(yard, listed.url)
    page.until(
        "why",
        lambda: page.of("#trouble")
        == f"NO LIST, what is shown may be old: anna has {MOST_OF_USER} windows with the list open: close one",
    )
    for one in held:
        one.close()
    page.shows("TI-101", "Unack")
    page.until("no word of it", lambda: "NO LIST" not in page.of("#trouble"))
    page.end()
    listed.end()


CHECKS = {"share": share, "windows": windows}
