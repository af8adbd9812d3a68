"""A user signs out, and the next one signs in at the same browser. tests/tools/browser.py runs this check."""
import shutil
import subprocess

from lib.browsers import List, Page, Plant, engineer
from check_doors import Raw
from check_positions import OWN, takes
from check_proxy import PASSWORDS, nginx_of, proxied
from lib.program import check
from lib.tools import Yard
from selenium.common.exceptions import TimeoutException

COOKIE = "__Host-alarms"


def signs_out(page: Page) -> None:
    """The user's name leads to a dialog, and that out."""
    page.click("#who")
    page.until("the dialog", lambda: page.find("#leaving").is_displayed())
    page.js("document.querySelector('#leave button[type=submit]').click()")  # and no waiting for what comes


def leaving(yard: Yard, _count: int) -> str:
    """Who signs out is out in all windows of the browser, and the next user's actions have the next user's name; behind
    a proxy the browser forgets the password too."""
    plant = Plant(yard)
    plant.comes("TI-101", "TI-701")
    with_a_token(yard, plant)
    if not shutil.which("nginx") or not shutil.which("openssl"):
        return "signed out; no nginx: no proxy was tried (Debian: nginx, openssl)"
    path, port = yard.path("socket"), plant.port + 17 + 500
    place = f"https://alarms.example:{port}"
    words = ("--positions", yard.write("positions.toml", OWN.replace("40", "7")), "--notes", yard.path("notes.sqlite"))
    listed = List(yard, plant.device, plant.port, "--socket", path, "--proxy", place, *words, listen=False)
    process = nginx_of(yard, path, port)
    anna, ben = (proxied(yard, port, user) for user in ("anna", "ben"))
    takes(ben, "Crude desk", "night shift")
    anna.until("who is there", lambda: "Nobody is at Tank desk, Engineer" in anna.of("#trouble"))
    by_the_proxy(plant, ben, anna, port)
    for page in (anna, ben):
        page.end()
    process.terminate()
    listed.end()
    plant.end()
    return "signed out and in, with a token and behind a proxy"


def with_a_token(yard: Yard, plant: Plant) -> None:
    """With a token: the browser's cookie and key are good for nothing any more, and the next address lets somebody
    in."""
    listed = engineer(yard, plant)
    page = Page(yard, listed.url)
    page.shows("TI-101", "Unack")
    cookie = page.driver.get_cookies()[0]
    raw = Raw(listed)
    raw.cookie, raw.key = f"{cookie['name']}={cookie['value']}", page.of_module("state", "page.me.key")
    form = "application/x-www-form-urlencoded"
    check(raw.ask("POST", "/sign-out", b"key=guess", Content_Type=form)[0] == 403, "a guess signs somebody out")
    check(raw.ask("POST", "/sign-out", b"key=" + raw.key.encode(), Origin="http://x")[0] == 403, "another origin does")
    check(raw.ask("GET", "/stream")[0] == 200, "who didn't sign out is out")
    first = page.driver.current_window_handle
    page.driver.switch_to.new_window("tab")
    page.driver.get(listed.place)
    page.shows("TI-101", "Unack")
    signs_out(page)
    page.until("the way in", lambda: "type the token" in page.text())
    check(raw.ask("GET", "/stream")[0] == raw.ask("POST", "/do", raw.order())[0] == 401, "the session goes on")
    page.driver.switch_to.window(first)
    page.until("a word of it", lambda: page.of("#trouble").startswith("SIGNED OUT, the list may be old. Open the addr"))
    page.driver.get(listed.url)
    page.shows("TI-101", "Unack")
    page.end()
    listed.end()


def by_the_proxy(plant: Plant, page: Page, other: Page, port: int) -> None:
    """Ben signs out in one of two windows: both are out, his position is free at once, and neither his cookie nor the
    address alone lets anybody in. Carl signs in, and both windows are his."""
    place = f"https://alarms.example:{port}"
    first = page.driver.current_window_handle
    page.shows("TI-101", "Unack")
    cookie = f"{COOKIE}={page.driver.get_cookie(COOKIE)['value']}"
    page.driver.switch_to.new_window("tab")
    page.driver.get(place + "/")
    page.shows("TI-101", "Unack")
    page.click("#who")
    check("You still have Crude desk" in page.of("#leaving"), "it says", page.of("#leaving"))
    page.click("#stay")
    signs_out(page)
    other.until("a free position", lambda: "Nobody is at Crude desk" in other.of("#trouble"), 5)
    page.driver.switch_to.window(first)
    page.until("a word of it", lambda: page.of("#trouble").startswith("SIGNED OUT, the list may be old. Load the page"))
    words = ["curl", "-sk", "-o", "/dev/null", "-w", "%{http_code}", "--resolve", f"alarms.example:{port}:127.0.0.1"]
    words += ["-u", f"ben:{PASSWORDS['ben']}", "-b", cookie, f"{place}/stream"]
    said = subprocess.run(words, capture_output=True, text=True).stdout
    check(said == "401", "with the old session it is answered", said)
    page.driver.switch_to.new_window("tab")
    goes_to(page, place + "/")
    check(page.of("#who") == "" and "TI-101" not in page.text(), "the password is still known: it shows", page.text())
    page.driver.get(place.replace("://", f"://carl:{PASSWORDS['carl'].replace(' ', '%20')}@") + "/")
    page.until("carl", lambda: page.of("#who") == "carl (viewer)")
    page.driver.switch_to.window(first)
    page.until("carl there too", lambda: page.of("#who") == "carl (viewer)" and "SIGNED OUT" not in page.of("#trouble"))
    plant.comes("TI-102")
    page.shows("TI-102", "Unack")


def goes_to(page: Page, address: str) -> None:
    """Loads an address at which the browser may ask for a name and a password, and then wait without end."""
    page.driver.set_page_load_timeout(6)
    try:
        page.driver.get(address)
    except TimeoutException:
        pass
    page.driver.set_page_load_timeout(60)


CHECKS = {"leaving": leaving}
