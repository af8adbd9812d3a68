"""What the scripts over the alarm list in a browser have in common: alm_browser as a process, and a page of it in a
headless Chromium.

What is expected comes from the table file, from what the test itself asked, and from what the server answers at another
slot.
"""
import itertools
import os
import shutil
import subprocess
import threading
import time
from typing import Any, Callable, Optional

from .drawn_plants import module
from .places import AT_TOOLS, EXAMPLES
from alarms.client import CLOCK, FEED, Client
from .program import Wrong, check
from selenium import webdriver
from selenium.common.exceptions import (
    ElementClickInterceptedException,
    NoSuchElementException,
    StaleElementReferenceException,
)
from selenium.webdriver import ActionChains, Keys
from selenium.webdriver.chrome.options import Options
from selenium.webdriver.chrome.service import Service
from selenium.webdriver.common.by import By
from selenium.webdriver.support.ui import Select
from .server import Server
from alarms.table_file import load_table
from .tools import Yard, await_true, started

REFINERY = str(EXAMPLES / "refinery.toml")
AREAS = [
    "Crude unit",
    "Vacuum unit",
    "Hydrotreater",
    "Reformer",
    "Cracker",
    "Sulfur recovery",
    "Tank farm",
    "Utilities",
]
# A slot of the tests' own, beside the page's.
OWN = 3
NUMBERS = itertools.count()
PAGES: list["Page"] = []
# The folder for screenshots, where one is asked for, and the number of aimed clicks, where another one is.
SHOTS: list[str] = []
CLICKS: list[int] = []
# The rows as they are drawn: the alarm's number, the text of each cell by its first class, and the row's classes.
ROWS = """return [...document.querySelectorAll('#rows tr')].map(row => ({n: row.dataset.n, kinds: row.className,
top: row.getBoundingClientRect().top, bottom: row.getBoundingClientRect().bottom,
selected: row.getAttribute('aria-selected'), cells: Object.fromEntries([...row.children].map(
cell => [cell.className.split(' ')[0], (cell.querySelector('svg text') ?? cell).textContent]))}))"""


class List:
    """alm_browser over a served device."""

    def __init__(self, yard: Yard, device: str, port: int, *words: object, listen: bool = True):
        self.folder = yard.folder
        places = ("--listen", "0") if listen else ()
        names = () if "--name" in words else ("--name", os.path.splitext(os.path.basename(device))[0])
        self.words = module("browser", "--port", port, *names, *places, *words)
        self.start()

    def start(self) -> None:
        self.errors = open(os.path.join(self.folder, f"errors{next(NUMBERS)}"), "w+", encoding="utf-8")
        self.process = started(
            subprocess.Popen(self.words, env=AT_TOOLS, stdout=subprocess.PIPE, stderr=self.errors, text=True)
        )
        line = self.process.stdout.readline()
        check(line.startswith("alm_browser: "), "it printed", line, self.said())
        self.urls, self.given = [line.split()[1]], ""
        threading.Thread(target=self.read, args=(self.process.stdout, self.urls), daemon=True).start()

    @staticmethod
    def read(printed: Any, urls: list[str]) -> None:
        urls.extend(line.split()[1] for line in printed)

    @property
    def url(self) -> str:
        """The address that was printed last. Behind one that let a browser in there comes another one."""
        deadline = time.monotonic() + 2
        while self.urls[-1] == self.given and "token=" in self.given and time.monotonic() < deadline:
            time.sleep(0.02)
        self.given = self.urls[-1]
        return self.given

    def said(self) -> str:
        self.errors.flush()
        self.errors.seek(0)
        return self.errors.read()

    def end(self) -> None:
        self.process.terminate()
        status = self.process.wait(timeout=30)
        check(status == 0 and "Traceback" not in self.said(), "alm_browser ended with", status, self.said())

    @property
    def place(self) -> str:
        return self.urls[0].split("?")[0]


class Page:
    """The page in a browser of its own."""

    def __init__(self, yard: Yard, url: str, width: int = 1280, height: int = 720, *words: str):
        options = Options()
        profile = os.path.join(yard.folder, f"profile{next(NUMBERS)}")
        for word in (
            "--headless=new",
            "--no-sandbox",
            "--disable-gpu",
            "--disable-dev-shm-usage",
            f"--user-data-dir={profile}",
            "--lang=en-GB",
            *words,
        ):
            options.add_argument(word)
        options.set_capability("goog:loggingPrefs", {"browser": "ALL"})
        self.driver = webdriver.Chrome(service=Service(shutil.which("chromedriver")), options=options)
        PAGES.append(self)
        # the room of the page itself, whatever a window has around it
        self.driver.execute_cdp_cmd(
            "Emulation.setDeviceMetricsOverride",
            {"width": width, "height": height, "deviceScaleFactor": 1, "mobile": False},
        )
        self.driver.get(url)

    def end(self) -> None:
        """Ends the browser. Nothing may have gone wrong in the page meanwhile, but for connections that were lost."""
        logs = [entry["message"] for entry in self.driver.get_log("browser") if entry["level"] == "SEVERE"]
        wrong = [
            line
            for line in logs
            if not any(
                word in line for word in ("net::ERR", "401 (Unauthorized)", "the server responded with a status of")
            )
        ]
        self.quit()
        check(not wrong, "in the page:", wrong)

    def quit(self) -> None:
        if self in PAGES:
            PAGES.remove(self)
            self.driver.quit()

    def js(self, text: str, *words: Any) -> Any:
        return self.driver.execute_script(text, *words)

    def of_module(self, name: str, text: str, *words: Any) -> Any:
        """What an expression gives, in which `page` is what a module of the page exports."""
        return self.js(f"return import('/{name}.js').then(page => {text})", *words)

    @property
    def era(self) -> str:
        """The name of the first plant that the page shows, as it is until another one is in its place."""
        return self.of_module("state", "page.plants[0].era")

    def until(self, what: str, holds: Callable[[], Any], patience: float = 20) -> None:
        try:
            await_true(what, holds, patience)
        except Wrong as wrong:
            raise Wrong(f"{wrong}: the page shows {self.text()[:2000]}") from None

    def find(self, css: str) -> Any:
        return self.driver.find_element(By.CSS_SELECTOR, css)

    def text(self) -> str:
        return self.js("return document.body.innerText")

    def of(self, css: str) -> str:
        """What stands in an element; nothing where it is hidden."""
        return self.js(
            (
                "const one = document.querySelector(arguments[0]); return one && !one.closest('[hidden]') ?"
                " one.textContent : ''"
            ),
            css,
        )

    def click(self, css: str) -> None:
        self.find(css).click()

    def rows(self) -> list[dict[str, Any]]:
        return self.js(ROWS)

    def tags(self) -> list[str]:
        return [row["cells"]["tag"] for row in self.rows()]

    def row(self, tag: str) -> Optional[dict[str, Any]]:
        return next((row for row in self.rows() if row["cells"]["tag"] == tag), None)

    def state(self, tag: str) -> str:
        row = self.row(tag)
        return row["cells"]["state"] if row else ""

    def shows(self, tag: str, state: str) -> None:
        self.until(f"{tag} {state}", lambda: self.state(tag) == state)

    def hides(self, tag: str) -> None:
        self.until(f"an end of {tag}", lambda: self.row(tag) is None)

    def rest(self) -> None:
        """For as long as an annunciation has to be on the screen to be seen, and a little longer."""
        time.sleep(1.3)

    def choose(self, *tags: str) -> None:
        """Selects alarms by clicks."""
        for place, tag in enumerate(tags):
            self.until(f"a click on {tag}", lambda: self.click_tag(tag, is_more=bool(place)))

    def click_tag(self, tag: str, is_more: bool) -> bool:
        """Clicks on the tag of a row; whether it is selected then. A row that moved just before isn't, nor is one that
        was drawn again, nor one whose middle is below the list's head: that is scrolled to."""
        try:
            cell = self.driver.find_element(By.XPATH, f"//tbody[@id='rows']//td[contains(@class, 'tag') and .='{tag}']")
            if is_more:
                ActionChains(self.driver).key_down(Keys.CONTROL).click(cell).key_up(Keys.CONTROL).perform()
            else:
                cell.click()
        except ElementClickInterceptedException:
            self.js("arguments[0].scrollIntoView({block: 'center'})", cell)
            return False
        except (NoSuchElementException, StaleElementReferenceException):
            return False
        row = self.row(tag)
        return row is not None and row["selected"] == "true"

    def act(self, name: str) -> None:
        self.click(f"#actions [data-act='{name}']")

    def turn(self, view: str) -> None:
        self.click(f"#tabs [data-view='{view}']")

    def answer(self, reason: str, **fields: str) -> None:
        """Fills the dialog, and does it."""
        for name, value in fields.items():
            element = self.find(f"#{name}")
            if element.tag_name == "select":
                Select(element).select_by_visible_text(value)
            else:
                element.clear()
                element.send_keys(value)
        self.find("#reason").send_keys(reason)
        self.click("#asking-do")
        self.leave()

    def leave(self) -> None:
        """The pointer leaves the list, which holds still under it."""
        ActionChains(self.driver).move_to_element(self.find("#who")).perform()

    def says(self, text: str) -> None:
        self.until(f"{text!r} said", lambda: text in self.of("#said"))

    def press(self, *keys: str) -> None:
        """Keys of the list, without a hand on the mouse."""
        self.js("document.getElementById('list').focus({preventScroll: true})")
        ActionChains(self.driver).send_keys(*keys).perform()

    def free(self) -> None:
        """Nothing is selected, nothing pressed and no pointer over the list: it is in its order."""
        self.press(Keys.ESCAPE)
        self.leave()
        time.sleep(2.6)

    def set(self, css: str, text: str) -> None:
        Select(self.find(css)).select_by_visible_text(text)


def shot(page: Page, name: str) -> None:
    """A screenshot for docs/, where one is asked for."""
    if SHOTS:
        page.driver.save_screenshot(os.path.join(SHOTS[0], f"control-room-{name}.png"))


def end_pages() -> None:
    for page in list(PAGES):
        page.quit()


class Plant:
    """A served plant with the hands of a test at its feed, its clock and a console."""

    def __init__(self, yard: Yard, table: str = REFINERY, name: str = "plant", moment: int = 0):
        self.yard, self.table = yard, load_table(table)
        self.numbers = self.table.numbers()
        self.device = yard.format(f"{name}.device", table)
        self.server: Server = yard.serve(self.device)
        self.port = self.server.port
        self.connect()
        self.moment = moment or int(time.time())
        self.clock.clock(self.moment)

    def connect(self) -> None:
        self.feed, self.clock, self.console = (
            Client.connect(self.port, slot, patience=60) for slot in (FEED, CLOCK, OWN)
        )

    def leave(self) -> None:
        for client in (self.feed, self.clock, self.console):
            client.close()

    def end(self) -> None:
        self.leave()
        self.server.end()

    def again(self) -> None:
        """The server is started again, at its place."""
        self.server = self.yard.serve(self.device, self.port)
        self.connect()

    def comes(self, *tags: str) -> None:
        for tag in tags:
            number = self.numbers[tag]
            self.feed.value(number, self.table.alarms[number].coming)

    def goes(self, *tags: str) -> None:
        for tag in tags:
            number = self.numbers[tag]
            self.feed.value(number, self.table.alarms[number].going)

    def passes(self, seconds: int) -> None:
        self.moment += seconds
        self.clock.clock(self.moment)

    def all_shown(self) -> dict[str, str]:
        """The word of each alarm's state."""
        states = self.console.states(range(len(self.numbers)))
        return {tag: states[number].shown for tag, number in self.numbers.items()}

    def shown(self, tag: str) -> str:
        """The word of an alarm's state, as the server answers it."""
        return self.console.state(self.numbers[tag]).shown


def areas_file(yard: Yard) -> str:
    return yard.write("areas.txt", "\n".join(AREAS) + "\n")


def engineer(yard: Yard, plant: Plant, *words: object) -> List:
    """alm_browser whose token lets one do all."""
    return List(
        yard, plant.device, plant.port, "--role", "engineer", "--user", "anna", "--areas", areas_file(yard), *words
    )
