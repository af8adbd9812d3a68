"""How soon an alarm is drawn behind the line that brings it to the feed, and how often a page hears of alarms in a
storm. tests/tools/browser.py runs this check."""
import itertools
import statistics
import subprocess
import time
from typing import Iterator

from lib.browsers import Page, Plant, engineer
from check_flood import ANNUNCIATED, large_plant
from lib.drawn_plants import module
from lib.places import AT_TOOLS
from lib.program import check
from lib.tools import Yard, await_true, slowness, started

# Milliseconds from a line to its row: of half of them, and of 99 of 100.
HALF, MOST = 100, 400
# Lines that are timed, seconds between two of them, and lines a second beside them in the large plant.
TIMED, APART, BESIDE = 100, 0.15, 50
# Seconds of a storm of as many lines, and how often in a second it is heard of at least, however busy the machine is. A
# list that looks once each second stays below 1 on any machine, as it sleeps between; one that looks ten times is far
# above.
STORM, LEAST = 10, 1.1
# Notes when each tag is first drawn: behind the frame that has it.
WATCH = """window.at = {}; const note = () => { const now = Date.now(); for (const cell of document.querySelectorAll(
'#rows td.tag')) window.at[cell.textContent] ??= now; };
new MutationObserver(() => requestAnimationFrame(() => setTimeout(note))).observe(document.getElementById('rows'),
{childList: true, subtree: true}); note()"""
# Notes when the page hears of rows.
HEARS = """window.heard = []; const parse = JSON.parse; JSON.parse = text => { const told = parse(text);
if (told?.rows?.length) window.heard.push(Date.now()); return told; }"""


class Lines:
    """A feed that runs, and its lines."""

    def __init__(self, plant: Plant):
        plant.feed.close()
        words = module("feed", "--port", plant.port)
        self.process = started(subprocess.Popen(words, env=AT_TOOLS, stdin=subprocess.PIPE, stdout=subprocess.DEVNULL))

    def says(self, text: str) -> None:
        self.process.stdin.write(f"{text}\n".encode())
        self.process.stdin.flush()

    def end(self) -> None:
        self.process.stdin.close()
        self.process.wait(timeout=30)


def times(page: Page, lines: Lines, tags: list[str], value: int, beside: Iterator[str], rate: int) -> list[float]:
    """Alarms come one after the other; the milliseconds from each line to its row. Others come and go beside them, so
    many a second."""
    took = []
    for tag in tags:
        began = time.time()
        lines.says(f"{tag},{value}")
        told = 0

        def is_drawn() -> bool:
            nonlocal told
            while told < rate * (time.time() - began):
                lines.says(next(beside))
                told += 1
            return bool(page.js("return window.at[arguments[0]] ?? 0", tag))

        await_true(f"a row of {tag}", is_drawn, 20)
        took.append(page.js("return window.at[arguments[0]]", tag) - began * 1000)
        time.sleep(APART)
    return took


def hears(page: Page, lines: Lines, tags: list[str], value: int) -> float:
    """Alarms come evenly through a storm; how often in a second the page hears of some."""
    page.js(HEARS)
    began = time.monotonic()
    for place, tag in enumerate(tags):
        time.sleep(max(0.0, began + place * STORM / len(tags) - time.monotonic()))
        lines.says(f"{tag},{value}")
    await_true(f"a row of {tags[-1]}", lambda: page.js("return window.at[arguments[0]] ?? 0", tags[-1]), 20)
    heard = page.js("return window.heard")
    check(len(heard) > 1, "the page hears of a storm", len(heard), "times")
    return (len(heard) - 1) / (heard[-1] - heard[0]) * 1000


def judge(what: str, took: list[float]) -> str:
    """Within the bounds, by as much longer as the machine is busy."""
    half, most, busy = statistics.median(took), sorted(took)[int(len(took) * 0.99)], slowness()
    said = f"{what} {half:.0f} ms p50, {most:.0f} p99"
    check(half <= HALF * busy and most <= MOST * busy, said, "where the machine takes", round(busy, 1), "times as long")
    return said


def open_by_time(page: Page, rows: int) -> None:
    """The newest first, and nobody's hand on the list."""
    page.until("the rows", lambda: page.find("#list").get_attribute("aria-rowcount") == str(rows + 1))
    page.click("#columns [data-sort='time']")
    page.leave()
    time.sleep(2.5)
    page.js(WATCH)


def latency(yard: Yard, _count: int) -> str:
    """Over the refinery while it is quiet; over 16,384 alarms, of which 1,000 stand and others come and go."""
    plant = Plant(yard)
    listed, lines = engineer(yard, plant), Lines(plant)
    page = Page(yard, listed.url)
    open_by_time(page, 0)
    tags = [alarm.tag for alarm in plant.table.alarms if alarm.kind == "high"][:TIMED]
    said = [judge("of 200 alarms", times(page, lines, tags, 10**6, iter(()), 0))]
    for one in (page, lines, listed):
        one.end()
    plant.clock.close()
    plant.server.end()
    plant = large_plant(yard)
    listed, lines = engineer(yard, plant), Lines(plant)
    page = Page(yard, listed.url)
    open_by_time(page, ANNUNCIATED)
    tags = [alarm.tag for number, alarm in enumerate(plant.table.alarms) if number % 16 == 8][:TIMED]
    others = [alarm.tag for number, alarm in enumerate(plant.table.alarms) if number % 16 == 4]
    beside = (f"{tag},{value}" for tag, value in zip(itertools.cycle(others), itertools.cycle((120, 120, 0))))
    said.append(judge("of 16,384", times(page, lines, tags, 120, beside, BESIDE)))
    fresh = [alarm.tag for number, alarm in enumerate(plant.table.alarms) if number % 16 == 12]
    often = hears(page, lines, fresh[: STORM * BESIDE], 120)
    check(often >= LEAST, f"in a storm the page hears of alarms {often:.2f} times a second")
    for one in (page, lines, listed):
        one.end()
    plant.clock.close()
    plant.server.end()
    return f"from a line to its row {'; '.join(said)}; in a storm heard of {often:.1f} times a second"


CHECKS = {"latency": latency}
