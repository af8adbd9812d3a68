#!/usr/bin/env python3
"""A drawn shift over the refinery, worked by the page of the alarm list alone, in a real Chromium behind nginx.

    tests/tools/shift.py PROGRAM [--minutes N] [--seed N] [--shots FOLDER] [--short]

It lasts an hour, or so many minutes. Alarms come and go by a draw: floods of two areas, alarms that chatter,
suppressions by design. Amid it the server is killed twice, the list's own process once, one user signs out and the next
one takes the positions, and the table is changed. An operator acknowledges by buttons and keys, resets, shelves, takes
alarms out of service and back, and gives a priority and a setpoint.

A count of its own (shift_world.py) is told what the feed is told and what the operator did. Server, page and count have
to say the same all the way: the states, the list's rows in their order with texts and limits, the heads, the floods,
what is suppressed, by whom and why. In the end the notes are the actions that were done, in their order and with their
numbers. How soon an annunciation is drawn behind the feed's line is measured beside it.

--shots writes pictures of the stages on three screens. A short run has no shift, and is left out. It needs what
browser.py needs, and nginx and openssl.
"""
import argparse
import itertools
import os
import random
import shutil
import signal
import sqlite3
import statistics
import subprocess
import sys
import time
import traceback
from collections import Counter
from typing import Callable, Iterator, Optional

from lib import chromium
from lib.tools import Yard, end_all

# Seconds within which a loss is said, on a machine that has nothing else to do.
WITHIN = 2.0
DESKS, ALL = ("Crude desk", "Conversion desk", "Tank desk"), ("Shift engineer",)
REMARK = "chattering alarms are shelved, permits lie on the desk"


def unlike(found: list[tuple], presses: list[list[tuple]]) -> Iterator[tuple[list[tuple], list[tuple]]]:
    """The notes and the actions of each press whose notes aren't of its actions. Actions of one press are in the order
    of the rows as it came, which may be another one than was read before: there the numbers alone are in order."""
    notes = iter(found)
    for press in presses:
        noted = list(itertools.islice(notes, len(press)))
        if in_any_order(noted) != in_any_order(press):
            yield noted, press


def in_any_order(actions: list[tuple]) -> tuple[list[int], Counter[tuple]]:
    """The numbers of actions in their order, and what they are beside that."""
    return [one[0] for one in actions], Counter(one[1:] for one in actions)


class Shift:
    """The stages of a shift, and what there is to work it."""

    def __init__(self, yard: Yard, chosen: argparse.Namespace):
        from check_proxy import nginx_of, proxied
        from lib.browsers import List, areas_file
        from lib.places import EXAMPLES
        from shift_hand import Operator
        from shift_world import DETAILS, World

        self.yard, self.seconds, dice = yard, chosen.minutes * 60, random.Random(chosen.seed + 1)
        self.world = World(yard, chosen.seed, self.seconds)
        self.web = self.world.port + 17 + 500
        self.place = f"https://alarms.example:{self.web}"
        self.notes = yard.path("notes.sqlite")
        words = ("--socket", yard.path("socket"), "--proxy", self.place, "--notes", self.notes, "--details", DETAILS)
        words += ("--areas", areas_file(yard), "--positions", EXAMPLES / "refinery.positions.toml")
        self.listed = List(yard, self.world.device, self.world.port, *words, listen=False)
        self.proxy = nginx_of(yard, yard.path("socket"), self.web)
        self.page = proxied(yard, self.web, "ben")
        self.hand = Operator(self.page, self.world, dice, chosen.shots)
        self.lost: list[float] = []
        self.deaths = 0

    def stages(self) -> list[tuple[float, Callable[[], None]]]:
        """What happens beside alarms, and at which part of the shift."""
        return [
            (0.1, lambda: self.hand.picture("flood")),
            (0.22, self.loses_server),
            (0.32, self.loses_list),
            (0.44, lambda: self.hand.picture("second-flood")),
            (0.5, self.changes_shift),
            (0.56, lambda: self.hand.give_values()),
            (0.62, self.changes_table),
            (0.7, self.loses_server),
            (0.78, lambda: self.hand.picture("third-flood")),
            (0.9, self.looks_at_views),
        ]

    def work(self) -> None:
        """The shift, from its first minute to its last."""
        from shift_hand import WATCH

        self.page.until("the page", lambda: self.page.of("#clock") != "")
        self.page.js(WATCH)
        self.signed_in("ben", "operator", DESKS)
        stages = self.stages()
        while self.world.passed() < 1:
            self.hand.watch(self.hand.dice.uniform(1, 4))
            while stages and stages[0][0] <= self.world.passed():
                self.hand.leave_views()
                stages.pop(0)[1]()
            self.hand.turn()
            if "ALM_BROWSER_LOUD" in os.environ:
                print(f"shift: {self.world.passed():.3f} {dict(self.hand.counts)}", flush=True)
        for _, stage in stages:
            stage()
        self.hand.ends()

    def signed_in(self, user: str, role: str, desks: tuple[str, ...]) -> None:
        """A user begins, and takes positions."""
        from check_positions import takes

        self.hand.user, self.hand.role = user, role
        self.page.until(f"{user} in", lambda: self.page.of("#who") == f"{user} ({role})")
        for name in desks:
            takes(self.page, name)
            self.hand.shifts.append((name, "TAKE", user, ""))
        self.page.until("the positions", lambda: self.page.of("#position") == ", ".join(desks))

    def changes_shift(self) -> None:
        """Ben leaves his positions with a word, and signs out; anna signs in at the same browser and takes all."""
        from check_leaving import goes_to, signs_out
        from check_positions import takes
        from check_proxy import PASSWORDS
        from lib.program import check
        from shift_hand import WATCH

        page = self.page
        for name in DESKS:
            takes(page, name, REMARK, "Leave")
            self.hand.shifts.append((name, "LEAVE", "ben", REMARK))
        page.click("#position")
        page.until("what ben said", lambda: page.of("#shifts").count(REMARK) == len(DESKS))
        self.hand.picture("shift")
        page.click("#shift form button")
        signs_out(page)
        goes_to(page, self.place + "/")
        check(page.of("#who") == "" and not page.tags(), "who signed out sees", page.text())
        page.driver.get(self.place.replace("://", f"://anna:{PASSWORDS['anna'].replace(' ', '%20')}@") + "/")
        page.driver.get(self.place + "/")
        page.until("the page", lambda: page.of("#clock") != "")
        page.js(WATCH)
        self.signed_in("anna", "engineer", DESKS + ALL)
        self.hand.compare()

    def said_lost(self, kills: Callable[[], None], back: Callable[[], None], shot: Optional[str]) -> None:
        """Something is killed: the page says so, and offers nothing; it goes on as that is back."""
        from check_lost import MARK
        from lib.program import check
        from lib.tools import slowness

        page = self.page
        page.js(MARK)
        began = time.time()
        kills()
        page.until("no server", lambda: page.js("return window.oldAt"))
        self.lost.append(page.js("return window.oldAt") / 1000 - began)
        check(self.lost[-1] <= WITHIN * slowness(), "it is said after", self.lost[-1])
        page.press("a")
        check(not page.find("[data-act=SHOWN]").is_enabled(), "something is offered without a server")
        if shot:
            self.hand.picture(shot)
        self.hand.watch(6)
        back()
        self.deaths += 1
        page.until("the server again", lambda: "NO SERVER" not in page.of("#trouble"))
        self.hand.compare()

    def loses_server(self) -> None:
        self.said_lost(self.world.kill, self.world.back, None if self.lost else "no-server")

    def loses_list(self) -> None:
        """The list's own process is killed; who had which position is known behind it."""

        def kills() -> None:
            self.listed.process.kill()
            self.listed.process.wait()

        self.said_lost(kills, self.listed.start, None)

    def changes_table(self) -> None:
        """The table is changed: the page has the other plant by itself."""
        page = self.page
        page.js("document.getElementById('said').textContent = ''")
        gone, new = self.world.change_table()
        page.until("another plant", lambda: "the plant is another one than before" in page.of("#said"))
        self.hand.reasons = {key: why for key, why in self.hand.reasons.items() if key[1] != gone}
        self.hand.compare()
        self.hand.find(new)
        self.hand.leave_views()
        self.hand.who_and_why()

    def looks_at_views(self) -> None:
        """What is suppressed, by whom and why."""
        self.hand.who_and_why()
        for view in ("shelved", "service", "journal"):
            self.page.turn(view)
            self.hand.picture(view)
        self.page.turn("alarms")

    def judge_notes(self) -> None:
        """The notes are the actions that were done, and who had which position."""
        from lib.program import check

        with sqlite3.connect(self.notes) as kept:
            query = "SELECT number, user, role, word, tag, value, reason, outcome FROM note ORDER BY id"
            found, presses = list(kept.execute(query)), [[(*one, "OK") for one in press] for press in self.hand.done]
            actions, wrong = sum(map(len, presses)), list(unlike(found, presses))
            check(len(found) == actions and not wrong, len(found), "notes of", actions, "actions:", wrong[:3])
            rows = list(kept.execute("SELECT position, word, user, remark FROM shift ORDER BY id"))
            check(rows == self.hand.shifts, "of positions there is noted", rows)

    def stands(self) -> str:
        """Which of its processes have ended, and what the list said."""
        world = self.world
        there = {"the server": world.server.process, "the feed": world.feed, "nginx": self.proxy}
        there["the list"] = self.listed.process
        ended = [f"{name} has ended with {one.returncode}" for name, one in there.items() if one.poll() is not None]
        return f"{', '.join(ended) or 'each of its processes runs'}; the list said {self.listed.said()!r}"

    def end(self) -> str:
        """Ends all of it; what there was."""
        from lib.program import check

        self.judge_notes()
        self.page.end()
        said = self.world.end()
        check("Traceback" not in said + self.listed.said(), "they say", said, self.listed.said())
        self.listed.end()
        self.proxy.terminate()
        counts, delays = self.hand.counts, sorted(self.hand.delays)
        times = [statistics.median(delays), delays[int(len(delays) * 0.99)]] if delays else [0, 0]
        return (
            f"{self.seconds / 60:.0f} minutes, {self.world.floods} floods, {counts['ACK']} acknowledged,"
            f" {counts['RESET']} reset, {counts['SHELVE']} shelved, {counts['OOS']} out of service and in,"
            f" {self.deaths} deaths said after {max(self.lost):.1f} s at most, {counts['looks']} looks at all rows; a"
            f" row behind its line {times[0]:.0f} ms p50, {times[1]:.0f} p99 of {len(delays)}"
        )


def new_words() -> argparse.ArgumentParser:
    words = argparse.ArgumentParser(description=__doc__, formatter_class=argparse.RawDescriptionHelpFormatter)
    words.add_argument("program", metavar="PROGRAM", help="the built program")
    words.add_argument("--minutes", type=int, default=60, metavar="N", help="how long it lasts; %(default)s by default")
    words.add_argument("--seed", type=int, default=86, metavar="N", help="what the shift is drawn by")
    words.add_argument("--shots", type=os.path.abspath, metavar="FOLDER", help="for pictures")
    words.add_argument("--short", action="store_true", help="it is left out")
    return words


def lacking() -> str:
    """What isn't here; empty where nothing is missing."""
    why = chromium.lacks()
    missing = [name for name in ("nginx", "openssl") if not shutil.which(name)]
    return why or (f"no {', '.join(missing)} (Debian: {', '.join(missing)})" if missing else "")


def main() -> None:
    chosen = new_words().parse_args()
    why = "a short run has no shift" if chosen.short else lacking()
    if why:
        print(f"shift: left out: {why}")
        sys.exit(77)
    from alarms.client import Lost, Refused
    from lib.browsers import end_pages
    from lib.program import Wrong, begin, finish
    from selenium.common.exceptions import WebDriverException

    program, _, folder = begin("shift", ["shift", chosen.program], 0, 0)
    began = time.monotonic()
    for number in (signal.SIGTERM, signal.SIGINT):  # whatever was started is ended
        signal.signal(number, lambda number, _frame: sys.exit(128 + number))
    shift = None
    try:
        shift = Shift(Yard(program, folder), chosen)
        shift.work()
        said = shift.end()
    except (Wrong, Lost, Refused, WebDriverException, subprocess.TimeoutExpired) as wrong:
        if "ALM_BROWSER_LOUD" in os.environ:
            traceback.print_exc()
        stands = f"{shift.stands()}; " if shift else ""
        sys.exit(f"shift: {str(wrong).strip()}; {stands}devices are in {folder}")
    finally:
        end_pages()
        end_all()
    finish("shift", folder, f"{said}; none wrong, {time.monotonic() - began:.0f} s")


if __name__ == "__main__":
    main()
