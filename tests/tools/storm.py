"""One round of a storm: seconds in which all goes on at once, then quiet, then the judgement; and then words that say
nothing, which are to move nothing.
"""
import contextlib
import random
import threading
import time
from typing import Optional

from lib.tools import await_true, slowness

import judge
import noise
from alarms.client import Client, Lost
from lib.program import Wrong, check
from sources import SILENT
from stormy_site import Site

# Seconds for which all has to stay as it is: where a source is dead, for as long as the feed takes to ask its broker
# for all retained values again.
STAYS, STAYS_DEAD = 1.0, 9.0
# Seconds for which a machine stands still, or how many times it is slower, so that a living source is silent; and how
# often that is borne.
STANDS_STILL, BUSY, TRIES = SILENT / 4, 4.0, 5


class Storm:
    """One round."""

    def __init__(self, site: Site, seconds: float, pace: int, deck: list[str]):
        self.site, self.seconds, self.pace, self.deck = site, seconds, pace, deck
        self.dice = random.Random(site.dice.random())
        self.fault: Optional[Exception] = None
        self.counts: dict[str, int] = {}

    def events(self) -> list[str]:
        """What happens: the next cards of a deck that has each trouble once, and is shuffled again as it ends."""
        found = []
        for _ in range(self.dice.randrange(3, 7)):
            if not self.deck:
                self.deck += self.site.troubles()
                self.dice.shuffle(self.deck)
            found.append(self.deck.pop())
        return found

    def run(self) -> None:
        """The storm itself: what happens goes on beside what sources say. At its end what isn't watched has said a
        value, and setpoints are moved for which no value comes.
        """
        happening = threading.Thread(target=self.happen_all, daemon=True)
        happening.start()
        began = time.monotonic()
        while (now := time.monotonic() - began) < self.seconds or happening.is_alive():
            self.site.speak(self.pace // 50)
            time.sleep(max(0.0, 0.02 - (time.monotonic() - began - now)))
        if self.fault:
            raise self.fault
        for source in self.site.sources:
            if source.is_bad and not source.watch:
                self.site.say(source, self.site.value_of(source))
        if self.dice.randrange(2) == 0:
            self.site.move_setpoints()

    def happen_all(self) -> None:
        """Each event at a drawn moment."""
        events, began, troubles = self.events(), time.monotonic(), self.site.troubles()
        try:
            for moment in sorted(self.dice.random() * self.seconds for _ in events):
                time.sleep(max(0.0, began + moment - time.monotonic()))
                name = events.pop()
                troubles[name]()
                self.counts[name] = self.counts.get(name, 0) + 1
        except Exception as fault:  # the round gets it
            self.fault = fault

    def quiet(self, within: float) -> float:
        """Waits until all is as it has to be; how long that took in seconds. `Wrong` says what isn't."""
        site = self.site
        await_true("the broker", site.broker.is_there)
        await_true("a feed", lambda: site.keeper.process.poll() is None)
        began, wrong = time.monotonic(), ["nothing was judged"]
        while time.monotonic() - began < within:
            site.check_alive()
            with contextlib.suppress(Lost):
                wrong = judge.wrong(site)
                if not wrong:
                    return time.monotonic() - began
            time.sleep(0.5)
        raise Wrong(f"{len(wrong)} wrong after {within:.0f} s: {'; '.join(wrong[:5])}")

    def stay(self, within: float) -> None:
        """From here on no source says another value: nothing moves, whatever is said beside that, and all of that is
        counted and told. Where the machine stood still for so long that living sources were silent, it is tried again.
        """
        for left in reversed(range(TRIES)):
            self.site.heal()
            self.quiet(within)
            self.site.publisher.stalled, busy = 0.0, slowness()
            wrong = self.moved()
            if not wrong:
                return
            stands_still = self.site.publisher.stalled > STANDS_STILL or max(busy, slowness()) > BUSY
            check(left and stands_still, "; ".join(wrong[:5]))
            self.counts["look again"] = self.counts.get("look again", 0) + 1

    def moved(self) -> list[str]:
        """Says what is to move nothing, and what did."""
        site = self.site
        until = time.monotonic() + (STAYS if all(one.alive for one in site.sources) else STAYS_DEAD)
        actions, starts = self.actions(), site.keeper.starts
        wrong = noise.make(site, self.dice)
        time.sleep(max(0.0, until - time.monotonic()))
        site.check_alive()
        check(site.keeper.starts == starts, "the feed was started again, though nobody ended it")
        moved = self.actions() - actions
        return [f"{moved} actions came of words that say nothing"] * bool(moved) + judge.wrong(site) + wrong

    def actions(self) -> int:
        with Client.connect(self.site.port, 3) as console:
            return console.action_count()
