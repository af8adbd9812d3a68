"""What happened at a plant, by its server's lines: the accepted actions of people and of the feed, and who asked."""
import collections
from dataclasses import dataclass

from .client import CLOCK, FEED, Client, Refusal, Refused
from .replies import Entry

# How many entries are kept.
KEPT = 1000


@dataclass(frozen=True)
class Happened:
    """The last entries up to a number, the newest last. Those of the clock aren't among them: it moves each second."""

    last: int
    entries: tuple[Entry, ...]

    def goes_on(self, client: Client) -> "Happened":
        """What happened up to now. What the server no longer remembers is left out."""
        try:
            return self.with_more(client)
        except Refused as refused:
            if refused.refusal != Refusal.FORGOTTEN:
                raise
            return whole(client)

    def with_more(self, client: Client) -> "Happened":
        last, kept = self.last, collections.deque(self.entries, KEPT)
        for entry in client.entries(last):
            last = entry.action.number
            if entry.slot != CLOCK:
                kept.append(entry)
        return Happened(last, tuple(kept))


def whole(client: Client) -> Happened:
    """What a server remembers."""
    return Happened(client.since().first - 1, ()).with_more(client)


def who_asked(entry: Entry) -> str:
    """The slot that asked, as people name it."""
    return {CLOCK: "clock", FEED: "feed"}.get(entry.slot, f"slot {entry.slot}")
