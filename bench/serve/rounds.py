"""Where the time of a round goes, by the events of clock.c: from one batch that is synced to the next one's write."""
import statistics
import struct
from collections.abc import Iterator
from dataclasses import dataclass
from pathlib import Path

WRITES, GATES, SYNCS, SYNCED, REPLIED, READ = range(1, 7)
EVENT = struct.Struct("<QII")
HEAD = 16  # bytes before the first event

# What is said of the gaps, in microseconds after the last sync.
FIGURES = ("rounds", "sync", "gap10", "gap", "gap90", "reply1", "reply", "read1", "read")


@dataclass
class Gap:
    """From the end of a round's last sync to the next write of the file: its nanoseconds, and when replies and requests
    went through the sockets in it."""

    sync: int  # how long the sync before it took
    long: int
    replied: list[int]
    read: list[int]


def events(path: Path) -> Iterator[tuple[int, int]]:
    """Moments and kinds of what was noted, in order."""
    data = path.read_bytes()
    count = min(int.from_bytes(data[:8], "little"), (len(data) - HEAD) // EVENT.size)
    noted = sorted(EVENT.unpack_from(data, HEAD + place * EVENT.size)[:2] for place in range(count))
    # A place that was taken and not filled yet has no moment.
    return ((at, kind) for at, kind in noted if at)


def gaps(noted: Iterator[tuple[int, int]]) -> Iterator[Gap]:
    """The gaps: what follows a sync up to the next write, unless that is a gate."""
    begun = ended = 0
    replied: list[int] = []
    read: list[int] = []
    for at, kind in noted:
        if kind == SYNCS:
            begun = at
        elif kind == SYNCED:
            ended, took = at, at - begun
            replied, read = [], []
        elif kind == REPLIED and ended:
            replied.append(at - ended)
        elif kind == READ and ended:
            read.append(at - ended)
        elif kind == GATES:
            ended = 0
        elif kind == WRITES and ended:
            yield Gap(took, at - ended, replied, read)
            ended = 0


def figures_of(path: Path) -> dict[str, float]:
    """The medians over the gaps of a turn, whose first tenth isn't counted; none if there are too few."""
    made = list(gaps(events(path)))
    made = made[len(made) // 10 :]
    if len(made) < 20:
        return {}
    long = statistics.quantiles((gap.long / 1e3 for gap in made), n=10)

    def middle(values: Iterator[int]) -> float:
        kept = list(values)
        return statistics.median(kept) / 1e3 if kept else 0.0

    return {
        "rounds": float(len(made)),
        "sync": middle(gap.sync for gap in made),
        "gap10": long[0],
        "gap": long[4],
        "gap90": long[8],
        "reply1": middle(gap.replied[0] for gap in made if gap.replied),
        "reply": middle(gap.replied[-1] for gap in made if gap.replied),
        "read1": middle(gap.read[0] for gap in made if gap.read),
        "read": middle(gap.read[-1] for gap in made if gap.read),
    }
