"""The figures of a report at each of their bounds, by rows that were made by hand. tests/tools/history.py runs these
checks.

The bounds are typed here from the standards, and not read from the program: ANSI/ISA-18.2 and IEC 62682, clause 16, and
EEMUA 191.
"""
import itertools
import json
import os
import subprocess
import sys
from typing import Optional

from archives import python_with
from alarms.figures import Figures
from alarms.life import Annunciation, ArchiveGap, Life, Player, Return, ChangeRow, Spell, attribute_changes
from alarms.store import Store
from lib.places import AT_TOOLS
from lib.program import check
from lib.tools import Yard

# A moment on the hour of UTC, and the length of a span: two days.
BEGIN, SPAN = 1_790_114_400, 172_800
HOURS, TENS = SPAN / 3600, SPAN / 600
# Of each figure of one position: its bound, which it may reach, and the second one, up to which it can be managed.
BOUNDS: dict[str, tuple[Optional[float], Optional[float]]] = {
    "annunciations a day, mean": (150, 300),
    "annunciations an hour, mean": (6, 12),
    "annunciations in ten minutes, mean": (1, 2),
    "annunciations in ten minutes, most": (10, None),
    "time in hours with more than 30": (0.01, None),
    "time in ten minutes with more than 10": (0.01, None),
    "time in a flood": (0.01, None),
    "share of the ten most frequent": (0.05, None),
    "alarms that chattered": (0, None),
    "alarms that were fleeting": (0, None),
    "stale alarms, most at once": (4, None),
    "standing alarms, mean": (10, None),
    "shelved alarms, mean": (30, None),
    "actions missing in gaps": (0, None),
    "gaps without a known end": (0, None),
    "alarms whose row the server denied": (0, None),
}
# Those that hold of any number of areas.
OF_ALL = {
    "share of the ten most frequent",
    "alarms that chattered",
    "alarms that were fleeting",
    "actions missing in gaps",
    "gaps without a known end",
    "alarms whose row the server denied",
}


def made(annunciations=(), is_position: bool = True, span: int = SPAN, **more) -> Life:
    """A life by hand: moments behind its begin, each an annunciation of the alarm T or of one that is named."""
    named = [one if isinstance(one, tuple) else (one, "T") for one in annunciations]
    return Life(
        "hand",
        BEGIN,
        BEGIN + span,
        [0],
        is_position,
        annunciations=[Annunciation(BEGIN + at, tag, 1, 0) for at, tag in named],
        **more,
    )


def spells(kind: str, *times: tuple[int, Optional[int]]) -> list[Spell]:
    """Spells of alarms of their own."""
    return [
        Spell(kind, f"{kind}-{place}", 1, 0, BEGIN + since, None if end is None else BEGIN + end)
        for place, (since, end) in enumerate(times)
    ]


def figure(life: Life, name: str):
    return next(one for one in Figures(life).summary() if one.name == name)


def spread(count: int, step: int) -> list[int]:
    return [place * step for place in range(count)]


def at_bound() -> None:
    """What is just at its bound isn't above, what is one more is."""
    half_hour = spells("flood", (0, SPAN // 100))
    rows = {
        "annunciations a day, mean": (spread(300, 300), spread(301, 300)),
        "annunciations an hour, mean": (spread(288, 300), spread(289, 300)),
        "annunciations in ten minutes, mean": (spread(288, 300), spread(289, 300)),
        "annunciations in ten minutes, most": ([5] * 10, [5] * 11),
    }
    for name, lives in rows.items():
        check(
            [figure(made(one), name).is_above for one in lives] == [False, True],
            name,
            [figure(made(one), name) for one in lives],
        )
    for name, kind, count, since in (
        ("standing alarms, mean", "standing", 10, 0),
        ("shelved alarms, mean", "SHLVD", 30, 0),
        ("stale alarms, most at once", "stale", 4, 99),
    ):
        found = [figure(made(spells=spells(kind, *[(since, None)] * number)), name) for number in (count, count + 1)]
        check([one.is_above for one in found] == [False, True], name, found)
    found = [
        figure(made(spells=half_hour), "time in a flood"),
        figure(made(spells=spells("flood", (0, SPAN // 100 + 1))), "time in a flood"),
    ]
    check([one.is_above for one in found] == [False, True], found)
    counts = [
        figure(made([(place, f"T-{place}") for place in range(count)]), "share of the ten most frequent").is_above
        for count in (200, 199)
    ]
    check(counts == [False, True], "the share of the ten most frequent", counts)
    above = [figure(made([0] * count), "time in hours with more than 30").value for count in (30, 31)]
    check(above == [0, 1 / HOURS], "hours with 30 and with 31", above)
    above = [figure(made([0] * count), "time in ten minutes with more than 10").value for count in (10, 11)]
    check(above == [0, 1 / TENS], "ten minutes with 10 and with 11", above)


def all_bounds() -> None:
    """Each figure has the standard's bounds; without one position just those that hold of any areas."""
    for is_position in (True, False):
        for one in Figures(made([0], is_position)).summary():
            wanted = BOUNDS.get(one.name, (None, None)) if is_position or one.name in OF_ALL else (None, None)
            check(
                (one.bound, one.manageable) == wanted,
                one.name,
                "of",
                "a position" if is_position else "areas",
                "has the bounds",
                one.bound,
                one.manageable,
            )
    check(set(BOUNDS) <= {one.name for one in Figures(made([0])).summary()}, "a figure is gone")


def gaps() -> None:
    """Actions 5 and 6 are two, action 9 is one, and what nobody saw has no number."""
    life = made(
        [0],
        gaps=[
            ArchiveGap(1, 5, 6, BEGIN, BEGIN, "x"),
            ArchiveGap(1, 9, 9, BEGIN, BEGIN, "x"),
            ArchiveGap(1, 11, None, BEGIN, None, "x"),
        ],
    )
    check(
        figure(life, "actions missing in gaps").value == 3 and figure(life, "gaps without a known end").value == 1,
        life.gaps,
    )


def chattering() -> None:
    """Three within less than a minute chatter; a third of exactly 60 seconds behind the first doesn't."""
    for moments, wanted in (
        ((0, 30, 60), []),
        ((0, 30, 59), [(1, 1)]),
        ((0, 0, 0), [(1, 1)]),
        ((0, 30, 59, 119, 149, 178), [(2, 2)]),
    ):
        found = [(one.bursts, one.annunciations) for one in Figures(made(moments)).chatter]
        check(found == wanted, "of", moments, "chatter", found, "wanted is", wanted)


def floods() -> None:
    """A flood's peak counts 600 seconds, and not one of exactly 600 before."""
    for moments, peak, count in (
        ([100, *[700] * 11], 11, 11),
        ([101, *[700] * 11], 12, 12),
        ([*[700] * 11, 1300], 11, 12),
        ([*[700] * 11, 1299], 12, 12),
    ):
        found = Figures(made(moments, spells=spells("flood", (700, 1400)))).floods
        check(
            [(one.peak, one.annunciations, one.seconds) for one in found] == [(peak, count, 700)], "of", moments, found
        )


def fleeting() -> None:
    """What went again in less than a minute, and came in none before or behind, is fleeting."""
    for came, went, wanted in (
        ((100,), (159,), 1),
        ((100,), (160,), 0),
        ((100, 160), (110, 170), 2),
        ((100, 159), (110, 169), 0),
        ((100, 100), (100, 101), 0),
        ((100, 130, 159), (110, 140, 169), 0),
        ((-1,), (1,), 0),
    ):
        returns = [Return(BEGIN + moment, "T", BEGIN + at) for at, moment in zip(came, went)]
        found = Figures(made(came, returns=returns))
        check(sum(one.annunciations for one in found.fleeting()) == wanted, "of", came, went, found.fleeting())
        check(next(one.value for one in found.summary() if "fleeting" in one.name) == min(1, wanted), came, went)


def returned() -> None:
    """What ends with the condition of an annunciated alarm, and what ends otherwise."""
    words = ("NORM", "UNACK", "ACKED", "RTNUN", "LATUN", "LATAK", "SHLVD", "OOSRV", "DSUPR")
    found = set()
    for before, after in itertools.product(words, words):
        life = made()
        Player(life, None).play(ChangeRow(0, 7, BEGIN + 9, "T", 1, 0, before, after, "-", 0, BEGIN))
        found |= {(before, after)} if life.returns == [Return(BEGIN + 9, "T", BEGIN)] else set()
    check(found == {("UNACK", "RTNUN"), ("UNACK", "LATUN"), ("ACKED", "NORM"), ("ACKED", "LATAK")}, found)


def attributes() -> None:
    """Changes behind an action and up to another, in the areas that are asked."""
    with Store.open(":memory:", make=True) as store:
        for alarm, area in ((0, 0), (1, 1)):
            store.insert("alarm", [(1, alarm, f"T-{alarm}", "", "high", area, 1, 10, 0, 0, 0)])
        store.insert(
            "action",
            [
                (1, number, 100 + number, word, alarm, f"T-{alarm}", value, None)
                for number, word, alarm, value in (
                    (5, "PRIO", 0, 2),
                    (6, "PRIO", 0, 3),
                    (7, "SHELVE", 0, 60),
                    (8, "SETP", 1, 9),
                    (9, "SETP", 0, -1),
                    (10, "SETP", 0, 5),
                )
            ],
        )
        found = attribute_changes(store, 1, 5, 9, {0})
    check([tuple(one) for one in found] == [(106, "T-0", "priority", 3), (109, "T-0", "setpoint", -1)], found)


def periods() -> None:
    """Periods lie on the clock of the machine's zone, wherever the span begins."""
    code = (
        "import json, sys; sys.path[:0] = sys.argv[2:]; from alarms.figures import Bins; begin, end, seconds, *moments"
        " = json.loads(sys.argv[1]); b = Bins(moments, begin, end, seconds); print(json.dumps([[b.begin_of(n),"
        " b.length(n), c] for n, c in enumerate(b.counts)]))"
    )
    for zone, begin, end, seconds, moments, wanted in (
        ("UTC", 15, 1260, 600, (15, 599, 600, 1259), [[15, 585, 2], [600, 600, 1], [1200, 60, 1]]),
        ("UTC", 15, 7200, 3600, (15, 3599, 3600), [[15, 3585, 2], [3600, 3600, 1]]),
        ("UTC", 0, 600, 600, (0, 599), [[0, 600, 2]]),
        ("IST-5:30", 0, 5400, 3600, (0, 1799, 1800, 5399), [[0, 1800, 2], [1800, 3600, 2]]),
        ("NPT-5:45", 0, 900, 600, (0, 299, 300), [[0, 300, 2], [300, 600, 1]]),
        ("UTC", 17 - BEGIN, 700 - BEGIN, 600, (17 - BEGIN,), [[17 - BEGIN, 583, 1], [600 - BEGIN, 100, 0]]),
    ):
        words = json.dumps([BEGIN + begin, BEGIN + end, seconds, *(BEGIN + one for one in moments)])
        run = subprocess.run(
            [sys.executable, "-c", code, words, *AT_TOOLS["PYTHONPATH"].split(":")],
            capture_output=True,
            text=True,
            env={**AT_TOOLS, "TZ": zone},
        )
        check(run.returncode == 0, run.stderr)
        check(json.loads(run.stdout) == [[BEGIN + row[0], *row[1:]] for row in wanted], zone, begin, end, run.stdout)


def suppressed() -> None:
    """Hours of several kinds that lie over one another are counted once."""
    life = made(
        [0],
        spells=[
            Spell(kind, "T", 1, 0, BEGIN + since, BEGIN + end)
            for kind, since, end in (("SHLVD", 0, 3600), ("DSUPR", 1800, 5400), ("OOSRV", 9000, 9060))
        ],
    )
    check(Figures(life).suppressed_seconds() == [("T", 5460)], Figures(life).suppressed_seconds())


# Prints, of the pages about rates and standing alarms and of that about suppressions, the dashed lines and the labels.
DRAWN = """
import json, sys
from check_bounds import BEGIN, made, spells
from alarms import pages
from alarms.figures import Figures
from alarms.life import Spell
for is_position in (True, False):
    kinds = [Spell(kind, "T", 1, 0, BEGIN, None) for kind in ("SHLVD", "DSUPR", "OOSRV")]
    figures, found = Figures(made([5] * 40, is_position, spells=kinds + spells("standing", (0, None)))), []
    for draw in pages.PAGES:
        page = pages.Page(figsize=pages.SIZE)
        draw(page, figures)
        found.append([sum(line.get_linestyle() == "--" for axes in page.axes for line in axes.lines),
                      sum(patch.get_facecolor()[:3] == pages.matplotlib.colors.to_rgb(pages.ABOVE) for axes in page.axes for patch in axes.patches)])
        last = [label.get_text() for label in page.axes[0].get_yticklabels()]
    print(json.dumps([found, last]))
"""


def pages_of_areas() -> str:
    """Pages of several areas that are no position have no bounds, and a week has no more than its hours."""
    python = python_with("matplotlib")
    if not python:
        return ", no matplotlib: pages left out"
    here = os.path.dirname(os.path.abspath(__file__))
    run = subprocess.run(
        [python, "-c", DRAWN],
        capture_output=True,
        text=True,
        timeout=120,
        env={**AT_TOOLS, "PYTHONPATH": f"{AT_TOOLS['PYTHONPATH']}:{here}"},
    )
    check(run.returncode == 0, run.stderr)
    (position, labels), (areas, _) = map(json.loads, run.stdout.splitlines())
    check(
        [one[0] for one in position] == [0, 2, 0, 2, 0] and position[1][1] == 2,
        "the pages of a position have the lines",
        position,
    )
    check(
        [one[0] for one in areas] == [0] * 5 and areas[1][1] == 0,
        "the pages of areas have the lines of a position",
        areas,
    )
    check(labels == [f"T  {SPAN / 3600:.1f} h"], "hours of a suppressed alarm:", labels)
    return ", pages"


def bounds(_yard: Yard, _count: int) -> str:
    """Each figure at its bound."""
    for one in (at_bound, all_bounds, gaps, chattering, floods, fleeting, returned, attributes, periods, suppressed):
        one()
    return f"{len(BOUNDS)} figures at their bounds{pages_of_areas()}"


CHECKS = {"bounds": bounds}
