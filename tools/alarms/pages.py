"""The pages of a report, with plots: as images, or as one file of PDF. They need matplotlib (Debian:
python3-matplotlib)."""
import datetime
import os
from typing import Any, Callable, Collection, Optional, Sequence

import matplotlib

matplotlib.use("Agg")

from matplotlib import dates
from matplotlib.axes import Axes
from matplotlib.backends.backend_pdf import PdfPages
from matplotlib.figure import Figure as Page

from .figures import (
    AREA_BOUNDS,
    FREQUENT,
    HOUR,
    HOUR_BOUND,
    HOUR_MOST,
    PRIORITIES,
    PRIORITY_SHARES,
    SHELVED_BOUND,
    STANDING_BOUND,
    SUPPRESSION_WORDS,
    SUPPRESSIONS,
    TEN_MOST,
    Bins,
    Figures,
    steps,
)
from .life import Spell
from .moments import DATES, date

SIZE, MARGIN = (11.7, 8.3), 0.2  # inches of A4, the long side across
COLOURS = {1: "#b2182b", 2: "#ef8a62", 3: "#fddb29", 4: "#67a9cf"}
KIND_COLOURS = {"SHLVD": "#67a9cf", "DSUPR": "#998ec3", "OOSRV": "#7f7f7f"}
PLAIN, ABOVE, BOUND, FLOOD = "#4d7ea8", "#b2182b", "#202020", "#f4a58266"
# Rows of a list that fit on a page.
ROWS = 22
# More periods than these are drawn as fewer that are longer: each as high as its greatest.
MOST_BARS = 1500


def at(moment: int) -> float | datetime.datetime:
    """A moment on an axis of time."""
    return datetime.datetime.fromtimestamp(moment) if moment in DATES else float(moment)


def time_axis(axes: Axes, figures: Figures) -> None:
    axes.set_xlim(at(figures.begin), at(figures.end))
    if figures.begin in DATES:
        locator = dates.AutoDateLocator()
        axes.xaxis.set_major_locator(locator)
        axes.xaxis.set_major_formatter(dates.ConciseDateFormatter(locator))
    else:
        axes.set_xlabel("seconds of the plant's clock")


def bare(axes: Axes, title: str) -> None:
    axes.set_title(title, loc="left", fontsize=11)
    for side in ("top", "right"):
        axes.spines[side].set_visible(False)


def nothing(axes: Axes, said: str) -> None:
    """A plot of nothing says so."""
    axes.text(0.5, 0.5, said, ha="center", va="center", transform=axes.transAxes, color="#606060")
    axes.set_xticks([])
    axes.set_yticks([])


def draw_bins(axes: Axes, figures: Figures, bins: Bins, bound: Optional[float], title: str) -> None:
    """Annunciations of each period as a line of steps; where the report is of one position, those above its bound in
    red."""
    each = -(-len(bins.counts) // MOST_BARS)
    counts = [max(bins.counts[place : place + each]) for place in range(0, len(bins.counts), each)]
    begins = [bins.begin_of(place) for place in range(0, len(bins.counts), each)]
    edges = [at(moment) for moment in [*begins, bins.end]]
    axes.stairs(counts, edges_of(edges), fill=True, color=PLAIN)
    if bound is not None:
        axes.stairs([count if count > bound else 0 for count in counts], edges_of(edges), fill=True, color=ABOVE)
        axes.axhline(
            bound, color=BOUND, linewidth=0.8, linestyle="--", label=f"{bound:g}: above, one position has too many"
        )
        axes.legend(loc="upper right", fontsize=8)
    for flood in figures.life.of("flood"):
        axes.axvspan(
            at(max(figures.begin, flood.since)),
            at(figures.end if flood.end is None else min(figures.end, flood.end)),
            color=FLOOD,
            linewidth=0,
            zorder=0,
        )
    axes.set_ylim(0, max([(bound or 1) * 1.3, *(count * 1.15 for count in counts)]))
    bare(axes, title + (f", each bar the most of {each} periods" if each > 1 else "") + "; floods are shaded")
    time_axis(axes, figures)


def edges_of(edges: Sequence) -> Sequence:
    """Edges as numbers of the axis."""
    return dates.date2num(edges) if isinstance(edges[0], datetime.datetime) else edges


def summary_page(page: Page, figures: Figures) -> None:
    """The figures beside their bounds, and the areas."""
    life = figures.life
    page.text(0.06, 0.93, f"Alarm report: {life.name}", fontsize=20)
    page.text(
        0.06,
        0.895,
        f"{date(life.begin)} to {date(life.end)}, {life.actions} actions, areas {', '.join(map(str, life.areas))}",
        fontsize=10,
    )
    axes = page.add_axes((0.06, 0.06, 0.46, 0.80))
    rows = [(one.name, one.written(one.value), one.bounds(), one.is_above) for one in figures.summary()]
    draw_table(
        axes,
        ("figure", "value", "bound"),
        [row[:3] for row in rows],
        [0.64, 0.18, 0.18],
        {(place, 1) for place, row in enumerate(rows) if row[3]},
    )
    axes = page.add_axes((0.56, 0.06, 0.40, 0.80))
    areas: list[tuple] = [
        (row[0], row[1], f"{row[2]:.1f}", row[3], f"{100 * row[4]:.1f} %", row[5], f"{100 * row[6]:.1f} %")
        for row in figures.areas().rows
    ]
    areas.append(("bound", "", HOUR_BOUND, TEN_MOST, "1 %", "", "1 %"))
    is_red = {
        (place, column)
        for place, row in enumerate(figures.areas().rows)
        for column, bound in enumerate(AREA_BOUNDS)
        if bound is not None and row[column] > bound
    }
    draw_table(
        axes,
        ("area", "annunciations", "an hour", "most in 10'", "10' above 10", "floods", "in flood"),
        first_of(areas),
        [0.11, 0.2, 0.13, 0.16, 0.17, 0.11, 0.12],
        is_red,
    )
    axes = page.add_axes((0.06, 0.045, 0.46, 0.18))
    taken = [
        (row[0], row[1], *(in_seconds(seconds) for seconds in row[2:5]), row[6])
        for row in figures.acknowledgements().rows
    ]
    draw_table(
        axes,
        ("priority", "acknowledged", "half within", "nine of ten", "longest", "waiting"),
        taken,
        [0.13, 0.19, 0.18, 0.18, 0.18, 0.14],
    )
    page.text(
        0.06,
        0.03,
        (
            "Bounds are those of one operating position, as ISA-18.2, IEC 62682 and EEMUA 191 recommend; the table"
            " takes each area as one. Above a bound: red."
        ),
        fontsize=8,
    )


def in_seconds(seconds: Optional[float]) -> str:
    """A time as a person says it."""
    if seconds is None:
        return "-"
    return (
        f"{seconds:.0f} s"
        if seconds < 120
        else f"{seconds / 60:.1f} min"
        if seconds < 2 * HOUR
        else f"{seconds / HOUR:.1f} h"
    )


def first_of(rows: list) -> list:
    """The rows that fit, and how many more there are."""
    if len(rows) <= ROWS:
        return rows
    more = (f"and {len(rows) - ROWS + 1} more",) + ("",) * (len(rows[0]) - 1)
    return [*rows[: ROWS - 1], more]


def draw_table(
    axes: Axes,
    columns: Sequence[str],
    rows: list[tuple],
    widths: Sequence[float],
    is_red: Collection[tuple[int, int]] = (),
) -> None:
    """A table; the cells that are named, by row and column, in red."""
    axes.axis("off")
    if not rows:
        return nothing(axes, "none")
    table = axes.table(
        cellText=[[str(cell) for cell in row] for row in rows],
        colLabels=columns,
        colWidths=widths,
        loc="upper left",
        cellLoc="left",
    )
    table.auto_set_font_size(False)
    table.set_fontsize(8)
    table.scale(1, 1.35)
    for (row, column), cell in table.get_celld().items():
        cell.set_linewidth(0.3)
        cell.PAD = 0.04
        if row == 0:
            cell.set_facecolor("#e8e8e8")
        elif (row - 1, column) in is_red:
            cell.get_text().set_color(ABOVE)
            cell.get_text().set_fontweight("bold")


def rates_page(page: Page, figures: Figures) -> None:
    upper, lower = page.subplots(2, 1)
    draw_bins(upper, figures, figures.tens, figures.position(TEN_MOST), "Annunciations in ten minutes")
    draw_bins(lower, figures, figures.hours, figures.position(HOUR_MOST), "Annunciations an hour")


def frequent_page(page: Page, figures: Figures) -> None:
    """The most frequent, the priorities, the chattering."""
    axes = page.subplots(2, 2)
    frequent = figures.frequent()[::-1]
    bare(axes[0][0], f"The {FREQUENT} most frequent")
    if frequent:
        bars = axes[0][0].barh([tag for tag, _ in frequent], [count for _, count in frequent], color=PLAIN)
        axes[0][0].bar_label(
            bars, [f"{count} ({100 * figures.share(count):.1f} %)" for _, count in frequent], padding=3, fontsize=8
        )
        axes[0][0].set_xlim(0, 1.3 * frequent[-1][1])
    else:
        nothing(axes[0][0], "no annunciation")
    draw_priorities(axes[0][1], figures)
    axes[1][0].set_title(
        "Chattering: three or more within a minute; and fleeting: gone within one", loc="left", fontsize=11
    )
    rows = [(one.tag, f"{one.bursts} bursts", one.annunciations, one.last) for one in figures.chatter[:10]]
    rows += [(one.tag, "fleeting", one.annunciations, one.last) for one in figures.fleeting()[:10]]
    draw_table(
        axes[1][0],
        ("tag", "how", "annunciations", "last"),
        [(*row[:3], date(row[3])) for row in sorted(rows, key=lambda row: -row[2])[:10]],
        [0.32, 0.16, 0.2, 0.32],
    )
    axes[1][1].set_title("Stale: annunciated a day ago or more", loc="left", fontsize=11)
    stale = sorted(figures.spell_table("stale", ["stale"]).rows, key=lambda row: -row[4])
    draw_table(
        axes[1][1],
        ("tag", "stale since", "until", "hours"),
        [(row[0], date(row[2]), date(row[3]), f"{row[4] / HOUR:.1f}") for row in stale[:10]],
        [0.24, 0.32, 0.32, 0.12],
    )


def draw_priorities(axes: Axes, figures: Figures) -> None:
    """The shares of the priorities beside their goals."""
    bare(axes, "Priorities, and their goals in grey")
    places = list(PRIORITIES)
    axes.bar(
        [place - 0.2 for place in places],
        [100 * figures.share(figures.by_priority[one]) for one in places],
        0.4,
        color=[COLOURS[one] for one in places],
    )
    axes.bar([place + 0.2 for place in places], [100 * PRIORITY_SHARES[one] for one in places], 0.4, color="#d0d0d0")
    for place in places:
        share = 100 * figures.share(figures.by_priority[place])
        axes.text(place - 0.2, share + 1, f"{share:.1f}", ha="center", fontsize=8)
    axes.set_xticks(places, [f"priority {one}" for one in places])
    axes.set_ylabel("% of annunciations")
    axes.set_ylim(0, 100)


def operators_page(page: Page, figures: Figures) -> None:
    """How long acknowledgements took, and how many alarms stand."""
    upper, lower = page.subplots(2, 1)
    bare(upper, "Time to acknowledge: the share of acknowledgements that came within a time")
    taken = {one: sorted(figures.delays(one)) for one in PRIORITIES}
    for priority, seconds in taken.items():
        if seconds:
            shares = [100 * (place + 1) / len(seconds) for place in range(len(seconds))]
            upper.step(
                [max(1, one) for one in seconds],
                shares,
                where="post",
                color=COLOURS[priority],
                label=f"priority {priority}: {len(seconds)}",
            )
    if any(taken.values()):
        upper.set_xscale("log")
        upper.set_ylim(0, 102)
        upper.set_xlabel("seconds")
        upper.set_ylabel("%")
        upper.legend(loc="lower right", fontsize=8)
        upper.grid(True, which="major", linewidth=0.3)
    else:
        nothing(upper, "no acknowledgement")
    draw_counts(
        lower,
        figures,
        (
            ("standing", "standing", PLAIN, figures.position(STANDING_BOUND)),
            ("SHLVD", "shelved", "#998ec3", figures.position(SHELVED_BOUND)),
            ("stale", "stale", ABOVE, None),
        ),
    )


def draw_counts(axes: Axes, figures: Figures, kinds: Sequence[tuple[str, str, str, Optional[float]]]) -> None:
    """How many spells of some kinds there were at each moment."""
    bare(
        axes,
        "Alarms that stand, are shelved and are stale"
        + ("; dashed: the bounds of the position's mean" if figures.life.is_position else ""),
    )
    for kind, name, colour, bound in kinds:
        found = steps(figures.life.of(kind), figures.begin, figures.end)
        moments = [at(moment) for moment, _ in found] + [at(figures.end)]
        axes.step(
            moments, [count for _, count in found] + [found[-1][1]], where="post", color=colour, linewidth=1, label=name
        )
        if bound is not None:
            axes.axhline(bound, color=colour, linewidth=0.8, linestyle="--")
    axes.set_ylim(bottom=0)
    axes.legend(loc="upper right", fontsize=8)
    time_axis(axes, figures)


def suppression_page(page: Page, figures: Figures) -> None:
    """Who was suppressed, when and how long."""
    axes = page.subplots(1, 1)
    hours = {tag: seconds / HOUR for tag, seconds in figures.suppressed_seconds()}
    tags = list(hours)[:ROWS]
    bare(
        axes,
        (
            f"Shelved, suppressed by design, out of service: the {len(tags)} longest of {len(hours)} alarms, with their"
            " hours"
        ),
    )
    if not tags:
        return nothing(axes, "none was suppressed")
    for place, tag in enumerate(tags):
        if place % 2:
            axes.axhspan(place - 0.5, place + 0.5, color="#f2f2f2", linewidth=0)
        for kind in SUPPRESSIONS:
            draw_spells(axes, figures, [one for one in figures.life.of(kind) if one.tag == tag], place, kind)
    for kind in SUPPRESSIONS:
        axes.barh([0], [0], left=[at(figures.begin)], color=KIND_COLOURS[kind], label=SUPPRESSION_WORDS[kind])
    axes.set_yticks(range(len(tags)), [f"{tag}  {hours[tag]:.1f} h" for tag in tags], fontsize=8)
    axes.set_ylim(len(tags) - 0.5, -0.5)
    axes.legend(loc="upper center", bbox_to_anchor=(0.5, -0.05), ncols=3, fontsize=8)
    time_axis(axes, figures)


def draw_spells(axes: Axes, figures: Figures, spells: list[Spell], place: int, kind: str) -> None:
    """The spells of an alarm as bars; those of the three kinds below one another."""
    offset = (SUPPRESSIONS.index(kind) - 1) * 0.27
    for one in spells:
        begin, end = at(max(figures.begin, one.since)), at(
            figures.end if one.end is None else min(figures.end, one.end)
        )
        width: Any = end - begin  # type: ignore[operator]
        axes.barh(place + offset, width, left=begin, height=0.26, color=KIND_COLOURS[kind])


PAGES: Sequence[Callable[[Page, Figures], None]] = (
    summary_page,
    rates_page,
    frequent_page,
    operators_page,
    suppression_page,
)


def write(figures: Figures, folder: Optional[str], file: Optional[str]) -> None:
    """The pages as images in a folder, as a file of PDF, or both."""
    made = []
    for draw in PAGES:
        page = Page(figsize=SIZE, dpi=110, layout=None if draw is summary_page else "constrained")
        if page.get_layout_engine():
            page.get_layout_engine().set(w_pad=MARGIN, h_pad=MARGIN)
        draw(page, figures)
        made.append(page)
    if folder:
        os.makedirs(folder, exist_ok=True)
        for number, page in enumerate(made, 1):
            page.savefig(os.path.join(folder, f"page{number}.png"))
    if file:
        with PdfPages(file) as pdf:
            for page in made:
                pdf.savefig(page)
