"""A picture of what servers do under the closed loads: answers a second, and within which time half of them come."""
import math
from collections.abc import Iterator

Medians = dict[tuple[str, str], dict[str, float]]

LOADS = {
    "closed_1": "1 client",
    "closed_4": "4 clients",
    "closed_18": "18 clients",
    "closed_18_64": "18 clients, 64 requests out each",
}
# Names that run.py has by itself; any other stands as it is.
NAMES = {
    "ours": "this server",
    "plain": "plain C, two syncs",
    "gather": "plain C that gathers",
    "redis": "Redis, appendfsync always",
    "sqlite": "SQLite, WAL, synchronous FULL",
    "postgres": "PostgreSQL, synchronous_commit",
}
COLOURS = ("#0b5cad", "#7f8a96", "#b5651d", "#3f7f5f", "#7a4fa3", "#a33f52")

BAR, SPACE, TOP, LEFT, WIDE, BETWEEN = 16, 26, 54, 232, 300, 116
PANELS = (("rate", "answers a second", 1e3, 1e6, ""), ("p50", "half of the answers within", 1e2, 1e4, " us"))


def part(value: float, least: float, most: float) -> float:
    """Where a value lies between two others, by powers of ten."""
    return min(1.0, max(0.0, math.log10(max(value, least) / least) / math.log10(most / least)))


def text(x: float, y: float, words: str, more: str = "") -> str:
    return f'<text x="{x:.0f}" y="{y:.0f}"{more}>{words}</text>'


def grid(x: float, bottom: float, least: float, most: float) -> Iterator[str]:
    """A line for each power of ten."""
    for power in range(round(math.log10(least)), round(math.log10(most)) + 1):
        at = x + WIDE * part(10**power, least, most)
        yield f'<line x1="{at:.0f}" y1="{TOP - 8}" x2="{at:.0f}" y2="{bottom:.0f}" stroke="#d8dde2"/>'
        yield text(at, TOP - 14, f"{10**power:,}", ' text-anchor="middle" fill="#5a646e"')


def bars(medians: Medians, servers: list[str]) -> Iterator[str]:
    """The bars of each load, one below the other, and their figures."""
    y = TOP
    for load, title in LOADS.items():
        here = [(place, name) for place, name in enumerate(servers) if (load, name) in medians]
        if not here:
            continue
        yield text(0, y + BAR - 3, title, ' font-weight="bold"')
        y += BAR + 4
        for place, name in here:
            yield text(LEFT - 8, y + BAR - 4, NAMES.get(name, name), ' text-anchor="end"')
            for number, (figure, _, least, most, unit) in enumerate(PANELS):
                value, x = medians[load, name][figure], LEFT + number * (WIDE + BETWEEN)
                wide, colour = WIDE * part(value, least, most), COLOURS[place % len(COLOURS)]
                yield f'<rect x="{x}" y="{y}" width="{wide:.1f}" height="{BAR - 3}" fill="{colour}"/>'
                yield text(x + wide + 5, y + BAR - 4, f"{value:,.0f}{unit}")
            y += BAR
        y += SPACE - BAR


def drawn(medians: Medians) -> str:
    """The picture, SVG."""
    servers = list(dict.fromkeys(name for _, name in medians))
    groups = [sum((load, name) in medians for name in servers) for load in LOADS]
    bottom = TOP + sum(BAR + 4 + BAR * each + SPACE - BAR for each in groups if each)
    lines = [
        f'<svg xmlns="http://www.w3.org/2000/svg" width="{LEFT + 2 * WIDE + 2 * BETWEEN}" height="{bottom:.0f}"'
        ' font-family="sans-serif" font-size="12" fill="#1c2126">',
        '<rect width="100%" height="100%" fill="#ffffff"/>',
    ]
    for number, (_, title, least, most, _) in enumerate(PANELS):
        x = LEFT + number * (WIDE + BETWEEN)
        lines.append(text(x, 18, title, ' font-size="14" font-weight="bold"'))
        lines += grid(x, bottom - 8, least, most)
    return "\n".join([*lines, *bars(medians, servers), "</svg>", ""])
