"""Prints what the sources of a map say and what the server would be sent, and sends nothing: for whoever writes the
map.
"""
import select

from .feed_lines import Lines
from .feed_options import Options, start_sources
from .inbox import Inbox
from .known import known


def show(options: Options, lines: Lines) -> int:
    """Prints a line where a source says something else than before, to the end of the sources; the status. What is no
    value is said on standard error, as ever.
    """
    values = known(options.values)
    values.active = dict(values.rows)
    inbox = Inbox(lines.key_of)
    start_sources(options, inbox, lines)
    shown: dict[tuple[str, bool], str] = {}
    while (readings := inbox.take()) is not None:
        for reading in readings:
            for one, _ in lines.inputs([reading]):
                line = f"{reading.name} says {reading.text}: {one}"
                if shown.get(one.key) != line:
                    shown[one.key] = line
                    print(line, flush=True)
        select.select([inbox], [], [])
    return 1 if lines.counts["bad"] or lines.counts["late"] else 0
