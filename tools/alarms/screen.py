"""What an operator's list says of an alarm and of a refusal, and what the terminal can show."""
import contextlib
import curses
import time
from typing import Optional
from .client import Refusal
from .boards import ListRow
from .details_file import NONE, Details
from .table_file import Alarm


DAY = 86_400


# Why an action was refused, for an operator.
REASONS = {
    Refusal.NO_SUCH_ALARM: "the plant has no such alarm",
    Refusal.NOT_UNACKNOWLEDGED: "there is nothing to acknowledge",
    Refusal.NOT_RESETTABLE: "it is no latched alarm that is acknowledged and gone",
    Refusal.ALREADY_SHELVED: "it is shelved",
    Refusal.NOT_SHELVED: "it isn't shelved",
    Refusal.SHELVE_LENGTH: "the table doesn't allow so many seconds",
    Refusal.ALREADY_SET: "it is out of service",
    Refusal.NOT_SET: "it is in service",
    Refusal.BAD_LINE: "the number is out of its limits",
    Refusal.STOPPED: "the server's storage has stopped: ask again when it is back",
    Refusal.PRIORITY_RANGE: "a priority is 1 to 4",
    Refusal.SAME_VALUE: "it has that already",
    Refusal.ANNUNCIATED_AGAIN: "it came again, look",
}


COLOURS = {1: curses.COLOR_RED, 2: curses.COLOR_YELLOW, 3: curses.COLOR_CYAN, 4: curses.COLOR_GREEN}


def moment(deadline: Optional[int]) -> str:
    """A moment of the plant's clock: the time of day where that clock is the machine's, else its seconds."""
    if deadline is None:
        return ""
    if abs(deadline - time.time()) < DAY:
        return time.strftime("%H:%M:%S", time.localtime(deadline))
    return str(deadline)


def alarm_of(row: ListRow) -> Alarm:
    """The attributes of a row's alarm."""
    return row.server.board.table.alarms[row.alarm]


def details_of(row: ListRow) -> Details:
    """What operators are told of a row's alarm beside the table."""
    return row.server.details.get(alarm_of(row).tag, NONE)


def response_of(row: ListRow) -> str:
    """What is to be done about a row's alarm, and within how many seconds; empty where the file has nothing."""
    told = details_of(row)
    within = f" within {told.respond} s" if told.respond else ""
    return f"response{within}: {told.response}" if told.response else ""


def number_in(typed: str) -> Optional[int]:
    """The number that was typed; none where it is none."""
    try:
        return int(typed)
    except ValueError:
        return None


def set_colours() -> None:
    """Gives each priority its colour, where the terminal has any."""
    if curses.has_colors():
        curses.use_default_colors()
        for priority, colour in COLOURS.items():
            curses.init_pair(priority, colour, -1)


def hide_cursor() -> None:
    """Hides the cursor, where the terminal can."""
    with contextlib.suppress(curses.error):
        curses.curs_set(0)
