"""The list of several servers' alarms at a terminal: what is looked at, arranged and drawn."""
import curses
import time
from typing import Callable, Optional

from .client import OtherPlant, Refused
from .details_file import differences
from .boards import Board, ListRow, Server, View, rows_of
from .table_file import NoTable
from .actions import in_words
from .happened import who_asked
from .replies import Entry
from .screen import alarm_of, details_of, moment, response_of, set_colours

# Seconds for which one of several servers is waited for.
MOMENT = 0.5
HELP = "a A ack  r reset  s u shelve  o oos  p prio  t setp  f area  1-8 v view  q quit"
# The line above the list, with room for one more column; and that above what happened.
HEADING = "   P{} TAG            STATE AR FSC UNTIL    TEXT"
HAPPENED = "  {} TIME      NUMBER ASKED   TAG            ACTION"


class ListScreen:
    """The screen, the servers, and what is selected."""

    def __init__(self, screen: "curses.window", servers: list[Server]):
        self.screen, self.servers = screen, servers
        self.view = View.ANNUNCIATED
        self.area: Optional[int] = None
        # The one server whose rows are shown; none where those of all are.
        self.only: Optional[Server] = None
        self.rows: list[ListRow] = []
        self.selected = self.top = 0
        self.message = ""
        self.head: list[tuple[str, int]] = []
        set_colours()

    @property
    def are_several(self) -> bool:
        return len(self.servers) > 1

    @property
    def height(self) -> int:
        return max(1, self.screen.getmaxyx()[0] - len(self.head) - self.below)

    @property
    def below(self) -> int:
        """How many lines are below the list: where a file has responses one more, for the selected alarm's."""
        return 2 if any(server.details for server in self.servers) else 1

    @property
    def on_screen(self) -> list[ListRow]:
        """The rows on the screen."""
        return self.rows[self.top : self.top + self.height]

    def look(self, whole: bool) -> None:
        """Asks the servers, with a new connection where there is none: for the lists, or for the rows on the screen
        alone."""
        if whole or not any(server.is_there for server in self.servers):
            self.gather(lambda server: server.begin_look(self.view))
            self.arrange()
        self.set_head()
        rows = self.on_screen
        self.gather(lambda server: server.begin_states([row.alarm for row in rows if row.server is server]))

    def gather(self, begin: Callable[[Server], None]) -> None:
        """Lets each server begin, and takes what comes. Of several none is waited for longer than a moment, and one
        that is lost not at all."""
        for server in self.servers:
            self.take(server)
            begin(server)
        until = time.monotonic() + MOMENT
        for server in self.servers:
            if not self.are_several:
                server.wait(None)
            elif not server.lost:
                server.wait(max(0.0, until - time.monotonic()))
            self.take(server)

    def take(self, server: Server) -> None:
        """Takes what came of a server."""
        before = server.board
        try:
            server.take()
        except Refused as refused:
            self.message = self.of(server, str(refused))
        except (OtherPlant, NoTable) as error:
            raise type(error)(self.of(server, str(error))) from None
        if server.board.connection != before.connection:
            self.take_connection(server, before)

    def take_connection(self, server: Server, before: Board) -> None:
        """A connection began. With another table nothing stays of what was shown before: its numbers were other
        alarms'."""
        if server.board.is_other_than(before):
            self.rows, self.selected, self.top = [], 0, 0
        if server.board.other or not self.are_several:
            self.message = self.of(server, server.board.other or "")
        tags = [alarm.tag for alarm in server.board.table.alarms]
        for line in differences(server.details, tags) if server.details and tags else ():
            self.message = f"{self.message}  {self.of(server, line)}".strip()

    def of(self, server: Server, text: str) -> str:
        """A text with the name of its server, where there are several."""
        return f"{server.name}: {text}" if self.are_several else text

    def arrange(self) -> None:
        """The rows of the view; the same alarm stays selected where it is still there."""
        chosen = self.rows[self.selected] if self.selected < len(self.rows) else None
        self.rows = [row for row in rows_of(self.servers, self.view) if self.is_listed(row)]
        if self.selected and chosen in self.rows:
            self.selected = self.rows.index(chosen)
        self.select(0)

    def is_listed(self, row: ListRow) -> bool:
        """Whether the filter lets a row through."""
        return (self.only is None or row.server is self.only) and (self.area is None or alarm_of(row).area == self.area)

    def select(self, step: int) -> None:
        """Moves the selection, and the list so that it is on the screen."""
        self.selected = max(0, min(len(self.rows) - 1, self.selected + step))
        self.top = min(max(self.top, self.selected - self.height + 1), self.selected)

    def set_head(self) -> None:
        """The lines above the list, and their styles. They stay until the next look, and with them which rows are on
        the screen."""
        area = "all areas" if self.area is None else f"area {self.area}"
        if self.are_several:
            self.head = [line for server in self.servers for line in self.lines_of(server)]
            where = f"{area} of {self.only.name}" if self.only else area
            self.head += [
                (f"{self.view.value}, {where}", curses.A_BOLD),
                (self.heading.format(f" {'PLANT':{self.width}}"), curses.A_UNDERLINE),
            ]
        else:
            board = self.servers[0].board
            self.head = [
                (board.head(), 0),
                (f"{self.view.value}, {area}   {board.clock()}{board.floods()}", curses.A_BOLD),
                (self.heading.format(""), curses.A_UNDERLINE),
            ]
        self.select(0)

    @property
    def heading(self) -> str:
        """The line above the rows, with room for one more column."""
        return HAPPENED if self.view == View.HAPPENED else HEADING

    def lines_of(self, server: Server) -> list[tuple[str, int]]:
        """What is so of one of several servers: its counts, or why its rows may be old; and below what else an operator
        should know."""
        name, board, trouble = f"{server.name:{self.width}}", server.board, server.trouble()
        if trouble:
            return [(f"{name}  {trouble}", curses.A_BOLD)]
        more = board.clock() + board.floods()
        return [(f"{name}  {board.head()}", 0)] + ([(f"{name}  {more}", curses.A_BOLD)] if more else [])

    @property
    def width(self) -> int:
        """How wide the column of the servers' names is."""
        return max(len("PLANT"), *(len(server.name) for server in self.servers))

    def put(self, row: int, text: str, style: int = 0) -> None:
        """Writes a line of the screen, as wide as that is. What the terminal's letters lack is a question mark."""
        rows, columns = self.screen.getmaxyx()
        text = text.encode(self.screen.encoding, "replace").decode(self.screen.encoding)
        if row < rows and columns > 1:
            self.screen.addnstr(row, 0, text.ljust(columns - 1), columns - 1, style)

    def draw(self) -> None:
        """Draws the head, the rows and the last line."""
        self.screen.erase()
        for place, (text, style) in enumerate(self.head):
            self.put(place, text, style)
        for place, row in enumerate(self.on_screen):
            chosen = self.top + place == self.selected
            self.put(
                len(self.head) + place,
                (">" if chosen else " ") + self.line(row),
                self.style(row) | (curses.A_BOLD if chosen else 0),
            )
        said, last = self.said(), len(self.head) + self.height + self.below - 1
        if self.below > 1 and self.rows:
            self.put(last - 1, response_of(self.rows[self.selected]))
        self.put(last, said or HELP, curses.A_BOLD if said else 0)
        self.screen.refresh()

    def said(self) -> str:
        """What stands below the list. Of several servers a lost one has its line above it."""
        lost = "" if self.are_several else self.servers[0].lost
        return f"no connection, trying again: {lost}" if lost else self.message

    def is_old(self, row: ListRow) -> bool:
        """Whether a row of one of several servers is shown as it was when that last answered."""
        return self.are_several and bool(row.server.trouble())

    def style(self, row: ListRow) -> int:
        """The colour of an annunciated alarm's priority, in reverse while it isn't acknowledged; dim where the row is
        old."""
        if self.is_old(row):
            return curses.A_DIM
        if row.entry:
            return 0
        state = row.server.states.get(row.alarm)
        colour = curses.color_pair(row.server.board.priorities.get(row.alarm, 0)) if curses.has_colors() else 0
        return colour | (curses.A_REVERSE if state and state.is_unacknowledged else 0)

    def line(self, row: ListRow) -> str:
        """The line of an alarm, or of an action."""
        if row.entry:
            return self.line_of_action(row, row.entry)
        entry, state, board = alarm_of(row), row.server.states.get(row.alarm), row.server.board
        shown, until = (state.shown, moment(state.deadline)) if state else ("", "")
        mark = "?" if self.is_old(row) else "*" if state and state.is_unacknowledged else " "
        name = f" {row.server.name:{self.width}}" if self.are_several else ""
        priority = board.priorities.get(row.alarm, "-")
        head = f"{mark} {priority}{name} {entry.tag:14.14} {shown:5} {entry.area:2}"
        return f"{head} {board.marks(row.alarm)} {until:8.8} {details_of(row).text or entry.text}"

    def line_of_action(self, row: ListRow, entry: Entry) -> str:
        """The line of an accepted action."""
        name = f" {row.server.name:{self.width}}" if self.are_several else ""
        mark, action = "?" if self.is_old(row) else " ", entry.action
        head = f"{mark}{name} {moment(entry.moment):8.8} {action.number:>7} {who_asked(entry):7}"
        return f"{head} {alarm_of(row).tag:14.14} {in_words(action, details_of(row).with_unit)}"
