"""What a console shows of one served plant or of several: the lists and marks of each, and the rows of all together.

A `Server` asks its plant by a thread of its own, so that one without an answer holds up none of the others. What it
showed last is its `Board`. That is replaced as a whole, and by the console's thread alone.
"""
import concurrent.futures
import enum
import functools
import queue
import threading
import time
from dataclasses import dataclass, field, replace
from typing import Any, Callable, Iterable, NamedTuple, Optional

from .client import PRIORITIES, Client, Lost, Plant
from .details_file import Details
from .happened import Happened, whole
from .replies import Entry, Row
from .table_file import Table

# Seconds to wait for a reply; and after which a plant's clock that hasn't moved, or a server that hasn't answered,
# stands still.
PATIENCE, STANDS = 2.0, 5
# How many states a look asks for a view that goes by the states of all alarms.
PART = 2048


class View(enum.Enum):
    """What the list shows, by its name on the screen."""

    ANNUNCIATED = "annunciated"
    SHELVED = "shelved"
    BY_DESIGN = "suppressed by design"
    OUT_OF_SERVICE = "out of service"
    CHATTERING = "chattering"
    STALE = "stale"
    ALL = "all alarms"
    HAPPENED = "what happened"

    def next(self) -> "View":
        views = list(View)
        return views[(views.index(self) + 1) % len(views)]


# The letter of the flag that each alarm of a view has.
FLAG_OF = {View.BY_DESIGN: "D", View.OUT_OF_SERVICE: "O"}


@dataclass(frozen=True)
class Board:
    """What a plant showed at a look. `connection` counts the connections, and `other` says so if the last one found
    another device."""

    table: Table
    connection: int = 0
    other: Optional[str] = None
    moment: int = -1
    moved: float = 0.0
    # The annunciated alarms of each priority, the oldest first; none before the first look. Since when each is known
    # here.
    lists: Optional[dict[int, list[int]]] = None
    since: dict[int, float] = field(default_factory=dict)
    shelved: list[int] = field(default_factory=list)
    flooded: set[int] = field(default_factory=set)
    stale: dict[int, None] = field(default_factory=dict)
    chattering: dict[int, None] = field(default_factory=dict)
    flags: dict[int, str] = field(default_factory=dict)
    # What happened; none before it is asked for.
    happened: Optional[Happened] = None

    def again(self, table: Table, connection: int, other: Optional[str]) -> "Board":
        """The board as a new connection begins. Of the same plant it keeps since when each annunciation is known."""
        begun = Board(table, connection, other)
        return begun if begun.is_other_than(self) else replace(begun, lists=self.lists, since=self.since)

    def is_other_than(self, before: "Board") -> bool:
        """Whether a new connection found another plant: its numbers are other alarms'."""
        return self.connection != before.connection and (
            self.other is not None or tags(self.table) != tags(before.table)
        )

    def look(self, client: Client, view: View) -> "Board":
        """Asks for the plant's moment, the lists and the marks."""
        moment = client.plant().moment
        lists = {priority: client.priority_list(priority).alarms for priority in PRIORITIES}
        return replace(
            self,
            moment=moment,
            moved=self.moved if moment == self.moment else time.monotonic(),
            lists=lists,
            since=self.arrivals(lists),
            shelved=client.shelved(),
            flooded={area for area, flood in enumerate(client.floods()) if flood.flooded},
            stale=dict.fromkeys(client.stale().alarms),
            chattering=dict.fromkeys(client.chattering().alarms),
            flags=self.ask_flags(client) if view in FLAG_OF else self.flags,
            happened=self.ask_happened(client) if view == View.HAPPENED else self.happened,
        )

    def ask_happened(self, client: Client) -> Happened:
        """Asks for what happened since it was asked last."""
        return self.happened.goes_on(client) if self.happened else whole(client)

    def arrivals(self, lists: dict[int, list[int]]) -> dict[int, float]:
        """Since when each annunciation is known here. A list has their order and no time, and what stood there already
        at the first look is the oldest.

        An alarm that stands behind another one which it stood before has come again.
        """
        now, since = 0.0 if self.lists is None else time.monotonic(), {}
        for priority, alarms in lists.items():
            places = {alarm: place for place, alarm in enumerate(self.lists[priority] if self.lists else ())}
            latest, farthest = 0.0, -1
            for alarm in alarms:
                is_known = alarm in self.since and places.get(alarm, farthest) >= farthest
                farthest = max(farthest, places.get(alarm, -1))
                latest = since[alarm] = max(latest, self.since[alarm] if is_known else now)
        return since

    def ask_flags(self, client: Client) -> dict[int, str]:
        """Asks for the flags of all alarms, then at each look for those whose answers are the oldest."""
        flags, number = dict(self.flags), len(self.table.alarms)
        alarms = list(flags)[:PART] if len(flags) == number else list(range(number))
        for alarm, state in zip(alarms, client.states(alarms)):
            flags.pop(alarm, None)
            flags[alarm] = state.flags
        return flags

    @functools.cached_property
    def priorities(self) -> dict[int, int]:
        """The priority of each annunciated alarm: by priority, the newest first."""
        return {alarm: priority for priority, alarms in (self.lists or {}).items() for alarm in reversed(alarms)}

    def alarms(self, view: View) -> Iterable[int]:
        """The alarms of a view, in its order."""
        if view in FLAG_OF:
            return sorted(alarm for alarm, flags in self.flags.items() if FLAG_OF[view] in flags)
        return {
            View.ANNUNCIATED: self.priorities,
            View.SHELVED: self.shelved,
            View.CHATTERING: self.chattering,
            View.STALE: self.stale,
            View.ALL: range(len(self.table.alarms)),
            View.HAPPENED: (entry.action.alarm for entry in self.entries()),
        }[view]

    def entries(self) -> Iterable[Entry]:
        """What happened, the newest first."""
        return reversed(self.happened.entries) if self.happened else ()

    def marks(self, alarm: int) -> str:
        """The marks of an alarm, each in its place."""
        flood = self.table.alarms[alarm].area in self.flooded and alarm in self.priorities
        return (
            ("F" if flood else " ") + ("S" if alarm in self.stale else " ") + ("C" if alarm in self.chattering else " ")
        )

    def clock(self) -> str:
        """For how long the plant's clock has stood still, where it does."""
        seconds = int(time.monotonic() - self.moved)
        return f"CLOCK STANDS STILL for {seconds} s   " if self.moment >= 0 and seconds >= STANDS else ""

    def floods(self) -> str:
        return "FLOOD in areas " + " ".join(map(str, sorted(self.flooded))) if self.flooded else ""

    def head(self) -> str:
        """How many there are of each."""
        held = list(self.priorities.values())
        counts = "  ".join(f"P{priority} {held.count(priority)}" for priority in PRIORITIES)
        return f"{counts}   shelved {len(self.shelved)}  stale {len(self.stale)}  chatter {len(self.chattering)}"


def tags(table: Table) -> list[str]:
    return [alarm.tag for alarm in table.alarms]


class NotAsked(Exception):
    """Nothing was asked, and why; in a few words."""


class Asker(threading.Thread):
    """Does jobs in their order."""

    def __init__(self) -> None:
        super().__init__(daemon=True)
        self.jobs: queue.SimpleQueue[tuple[Callable[[], Any], concurrent.futures.Future]] = queue.SimpleQueue()
        self.start()

    def do(self, job: Callable[[], Any]) -> concurrent.futures.Future:
        """What will come of a job."""
        done: concurrent.futures.Future = concurrent.futures.Future()
        self.jobs.put((job, done))
        return done

    def run(self) -> None:
        while True:
            job, done = self.jobs.get()
            try:
                done.set_result(job())
            except Exception as error:
                done.set_exception(error)


class Server:
    """A server whose plant is shown: what it showed last, and why that may be old by now."""

    def __init__(self, name: str, plant: Plant, details: Optional[dict[str, Details]] = None):
        self.name, self.plant, self.asker = name, plant, Asker()
        # What operators are told of its alarms beside the table, by their tags; none where no file has it.
        self.details = details or {}
        # These two are the asker's: the connection, and the board that it began with.
        self.client: Optional[Client] = None
        self.begun = Board(plant.table)
        self.board = self.begun
        self.states: dict[int, Row] = {}
        self.is_there, self.lost = False, ""
        self.answered = time.monotonic()
        # Whether the lists are newer than the states of the rows on the screen: then these are asked before new lists.
        self.wants_states = False
        # What is asked just now, and what takes its result.
        self.under_way: Optional[tuple[concurrent.futures.Future, Callable[[Any], None]]] = None

    # ---- in the asker's thread

    def do(self, does: Callable[[], Any]) -> Any:
        """Does a job. A connection that is lost is closed."""
        try:
            result = does()
        except Lost:
            if self.client is not None:
                self.client.close()
            self.client = None
            raise
        self.answered = time.monotonic()
        return result

    def look(self, board: Board, view: View) -> Board:
        """The board of now, by a new connection where there is none."""
        if self.client is None:
            self.client = self.plant.connect()
            # what a connection found that ended before it was shown isn't forgotten
            unsaid = self.begun.other if self.begun.connection != board.connection else None
            self.begun = board.again(self.plant.table, self.begun.connection + 1, self.plant.other or unsaid)
        return (board if board.connection == self.begun.connection else self.begun).look(self.client, view)

    def ask(self, connection: int, does: Callable[[Client], Any]) -> Any:
        """Asks by a connection, and by no later one: there a number may be another alarm's."""
        if self.client is None or self.begun.connection != connection:
            raise NotAsked("the server is connected again, look again")
        return does(self.client)

    # ---- in the console's thread

    def begin(self, take: Callable[[Any], None], does: Callable[..., Any], *words: Any) -> None:
        """Begins to ask, unless something is under way."""
        if self.under_way is None:
            self.under_way = self.asker.do(lambda: self.do(lambda: does(*words))), take

    def begin_look(self, view: View) -> None:
        if not self.wants_states:
            self.begin(self.take_board, self.look, self.board, view)

    def begin_states(self, alarms: list[int]) -> None:
        """Begins to ask for the states of the rows on the screen."""
        if self.is_there:
            self.begin(
                lambda states: self.take_states(alarms, states),
                self.ask,
                self.board.connection,
                lambda client: client.rows(alarms),
            )

    def wait(self, seconds: Optional[float]) -> bool:
        """Waits for what is under way; whether nothing is any more."""
        return self.under_way is None or bool(concurrent.futures.wait([self.under_way[0]], seconds).done)

    def take(self) -> None:
        """Takes what came, if anything did. Raises what went wrong, but for a connection that was lost."""
        if self.under_way and self.under_way[0].done():
            (done, take), self.under_way = self.under_way, None
            self.wants_states = False
            try:
                take(done.result())
            except Lost as lost:
                self.lose(lost)
            except NotAsked:
                pass  # the next look is by the new connection

    def take_board(self, board: Board) -> None:
        if board.is_other_than(self.board):
            self.states = {}
        self.board, self.is_there, self.lost, self.wants_states = board, True, "", True

    def take_states(self, alarms: list[int], states: list[Row]) -> None:
        self.states = dict(zip(alarms, states))

    def lose(self, lost: Lost) -> None:
        self.is_there, self.lost = False, str(lost)

    def call(self, does: Callable[[Client], Any]) -> Any:
        """Asks by the connection that the rows on the screen are of, and waits. What isn't asked at once isn't asked
        later either."""
        if not self.is_there or not self.wait(PATIENCE):
            raise NotAsked("the server gives no answer")
        try:
            return self.asker.do(lambda: self.do(lambda: self.ask(self.board.connection, does))).result()
        except Lost as lost:
            self.lose(lost)
            raise Lost(f"no reply came, look whether it was done: {lost}") from None

    def trouble(self) -> str:
        """Why its rows may be old; empty where they aren't."""
        silent = int(time.monotonic() - self.answered)
        if self.is_there and silent < STANDS:
            return ""
        return (
            f"NO SERVER for {silent} s"
            + (", the rows are of then" if self.board.connection else "")
            + (f": {self.lost}" if self.lost else "")
        )


class ListRow(NamedTuple):
    """An alarm of a server; where what happened is shown, that of an entry."""

    server: Server
    alarm: int
    entry: Optional[Entry] = None


def rows_of(servers: list[Server], view: View) -> list[ListRow]:
    """The rows of a view, of all servers. What is annunciated is in one order: by priority, the newest first. Else it
    is server by server."""
    if view == View.HAPPENED:
        return [ListRow(server, entry.action.alarm, entry) for server in servers for entry in server.board.entries()]
    rows = [ListRow(server, alarm) for server in servers for alarm in server.board.alarms(view)]
    if view == View.ANNUNCIATED and len(servers) > 1:
        # each server's own order stays, as a sort keeps what is equal in its place
        rows.sort(key=lambda row: (row.server.board.priorities[row.alarm], -row.server.board.since[row.alarm]))
    return rows
