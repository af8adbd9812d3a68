"""The thread that follows the plant and asks for what operators want, over one slot of the server.

It goes by the server's lines alone: rows by ROW, what happened by SINCE. So nothing is shown but what a query of the
server has shown. Before an order the plant is looked at, so an action never goes to a server whose plant isn't the one
that is shown.
"""
import queue
import secrets
import threading
from typing import Any, Callable, Iterable, Iterator, Optional

from ..client import Client, Flood, Lost, OtherPlant, Refusal, Refused, ServerClient
from ..followed import FollowedPlant, Happenings
from ..known import known
from ..replies import Entry
from ..table_file import fixed
from .batch import EVENTS, Batch, is_annunciated, row_of, standing, table_of
from .drawn import DrawnCheck
from .notes import LOST, OK, Notes
from .orders import AGAIN, NO_REPLY, NO_SERVER, OTHER_AREA, OTHER_PLANT, READING, REASONS
from .orders import SEEN, Answer, Order
from .positions import Desks
from .suppressed import Suppressions
from .watched_server import PATIENCE, WatchedServer

# Seconds between two looks, and to wait for the reply to an action, which has to be stored.
PERIOD, ACTION_PATIENCE = 0.05, 5.0
# Why nothing is shown of a server that knows no ROW or no SINCE.
EARLIER = "the server is of an earlier release than this tool"
# Actions that are asked before the plant is looked at again.
PART = 64


class Watch:
    """Looks each twentieth of a second, tells what is new, and does orders."""

    def __init__(
        self,
        shown: WatchedServer,
        notes: Notes,
        tell: Callable[[Batch], None],
        fail: Callable[[Exception], None],
        desks: Optional[Desks] = None,
        number: int = 0,
    ):
        self.desks, self.number = desks, number
        self.thread = threading.Thread(target=self.run, daemon=True)
        self.shown, self.notes = shown, notes
        self.suppressed = Suppressions(notes)
        self.tell, self.fail = tell, fail
        self.orders: "queue.SimpleQueue[Optional[Order]]" = queue.SimpleQueue()
        # The plant that is shown and its era; none before one was read. Which connection has told all that is shown.
        self.plant: Optional[FollowedPlant] = None
        self.era: Optional[str] = None
        self.client: Optional[ServerClient] = None
        self.moment = 0
        self.floods: list[Flood] = []
        self.mixed_looks = 0
        self.values: dict[int, int] = {}
        self.head: dict[str, Any] = {}
        self.check = DrawnCheck()
        self.begin(whole=True)

    def begin(self, whole: bool) -> None:
        """Nothing is new yet."""
        self.whole = whole
        self.changed: set[int] = set()
        self.events: list[list[Any]] = []
        self.moments: list[tuple[int, int]] = []

    def run(self) -> None:
        try:
            while True:
                self.look()
                order = self.next_order()
                if order is STOP:
                    return
                if order:
                    self.do(order)
        except Exception as fault:
            self.fail(fault)
        finally:
            self.shown.end()

    def next_order(self) -> Optional[Order]:
        try:
            return self.orders.get(timeout=PERIOD)
        except queue.Empty:
            return None

    def look(self) -> None:
        """Takes what is new, and tells it."""
        try:
            self.follow()
        except (Lost, Refused, OtherPlant) as fault:
            is_earlier = isinstance(fault, Refused) and fault.refusal == Refusal.BAD_LINE
            self.shown.end()
            self.check.lost()
            self.shown.say_once(EARLIER if is_earlier else str(fault), "- trying again")
        self.client = self.shown.client
        self.notes.came(self.moments)
        self.suppressed.keep()
        self.publish()

    def follow(self) -> None:
        """Asks for what is new. A new connection may have found another plant."""
        client, is_new = self.shown.connect(), self.shown.client is not self.client
        overview = client.plant()
        self.moment = overview.moment
        if is_new and self.is_other():
            self.read_plant(client)
        elif is_new or known(self.plant).count != overview.count:
            self.take_news(client, known(self.plant), is_new)
        self.mixed_looks += known(self.plant).is_mixed
        self.hold_rows(client, known(self.plant))
        self.shown.heard()

    def hold_rows(self, client: Client, plant: FollowedPlant) -> None:
        """Holds what is drawn against the rows that were asked at the last look, and asks for others."""
        self.check.compare(plant.table)
        fault = self.check.news()
        if fault:
            self.shown.say(fault)
        self.check.ask(client, len(plant.rows), PERIOD)

    def is_other(self) -> bool:
        """Whether a new connection has another plant than the one that is shown."""
        found = self.shown.plant
        if self.era is None or self.plant is None or found.other:
            return True
        return fixed(found.table.alarms) != fixed(self.plant.table)

    def read_plant(self, client: Client) -> None:
        """Begins with the connection's plant: all of its rows, and what its server remembers."""
        plant = self.plant = FollowedPlant(self.shown.plant.table.alarms, self.shown.plant.table.areas)
        self.era, self.values = None, {}
        self.begin(whole=True)
        plant.begin(client)
        self.check.begin()
        self.notes.load()
        self.suppressed.begin(plant, self.moment)
        for entry in client.entries(client.since().first - 1):
            if entry.action.number <= plant.count and entry.action.word != "CLOCK":
                self.take(entry)
                self.note_event(entry, entry.action.alarm, None, None)
        del self.events[:-EVENTS]
        self.floods = plant.floods
        self.era = secrets.token_hex(8)

    def take_news(self, client: Client, plant: FollowedPlant, is_new: bool) -> None:
        """Takes what happened since the last look. By a new connection all rows are asked again."""
        last, is_known = plant.count, True
        try:
            self.take_happenings(plant.look(client))
        except Refused as refused:
            if refused.refusal != Refusal.FORGOTTEN:
                raise
            is_known = False
        if is_new or not is_known:
            plant.begin(client)
            self.check.lost()
            self.whole = True
        if not is_known:
            self.events.append([plant.count, self.moment, None, "GAP", plant.count - last, *[None] * 5])
        self.take_floods(plant.floods)

    def take_happenings(self, news: Happenings) -> None:
        """Takes actions, and the lines of the journal that they make. A state is known before the first and behind the
        last action of an alarm."""
        rows, before = known(self.plant).rows, news.before
        last = {alarm: entry.action.number for entry, alarms in news.entries for alarm in alarms}
        shown = {alarm: row.shown for alarm, row in before.items()}
        self.changed.update(before)
        for entry, alarms in news.entries:
            self.moment = entry.moment
            self.take(entry)
            self.check.leave_out(alarms)
            for alarm in alarms:
                after = rows[alarm].shown if last[alarm] == entry.action.number else None
                self.note_event(entry, alarm, shown.pop(alarm, None), after)
        del self.events[:-EVENTS]

    def take(self, entry: Entry) -> None:
        """Takes an action of the plant."""
        if entry.action.word == "VAL":
            self.values[entry.action.alarm] = entry.action.argument
        self.suppressed.take(entry, known(self.plant))

    def note_event(self, entry: Entry, alarm: int, before: Optional[str], after: Optional[str]) -> None:
        """A line of the journal: the action's number, moment, alarm, word and value, the states before and after, who
        asked and why, and at which slot."""
        action = entry.action
        note = self.notes.of(action.number, entry.moment, action.word, self.tag(alarm))
        if note and note.moment is None:
            self.moments.append((action.number, entry.moment))
        who = (note.user, note.reason) if note else (None, None)
        what = [action.number, entry.moment, alarm, action.word, action.argument, before, after]
        self.events.append([*what, *who, entry.slot])

    def take_floods(self, floods: list[Flood]) -> None:
        """Takes the areas' windows, and the lines of the journal where a flood began or ended."""
        for area, (before, flood) in enumerate(zip(self.floods, floods)):
            if before.flooded != flood.flooded:
                word = "FLOOD" if flood.flooded else "FLOOD END"
                self.events.append([flood.count, self.moment, None, word, area, flood.window, *[None] * 4])
        self.floods = floods

    def publish(self) -> None:
        """Tells what is new, if anything is."""
        plant = self.plant if self.era else None
        head = self.head_of(plant)
        if self.whole or self.changed or self.events or head != self.head:
            numbers: Iterable[int] = (range(len(plant.rows)) if self.whole else self.changed) if plant else ()
            rows = {number: self.row_of(known(plant), number) for number in numbers}
            self.check.drawn.update(rows)
            table = table_of(plant.table) if plant and self.whole else []
            self.tell(Batch(self.era if plant else None, self.whole, rows, self.events, head, table))
        self.head = head
        self.begin(whole=False)

    def row_of(self, plant: FollowedPlant, number: int) -> list[Any]:
        """What the page shows of an alarm."""
        row = plant.rows[number]
        why = self.suppressed.of(number, row.flags)
        return row_of(number, plant.table[number], row, self.values.get(number), why)

    def head_of(self, plant: Optional[FollowedPlant]) -> dict[str, Any]:
        """What is shown of the plant beside its alarms."""
        head: dict[str, Any] = {"fault": self.notes.fault, "trouble": self.trouble(), "denied": self.denied()}
        if self.desks:
            head["held"] = self.desks.holders()
        if plant:
            floods = [[flood.window, int(flood.flooded)] for flood in self.floods]
            head |= {"now": self.moment, "count": plant.count, "mixed": plant.is_mixed, "floods": floods}
        return head

    def denied(self) -> list[str]:
        """The tags of the alarms whose row the server denies."""
        return [self.tag(alarm) for alarm in self.check.denied]

    def trouble(self) -> str:
        """Why the list may be old; empty where it isn't."""
        return "" if self.client and self.era else self.shown.said or READING

    def blocked(self, order: Order) -> str:
        """Why nothing can be asked; empty where it can."""
        if not self.client:
            return NO_SERVER
        return OTHER_PLANT if order.era != self.era else ""

    def tag(self, alarm: int) -> str:
        return known(self.plant).table[alarm].tag

    def note_shift(self, order: Order) -> None:
        """Notes that a position was taken or left, and what stands there, once that is shown."""
        position, plant = known(self.desks).positions[known(order.value)], self.plant
        stands = standing(plant, position, self.number) if plant else []
        self.notes.shift(order.asker, position.name, order.word, self.moment if plant else None, stands)
        self.look()
        order.answer([Answer(0, "done", None, "")])

    def do(self, order: Order) -> None:
        """Does an order, and tells what came of each alarm once the plant is shown behind it."""
        if order.is_shift:
            return self.note_shift(order)
        answers: list[Answer] = []
        for part in parts(order.alarms):
            self.look()
            why = self.blocked(order)
            answers += [Answer(alarm, "refused", None, why) for alarm, _ in part] if why else self.do_part(order, part)
        self.look()
        order.answer(answers)

    def do_part(self, order: Order, part: list[tuple[int, int]]) -> list[Answer]:
        """Asks for the actions whose annunciation is the one that was seen."""
        unfit = [
            Answer(alarm, "refused", None, why) for alarm, stamp in part if (why := self.unfit(order, alarm, stamp))
        ]
        kept = {answer.alarm for answer in unfit}
        fit = [(alarm, stamp) for alarm, stamp in part if alarm not in kept]
        words = [(order.word, self.tag(alarm), order.value) for alarm, _ in fit]
        rows = self.notes.asking(order.asker, words)
        replies = self.ask([order.request(alarm, stamp) for alarm, stamp in fit])
        answers = [answer_of(alarm, reply) for (alarm, _), reply in zip(fit, replies)]
        outcomes = [OK if one.number else LOST if one.outcome == "lost" else one.said for one in answers]
        self.notes.answered(
            order.asker,
            [
                (row, word, tag, one.number, outcome)
                for row, (word, tag, _), one, outcome in zip(rows, words, answers, outcomes)
            ],
        )
        return answers + unfit

    def unfit(self, order: Order, alarm: int, stamp: int) -> str:
        """Why an action isn't asked: the alarm isn't there, or isn't annunciated as it was seen where the action is
        bound to that. Else empty."""
        plant = known(self.plant)
        if alarm >= len(plant.rows):
            return REASONS[Refusal.NO_SUCH_ALARM]
        row = plant.rows[alarm]
        if order.areas is not None and (self.number, plant.table[alarm].area) not in order.areas:
            return OTHER_AREA
        if order.word not in SEEN or (is_annunciated(row) and row.stamp == stamp):
            return ""
        return AGAIN if is_annunciated(row) else REASONS[SEEN[order.word]]

    def ask(self, requests: list[str]) -> list[Any]:
        """The replies to requests; none for those that had none."""
        replies: list[Any] = []
        client = known(self.shown.client)
        try:
            client.socket.settimeout(ACTION_PATIENCE)
            for reply in client.ask_all(requests):
                replies.append(reply)
            client.socket.settimeout(PATIENCE)
        except (Lost, OtherPlant):
            self.shown.end()
        return replies + [None] * (len(requests) - len(replies))


# In the place of an order: the thread ends.
STOP: Any = object()


def parts(alarms: list[tuple[int, int]]) -> Iterator[list[tuple[int, int]]]:
    for at in range(0, len(alarms), PART):
        yield alarms[at : at + PART]


def answer_of(alarm: int, reply: Any) -> Answer:
    """What a reply says of an alarm's action."""
    if reply is None:
        return Answer(alarm, "lost", None, NO_REPLY)
    if isinstance(reply, Refused):
        return Answer(alarm, "refused", None, REASONS.get(reply.refusal, reply.refusal.name))
    return Answer(alarm, "done", int(reply[1]), "")
