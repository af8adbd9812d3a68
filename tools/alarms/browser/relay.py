"""The list between two processes: `Teller` is in the one that follows the plants and asks their servers, `Source` in
the one that the network reaches.

The first needs a slot of each server and the notes. The second needs nothing but the first one's socket, over which it
can have what the page shows, and ask what an operator may. To the second go the events of the page's stream, and an
event `answers` for each order; from it comes an order a line, in JSON.
"""
import asyncio
import itertools
import json
import time
from typing import Any, Callable, Optional, Sequence

from ..ending import Fault
from .batch import Batch
from .board import REST, BrowserBoard, Reader, written
from .orders import NO_REPLY, NO_SERVER, Answer, BadOrder, NotAllowed, Order, Rules, read_order
from .positions import Desks, Position, position_of

# Bytes of an order, and of an event; seconds that the other part may take what it is sent, and between two tries to
# connect.
MOST_ORDER, MOST_EVENT, PATIENCE, AGAIN = 2**18, 2**27, 20, 0.5
# Connections of the other part.
MOST_PARTS = 4


# A plant's name, the names of its areas, and the details of its alarms.
PlantTold = tuple[str, list[str], dict[str, list[Any]]]


def plant_of(board: BrowserBoard) -> PlantTold:
    """What never changes of a plant beside its table."""
    return board.name, board.areas, board.details


class Teller:
    """Tells another process what the boards have, and takes its orders."""

    def __init__(self, boards: Sequence[BrowserBoard], take: Callable[[Order], None], rules: Rules):
        self.boards, self.take, self.rules = boards, take, rules
        self.parts = 0

    async def serve(self, lines: asyncio.StreamReader, writer: asyncio.StreamWriter) -> None:
        """Serves a connection until its end."""
        self.parts += 1
        reader, telling = Reader(self.boards), None
        try:
            if self.parts <= MOST_PARTS:
                told = [one.told() for one in self.rules.desks.positions] if self.rules.desks else []
                writer.write(f"event: positions\ndata: {written(told)}\n\n".encode())
                writer.write(f"event: plants\ndata: {written([plant_of(board) for board in self.boards])}\n\n".encode())
                telling = asyncio.create_task(self.tell(writer, reader))
                while line := await lines.readline():
                    self.order(json.loads(line), writer)
        except (ConnectionError, ValueError, KeyError, TypeError, OverflowError, RecursionError):
            pass  # it has gone, or it isn't our other part
        finally:
            self.parts -= 1
            reader.leave()
            if telling:
                telling.cancel()
            writer.close()

    async def tell(self, writer: asyncio.StreamWriter, reader: Reader) -> None:
        try:
            while not writer.is_closing():
                writer.write(reader.told().encode())
                await asyncio.wait_for(writer.drain(), PATIENCE)
                await asyncio.sleep(REST)
                await reader.wait()
        except (ConnectionError, asyncio.TimeoutError):
            writer.close()

    def order(self, sent: dict[str, Any], writer: asyncio.StreamWriter) -> None:
        """Takes an order. The other part names the user, and is believed what it says of the role."""
        number, loop = int(sent["order"]), asyncio.get_running_loop()

        def answer(answers: Sequence[Answer]) -> None:
            loop.call_soon_threadsafe(
                lambda: writer.is_closing()
                or writer.write(f"event: answers\ndata: {written([number, answers])}\n\n".encode())
            )

        try:
            asked, user, role = sent["asked"], str(sent["user"]), sent["role"]
            self.take(read_order(asked, user, role, self.rules, answer, len(self.boards)))
        except (BadOrder, NotAllowed) as refused:
            alarms = sent["asked"]["alarms"] or [(0, 0)]
            answer([Answer(alarm, "refused", None, str(refused)) for alarm, _ in alarms])


class Source:
    """The process that follows the plants, as the other part has it: boards, and who takes orders."""

    def __init__(self, path: str, say: Callable[..., None]):
        self.path, self.say, self.said = path, say, ""
        self.boards: list[BrowserBoard] = []
        self.positions: list[Position] = []
        self.answered: list[float] = []
        self.pending: dict[int, Order] = {}
        self.numbers = itertools.count()
        self.writer: Any = None
        self.is_there = asyncio.Event()

    async def follow(self) -> None:
        """Takes what is told, again and again; ends only where the plants are others than before."""
        while True:
            try:
                lines, self.writer = await asyncio.open_unix_connection(self.path, limit=MOST_EVENT)
                self.said = ""
                await self.listen(lines)
            except (OSError, ValueError, KeyError, IndexError, TypeError) as lost:
                self.say_once(f"{self.path}: {lost or 'it was closed'} - trying again")
            self.lose()
            await asyncio.sleep(AGAIN)

    def say_once(self, what: str) -> None:
        if what != self.said:
            self.say(what)
        self.said = what

    async def listen(self, lines: asyncio.StreamReader) -> None:
        kind = ""
        while line := (await lines.readline()).decode():
            word, _, text = line.rstrip("\n").partition(": ")
            if word == "event":
                kind = text
            elif word == "data":
                self.told(kind, json.loads(text))

    def told(self, kind: str, what: Any) -> None:
        """Takes an event."""
        if kind == "positions":
            self.seat([position_of(one) for one in what])
        elif kind == "plants":
            self.begin([(str(name), list(areas), dict(details)) for name, areas, details in what])
        elif kind == "answers":
            order = self.pending.pop(what[0], None)
            if order:
                order.answer([Answer(*one) for one in what[1]])
        else:
            board = self.boards[what["plant"]]
            self.answered[board.number] = time.monotonic() - what["head"]["age"]
            if kind == "all":
                board.events.clear()
            rows = {row[0]: row for row in what["rows"]}
            board.take(Batch(what.get("era"), kind == "all", rows, what["events"], what["head"], what.get("table", [])))

    def seat(self, positions: list[Position]) -> None:
        """The positions that there are, which stay the same too."""
        if self.boards and self.positions != positions:
            raise OtherPlants(f"{self.path}: it has other positions than before")
        self.positions = positions

    def desks(self) -> Optional[Desks]:
        """Who has each position, as the other part tells it; none where there are no positions."""
        return Desks(self.positions, lambda: self.boards[0].head.get("held")) if self.positions else None

    def begin(self, plants: list[PlantTold]) -> None:
        """The plants that there are. They stay the same for as long as this process runs."""
        if self.boards and [plant_of(board) for board in self.boards] != plants:
            raise OtherPlants(f"{self.path}: it has other plants than before")
        if not self.boards:
            self.answered = [-1e9] * len(plants)
            self.boards = [
                BrowserBoard(number, name, areas, details, answered_of(self.answered, number))
                for number, (name, areas, details) in enumerate(plants)
            ]
        self.is_there.set()

    def take(self, order: Order) -> None:
        """Sends an order."""
        if self.writer is None or self.writer.is_closing():
            order.refuse(NO_SERVER)
            return
        number = next(self.numbers)
        self.pending[number] = order
        sent = {"order": number, "asked": order.asked(), "user": order.asker.user, "role": order.asker.role}
        self.writer.write((written(sent) + "\n").encode())

    def lose(self) -> None:
        """The connection has ended: what was asked may have been done."""
        if self.writer:
            self.writer.close()
        self.writer = None
        for order in self.pending.values():
            order.refuse(NO_REPLY, "lost")
        self.pending.clear()


class OtherPlants(Fault):
    """The process that follows shows other plants than before."""


def answered_of(answered: list[float], number: int) -> Callable[[], float]:
    return lambda: answered[number]
