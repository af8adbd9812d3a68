"""The lines of the alarm server, for clients in Python: docs/PROTOCOL.md, without any library beside Python's own.

    with Client.connect(5000, slot=0) as console:     # or a folder of sockets, "/run/alarms/plant"
        for alarm in console.priority_list(1).alarms:
            console.acknowledge(alarm)

A `Client` asks at one slot. Each method waits for its reply; `ask_all` keeps up to 64 requests under way and gives
their replies in order. An answer NO is a `Refused`, an end of the connection is a `Lost`: of an action that had no
reply nothing is known, so ask the state when the server is back.

Requests go by an alarm's number, people by its tag. A `Plant` is a server whose table is asked at each new connection:

    plant = Plant(5000, 0)
    with plant.connect() as console:
        console.acknowledge(plant.table.numbers()["TI-101"])

Where the plant isn't the one that was seen before, or isn't that of a table file that was given, that is an
`OtherPlant`: end then.
"""
import collections
import itertools
from dataclasses import replace
from typing import Iterable, Iterator, Optional

from .ending import Fault
from .known import known
from .table_file import Alarm, Table, TableFile
from .connecting import Lost, NoAnswer, PATIENCE, Place, open_slot, places_of
from .replies import (
    Entries,
    Entry,
    Flood,
    Listing,
    Overview,
    Refusal,
    Refused,
    Row,
    State,
    read_attributes,
    read_entries,
    read_flood,
    read_listing,
    read_overview,
    read_row,
    read_state,
    split_reply,
)

CONSOLES = range(16)
FEED, CLOCK = 16, 17
PRIORITIES = range(1, 5)
WHEEL_SLOTS = range(256)
# How many requests of a connection the server takes before their replies have gone out.
WINDOW = 64


class OtherPlant(Fault):
    """The plant isn't the one that the client knows: it isn't the given table's, or has fewer actions than were seen
    before."""


class Client:
    """The requests of one slot. How lines go out and come back is a subclass's `send`, `receive` and `close`.

    `seen` is the greatest count of actions that a reply had. A reply with a lower one comes of another device.
    """

    def __init__(self, seen: int = 0) -> None:
        self.ids = itertools.count(1)
        self.seen = seen

    @staticmethod
    def connect(place: Place, slot: int, patience: float = PATIENCE, seen: int = 0) -> "ServerClient":
        """A connection to a server at a place. With `seen`, the count that an earlier one ended with, another device is
        noticed."""
        return ServerClient(place, slot, patience, seen)

    def send(self, text: str) -> None:
        raise NotImplementedError

    def receive(self) -> str:
        raise NotImplementedError

    def close(self) -> None:
        raise NotImplementedError

    def __enter__(self):
        return self

    def __exit__(self, *_) -> None:
        self.close()

    def next_line(self, request: str) -> tuple[str, str]:
        """An id that no earlier line has, and the line."""
        number = str(next(self.ids) % 2**32)
        return number, f"{number} {request}\n"

    def reply_to(self, number: str, request: str) -> list[str]:
        """The words of the next reply after its id."""
        line = self.receive()
        words = split_reply(line)
        if not line.endswith("\n") or words[:1] != [number]:
            raise Lost(f"no reply to {request}")
        if words[1] == "NO":
            raise Refused(request, Refusal(int(words[2])))
        self.note(int(words[2]))
        return words[1:]

    def note(self, count: int) -> None:
        """Takes note of a reply's count of actions, which never falls."""
        other = other_device(count, self.seen)
        if other:
            raise OtherPlant(other)
        self.seen = count

    def ask(self, request: str) -> list[str]:
        """Asks; the words of the reply after its id."""
        number, line = self.next_line(request)
        self.send(line)
        return self.reply_to(number, request)

    def ask_all(self, requests: Iterable[str]) -> Iterator[list[str] | Refused]:
        """The replies to requests, in order, with up to 64 under way. One that was refused gives its `Refused`. Take
        all of them."""
        waiting: collections.deque[tuple[str, str]] = collections.deque()
        remaining = iter(requests)
        while True:
            lines = [
                (*self.next_line(request), request) for request in itertools.islice(remaining, WINDOW - len(waiting))
            ]
            if lines:
                self.send("".join(line for _, line, _ in lines))
            waiting.extend((number, request) for number, _, request in lines)
            if not waiting:
                return
            for _ in range(max(1, len(waiting) - WINDOW // 2)):
                yield self.reply_or_refusal(*waiting.popleft())

    def reply_or_refusal(self, number: str, request: str) -> list[str] | Refused:
        try:
            return self.reply_to(number, request)
        except Refused as refused:
            return refused

    def act(self, request: str) -> int:
        """Asks for an action; its number."""
        _ok, number = self.ask(request)
        return int(number)

    def acknowledge(self, alarm: int, stamp: Optional[int] = None) -> int:
        """Acknowledges an alarm; with a stamp that annunciation alone, and no newer one."""
        return self.act(acknowledgement(alarm, stamp))

    def reset(self, alarm: int) -> int:
        return self.act(f"RESET {alarm}")

    def shelve(self, alarm: int, seconds: int) -> int:
        return self.act(f"SHELVE {alarm} {seconds}")

    def unshelve(self, alarm: int) -> int:
        return self.act(f"UNSHELVE {alarm}")

    def oos(self, alarm: int, on: bool) -> int:
        """Puts an alarm out of service, or back."""
        return self.act(f"OOS {alarm} {switch(on)}")

    def design(self, alarm: int, on: bool) -> int:
        """Suppresses an alarm by design, or no longer."""
        return self.act(f"DESIGN {alarm} {switch(on)}")

    def priority(self, alarm: int, priority: int) -> int:
        """Gives an alarm another priority."""
        return self.act(f"PRIO {alarm} {priority}")

    def setpoint(self, alarm: int, value: int) -> int:
        """Gives an alarm another setpoint."""
        return self.act(f"SETP {alarm} {value}")

    def value(self, alarm: int, value: int) -> int:
        return self.act(f"VAL {alarm} {value}")

    def clock(self, moment: int) -> int:
        return self.act(f"CLOCK {moment}")

    def state(self, alarm: int) -> State:
        return read_state(self.ask(f"STATE {alarm}")[1:])

    def states(self, alarms: Iterable[int]) -> list[State]:
        """The states of alarms that there are."""
        return [read_state(granted(reply)[1:]) for reply in self.ask_all(f"STATE {alarm}" for alarm in alarms)]

    def listing(self, query: str) -> Listing:
        """The answer to LIST, STALE or CHATTER."""
        return read_listing(self.ask(query)[1:])

    def priority_list(self, priority: int) -> Listing:
        """The annunciated alarms of a priority, the oldest annunciation first."""
        return self.listing(f"LIST P {priority}")

    def area_list(self, area: int) -> Listing:
        """The annunciated alarms of an area, the oldest annunciation first."""
        return self.listing(f"LIST A {area}")

    def wheel_list(self, number: int) -> Listing:
        """The shelved alarms whose deadline modulo 256 is this number, in the order of their shelving."""
        return self.listing(f"LIST S {number}")

    def shelved(self) -> list[int]:
        """All shelved alarms."""
        replies = self.ask_all(f"LIST S {slot}" for slot in WHEEL_SLOTS)
        return [alarm for reply in replies for alarm in read_listing(granted(reply)[1:]).alarms]

    def stale(self) -> Listing:
        """The alarms that have been annunciated for a day or more."""
        return self.listing("STALE")

    def chattering(self) -> Listing:
        """The alarms with three annunciations or more in the last 60 seconds."""
        return self.listing("CHATTER")

    def flood(self, area: int) -> Flood:
        return read_flood(self.ask(f"FLOOD {area}")[1:])

    def floods(self, areas: int = 64) -> list[Flood]:
        """The floods of all areas, or of so many, by number."""
        replies = self.ask_all(f"FLOOD {area}" for area in range(areas))
        return [read_flood(reply[1:]) for reply in replies if not isinstance(reply, Refused)]

    def plant(self) -> Overview:
        """The plant's moment, and how many alarms and areas it has."""
        return read_overview(self.ask("PLANT")[1:])

    def attributes(self, alarm: int) -> Alarm:
        """An alarm's attributes, with the priority and the setpoint in force."""
        return read_attributes(self.ask(f"ATTR {alarm}")[1:])

    def row(self, alarm: int) -> Row:
        """What is shown of an alarm, with its stamp, its limits and its last annunciations."""
        return read_row(self.ask(f"ROW {alarm}")[1:])

    def rows(self, alarms: Iterable[int]) -> list[Row]:
        """The rows of alarms. Each has a count of its own, since others may act meanwhile."""
        return [read_row(granted(reply)[1:]) for reply in self.ask_all(f"ROW {alarm}" for alarm in alarms)]

    def since(self, after: Optional[int] = None) -> Entries:
        """The accepted actions after this number, at most 256; without one, from the oldest that the server remembers.
        Its `Refused` by FORGOTTEN says that it no longer has them all."""
        return read_entries(self.ask("SINCE" if after is None else f"SINCE {after}")[1:])

    def entries(self, after: int) -> Iterator[Entry]:
        """All accepted actions after this number, up to the last that the server shows."""
        told = self.since(after)
        yield from told.entries
        while not told.are_all:
            told = self.since(told.last)
            yield from told.entries

    def table(self) -> Table:
        """The plant's table, with the priorities and setpoints in force. The size of its device isn't told."""
        plant = self.plant()
        replies = self.ask_all(f"ATTR {alarm}" for alarm in range(plant.alarms))
        return Table(None, plant.areas, [read_attributes(granted(reply)[1:]) for reply in replies])

    def action_count(self) -> int:
        """How many actions made the plant that the server shows."""
        return self.plant().count


def other_device(count: int, seen: int) -> Optional[str]:
    """Says so where a plant's count of actions is below one that was seen before."""
    return (
        f"the server has another device than before: its count of actions is {count}, and it was {seen}"
        if count < seen
        else None
    )


def acknowledgement(alarm: int, stamp: Optional[int] = None) -> str:
    """The request that acknowledges an alarm, or one of its annunciations."""
    return f"ACK {alarm}" if stamp is None else f"ACK {alarm} {stamp}"


def switch(on: bool) -> str:
    return "ON" if on else "OFF"


def granted(reply: list[str] | Refused) -> list[str]:
    """The words of a reply; raises where it was refused."""
    if isinstance(reply, Refused):
        raise reply
    return reply


class ServerClient(Client):
    """A connection to a slot of `alm_server serve`."""

    def __init__(self, place: Place, slot: int, patience: float = PATIENCE, seen: int = 0):
        super().__init__(seen)
        self.slot = slot
        self.socket = open_slot(place, slot, patience)
        self.stream = self.socket.makefile("rb")

    def send(self, text: str) -> None:
        try:
            self.socket.sendall(text.encode("ascii"))
        except OSError as error:
            raise Lost(f"slot {self.slot}: {error.strerror or error}") from error

    def receive(self) -> str:
        try:
            return self.stream.readline().decode("ascii")
        except TimeoutError as error:
            raise NoAnswer(f"slot {self.slot} gives no answer: another client may have it") from error
        except OSError as error:
            raise Lost(f"slot {self.slot}: {error.strerror or error}") from error

    def close(self) -> None:
        self.stream.close()
        self.socket.close()


class Plant:
    """A served plant, by one slot.

    A connection begins with PLANT, and with ATTR for each alarm where names are wanted: so no name is older than the
    connection. Where the plant has fewer actions than were seen before, it is on another device, and `other` says so:
    nothing of before is to be kept. Where a table file is given, the plant has to be that file's, and on the same
    device."""

    def __init__(
        self, place: Place, slot: int, path: Optional[str] = None, patience: float = PATIENCE, names: bool = True
    ):
        self.place, self.slot, self.patience = place, slot, patience
        self.file = None if path is None else TableFile(path)
        self.names = names or self.file is not None
        self.client: Optional[ServerClient] = None
        self.table = Table(None, 0, [])
        self.other: Optional[str] = None

    def connect(self) -> ServerClient:
        """A new connection, to the first address that answers. `Lost` says that there is none, `OtherPlant` and
        `NoTable` that the client had better end."""
        faults: list[Lost] = []
        for place in places_of(self.place):
            try:
                return self.connect_to(place)
            except Lost as lost:
                faults.append(lost)
        has_slot = any(isinstance(fault, NoAnswer) for fault in faults)
        raise (NoAnswer if has_slot else Lost)("; ".join(map(str, faults)))

    def connect_to(self, place: Place) -> ServerClient:
        seen = self.client.seen if self.client else 0
        client = Client.connect(place, self.slot, self.patience, seen if self.file else 0)
        try:
            count = self.begin(client).count
        except Exception:
            client.close()
            raise
        self.client, self.other = client, other_device(count, seen)
        return client

    def begin(self, client: Client) -> Overview:
        """Asks which plant it is, and what its alarms are."""
        try:
            overview = client.plant()
        except Refused as refused:
            if refused.refusal == Refusal.BAD_LINE:
                raise OtherPlant("the server knows no PLANT: it is of an earlier release than this tool") from None
            raise
        if self.names:
            self.table = client.table()
        if self.file is not None:
            self.hold_against_file()
        return overview

    def hold_against_file(self) -> None:
        """Reads the table file again. Only priorities and setpoints may be others in the plant."""
        file = known(self.file)
        given, path = file.read(), file.path
        for things, mine, its in (
            ("alarms", len(given.alarms), len(self.table.alarms)),
            ("areas", given.areas, self.table.areas),
        ):
            if mine != its:
                raise OtherPlant(
                    f"{path}: the plant has {'fewer' if its < mine else 'more'} {things} than the table's {mine}"
                )
        for number, (wanted, found) in enumerate(zip(given.alarms, self.table.alarms)):
            if replace(wanted, priority=found.priority, setpoint=found.setpoint) != found:
                raise OtherPlant(f"{path}: alarm {number}, {wanted.tag}, is another one in the plant: {found.tag}")

    def lose(self) -> None:
        """Closes the connection."""
        if self.client is not None:
            self.client.close()
