"""A terminal's alarm list.

    alm_console --port P [--slot 0] [--table TABLE.toml]
    alm_console --port 5000 --port 5020 --name north --name south

It begins with the annunciated alarms, the newest first within its priority. Each priority has a colour; a row is in
reverse while its alarm isn't acknowledged, and `*` stands before it. `>` marks the selected row. Marks: F its area is
flooded, S it is stale, C it chatters.

    up, down, page up, page down, home, end     select a row
    1 to 7    a view: annunciated, shelved, suppressed by design, out of service, chattering, stale, all alarms
    8         what happened: the last actions of operators and the feed, the newest first, and which slot asked
    v, f      the next view; only one area
    a, A      acknowledge the selected alarm; acknowledge all that are on the screen: what is shown, and nothing newer
    r         reset
    s, u      shelve for some seconds; end the shelving
    o         out of service, or back
    p, t      another priority; another setpoint
    q         quit

It looks again each second, and asks the states of those rows alone that are on the screen. No list of the server has
the alarms that are suppressed by design or out of service. So these two views ask the states of all alarms, of large
plants a part each second.

With --details FILE texts are the operator's, setpoints are in his unit, and what to do of the selected alarm stands
below the list.

While the plant's clock doesn't move, as where no clock runs or the server can't store, that is shown with its seconds.

The names are the plant's own, asked at each new connection. Where a connection ends it is made again, also to a plant
that was restored or whose table was changed: that is said. Where a table file is given, a plant that isn't that file's,
or is on another device than before, ends it with status 1. A slot serves one client after another: give each console
its own.

Several servers are one list, with --port or --sockets once for each. PLANT is a server's --name, or else its port or
the last part of its folder. An action goes to the row's own server. Above the list each has a line with its counts, and
another one if its clock stands or an area is flooded. If a server gives no answer, its line says so and `?` stands
before its rows: they are of then, and nothing is asked. `f` takes a plant, an area, or both. What is annunciated is by
priority, then by when this console saw it come, since the plants' clocks may differ. What stood there before the
console began is behind that, server by server. The rows of the other views are server by server.
"""
import argparse
import curses
import os
import sys
import time
from typing import Callable, Optional

from .client import CONSOLES, Client, Lost, Plant, Refused, acknowledgement
from .arguments import Parser, add_places, name_of, names_of_servers, of_each, places_of_servers
from .details_file import add_details, load_details
from .ending import Fault, end_of
from .boards import PATIENCE, NotAsked, ListRow, Server, View
from .screen import REASONS, alarm_of, details_of, hide_cursor, number_in

from .known import known
from .list_screen import ListScreen

PERIOD = 1.0
VIEW_KEYS = {ord("1") + place: view for place, view in enumerate(View)}


class Console(ListScreen):
    """What an operator does at the list: each key, and what is typed."""

    def ask(self, prompt: str, most: int = 14) -> str:
        """What the operator types."""
        row = min(len(self.head) + self.height, self.screen.getmaxyx()[0] - 1)
        self.put(row, prompt)
        self.screen.move(row, min(len(prompt), self.screen.getmaxyx()[1] - 1))
        curses.echo()
        self.screen.timeout(-1)
        typed = self.screen.getstr(most).decode("ascii", "replace")
        curses.noecho()
        return typed.strip()

    def ask_number(self, prompt: str) -> Optional[int]:
        """A number that the operator types; none where it is none."""
        return number_in(self.ask(prompt))

    @property
    def row(self) -> ListRow:
        """The selected row."""
        return self.rows[self.selected]

    @property
    def tag(self) -> str:
        """The selected alarm's tag, with the name of its server where there are several."""
        tag = alarm_of(self.row).tag
        return f"{tag} of {self.row.server.name}" if self.are_several else tag

    def act(self, words: str, action: Callable[[Client, int], int]) -> None:
        """Does an action on the selected alarm, and says what came of it."""
        tag, server, alarm = self.tag, self.row.server, self.row.alarm
        try:
            self.message = f"{tag} {words} as action {server.call(lambda client: action(client, alarm))}"
        except Refused as refused:
            self.message = f"{tag} not {words}: {REASONS.get(refused.refusal, refused.refusal.name)}"
        except Lost as lost:
            self.message = f"{tag}: {lost}"
        except NotAsked as why:
            self.message = f"{tag}: nothing was asked: {why}"

    def acknowledge_all(self) -> None:
        """Acknowledges those alarms on the screen that are shown there as unacknowledged, and no others."""
        done, not_done, lost = 0, 0, []
        rows = [
            row
            for row in self.on_screen
            if not self.is_old(row)
            and row.entry is None
            and row.alarm in row.server.states
            and row.server.states[row.alarm].is_unacknowledged
        ]
        for server in self.servers:
            requests = [self.acknowledgement(row) for row in rows if row.server is server]
            try:
                replies = server.call(lambda client: list(client.ask_all(requests))) if requests else []
            except (Lost, NotAsked) as fault:
                lost.append(f"; {server.name}: {fault}")
                continue
            refused = sum(isinstance(reply, Refused) for reply in replies)
            done, not_done = done + len(replies) - refused, not_done + refused
        self.message = f"{done} acknowledged" + (f", {not_done} not" if not_done else "") + "".join(lost)

    def acknowledge(self) -> None:
        """Acknowledges the annunciation of the selected alarm that is shown, and no newer one."""
        if self.row.alarm not in self.row.server.states:
            self.message = f"{self.tag}: nothing was asked: its row isn't there yet"
        else:
            stamp = self.row.server.states[self.row.alarm].stamp
            self.act("acknowledged", lambda client, alarm: client.acknowledge(alarm, stamp))

    def acknowledgement(self, row: ListRow) -> str:
        """The request that acknowledges what is shown of a row."""
        return acknowledgement(row.alarm, row.server.states[row.alarm].stamp)

    def shelve(self) -> None:
        seconds = self.ask_number(f"{self.tag}: shelve for seconds: ")
        if seconds is not None and seconds >= 0:
            self.act(f"shelved for {seconds} s", lambda client, alarm: client.shelve(alarm, known(seconds)))

    def service(self) -> None:
        """Puts the alarm out of service, or back where it is shown as out of service."""
        state = self.row.server.states.get(self.row.alarm)
        if state and "O" in state.flags:
            self.act("back in service", lambda client, alarm: client.oos(alarm, False))
        elif self.ask(f"{self.tag}: out of service? y or n: ") == "y":
            self.act("out of service", lambda client, alarm: client.oos(alarm, True))

    def priority(self) -> None:
        priority = self.ask_number(f"{self.tag}: priority, 1 to 4: ")
        if priority is not None and priority >= 0:
            self.act(f"given priority {priority}", lambda client, alarm: client.priority(alarm, known(priority)))

    def setpoint(self) -> None:
        """Another setpoint: where a file has the alarm, in the operator's unit."""
        if self.row.server.details:
            return self.setpoint_in_unit()
        value = self.ask_number(f"{self.tag}: setpoint: ")
        if value is not None:
            self.act(f"given setpoint {value}", lambda client, alarm: client.setpoint(alarm, known(value)))

    def setpoint_in_unit(self) -> None:
        """Asks for a setpoint in the operator's unit, and shows the one in force."""
        tag, details = self.tag, details_of(self.row)
        server, alarm = self.row.server, self.row.alarm
        try:
            now = server.call(lambda client: client.attributes(alarm)).setpoint
            typed = self.ask(f"{tag}: setpoint, now {details.with_unit(now)}: ", 30)
            value = details.whole(typed) if typed else now
        except (Lost, NotAsked, Refused) as fault:
            self.message = f"{tag}: nothing was asked: {fault}"
        except Fault as fault:
            self.message = f"{tag}: {fault}"
        else:
            if typed:
                words = f"given setpoint {details.with_unit(value)}"
                self.act(words, lambda client, number: client.setpoint(number, value))

    def filter(self) -> None:
        """Shows one area alone; of several servers one of these alone, or an area of it."""
        if self.are_several:
            words = self.ask("plant, area, or both (none for all): ", 32).split()
            self.only = next((server for server in self.servers if server.name in words[:1]), None)
            words = words[1:] if self.only else words
            self.area = number_in(words[0]) if words else None
            if words and self.area is None:
                self.message = f"there is neither a plant {words[0]} nor such an area"
        else:
            self.area = self.ask_number("area (none for all): ")
        self.selected = 0

    def turn(self, view: View) -> None:
        self.view, self.selected = view, 0

    def actions(self) -> dict[str, Callable[[], None]]:
        """What each key does to the selected alarm."""
        return {
            "a": self.acknowledge,
            "A": self.acknowledge_all,
            "r": lambda: self.act("reset", Client.reset),
            "s": self.shelve,
            "u": lambda: self.act("unshelved", Client.unshelve),
            "o": self.service,
            "p": self.priority,
            "t": self.setpoint,
        }

    def do(self, letter: str) -> None:
        """Does an action, unless the row's server is lost, or what happened is shown and not what is so."""
        if self.view == View.HAPPENED:
            self.message = "what happened is shown: press 1 for the alarms as they are, and act there"
        elif letter != "A" and not self.row.server.is_there:
            self.message = f"{self.row.server.name} gives no answer: nothing was asked"
        else:
            self.actions()[letter]()

    def press(self, key: int) -> bool:
        """Does what a key asks; whether the lists may be others then. What was said of the key before goes."""
        is_there = any(server.is_there for server in self.servers)
        if is_there:
            self.message = ""
        moves = {
            curses.KEY_UP: -1,
            curses.KEY_DOWN: 1,
            curses.KEY_PPAGE: -self.height,
            curses.KEY_NPAGE: self.height,
            curses.KEY_HOME: -len(self.rows),
            curses.KEY_END: len(self.rows),
        }
        letter = chr(key) if 0 <= key < 128 else ""
        if key in moves:
            self.select(moves[key])
            return False
        if key in VIEW_KEYS or letter == "v":
            self.turn(VIEW_KEYS.get(key) or self.view.next())
        elif letter == "f":
            self.filter()
        elif letter in self.actions() and is_there and self.rows:
            self.do(letter)
        else:
            return False
        return True

    def run(self) -> None:
        """Looks each second and after each action, and at the rows on the screen after each other key, until q."""
        hide_cursor()
        key, next_look = -1, 0.0
        while key != ord("q"):
            due = time.monotonic() >= next_look
            acted = key != -1 and self.press(key)
            if due or key != -1:
                self.look(due or acted)
                self.draw()
            if due or acted:
                next_look = time.monotonic() + PERIOD
            self.screen.timeout(max(10, int((next_look - time.monotonic()) * 1000)))
            key = self.screen.getch()


def given_servers(words: argparse.ArgumentParser, chosen: argparse.Namespace) -> list[Server]:
    """The servers that the arguments name."""
    places = places_of_servers(words, chosen)
    names = (
        of_each(words, "--name", chosen.names, len(places)) if chosen.names else [name_of(place) for place in places]
    )
    slots = of_each(words, "--slot", chosen.slots, len(places), 0, shared=True)
    tables = of_each(words, "--table", chosen.tables, len(places))
    plants = [Plant(place, slot, table, PATIENCE) for place, slot, table in zip(places, slots, tables)]
    files = of_each(words, "--details", chosen.details, len(places))
    details = [load_details(path) if path else None for path in files]
    return [Server(*one) for one in zip(names_of_servers(words, names), plants, details)]


def show(servers: list[Server]) -> None:
    """Shows the list at this terminal, until q."""
    if not (sys.stdin.isatty() and sys.stdout.isatty()):
        raise Fault("standard input and output are no terminal")
    try:
        curses.setupterm()
    except curses.error as error:
        raise Fault(f"the terminal {os.environ.get('TERM', '')} isn't known: {error}") from None
    if curses.tigetstr("cup") is None:
        raise Fault(f"the terminal {os.environ.get('TERM', '')} can't place text on its screen")
    curses.wrapper(lambda screen: Console(screen, servers).run())


def main() -> None:
    words = Parser("alm_console", __doc__)
    add_places(words)
    words.add_argument(
        "--name",
        dest="names",
        action="append",
        default=[],
        metavar="NAME",
        help="with several servers: what each is called, in their order",
    )
    words.add_argument(
        "--slot",
        type=int,
        dest="slots",
        action="append",
        choices=CONSOLES,
        default=[],
        metavar="K",
        help="the console's slot, 0 to 15; 0 where it is left out; once for all servers, or once for each",
    )
    words.add_argument(
        "--table",
        dest="tables",
        action="append",
        default=[],
        metavar="TABLE.toml",
        help="a table file: a plant that isn't that file's ends this tool; of several servers once for each",
    )
    add_details(words, "; of several servers once for each")
    chosen = words.parse_args()
    end_of("console", lambda: show(given_servers(words, chosen)), interrupted=0)


if __name__ == "__main__":
    main()
