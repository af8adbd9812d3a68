#!/usr/bin/env python3
"""A client of the alarm server: it asks for some actions and shows what came of them.

    examples/client.py              starts `./alm_server desk`, and asks it through a pipe
    examples/client.py --port P     asks a server, `./alm_server serve DEVICE --port P`

It needs the package `alarms`: `PYTHONPATH=tools` where that isn't installed.
"""
import contextlib
import pathlib
import time
from typing import Callable, Optional

from alarms.client import CLOCK, FEED, Client, Place, Refused
from alarms.desk import DeskProcess
from alarms.ending import end_of
from alarms.arguments import add_port, new_parser

PROGRAM = pathlib.Path(__file__).resolve().parent.parent / "alm_server"
CONSOLE = 0


def tell(words: str, ask: Callable[[], int]) -> None:
    """Prints the number of an action, or why it was refused: the alarm may stand so already."""
    try:
        print(words, "as action", ask())
    except Refused as refused:
        print(words, "was refused by", refused.refusal.value)


def show(console: Client, alarm: int) -> None:
    state = console.state(alarm)
    print(f"alarm {alarm}:", state.shown, "holds" if state.condition else "gone")


def morning(console: Client, feed: Client, clock: Client) -> None:
    """An alarm comes, is acknowledged twice, and goes."""
    clock.clock(int(time.time()))
    tell("value 812", lambda: feed.value(0, 812))
    show(console, 0)
    print("priority 1:", *console.priority_list(1).alarms)
    tell("acknowledged", lambda: console.acknowledge(0))
    tell("acknowledged again", lambda: console.acknowledge(0))
    tell("value 789", lambda: feed.value(0, 789))
    show(console, 0)


def run(place: Optional[Place], program: str) -> None:
    """Asks a server, or a desk that is started."""
    if place is None:
        desk = DeskProcess(program)
        morning(desk.at(CONSOLE), desk.at(FEED), desk.at(CLOCK))
        print("status", desk.end())
        return
    with contextlib.ExitStack() as stack:
        morning(*(stack.enter_context(Client.connect(place, slot)) for slot in (CONSOLE, FEED, CLOCK)))


def main() -> None:
    words = new_parser(__doc__)
    add_port(words, required=False)
    words.add_argument(
        "--program",
        default=str(PROGRAM),
        help="the alm_server whose desk is started; the repository's where it is left out",
    )
    chosen = words.parse_args()
    end_of("client", lambda: run(chosen.port, chosen.program))


if __name__ == "__main__":
    main()
