"""How tools read their arguments, and the arguments that they have in common: where the server is, or several are, and
a console's slot."""
import argparse
import collections
import grp
import math
import os
from typing import Any, NoReturn, Optional

from .client import CONSOLES
from .connecting import Hosts, Place

# The port of slot 0 is one of these.
PORTS = range(1024, 65_519)
# Letters of a server's name that a list has room for.
NAME = 12
PORT_HELP, SOCKETS_HELP = (
    "the port of slot 0, as in `serve DEVICE --port P`",
    "the folder of the slots' sockets, as in `serve DEVICE --sockets FOLDER`",
)
HOST_HELP = "with --port: addresses that are tried in this order, instead of 127.0.0.1"


class Parser(argparse.ArgumentParser):
    """A parser that prints a tool's page with --help, and says in one line what is wrong with its arguments: status
    2."""

    def __init__(self, prog: Optional[str] = None, page: Optional[str] = None, **more: Any):
        super().__init__(prog=prog, description=page, formatter_class=argparse.RawDescriptionHelpFormatter, **more)

    def error(self, message: str) -> NoReturn:
        self.exit(2, f"{self.prog}: {message} ({self.prog} --help says more)\n")


def new_parser(page: Optional[str]) -> Parser:
    """The parser of a script, which is called as its file is."""
    return Parser(page=page)


def port(text: str) -> int:
    """The port of slot 0."""
    if not text.isdecimal() or int(text) not in PORTS:
        raise argparse.ArgumentTypeError(f"{text} isn't a port from {PORTS.start} to {PORTS.stop - 1}")
    return int(text)


def listen_port(text: str) -> int:
    """A port to listen at; 0 for any that is free."""
    if not text.isdecimal() or int(text) > 65_535:
        raise argparse.ArgumentTypeError(f"{text} is no port")
    return int(text)


def whole_number(text: str) -> int:
    """A number from 1 on."""
    if not text.isdecimal() or int(text) < 1:
        raise argparse.ArgumentTypeError(f"{text} is no whole number from 1 on")
    return int(text)


def seconds(text: str) -> float:
    """A time in seconds, 0 or longer."""
    try:
        found = float(text)
    except ValueError:
        found = math.nan
    if not 0 <= found < math.inf:
        raise argparse.ArgumentTypeError(f"{text} is no time in seconds")
    return found


def group_of(text: str) -> int:
    """The number of a group, by its name."""
    try:
        return grp.getgrnam(text).gr_gid
    except KeyError:
        raise argparse.ArgumentTypeError(f"there is no group {text}") from None


def folder(text: str) -> str:
    """The folder of a server's sockets. It may come later, with the server."""
    if not text:
        raise argparse.ArgumentTypeError("a folder has a name")
    return os.path.abspath(text)


def addresses(text: str) -> tuple[str, ...]:
    """Addresses with commas between them."""
    found = tuple(one.strip() for one in text.split(","))
    if not all(found):
        raise argparse.ArgumentTypeError("an address is missing")
    return found


class AddPlace(argparse.Action):
    """Takes the port and the addresses, in whatever order they come, into the parsed `port`."""

    def __call__(
        self, parser: argparse.ArgumentParser, chosen: argparse.Namespace, value: Any, option: Optional[str] = None
    ) -> None:
        setattr(chosen, "addresses" if isinstance(value, tuple) else "place", value)
        found, place = getattr(chosen, "addresses", None), getattr(chosen, "place", None)
        if found and isinstance(place, str):
            parser.error("--host goes with --port")
        chosen.port = Hosts(place, found) if found and place is not None else place


def add_port(words: argparse.ArgumentParser, required: bool = True) -> None:
    """The arguments that say where the server is: at ports from a number on, or at the sockets of a folder. Either is
    the parsed `port`."""
    places = words.add_mutually_exclusive_group(required=required)
    places.add_argument("--port", type=port, metavar="P", action=AddPlace, help=PORT_HELP)
    places.add_argument("--sockets", type=folder, dest="port", metavar="FOLDER", action=AddPlace, help=SOCKETS_HELP)
    words.add_argument(
        "--host", type=addresses, action=AddPlace, metavar="A,B", default=argparse.SUPPRESS, help=HOST_HELP
    )


def add_table(words: argparse.ArgumentParser) -> None:
    """The argument that names the table file which the plant has to be of."""
    words.add_argument(
        "--table", metavar="TABLE.toml", help="a table file: a plant that isn't that file's ends this tool"
    )


def add_slot(words: argparse.ArgumentParser, default: int) -> None:
    """The argument that says at which console's slot to ask."""
    words.add_argument(
        "--slot",
        type=int,
        choices=CONSOLES,
        default=default,
        metavar="K",
        help="the console's slot, 0 to 15; %(default)s where it is left out",
    )


def add_places(words: argparse.ArgumentParser) -> None:
    """The arguments that say where one server is, or several are. `places_of_servers` and `names_of_servers` read
    them."""
    more = "; once more for each further server"
    words.add_argument(
        "--port", type=port, dest="places", metavar="P", action="append", default=[], help=PORT_HELP + more
    )
    words.add_argument(
        "--sockets", type=folder, dest="places", metavar="FOLDER", action="append", help=SOCKETS_HELP + more
    )
    words.add_argument(
        "--host",
        type=addresses,
        dest="hosts",
        metavar="A,B",
        action="append",
        default=[],
        help=HOST_HELP + "; once for all ports, or once for each",
    )


def places_of_servers(words: argparse.ArgumentParser, chosen: argparse.Namespace) -> list[Place]:
    """Where each server is, in the order in which they were given."""
    if not chosen.places:
        words.error("one of the arguments --port --sockets is required")
    ports = [place for place in chosen.places if isinstance(place, int)]
    if chosen.hosts and not ports:
        words.error("--host goes with --port")
    hosts = iter(of_each(words, "--host", chosen.hosts, len(ports), shared=True))
    places = []
    for place in chosen.places:
        found = next(hosts) if isinstance(place, int) else None
        places.append(Hosts(place, found) if found else place)
    return places


def of_each(
    words: argparse.ArgumentParser, option: str, given: list[Any], count: int, default: Any = None, shared: bool = False
) -> list[Any]:
    """What was given of each of some servers, in their order: nothing, one for each, or where it may be shared one for
    all."""
    if len(given) in (0, count):
        return given or [default] * count
    if len(given) == 1 and shared:
        return given * count
    words.error(f"{option} is given {len(given)} times, and there are {count} servers")


def name_of(place: Place) -> str:
    """What a server is called by where it is: its port, or the last part of its folder."""
    if isinstance(place, str):
        return os.path.basename(place) or place
    return str(place.port if isinstance(place, Hosts) else place)


def names_of_servers(words: argparse.ArgumentParser, names: list[str]) -> list[str]:
    """The names of several servers as a list has room for them. Each has another one."""
    short = [name[:NAME] for name in names]
    for name, count in collections.Counter(short).items():
        if count > 1:
            words.error(f"{count} servers are called {name}: give each a --name")
    return short
