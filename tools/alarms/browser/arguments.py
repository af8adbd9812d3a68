"""The arguments of the alarm list in a browser: the plants that it shows, and where browsers find it."""
import argparse
from dataclasses import dataclass
from typing import Optional
from urllib.parse import urlsplit

from ..arguments import Parser, add_places, group_of, listen_port, name_of, names_of_servers, of_each, places_of_servers
from ..client import CONSOLES, Place
from .language import ENGLISH, shipped
from .orders import ACTIONS, MOST_ALARMS, MOST_AT_ONCE
from .positions import ROLES


@dataclass(frozen=True)
class Given:
    """A plant that is shown: its server, its name in the notes and on the page, the file of its areas' names, and that
    of its alarms' details."""

    place: Place
    name: str
    short: str
    areas: Optional[str]
    details: Optional[str]


def origin(text: str) -> str:
    """A scheme and a host, with or without a port."""
    parts = urlsplit(text)
    if (
        parts.scheme not in ("http", "https")
        or not parts.hostname
        or text != f"{parts.scheme}://{parts.netloc}"
        or "@" in text
    ):
        raise argparse.ArgumentTypeError(f"{text} is no origin: give it as https://alarms.example")
    return text.lower()


def arguments(page: Optional[str]) -> Parser:
    """The parser of the tool, whose page this is."""
    words = Parser("alm_browser", page)
    add_places(words)
    words.add_argument(
        "--slots",
        type=int,
        choices=CONSOLES,
        nargs="+",
        default=[12],
        metavar="K",
        help="consoles' slots, of which one is taken; 12 where it is left out",
    )
    places = words.add_mutually_exclusive_group()
    places.add_argument("--listen", type=listen_port, metavar="PORT", help="a port of loopback; 0 for any that is free")
    places.add_argument("--socket", metavar="SOCKET", help="the path of a Unix socket")
    places.add_argument(
        "--tell", metavar="SOCKET", help="a Unix socket for an alm_browser with --from, and no browsers"
    )
    words.add_argument(
        "--from",
        dest="source",
        metavar="SOCKET",
        help="the socket of an alm_browser with --tell, in the place of servers",
    )
    words.add_argument(
        "--metrics",
        type=listen_port,
        metavar="PORT",
        help="a page of metrics at this port of 127.0.0.1, where plants are followed; 0 for any that is free",
    )
    add_users(words)
    add_plants(words)
    return words


def add_plants(words: Parser) -> None:
    """The arguments that say what the plants, their areas, alarms and positions are called and how they are told."""
    words.add_argument(
        "--name",
        dest="names",
        action="append",
        default=[],
        metavar="PLANT",
        help="the plant's name in the notes; its port, or the last part of its folder, where it is left out",
    )
    words.add_argument(
        "--areas", action="append", default=[], metavar="FILE", help="the names of the areas, one a line"
    )
    words.add_argument(
        "--details",
        action="append",
        default=[],
        metavar="FILE",
        help="what operators are told of each alarm: units, texts, responses (docs/TABLE.md)",
    )
    words.add_argument(
        "--language",
        default=ENGLISH,
        metavar="WORDS",
        help=f"the page's language: {', '.join(shipped())}, or a file of words (docs/CONTROL_ROOM.md)",
    )
    words.add_argument(
        "--positions",
        metavar="FILE",
        help="the positions of the control room: areas, roles, what each may (docs/CONTROL_ROOM.md)",
    )


def add_users(words: Parser) -> None:
    """The arguments that say how browsers name it, what their users may do, and who is noted."""
    words.add_argument(
        "--origin", type=origin, metavar="ORIGIN", help="how browsers name it, if that isn't http://127.0.0.1:PORT"
    )
    words.add_argument(
        "--proxy",
        type=origin,
        metavar="ORIGIN",
        help="with --socket: how browsers name the proxy whose headers are trusted",
    )
    words.add_argument(
        "--group", type=group_of, metavar="GROUP", help="with --socket or --tell: the group that may open it"
    )
    words.add_argument(
        "--role", choices=ROLES, default="operator", help="what the token lets one do; %(default)s where it is left out"
    )
    words.add_argument(
        "--out-of-service",
        choices=ROLES[1:],
        default=ACTIONS["OOS"][0],
        help="the role that takes alarms out of service; %(default)s where it is left out",
    )
    words.add_argument(
        "--most",
        type=int,
        choices=range(1, MOST_ALARMS + 1),
        default=MOST_AT_ONCE,
        metavar="N",
        help="alarms that are shelved, taken out of service or given a priority at once; %(default)s where it is left"
        " out",
    )
    words.add_argument(
        "--user",
        default=None,
        metavar="NAME",
        help="with a token: the name that is kept with an action; the user's who starts it where it is left out",
    )
    words.add_argument(
        "--notes", metavar="FILE", help="a file of SQLite for who asked, and why; it is made if it isn't there"
    )


def given_plants(words: Parser, chosen: argparse.Namespace) -> list[Given]:
    """The plants that the words name. Whom another part tells them has none."""
    if chosen.source:
        return []
    places = places_of_servers(words, chosen)
    names = of_each(words, "--name", chosen.names, len(places)) if chosen.names else list(map(name_of, places))
    short = names_of_servers(words, names) if len(names) > 1 else names
    areas = of_each(words, "--areas", chosen.areas, len(places))
    details = of_each(words, "--details", chosen.details, len(places))
    return [Given(*one) for one in zip(places, names, short, areas, details)]


def judge(words: Parser, chosen: argparse.Namespace) -> None:
    """Refuses words that don't go together."""
    if chosen.source and (chosen.places or chosen.tell):
        words.error("--from is in the place of --port and --sockets, and of --tell")
    if chosen.socket is None and chosen.listen is None and chosen.tell is None:
        words.error("one of the arguments --listen --socket --tell is required")
    if chosen.proxy and chosen.listen is not None:
        words.error("--proxy wants --socket: headers are trusted over a Unix socket alone")
    if chosen.proxy and chosen.origin:
        words.error("--proxy names the origin: leave --origin out")
    if chosen.socket and not (chosen.proxy or chosen.origin):
        words.error("--socket wants --proxy or --origin: how browsers name it")
    if chosen.group is not None and chosen.listen is not None:
        words.error("--group wants --socket")
