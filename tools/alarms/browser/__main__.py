"""The alarm list of a served plant in a browser, for up to fifteen operators.

    alm_browser --port P --listen 8090
    alm_browser --sockets FOLDER --socket SOCKET --proxy https://alarms.example
    alm_browser --port 5000 --port 5020 --name north --name south --listen 8090

It asks the server at one console's slot: 12, or the first of --slots K.. that answers. With --listen it is at
http://127.0.0.1:8090, and prints the address with the token that lets a browser in; once it was used, another one. With
--socket it is at a Unix socket. There it wants the token too, or with --proxy trusts the headers X-Alarms-User and
X-Alarms-Role of a proxy that authenticates. Whoever may write to that socket may then be anybody: give it to the
proxy's group alone, by --group.

It can be two processes, so that the one that the network reaches has no slot. One follows the plants and keeps the
notes, with --tell SOCKET in the place of --listen or --socket; the other is given that by --from SOCKET in the place of
the servers. Each takes the words of the other and leaves them alone.

Who asked for an action and why is kept by the action's number, with --notes FILE in a file of SQLite, else until it
ends.

What it draws is held against the server's rows, each within half a minute. What the server denies is logged, told on
the page, and counted on a page of metrics, --metrics PORT, of the process that follows the plants.

Several plants are one list. Each has its --port or --sockets, and if any has its --name and its --areas, in the same
order. Slots and notes are for all. An action goes to the alarm's own server, and one server that is lost is said by its
plant's name while the others go on.
"""
import argparse
import asyncio
import importlib.util

from ..ending import Fault, end_of
from .arguments import Given, arguments, given_plants, judge
from .complaints import tell_seldom


def run(chosen: argparse.Namespace, plants: list[Given]) -> None:
    """Serves, if the library is here."""
    if importlib.util.find_spec("aiohttp") is None:
        raise Fault("the library aiohttp isn't installed (Debian: python3-aiohttp)")
    from .serving import serve

    asyncio.run(serve(chosen, plants))


def main() -> None:
    words = arguments(__doc__)
    chosen = words.parse_intermixed_args()
    plants = given_plants(words, chosen)
    judge(words, chosen)
    tell_seldom("alm_browser")
    end_of("alm_browser", lambda: run(chosen, plants))


if __name__ == "__main__":
    main()
