"""The processes of the alarm list in a browser: what follows the plants, what browsers ask, and both in one."""
import argparse
import asyncio
import functools
import getpass
import os
import signal
from dataclasses import dataclass
from pathlib import Path
from typing import Any, Callable, Optional, Sequence

from aiohttp import web

from ..connecting import HOST
from ..details_file import Details, differences, load_details
from ..ending import sayer
from ..known import known
from ..metrics_page import show_page
from .arguments import Given
from .batch import Batch
from .board import BrowserBoard
from .doors import Door
from .gate import BACKLOG, Gate, most_connections
from .language import ENGLISH, Words, load_words, word_lines
from .list_metrics import list_metrics
from .listening import Ended, open_port, open_socket
from .notes import Notes
from .orders import MOST_ALARMS, Order, Rules
from .positions import Desks, area_lines, load_positions
from .relay import MOST_ORDER, Source, Teller
from .watch import STOP, Watch
from .watched_server import WatchedServer
from .web import Site

say = sayer("alm_browser")


@dataclass(frozen=True)
class Shown:
    """What browsers are shown and may ask: the boards, who takes orders, what operators may, and the page's words."""

    boards: Sequence[BrowserBoard]
    take: Callable[[Order], None]
    rules: Rules
    words: Words


def read_areas(path: Optional[str]) -> list[str]:
    if path is None:
        return []
    try:
        return [line.strip() for line in Path(path).read_text(encoding="utf-8").splitlines()]
    except UnicodeDecodeError:
        raise Ended(f"{path}: it isn't UTF-8") from None


def read_details(path: Optional[str]) -> dict[str, Details]:
    return load_details(path) if path else {}


def told_details(details: dict[str, Details]) -> dict[str, list[Any]]:
    """The details as the page has them: model.js has the names of the places."""
    return {
        tag: [
            one.unit,
            str(one.scale),
            one.decimals,
            one.text,
            one.cause,
            one.consequence,
            one.response,
            one.respond,
            one.display,
        ]
        for tag, one in details.items()
    }


def rules_of(chosen: argparse.Namespace, desks: Optional[Desks]) -> Rules:
    return Rules(chosen.out_of_service, chosen.most, desks)


def read_desks(chosen: argparse.Namespace, plants: list[Given]) -> Optional[Desks]:
    """The positions of the file, where there is one."""
    if not chosen.positions:
        return None
    names = [plant.short for plant in plants]
    return Desks(load_positions(chosen.positions, names, MOST_ALARMS, chosen.most))


def user_of(chosen: argparse.Namespace) -> str:
    if chosen.user is not None:
        return chosen.user
    try:
        return getpass.getuser()
    except (KeyError, OSError):
        return str(os.getuid())


def follow(
    number: int,
    plant: Given,
    chosen: argparse.Namespace,
    say_of: Callable[..., None],
    fail: Callable[[Exception], None],
    desks: Optional[Desks],
) -> tuple[BrowserBoard, Watch]:
    """What browsers are told of a plant, and the thread that will follow it."""
    loop, shown = asyncio.get_running_loop(), WatchedServer(plant.place, chosen.slots, say_of)
    details = read_details(plant.details)
    board = BrowserBoard(number, plant.short, read_areas(plant.areas), told_details(details), lambda: shown.answered)
    notes = Notes(chosen.notes or ":memory:", plant.name)
    if desks and number == 0:
        desks.restore(notes.holders())

    def judge(batch: Batch) -> None:
        """Holds the files against the plant."""
        for line in differences(details, (tag for tag, *_ in batch.table)) if details else ():
            say_of(f"{plant.details}: {line}")
        for line in area_lines(desks.positions, number, len(batch.head["floods"])) if desks else ():
            say_of(f"{chosen.positions}: {line}")

    def tell(batch: Batch) -> None:
        if batch.is_whole and batch.era and batch.era != board.era:
            judge(batch)
        loop.call_soon_threadsafe(board.take, batch)

    return board, Watch(shown, notes, tell, fail, desks, number)


def followed(
    chosen: argparse.Namespace, plants: list[Given], fail: Callable[[Exception], None], desks: Optional[Desks]
) -> tuple[tuple[BrowserBoard, ...], tuple[Watch, ...]]:
    """Of each plant what browsers are told, and the thread that follows it."""
    says: list[Callable[..., None]] = [say] * len(plants)
    if len(plants) > 1:
        says = [functools.partial(say, f"{plant.name}:") for plant in plants]
    boards, watches = zip(
        *(follow(number, plant, chosen, says[number], fail, desks) for number, plant in enumerate(plants))
    )
    return boards, watches


def taker(watches: Sequence[Watch], desks: Optional[Desks]) -> Callable[[Order], None]:
    """What takes orders: each goes to its plant. Who takes or leaves a position has done so here, and each plant notes
    what stands there."""

    def take(order: Order) -> None:
        if not order.is_shift:
            return watches[order.plant].orders.put(order)
        asker = order.asker
        why = known(desks).change(order.word, known(order.value), asker.user, asker.role, asker.reason)
        if why:
            return order.refuse(why)
        for watch in watches:
            watch.orders.put(order)

    return take


def failing(ended: "asyncio.Future[None]") -> Callable[[Any], None]:
    """What a thread or a task calls whose fault ends the process."""
    loop = asyncio.get_running_loop()

    def fail(fault: Any) -> None:
        loop.call_soon_threadsafe(lambda: ended.done() or ended.set_exception(fault))

    return fail


def read_language(name: str) -> Words:
    """The words of the page; what a file has too few or too many is said."""
    words = load_words(name)
    for line in word_lines(words):
        say(f"{name}: {line}")
    return words


async def serve(chosen: argparse.Namespace, plants: list[Given]) -> None:
    """Serves until a signal, or until what follows a plant has failed."""
    words = read_language(ENGLISH if chosen.tell else chosen.language)
    loop, ended = asyncio.get_running_loop(), asyncio.get_running_loop().create_future()
    for number in (signal.SIGTERM, signal.SIGINT):
        loop.add_signal_handler(number, lambda: ended.done() or ended.set_result(None))
    if chosen.source:
        await serve_from(chosen, words, ended)
        return
    desks = read_desks(chosen, plants)
    listening = opened(chosen)
    boards, watches = followed(chosen, plants, failing(ended), desks)
    if chosen.metrics is not None:
        names = [plant.name for plant in plants]
        show_page(chosen.metrics, lambda: list_metrics(dict(zip(names, watches))), say)
    order, rules = taker(watches, desks), rules_of(chosen, desks)
    begin = lambda: [watch.thread.start() for watch in watches]
    try:
        if chosen.tell:
            await tell(chosen, listening, Teller(boards, order, rules), begin, ended)
        else:
            await show(chosen, listening, Shown(boards, order, rules, words), begin, ended)
    finally:
        for watch in watches:
            watch.orders.put(STOP)
        await asyncio.gather(
            *(loop.run_in_executor(None, watch.thread.join, 3) for watch in watches if watch.thread.is_alive())
        )


async def serve_from(chosen: argparse.Namespace, words: Words, ended: "asyncio.Future[None]") -> None:
    """Serves browsers what another process tells."""
    source = Source(chosen.source, say)
    following = asyncio.create_task(source.follow())
    following.add_done_callback(lambda task: task.cancelled() or failing(ended)(task.exception()))
    there = asyncio.create_task(source.is_there.wait())
    try:
        waits: list[asyncio.Future[Any]] = [there, ended]
        await asyncio.wait(waits, return_when=asyncio.FIRST_COMPLETED)
        if not ended.done():
            shown = Shown(source.boards, source.take, rules_of(chosen, source.desks()), words)
            await show(chosen, opened(chosen), shown, lambda: None, ended)
        await ended
    finally:
        there.cancel()
        following.cancel()


def opened(chosen: argparse.Namespace) -> Any:
    """The socket that listens."""
    path = chosen.socket or chosen.tell
    return open_port(chosen.listen) if path is None else open_socket(path, chosen.group)


async def tell(
    chosen: argparse.Namespace,
    listening: Any,
    teller: Teller,
    begin: Callable[[], object],
    ended: "asyncio.Future[None]",
) -> None:
    """Tells the other part until the end."""
    server = await asyncio.start_unix_server(teller.serve, sock=listening, limit=MOST_ORDER)
    begin()
    print(f"alm_browser: {chosen.tell}", flush=True)
    try:
        await ended
    finally:
        server.close()
        Path(chosen.tell).unlink(missing_ok=True)


async def show(
    chosen: argparse.Namespace, listening: Any, shown: Shown, begin: Callable[[], object], ended: "asyncio.Future[None]"
) -> None:
    """Shows browsers the plants until the end."""
    place = chosen.proxy or chosen.origin or f"http://{HOST}:{listening.getsockname()[1]}"
    door = Door(
        place,
        bool(chosen.proxy),
        user_of(chosen),
        chosen.role,
        shown.rules,
        lambda address: print(f"alm_browser: {address}", flush=True),
    )
    runner = web.AppRunner(Site(door, shown.boards, shown.take, shown.words).application(), access_log=None)
    await runner.setup()
    connections = runner.server
    assert connections is not None  # after setup
    gate = Gate(connections, most_connections())
    server = await asyncio.get_running_loop().create_server(gate, sock=listening, backlog=BACKLOG)
    begin()
    door.open()
    try:
        await ended
    finally:
        server.close()
        await runner.shutdown()
        await connections.shutdown(1)
        await runner.cleanup()
        if chosen.socket:
            Path(chosen.socket).unlink(missing_ok=True)
