"""Keeps the accepted actions of a served plant, and what they annunciated, in SQLite or PostgreSQL.

    alm_archive run DATABASE --port P --name PLANT  archives what comes, until it is ended
    alm_archive run DEVICE DATABASE --stopped       archives a device that isn't served, up to its end
    alm_archive list DATABASE                       the plants of an archive, their actions and gaps
    alm_archive prune DATABASE --name PLANT --before 2026-01-31     takes away what is older

DATABASE is the path of a SQLite file, which is made if it isn't there, or a database of PostgreSQL as
postgresql://USER@HOST/NAME. For that it needs psycopg (Debian: python3-psycopg). Without --name the plant is called by
the server's port or folder, with --stopped by the device file, without its ending.

It asks the server alone, by its lines, on any machine. Each action is archived once, under its number, with the slot
that asked, and only once a query shows it: so none that a power failure could take. It asks at a console's slot: 13, or
--slot K. A new archive begins with the rows as they are. After a pause it goes on with what the server remembers:
65,536 actions, and none of before its start. What is gone is kept as a gap, and told. Floods begin and end at the look
that sees them. While the server can't be reached it tries again. If the table was changed, or an older copy of the
device was put in its place, the archive goes on with another plant of the same name.

What came just before the server ended is on its device. With --stopped that is archived, as far back as the device
reaches; the slot that asked is known of a device of version 03 alone. Before a stopped device is put aside, do that:
else the archive has a gap with an open end where the next plant begins. The units do it with --existing, once the
server is stopped and over a copy from before its next start. An archiver by lines goes on from there.

What each action did is computed. So once an hour, where a plant begins and behind each gap, each row is held against
what the server shows (ROW). What differs is logged, and told by reports and by a page of metrics, --metrics PORT.

With --once it archives what is there and ends. With --seconds S it ends after S seconds.
"""
import argparse
import contextlib
import fcntl
import os
import time
from typing import Iterator

from .client import Lost
from .arguments import Parser, add_port, add_slot, listen_port, name_of, seconds
from .ending import end_of, sayer
from .archiver import Archiver
from .device_file import Damaged, NoDevice
from .judging import read_once
from .line_follower import LineFollower
from .metrics_page import show_page
from .mirror import Follower
from .served import Served
from .store import Store, is_there
from .upkeep import list_plants, prune
from .moments import moment_of

# Seconds between two looks.
PAUSE = 0.2
# What is said of a DEVICE that is served.
OF_A_DEVICE = (
    "a served plant is archived by its lines: alm_archive run DATABASE --port P --name PLANT; its DEVICE by --stopped,"
    " once the server has ended"
)

say = sayer("alm_archive")


@contextlib.contextmanager
def stopped(path: str) -> Iterator[None]:
    """Holds a device that isn't served, and brings to the disk what was written of it: what is read then no power
    failure takes."""
    device = os.open(path, os.O_RDONLY | os.O_CLOEXEC)
    try:
        fcntl.flock(device, fcntl.LOCK_SH | fcntl.LOCK_NB)
        os.fsync(device)
        # behind a failed sync the kernel may show what the disk never took
        os.posix_fadvise(device, 0, 0, os.POSIX_FADV_DONTNEED)
        yield
    except BlockingIOError:
        raise NoDevice(f"{path} is served, or in use: stop that first, or say where the server is") from None
    finally:
        os.close(device)


def run_stopped(chosen: argparse.Namespace, name: str) -> None:
    """Archives a stopped device up to its end; with `existing` only where there is an archive."""
    if chosen.existing and not is_there(chosen.database):
        return
    with stopped(chosen.device), Store.open(chosen.database, make=True) as store, Follower(chosen.device) as follower:
        archiver = Archiver(store, name, follower)
        try:
            archiver.look_on()
        except Damaged as damage:
            archiver.close_damaged(damage.at)
            raise
        reading = read_once(chosen.device)
        if reading.closed:
            archiver.close_damaged(reading.closed.at)
            raise NoDevice(str(reading.closed))
        if archiver.is_behind():
            archiver.restart()
            archiver.look_on()
        archiver.close()
        if reading.damage:  # of a checkpoint that the half before it made up for
            raise reading.damage
        print(f"{name}: plant {archiver.plant.number}, {archiver.plant.last} actions, to its end")


def name_of_plant(chosen: argparse.Namespace) -> str:
    """A plant's name where none is given: by its device, or by where its server is."""
    return os.path.splitext(os.path.basename(chosen.device))[0] if chosen.device else name_of(chosen.port)


def run(chosen: argparse.Namespace) -> None:
    """Archives until it is ended."""
    name = chosen.name or name_of_plant(chosen)
    if chosen.stopped:
        return run_stopped(chosen, name)
    served = Served(chosen.port, chosen.slot, say)
    with Store.open(chosen.database, make=True) as store, LineFollower(chosen.port, served) as follower:
        archiver = Archiver(store, name, follower)
        if chosen.metrics is not None:
            show_page(chosen.metrics, archiver.metrics, say)
        if chosen.once:
            served.say = lambda *_: None
            return archive_once(archiver, served)
        ends = None if chosen.seconds is None else time.monotonic() + chosen.seconds
        while ends is None or time.monotonic() < ends:
            try:
                any_news = archiver.look()
            except NoDevice as fault:  # an action that no row admits: the next look has later rows
                served.say_once(str(fault), "- trying again")
                any_news = False
            if not any_news:
                time.sleep(PAUSE)


def archive_once(archiver: Archiver, served: Served) -> None:
    """Archives what the server shows by now."""
    archiver.look_on()
    if not served.is_there or archiver.kept is None:
        raise Lost(served.said)
    print(f"{archiver.name}: plant {archiver.plant.number}, {archiver.plant.last} actions")


def arguments() -> Parser:
    """The parser of the tool and of each of its commands."""
    words = Parser("alm_archive", __doc__)
    commands = words.add_subparsers(required=True, metavar="COMMAND", parser_class=Parser)
    command = commands.add_parser("run", help="archive a served plant")
    command.add_argument("device", metavar="DEVICE", nargs="?", help="with --stopped: the device file")
    command.add_argument("database", metavar="DATABASE", help="a file of SQLite, or a database of PostgreSQL")
    add_port(command, required=False)
    add_slot(command, 13)
    command.add_argument("--stopped", action="store_true", help="the device isn't served: archive it up to its end")
    command.add_argument("--existing", action="store_true", help="with --stopped: do nothing where there is no archive")
    command.add_argument(
        "--name",
        metavar="PLANT",
        help="the plant's name in the archive; else that of the device file, the port or the folder",
    )
    command.add_argument(
        "--metrics",
        type=listen_port,
        metavar="PORT",
        help="a page of metrics at this port of 127.0.0.1; 0 for any that is free",
    )
    command.add_argument("--once", action="store_true", help="archive what is there, and end")
    command.add_argument("--seconds", type=seconds, metavar="S", help="end after S seconds")
    command.set_defaults(does=run)
    command = commands.add_parser("list", help="print the plants of an archive")
    command.add_argument("database", metavar="DATABASE")
    command.set_defaults(does=list_plants)
    command = commands.add_parser("prune", help="take away what is older than a moment")
    command.add_argument("database", metavar="DATABASE")
    command.add_argument("--name", metavar="PLANT", required=True)
    command.add_argument(
        "--before",
        type=moment_of,
        metavar="MOMENT",
        required=True,
        help="a date as 2026-01-31, or seconds of the plant's clock",
    )
    command.set_defaults(does=prune)
    return words


def main() -> None:
    words = arguments()
    chosen = words.parse_args()
    if chosen.does is run and (chosen.port is None) != chosen.stopped:
        words.error("one of --port, --sockets and --stopped is required, and no two of them")
    if chosen.does is run and chosen.stopped != (chosen.device is not None):
        words.error("--stopped wants a DEVICE" if chosen.stopped else OF_A_DEVICE)
    end_of("alm_archive", lambda: chosen.does(chosen))


if __name__ == "__main__":
    main()
