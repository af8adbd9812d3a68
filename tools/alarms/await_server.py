"""Waits until a server's slots are open, and gives their sockets to groups.

    alm_await_server --port P [--pid PID]
    alm_await_server --sockets FOLDER [--pid PID] [--groups CONSOLES FEED CLOCK] [--let USER SLOT..]

It ends once the last slot can be connected to. With --pid it also ends, with status 0, where that process has ended:
whoever started the server sees its status. With --groups the sockets 0 to 15, 16 and 17 then belong to these groups;
whoever runs this owns the sockets and is in the groups. A socket that has no group of these yet is its owner's alone.
With --let this user may open the sockets of these slots too, by access control lists. A file system without such lists
is said, and nothing else.
"""
import argparse
import errno
import os
import pwd
import struct
import time
from typing import Any, Iterable, Optional

from .client import CLOCK, CONSOLES, FEED, Lost, Place, open_slot
from .arguments import Parser, add_port, group_of, whole_number
from .ending import end_of, sayer

# Seconds between two tries, and for one.
PAUSE, PATIENCE = 0.1, 5.0
# An access control list as Linux keeps it (linux/posix_acl_xattr.h): its version, and entries of a tag, permissions and
# a number. Read and write are 6.
ACL, VERSION, MAY, NOBODY = "system.posix_acl_access", 2, 6, 0xFFFFFFFF
OWNER, NAMED_USER, GROUP, MASK, OTHERS = 0x01, 0x02, 0x04, 0x10, 0x20
# A user's number, and a slot.
Let = tuple[int, int]

say = sayer("await_server")


def runs(pid: int | None) -> bool:
    """Whether a process runs; so it is where none is named."""
    try:
        if pid is not None:
            os.kill(pid, 0)
    except ProcessLookupError:
        return False
    return True


def is_open(place: Place) -> bool:
    """Whether the last slot can be connected to."""
    try:
        open_slot(place, CLOCK, PATIENCE).close()
    except Lost:
        return False
    return True


def share(folder: str, groups: list[int]) -> None:
    """Gives each socket to the group of its role."""
    consoles, feed, clock = groups
    for slot, group in [*((slot, consoles) for slot in CONSOLES), (FEED, feed), (CLOCK, clock)]:
        os.chown(os.path.join(folder, str(slot)), -1, group)


def let(folder: str, user: int, slot: int) -> None:
    """Lets a user open the socket of a slot, besides its owner and its group."""
    entries = ((OWNER, MAY, NOBODY), (NAMED_USER, MAY, user), (GROUP, MAY, NOBODY), (MASK, MAY, NOBODY))
    packed = [struct.pack("<HHI", *entry) for entry in (*entries, (OTHERS, 0, NOBODY))]
    try:
        os.setxattr(os.path.join(folder, str(slot)), ACL, struct.pack("<I", VERSION) + b"".join(packed))
    except OSError as error:
        if error.errno != errno.EOPNOTSUPP:
            raise
        say(f"{folder} has no access control lists: user {user} may not open slot {slot}")


def await_server(place: Place, pid: Optional[int], groups: Optional[list[int]], lets: Iterable[Let] = ()) -> None:
    """Returns once the slots are open, and their sockets are the groups' and users'; or the process has ended."""
    while not is_open(place):
        if not runs(pid):
            return
        time.sleep(PAUSE)
    if not isinstance(place, str):
        return
    if groups:
        share(place, groups)
    for user, slot in lets:
        let(place, user, slot)


class LetAction(argparse.Action):
    """Takes a user by name, and slots."""

    def __call__(self, parser: argparse.ArgumentParser, namespace: Any, values: Any, _option: Any = None) -> None:
        name, *slots = values
        if not slots:
            parser.error("--let wants a user and a slot or more")
        for wrong in [slot for slot in slots if slot not in map(str, range(CLOCK + 1))]:
            parser.error(f"there is no slot {wrong}")
        try:
            user = pwd.getpwnam(name).pw_uid
        except KeyError:
            parser.error(f"there is no user {name}")
        setattr(namespace, self.dest, [*getattr(namespace, self.dest), *((user, int(slot)) for slot in slots)])


def main() -> None:
    words = Parser("alm_await_server", __doc__)
    add_port(words)
    words.add_argument("--pid", type=whole_number, metavar="PID", help="end where this process has ended")
    words.add_argument(
        "--groups",
        type=group_of,
        nargs=3,
        metavar=("CONSOLES", "FEED", "CLOCK"),
        help="the groups of the sockets, by name",
    )
    words.add_argument(
        "--let",
        action=LetAction,
        default=[],
        nargs="+",
        metavar=("USER", "SLOT"),
        help="a user who may open the sockets of these slots too",
    )
    chosen = words.parse_args()
    end_of("await_server", lambda: await_server(chosen.port, chosen.pid, chosen.groups, chosen.let))


if __name__ == "__main__":
    main()
