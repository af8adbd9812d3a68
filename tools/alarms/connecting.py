"""How a slot of a server is connected to: by a port at one of some addresses, or by a socket in a folder."""
import os
import socket
from dataclasses import dataclass
from typing import Union
from .ending import Fault


HOST = "127.0.0.1"


# Seconds to wait for a reply. A slot that another client has gives none until that one leaves.
PATIENCE = 5.0


class Lost(Fault):
    """The connection ended, or no reply came in time: whether the last requests were done isn't known."""


class NoAnswer(Lost):
    """The slot took the connection, and no reply came in time: another client may have it."""


@dataclass(frozen=True)
class Hosts:
    """The port of slot 0 at one of these addresses, the first that takes a connection: a server, or what stands for it
    elsewhere."""

    port: int
    addresses: tuple[str, ...]


# Where a server is: the port of its slot 0 on loopback or at other addresses, or the folder of its sockets.
Place = Union[int, str, Hosts]


def open_slot(place: Place, slot: int, patience: float) -> socket.socket:
    """A stream to a slot of a server."""
    if isinstance(place, str):
        return open_socket(os.path.join(place, str(slot)), patience)
    if isinstance(place, int):
        return open_port(HOST, place + slot, f"port {place + slot}", patience)
    said = []
    for address in place.addresses:
        try:
            return open_port(address, place.port + slot, f"{address} port {place.port + slot}", patience)
        except Lost as lost:
            said.append(str(lost))
    raise Lost("; ".join(said))


def places_of(place: Place) -> tuple[Place, ...]:
    """The addresses of a place one by one: what listens at one may have no server behind it."""
    return tuple(Hosts(place.port, (address,)) for address in place.addresses) if isinstance(place, Hosts) else (place,)


def open_port(address: str, number: int, name: str, patience: float) -> socket.socket:
    """A stream to a port. A machine that has gone without a word is noticed within half a minute, also while nothing is
    asked."""
    try:
        stream = socket.create_connection((address, number), timeout=patience)
    except OSError as error:
        raise Lost(f"{name}: {error.strerror or error}") from error
    stream.setsockopt(socket.IPPROTO_TCP, socket.TCP_NODELAY, 1)
    for option, value in ((socket.TCP_KEEPIDLE, 10), (socket.TCP_KEEPINTVL, 5), (socket.TCP_KEEPCNT, 4)):
        stream.setsockopt(socket.IPPROTO_TCP, option, value)
    stream.setsockopt(socket.SOL_SOCKET, socket.SO_KEEPALIVE, 1)
    return stream


def open_socket(path: str, patience: float) -> socket.socket:
    """A stream to the socket at a path."""
    stream = socket.socket(socket.AF_UNIX)
    stream.settimeout(patience)
    try:
        stream.connect(path)
    except OSError as error:
        stream.close()
        raise Lost(f"{path}: {error.strerror or error}") from error
    return stream
