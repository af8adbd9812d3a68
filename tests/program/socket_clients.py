"""Servers at sockets or ports, and what clients ask there."""
import os
import socket
import subprocess

from lib.program import check


class Served:
    """A server over a device at a place, to the end of a block."""

    def __init__(self, program, device, *place, **more):
        self.process = subprocess.Popen(
            [program, "serve", device, *place], stdout=subprocess.PIPE, stderr=subprocess.PIPE, **more
        )
        self.line = self.process.stdout.readline()

    def __enter__(self):
        return self

    def __exit__(self, *_):
        self.process.kill()
        self.process.communicate()


def connect(place, slot):
    """A connection to a slot at a folder or a first port."""
    if isinstance(place, int):
        return socket.create_connection(("127.0.0.1", place + slot), timeout=10)
    client = socket.socket(socket.AF_UNIX)
    client.settimeout(10)
    client.connect(os.path.join(place, str(slot)))
    return client


def replies(client, count):
    came = b""
    while came.count(b"\n") < count:
        try:
            piece = client.recv(65_536)
        except TimeoutError:
            piece = b""
        check(piece, "no more came behind", came)
        came += piece
    return came


def ask(place, slot, line):
    with connect(place, slot) as client:
        client.sendall(line)
        return replies(client, 1)


LINES = [
    b"1 CLOCK 1000",
    b"2 VAL 0 800",
    b"3 ACK 0",
    b"4 STATE 0",
    b"5 SHELVE 1 60",
    b"6 LIST P 1",
    b"7 FLOOD 0",
    b"x",
    b"9 DESIGN 2 ON",
    b"10 CHATTER",
]
