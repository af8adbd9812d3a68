"""The alarm list in a browser behind a relay that holds what goes through it. tests/tools/browser.py runs this."""
import contextlib
import socket
import sqlite3
import threading
import time
from lib.browsers import List, Page, Plant
from lib.program import check, free_ports
from lib.tools import Yard


class Relay:
    """Stands between alm_browser and a slot of the server. What it is told to it does before it passes an ACK on, and
    it may end there."""

    def __init__(self, port: int, slot: int):
        self.port, self.before, self.ends = free_ports(), lambda: None, False
        self.listening = socket.create_server(("127.0.0.1", self.port + slot))
        self.server = port + slot
        threading.Thread(target=self.run, daemon=True).start()

    def run(self) -> None:
        while True:
            try:
                client, _ = self.listening.accept()
            except OSError:
                return
            with contextlib.suppress(OSError), client, socket.create_connection(("127.0.0.1", self.server)) as server:
                threading.Thread(target=self.back, args=(server, client), daemon=True).start()
                for line in client.makefile("rb"):
                    self.forward(line, client, server)
                server.shutdown(socket.SHUT_RDWR)  # the other thread waits for it

    def forward(self, line: bytes, client: socket.socket, server: socket.socket) -> None:
        is_acknowledgement = b" ACK " in line
        if is_acknowledgement:
            self.before()
        server.sendall(line)
        if is_acknowledgement and self.ends:
            time.sleep(0.5)  # the server does it, and nobody hears
            client.shutdown(socket.SHUT_RDWR)

    def back(self, server: socket.socket, client: socket.socket) -> None:
        try:
            while data := server.recv(65_536):
                if not self.ends or b" OK " not in data:
                    client.sendall(data)
        except OSError:
            pass


def between(yard: Yard, _count: int) -> str:
    """An annunciation between the look and the acknowledgement stays, and that is said; so is an acknowledgement whose
    reply never came."""
    plant = Plant(yard)
    plant.comes("TI-101", "LI-208")
    relay = Relay(plant.port, 12)
    listed = List(yard, plant.device, relay.port, "--user", "anna", "--notes", yard.path("notes.sqlite"))
    page = Page(yard, listed.url)
    page.shows("LI-208", "Unack")
    page.rest()
    relay.before = lambda: (plant.goes("TI-101"), plant.comes("TI-101"))
    page.choose("TI-101")
    page.act("ACK")
    page.says("TI-101: it has come again since it was seen: look again")
    check(plant.shown("TI-101") == "UNACK", "an annunciation that nobody saw is acknowledged")
    relay.before, relay.ends = (lambda: None), True
    page.choose("LI-208")
    page.act("ACK")
    page.says("LI-208: no reply came")
    relay.ends = False
    page.until("the server again", lambda: page.of("#trouble") == "" or "clock" in page.of("#trouble"))
    page.shows("LI-208", "Acked")
    with sqlite3.connect(yard.path("notes.sqlite")) as kept:
        rows = list(kept.execute("SELECT tag, number IS NULL, outcome, user FROM note ORDER BY id"))
    again = "it has come again since it was seen: look again"
    check(rows == [("TI-101", 1, again, "anna"), ("LI-208", 1, "no reply", "anna")], "the notes are", rows)
    page.end()
    listed.end()
    plant.end()
    return "between look and action"
