"""The pair at work: clients that ask through the page's relays, and what an administrator does on the machines."""
import argparse
import os
import random
import re
import shutil
import socket
import subprocess
import threading
import time
from typing import Optional

from machine import Packages
from pair import STANDBY, Node, Pair
from lib.program import PLANT, TESTS
from lib.tools import await_true

from alarms.client import Client, Lost, OtherPlant, Refused

PAGE = os.path.join(TESTS, "..", "docs", "STANDBY.md")
SLOTS = (0, 5, 16, 17)
PORT = 5000  # as the page's relay of a machine with clients has it
DISK = 64 << 20
# How long a client waits for a reply: longer than any part of a round in which nothing is answered.
PATIENCE = 300.0
BOOT, STEP = 300, 120
ROLES = {
    "alarms-a": "server",
    "alarms-b": "server",
    "clients": "consoles feed clock",
    "desk": "consoles",
    "feed": "feed",
}


class Asker(threading.Thread):
    """A client at a slot, which asks for one action after another, and connects again wherever its connection ends."""

    def __init__(self, slot: int, seed: int, plant: str = "plant", port: int = PORT):
        super().__init__(daemon=True)
        self.slot, self.dice = slot, random.Random(f"{seed} {slot} {plant}")
        self.plant, self.port = plant, port
        self.answered: dict[int, tuple[str, float]] = {}
        self.unanswered: list[str] = []
        self.seen, self.moment = 0, 3_000_000
        self.wrong: Optional[str] = None
        self.stopping = threading.Event()

    def draw(self) -> str:
        """A request of the slot's role."""
        alarm = self.dice.randrange(4)
        if self.slot == 17:
            self.moment += self.dice.randrange(1, 60)
            return f"CLOCK {self.moment}"
        if self.slot == 16:
            return f"VAL {alarm} {self.dice.choice([0, 1, 49, 50, 90, 110, 789, 790, 800, 900])}"
        return self.dice.choice(
            [
                f"ACK {alarm}",
                f"ACK {alarm}",
                f"SHELVE {alarm} {self.dice.randrange(1, 4000)}",
                f"UNSHELVE {alarm}",
                f"RESET {alarm}",
                f"PRIO {alarm} {self.dice.randrange(1, 5)}",
            ]
        )

    def run(self) -> None:
        while not self.stopping.is_set():
            try:
                with Client.connect(self.port, self.slot, PATIENCE, self.seen) as client:
                    client.action_count()
                    self.ask_on(client)
            except Lost:
                time.sleep(0.05)
            except OtherPlant as other:
                self.wrong = str(other)
                self.seen = 0

    def ask_on(self, client: Client) -> None:
        """Asks until the connection ends. What has no answer is noted."""
        while not self.stopping.is_set():
            request = self.draw()
            try:
                number = client.act(request)
            except Refused:
                continue
            except Lost:
                self.unanswered.append(request)
                raise
            self.seen = client.seen
            if number in self.answered:
                self.wrong = f"two answers at slot {self.slot} have number {number}"
            self.answered[number] = (request, time.monotonic())


class Site:
    """The pair, the clients and their relay, and what has been answered."""

    def __init__(self, words: argparse.Namespace, packages: Packages, program: str, folder: str, seed: int):
        self.program, self.folder, self.packages, self.seed = program, folder, packages, seed
        self.certificates = make_certificates(folder)
        with open(PLANT, encoding="utf-8") as file:
            table = re.sub(r"(?m)^size = \d+", f"size = {words.size}", file.read())
        self.pair = Pair(packages, program, folder, self.certificates, free_cable(), table)
        self.first, self.second = self.pair.nodes.values()
        self.askers = [Asker(slot, seed) for slot in SLOTS]
        self.dice, self.load = random.Random(seed), words.load
        self.relay: Optional[subprocess.Popen] = None
        self.blocks = page_blocks()

    def set_up(self, without: str = "", asks: bool = True) -> None:
        """Both machines are installed, and the first serves. `without` are lines of the resource's file that are left
        out."""
        self.begin(*self.pair.nodes.values())
        for node in self.pair.nodes.values():
            self.install(node, without)
            node.run(self.blocks["The disk, on both machines"], STEP)
        await_true("a connection", lambda: "cs:Connected" in self.first.state(), STEP)
        self.first.run(self.blocks["The plants, on one machine"], STEP)
        self.first.until_equal(STEP)
        if asks:
            self.start_clients()

    def begin(self, *nodes: Node) -> None:
        """Begins to start machines, with empty disks."""
        for node in nodes:
            for disk in node.disks:
                with open(disk, "wb") as file:
                    file.truncate(DISK)
            node.start()

    def start_clients(self) -> None:
        self.start_relay()
        for asker in self.askers:
            asker.start()
        self.answers(20)

    def install(self, node: Node, without: str = "") -> None:
        """The page's files are copied to a machine that has started."""
        node.until("up\n", BOOT)
        node.run(self.blocks["Files, on both machines"], STEP)
        if without:
            node.run(
                f"grep -vE '{without}' /etc/drbd.d/alarms.res > /tmp/less\ncp /tmp/less /etc/drbd.d/alarms.res", STEP
            )

    def automatic(self, *nodes: Node) -> None:
        """Takeovers come by themselves, the machine that serves first."""
        for node in nodes:
            node.run(self.blocks["Take over by itself"], STEP)
            node.run(
                "until grep -qE 'Entering (MASTER|BACKUP) STATE' /tmp/keepalived; do usleep 100000; done; sleep 5", STEP
            )

    def start_relay(self) -> None:
        """The relay of the clients' machine, with its certificates' folder."""
        path = os.path.join(self.folder, "haproxy-client.cfg")
        with open(os.path.join(STANDBY, "haproxy-client.cfg"), encoding="utf-8") as file:
            text = re.sub(r"(?m)^    (user|group) .*\n", "", file.read().replace("/etc/haproxy", self.certificates))
        slots = text[text.index("listen slots") :]
        with open(path, "w", encoding="utf-8") as file:
            file.write(
                text
                + slots.replace("listen slots", "listen south")
                .replace("5000-5017", "5020-5037")
                .replace("port 6018", "port 6038")
            )
        shutil.copyfile(os.path.join(self.certificates, "clients.pem"), os.path.join(self.certificates, "alarms.pem"))
        with open(os.path.join(self.folder, "relay"), "wb") as log:
            self.relay = subprocess.Popen(
                [self.packages.find("haproxy"), "-db", "-f", path], env=self.packages.env, stdout=log, stderr=log
            )

    def count(self) -> int:
        return sum(len(asker.answered) for asker in self.askers)

    def answers(self, more: int, seconds: float = STEP) -> None:
        """Waits until so many more actions have been answered, some at each slot."""
        before, each = self.count(), [len(asker.answered) for asker in self.askers]
        await_true(
            f"{more} more answers",
            lambda: self.count() >= before + more
            and all(len(asker.answered) > was for asker, was in zip(self.askers, each)),
            seconds,
        )

    def work(self) -> None:
        """The clients ask for a drawn time."""
        time.sleep(self.load * (0.5 + self.dice.random()))

    def first_answer(self, since: float, plant: str = "") -> float:
        """Seconds from a moment to the first answer after it."""
        askers = [asker for asker in self.askers if plant in ("", asker.plant)]
        await_true(
            "an answer",
            lambda: any(at > since for asker in askers for _, at in list(asker.answered.values())[-1:]),
            STEP,
        )
        return min(at for asker in askers for _, at in list(asker.answered.values()) if at > since) - since

    def pause(self, since: float, plant: str) -> float:
        """The longest time without an answer since a moment, in seconds."""
        moments = sorted(
            at for asker in self.askers if asker.plant == plant for _, at in asker.answered.values() if at > since
        )
        return max(later - earlier for earlier, later in zip([since, *moments], moments))

    def rejoin(self, node: Node) -> float:
        """A machine that was off comes back, and is a standby then. The seconds from its connection on."""
        node.start()
        self.install(node)
        began = time.monotonic()
        node.run(self.blocks["A machine that comes back"], STEP)
        node.until_equal(STEP)
        return time.monotonic() - began

    def stop_clients(self) -> None:
        """Each client has the answer to its last request."""
        for asker in self.askers:
            asker.stopping.set()
        for asker in self.askers:
            asker.join(PATIENCE)

    def close(self) -> None:
        for asker in self.askers:
            asker.stopping.set()
        self.pair.close()
        if self.relay:
            self.relay.kill()
            self.relay.wait()


def free_cable() -> dict[int, int]:
    """The ports of the cable's ends, in this namespace."""
    with socket.socket(type=socket.SOCK_DGRAM) as one, socket.socket(type=socket.SOCK_DGRAM) as two:
        one.bind(("127.0.0.1", 0))
        two.bind(("127.0.0.1", 0))
        return {1: one.getsockname()[1], 2: two.getsockname()[1]}


def make_certificates(folder: str) -> str:
    """The site's authority, and what it has signed: a certificate and its key in one file each."""
    at = os.path.join(folder, "certificates")
    os.makedirs(at)

    def openssl(*words: str) -> None:
        subprocess.run(["openssl", *words], cwd=at, check=True, stdout=subprocess.DEVNULL, stderr=subprocess.DEVNULL)

    openssl(
        "req",
        "-x509",
        "-newkey",
        "rsa:2048",
        "-nodes",
        "-days",
        "30",
        "-subj",
        "/CN=alarms",
        "-keyout",
        "ca.key",
        "-out",
        "alarms-ca.pem",
    )
    for name, role in ROLES.items():
        openssl(
            "req",
            "-newkey",
            "rsa:2048",
            "-nodes",
            "-subj",
            f"/OU={role}/CN={name}",
            "-addext",
            f"subjectAltName=DNS:{name}",
            "-keyout",
            "key",
            "-out",
            "request",
        )
        openssl(
            "x509",
            "-req",
            "-in",
            "request",
            "-CA",
            "alarms-ca.pem",
            "-CAkey",
            "ca.key",
            "-CAcreateserial",
            "-days",
            "30",
            "-copy_extensions",
            "copy",
            "-out",
            "signed",
        )
        with open(os.path.join(at, name + ".pem"), "wb") as out:
            for part in ("signed", "key"):
                with open(os.path.join(at, part), "rb") as file:
                    out.write(file.read())
    return at


def page_blocks() -> dict[str, str]:
    """The page's blocks, the last of each section."""
    with open(PAGE, encoding="utf-8") as file:
        sections = re.findall(r"(?ms)^#+ ([^\n]*)\n(.*?)(?=^#+ |\Z)", file.read())
    found = {}
    for heading, text in sections:
        for block in re.findall(r"(?ms)^```sh\n(.*?)^```", text):
            found[heading] = block
    return found
