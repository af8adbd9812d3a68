"""Clients of a server that ask drawn requests, or as many at once as they may."""
import random
import re
import threading
import time
from lib.program import check


SLOTS = (0, 5, 16, 17)


# The alarm of the worked plant that latches. Its condition comes at its setpoint alone, so it gets the setpoints that
# are drawn, and one more value.
LATCHING, SETPOINTS = 2, [1, 49, 100, 800]


READINGS = [0, 1, 49, 50, 90, 110, 790, 800, 900]


OUT = 64  # so many requests of a connection may be unanswered


class Client(threading.Thread):
    """Asks at a slot until the connection ends: what was answered, and the line in doubt."""

    def __init__(self, server, slot, seed, count):
        super().__init__()
        self.server, self.slot, self.dice, self.count = server, slot, random.Random(seed), count
        self.answered, self.doubt = [], None

    def draw(self, number):
        alarm = self.dice.randrange(4)
        if self.slot == 16 and self.dice.randrange(6) == 0:
            return f"{number} DESIGN {alarm} {self.dice.choice(['ON', 'OFF'])}"
        if self.slot == 16:
            return f"{number} VAL {alarm} {self.dice.choice(READINGS if alarm != LATCHING else [0, *SETPOINTS])}"
        if self.slot == 17:
            return f"{number} CLOCK {int(time.monotonic() * 1000) + number}"
        words = [
            f"ACK {alarm}",
            f"SHELVE {alarm} {self.dice.randrange(1, 3000)}",
            f"OOS {alarm} {self.dice.choice(['ON', 'OFF'])}",
            f"STATE {alarm}",
            f"UNSHELVE {alarm}",
            f"RESET {LATCHING}",
            f"PRIO {alarm} {self.dice.randrange(1, 5)}",
            f"SETP {alarm} {self.dice.choice(SETPOINTS)}",
        ]
        return f"{number} {self.dice.choice(words)}"

    def run(self):
        try:
            with self.server.connect(self.slot) as one, one.makefile("rb") as replies:
                for number in range(1, self.count + 1):
                    line = self.draw(number)
                    self.doubt = line
                    one.sendall(line.encode() + b"\n")
                    reply = replies.readline()
                    if not reply.endswith(b"\n"):
                        return
                    self.doubt = None
                    self.answered.append((line, reply.decode()))
        except OSError:
            pass


class Pipeliner:
    """Keeps as many requests out at a slot as one may, and notes the ids of the replies."""

    def __init__(self, server, slot, count):
        self.one, self.slot, self.count = server.connect(slot), slot, count
        self.sent, self.ids, self.held = 0, [], b""
        self.ask()

    def line(self, number):
        if self.slot == 16:
            return f"{number} VAL 0 {700 if number % 2 else 800}\n"
        if self.slot == 17:
            return f"{number} CLOCK {number}\n"
        return f"{number} OOS {self.slot % 4} {'ON' if number % 2 else 'OFF'}\n"

    def ask(self):
        """Asks for as many as it may, eight or more at once."""
        until = min(self.count, len(self.ids) + OUT)
        if until < self.sent + 8 and until < self.count:
            return
        self.one.sendall("".join(self.line(number) for number in range(self.sent + 1, until + 1)).encode())
        self.sent = until

    def take(self):
        """Takes the replies that have come, and asks for as many more. Whether any is owed."""
        came = self.one.recv(1 << 16)
        check(came, "slot", self.slot, "was ended behind", len(self.ids), "replies")
        *replies, self.held = (self.held + came).split(b"\n")
        self.ids += [int(reply.split()[0]) for reply in replies]
        self.ask()
        return len(self.ids) < self.count


def accepted_of(clients):
    """The accepted actions by their numbers, as desk lines; and those whose answer didn't come."""
    known, doubts = {}, []
    for client in clients:
        for line, reply in client.answered:
            found = re.fullmatch(r"\d+ OK (\d+)\n", reply)
            if found:
                check(int(found[1]) not in known, "two actions of one number", reply)
                known[int(found[1])] = f"{client.slot} {line}\n"
            stopped = reply.endswith(" NO 15\n")
            if stopped:
                doubts.append(f"{client.slot} {line}\n")
        if client.doubt:
            doubts.append(f"{client.slot} {client.doubt}\n")
    return known, doubts
