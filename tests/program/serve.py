#!/usr/bin/env python3
"""The server under faults, kills and power cuts, and lines that come cut at drawn places.

    tests/program/serve.py PROGRAM [--short]

Clients on all ports ask one request after another, each behind the answer to its last; the device then stands for the
accepted actions in the order of their numbers. Then each call on the device's file in turn fails, or the process is
killed or the power fails in it, or from a request on there is no more memory. The server ends by itself within ten
seconds, with the fault line that is due and its status. The device holds each action that was answered, at the number
that the answer named, and of those without an answer what may have come before or after.

Clients with all the requests out that they may have get all replies in order. Of two clients that are answered together
one asks a little later than the other: both go by one commit. A server that nobody asks ends its checkpoint. Each
request for memory, and each thread, is refused in turn. Lines of a grammar that breaks itself (lines.py) are sent to a
port in pieces that end anywhere; the replies fit the second reading of the lines. Connections that end their sending
while replies are owed get these, and their end. The calls of an opening, and of the commits and checkpoints after it,
are those that calls.py lists. Servers that ignore a failure are refused.
"""
import itertools
import os
import random
import re
import selectors
import shutil
import socket
import subprocess
import sys
import threading
import time

import lines as grammar
from drawn_lines import draw_line
from lib.plain_plant import Plant
from lib.calls import Layout, check_list, commits, on_device, opening, read_calls, split_opening
from lib.places import TOP
from lib.program import PLANT, PORTS, VERSIONS, Fault, Wrong, begin, check, finish, preload, run_words, state
from lib.server import END_WITHIN, Server
from serve_clients import Client, OUT, Pipeliner, SLOTS, accepted_of

LAYOUT = Layout(28_997, 4, 2)  # of the worked plant
SLOW = str(TOP / "bench" / "serve" / "sync.c")  # syncs that take their time
FEW = [
    (b"1 SHELVE 0 60", b"1 OK 1\n"),
    (b"2 LIST P 1", b"2 LIST 1 0\n"),
    (b"3 OOS 1 ON", b"3 OK 2\n"),
    (b"4 LIST A 0", b"4 LIST 2 0\n"),
    (b"5 CHATTER", b"5 CHATTER 2 0\n"),
]
DISK, STOPPED, MEMORY = b"fault disk\n", b"fault stopped\n", b"fault memory\n"
KILLED = -9  # the status of a server that this script ended
KINDS = ["eio", "enospc", "kill", "old", "new", "00", "a5", "5a", "ff", "any", "alternating", "mixed", "sectors"]


class Serving:
    """Servers over copies of a device, what their clients were answered, and what the devices hold."""

    def __init__(self, program, folder):
        self.program, self.folder = program, folder
        self.library = preload(folder)
        self.port = random.Random(time.time_ns()).randrange(*PORTS)
        self.fresh = [os.path.join(folder, f"fresh{version}") for version in VERSIONS]
        for path, version in zip(self.fresh, VERSIONS):
            check(run_words(program, ["format", path, PLANT, "--version", version]).returncode == 0, "format")

    def start(self, device, loaded=None, words=()):
        """A server, at ports that are free."""
        for _ in range(20):
            self.port = PORTS[0] + (self.port - PORTS[0] + 18) % (PORTS[1] - PORTS[0])
            server = Server(self.program, device, self.port, loaded, words)
            if server.serves or server.errors != b"fault net\n":
                return server
        raise Wrong("no ports")

    def replay(self, actions):
        """What a device stands for after these desk lines."""
        device = os.path.join(self.folder, "replayed")
        shutil.copyfile(self.fresh[0], device)
        run = run_words(self.program, ["desk", device], lines="".join(actions).encode())
        check(run.returncode == 0, "desk", run.stderr)
        return state(self.program, device)

    def one_fault(self, fault, seed, count, told=None, body=None, within=END_WITHIN):
        """Clients of a server in which a call fails. What it said at its end. If the call came, it ended by itself,
        with the line that is due. Odd seeds are of version 03."""
        device = os.path.join(self.folder, "device")
        shutil.copyfile(self.fresh[seed % 2], device)
        server = self.start(device, {**fault.loaded, **(body or {})})
        clients = [Client(server, slot, seed * 100 + slot, count) for slot in SLOTS] if server.serves else []
        for client in clients:
            client.start()
        for client in clients:
            client.join()
        has_failed = fault.was_met() and not fault.kills
        ended = not has_failed or server.ends_by_itself(within)
        said = server.end()
        check(ended, fault.text, "failed, and the server goes on")
        if has_failed or server.process.returncode != KILLED:
            due = told or ((STOPPED,) if server.serves else (DISK,))
            check(said in due and server.process.returncode == 3, fault.text, server.process.returncode, said)
        self.judge(device, fault, clients)
        return said

    def judge(self, device, fault, clients):
        """Each answered action is there at its number; of those in doubt some may have come in any order."""
        known, doubts = accepted_of(clients)
        now = state(self.program, device)
        count = int(re.match(rb"NOW \d+ COUNT (\d+)\n", now)[1])
        check(count >= max(known, default=0), fault.text, "an answered action is gone")
        missing = [number for number in range(1, count + 1) if number not in known]
        check(len(missing) <= len(doubts), fault.text, "actions that nobody asked for", count, len(known), len(doubts))
        for chosen in itertools.permutations(doubts, len(missing)):
            filled = {**known, **dict(zip(missing, chosen))}
            if self.replay([filled[number] for number in sorted(filled)]) == now:
                return
        raise Wrong(f"{fault.text}: the device stands for something else")

    def faults(self, step):
        """A fault, a kill or a power cut at each call on the device's file, and at the opening's syncs of file and
        folder. Some of the questions whether the file is still there fail too. How many there were."""
        cases = [("device", at, kind) for at in range(1, 261) for kind in KINDS][::step]
        cases += [("fsync", at, kind) for at in (1, 2) for kind in KINDS[:3]]
        cases += [("statx", at, "eio") for at in range(20, 60, 9)]
        for seed, (call, at, kind) in enumerate(cases):
            self.one_fault(Fault(self.library, call, at, kind, seed), seed, 40)
        return len(cases)

    def ignored(self):
        """The script's own test: a server that ignores a failed write or sync is refused. How many were."""
        cases = [("fsync", 1), ("fsync", 2), ("fdatasync", 1), ("fdatasync", 2), ("fdatasync", 31), ("pwrite", 31)]
        for call, at in cases:
            fault = Fault(self.library, call, at, "eio")
            try:
                self.one_fault(fault, at, 40, body={"ALM_BODY": "ignores"}, within=1)
            except Wrong:
                continue
            raise Wrong(f"a server that ignores {fault.text} isn't refused")
        return len(cases)

    def listed(self, count):
        """One client that asks one action after another, and the calls on the device meanwhile. How many there were."""
        device, path = os.path.join(self.folder, "device"), os.path.join(self.folder, "calls")
        shutil.copyfile(self.fresh[0], device)
        server = self.start(device, {"LD_PRELOAD": self.library, "ALM_CALLS": path})
        with server.connect(17) as one, one.makefile("rb") as replies:
            for moment in range(1, count + 1):
                one.sendall(b"%d CLOCK %d\n" % (moment, moment))
                check(replies.readline() == b"%d OK %d\n" % (moment, moment), "CLOCK", moment)
        server.end()
        wanted = commits(LAYOUT, count)
        check_list(split_opening(on_device(read_calls(path, device)), opening(), "serve"), wanted, "serve")
        return len(wanted)

    def scarcity(self, step):
        """From one of the last requests of a served connection on there is no more memory: what is stored can't be
        shown, and the server stops. How often it did."""
        made, stopped = self.one_refusal(None)["memory"], 0
        for at in range(made - 40, made + 1, step):
            fault = Fault(self.library, "memory", at, "from")
            stopped += self.one_fault(fault, at, 60, (MEMORY, STOPPED)) == STOPPED
        return stopped

    def whole(self, count):
        """Clients at all slots, and nothing fails: the device stands for what was accepted, in the order of its
        numbers. Nobody else opens it meanwhile."""
        device = os.path.join(self.folder, "device")
        shutil.copyfile(self.fresh[0], device)
        server = self.start(device)
        for words in (["show", device], ["desk", device], ["serve", device, "--port", "1024"]):
            run = run_words(self.program, words)
            check(run.returncode == 3 and run.stderr == b"fault io\n", words, "of a served device", run.stderr)
        clients = [Client(server, slot, slot, count) for slot in range(18)]
        for client in clients:
            client.start()
        for client in clients:
            client.join()
        server.end()
        known, doubts = accepted_of(clients)
        check(not doubts and sorted(known) == list(range(1, len(known) + 1)), "numbers are missing")
        check(
            self.replay([known[number] for number in sorted(known)]) == state(self.program, device),
            "the device stands for something else",
        )
        return len(known)

    def slow(self, **how):
        """What a server is started with for syncs that take their time, and are counted."""
        library = os.path.join(self.folder, "slow.so")
        subprocess.run(["cc", "-O2", "-shared", "-fPIC", "-o", library, SLOW], check=True)
        return {"LD_PRELOAD": library, "SYNC_COUNT": os.path.join(self.folder, "syncs"), **how}

    def commits(self):
        """The commits of such a server so far: two syncs each."""
        with open(os.path.join(self.folder, "syncs"), "rb") as count:
            return int.from_bytes(count.read(8), "little") // 2

    def crowd(self, count):
        """Clients at all slots with as many requests out as each may have, over a disk that takes a millisecond for
        1,000 bytes, so that full batches wait for one another: all replies come in order, within 15 seconds."""
        device = os.path.join(self.folder, "device")
        shutil.copyfile(self.fresh[0], device)
        server = self.start(device, self.slow(SYNC_BYTES_A_US="1"))
        started = time.monotonic()
        clients = [Pipeliner(server, slot, count) for slot in range(18)]
        with selectors.DefaultSelector() as owed:
            for client in clients:
                owed.register(client.one, selectors.EVENT_READ, client)
            while owed.get_map():
                for key, _ in owed.select(1):
                    if not key.data.take():
                        owed.unregister(key.fileobj)
                check(
                    time.monotonic() - started < 15,
                    "after 15 s",
                    [len(client.ids) for client in clients],
                    "replies of",
                    count,
                )
        for client in clients:
            check(client.ids == list(range(1, count + 1)), "slot", client.slot, "is answered out of order")
            client.one.close()
        server.end()
        return count * len(clients)

    def together(self, rounds):
        """Two clients that are answered together ask again, one 0.25 ms behind the other: the open batch waits for it,
        and both go by one commit. A server that waits for nobody makes two, where nothing else runs that holds its
        threads up until both have come. As others may hold up a client, the best of ten tries counts."""
        device = os.path.join(self.folder, "device")
        shutil.copyfile(self.fresh[0], device)
        server = self.start(device, self.slow(SYNC_US="1000"))
        with server.connect(0) as first, server.connect(5) as second:
            tries = (self.commits_in(first, second, range(at, at + rounds)) for at in range(1, 10 * rounds, rounds))
            made = next((commits for commits in tries if 2 * commits <= 3 * rounds), None)
        server.end()
        check(made, "two clients that were answered together go by two commits")
        return made

    def commits_in(self, first, second, numbers):
        """The commits in so many rounds."""
        before = self.commits()
        for number in numbers:
            how = "ON" if number % 2 else "OFF"
            first.sendall(f"{number} OOS 0 {how}\n".encode())
            later = time.perf_counter() + 0.25e-3
            while time.perf_counter() < later:
                pass
            second.sendall(f"{number} OOS 1 {how}\n".encode())
            for one in (first, second):
                check(b" OK " in one.recv(100), "a round wasn't answered")
        return self.commits() - before

    def idle(self):
        """59 actions use more than half of the least segment, and nobody asks any more: the checkpoint goes out all the
        same."""
        device = os.path.join(self.folder, "device")
        shutil.copyfile(self.fresh[0], device)
        server = self.start(device)
        with server.connect(17) as one, one.makefile("rb") as replies:
            for moment in range(1, 60):
                one.sendall(b"%d CLOCK %d\n" % (moment, moment))
                reply = replies.readline()
                check(reply == b"%d OK %d\n" % (moment, moment), "CLOCK", moment, "was answered", reply)
        time.sleep(2)
        server.end()
        shown = run_words(self.program, ["show", device]).stdout
        check(shown.startswith(b"NOW 59 COUNT 59 EPOCH 2\n"), "an idle server made no checkpoint:", shown)

    def refusals(self, call, step):
        """Each request of a served connection for memory, or for a thread, refused in turn. How many there were."""
        made = self.one_refusal(None)[call]
        for at in range(1, made + 1, step):
            self.one_refusal(Fault(self.library, call, at, "enospc"))
        return len(range(1, made + 1, step))

    def one_refusal(self, fault):
        """A connection, and its end; without a fault, how often each call is made."""
        device, counts = os.path.join(self.folder, "device"), os.path.join(self.folder, "counts")
        shutil.copyfile(self.fresh[0], device)
        loaded = fault.loaded if fault else {"LD_PRELOAD": self.library, "ALM_COUNTS": counts}
        server = self.start(device, loaded, ["--conns", "1"])
        said = self.ask_few(server) if server.serves else []
        out = server.wait()
        errors, status = server.errors, server.process.returncode
        if fault is None:
            check(status == 0 and errors == b"" and len(said) == len(FEW), status, errors, said)
            with open(counts, encoding="ascii") as file:
                return {name: int(number) for name, number in (line.split() for line in file)}
        check((status, errors) in ((0, b""), (3, MEMORY), (3, STOPPED)), fault.text, status, errors)
        check(status != 0 or (out == b"stopped 2\n" and len(said) == len(FEW)), fault.text, out, said)
        for (line, wanted), reply in zip(FEW, said):
            check(reply == wanted or reply == line.split()[0] + b" NO 16\n", fault.text, line, reply)
        check(state(self.program, device) in self.after_few(), fault.text, "another state")
        return {}

    def ask_few(self, server):
        """The replies to a few lines, as far as they come."""
        said = []
        try:
            with server.connect(0) as one, one.makefile("rb") as replies:
                for line, _ in FEW:
                    one.sendall(line + b"\n")
                    reply = replies.readline()
                    if not reply.endswith(b"\n"):
                        break
                    said.append(reply)
        except OSError:
            pass
        return said

    def after_few(self):
        """What the device may stand for behind them: each number of their actions."""
        actions = [f"0 {line.decode()}\n" for line, wanted in FEW if b" OK " in wanted]
        return [self.replay(actions[:count]) for count in range(len(actions) + 1)]

    def cut_lines(self, seed, count):
        """Lines of one slot, in pieces that end anywhere. How many there were."""
        device = os.path.join(self.folder, "device")
        shutil.copyfile(self.fresh[0], device)
        server = self.start(device)
        dice, plant = random.Random(seed), Plant()
        drawn = []
        while len(drawn) < count:
            line = draw_line(dice, plant).partition(b" ")[2]
            drawn.append(line)
        slot = dice.choice(SLOTS)
        text = b"".join(line + b"\n" for line in drawn)
        with server.connect(slot) as one, one.makefile("rb") as replies:
            writer = threading.Thread(target=self.send_cut, args=(one, text, dice))
            writer.start()
            for line in drawn:
                reply = replies.readline()
                wanted = b"0 NO 14" if len(line) > 127 else grammar.read_request(slot, line)
                check(re.fullmatch(wanted + b"\n", reply), seed, slot, line, "was answered", reply, "and not", wanted)
            writer.join()
        server.end()
        return count

    def half_closed(self, seed, count):
        """Connections that end their sending while replies are owed, one after the other: each gets its replies, and
        its end."""
        device = os.path.join(self.folder, "device")
        shutil.copyfile(self.fresh[0], device)
        server = self.start(device)
        dice = random.Random(seed)
        for _ in range(count):
            ids = [str(number).encode() for number in range(1, dice.choice([1, 2, 5, 64, 200, 2000]) + 1)]
            text = b"".join(each + b" STATE 2\n" for each in ids)
            slot, cut = dice.choice(SLOTS), dice.choice([0, len(text) // 2, len(text)])
            with server.connect(slot) as one, one.makefile("rb") as replies:
                for piece in (text[:cut], text[cut:]):
                    one.sendall(piece)
                    time.sleep(dice.choice([0, 0.0003, 0.002]))
                one.shutdown(socket.SHUT_WR)
                said = [reply.split()[0] for reply in replies]
            check(said == ids, "half-closed", seed, slot, len(ids), "lines and", len(said), "replies")
        server.end()
        return count

    def send_cut(self, one, text, dice):
        at = 0
        while at < len(text):
            length = dice.choice([1, 2, 7, 50, 127, 128, 129, 1000, 20_000])
            one.sendall(text[at : at + length])
            at += length


def main():
    program, step, folder = begin("serve", sys.argv, 1, 87)
    started = time.monotonic()
    try:
        serving = Serving(program, folder)
        accepted = serving.whole(600 // step + 20)
        crowded = serving.crowd(1500)
        together = serving.together(20)
        serving.idle()
        listed = serving.listed(220)
        faults = serving.faults(step)
        ignored = serving.ignored()
        stopped = serving.scarcity(step // 17 + 1)
        refused = serving.refusals("memory", step // 17 + 1)
        threads = serving.refusals("thread", step // 17 + 1)
        lines = sum(serving.cut_lines(seed, 5_000) for seed in range(40 // step + 2))
        halves = serving.half_closed(1, 3000 // step + 100)
    except Wrong as wrong:
        sys.exit(f"serve: {wrong}; devices are in {folder}")
    finish(
        "serve",
        folder,
        (
            f"{accepted} actions of 18 slots, {crowded} requests with {OUT} out, {together} commits for 20 rounds of"
            f" two clients, {listed} calls as listed, {faults} faults, kills and power cuts, {ignored} servers that"
            f" ignore a failure refused, {refused} requests for memory and {threads} threads refused, {stopped} stops"
            f" for want of it, {lines} lines in pieces, {halves} connections half closed, none wrong,"
            f" {time.monotonic() - started:.0f} s"
        ),
    )


if __name__ == "__main__":
    main()
