#!/usr/bin/env python3
"""A server at the sockets of a folder: who may connect, and what stands in the way of a socket.

    tests/program/sockets.py PROGRAM [--short]

Modes, whatever the umask; a second server at the same folder; sockets of a server that was killed; files, folders,
links and other sockets at a socket's path; folders that aren't there; paths that are too long; descriptors that a
client passes; servers that start at the same time. The same lines at all slots give the same replies over sockets and
over ports. A port's connection is set to send at once before its first reply (TCP_NODELAY). As root: other users, who
are in a socket's group or not. No browser is among the clients: a page can't name a Unix socket.
"""
import fcntl
import grp
import os
import signal
import socket
import stat
import subprocess
import sys
import threading
import time

from alarms.await_server import let
from lib.calls import read_calls
from lib.places import AT_TOOLS, EXAMPLES, TOOLS
from lib.program import PLANT, Wrong, as_user, begin, check, finish, free_ports, preload, run_words
from socket_clients import Served, ask, connect, replies
from socket_clients import LINES

SLOTS = range(18)
CLOCK = 17
PERMISSIONS = 0o7777
# Users and a group that no file here belongs to.
OWNER, MEMBER, STRANGER, GROUP = 64_001, 64_002, 64_003, 64_004
# A process that there is none of.
NOBODY = 2**22 + 1
# The longest path of a socket, in bytes.
LONGEST = 107


class Sockets:
    """Servers at the sockets of folders, and who may connect there."""

    def __init__(self, program, folder):
        self.program, self.top, self.done = program, folder, 0
        self.folder = self.new_folder("plant")
        self.device = self.new_device("plant.device")

    def new_folder(self, name):
        path = os.path.join(self.top, name)
        os.mkdir(path)
        return path

    def new_device(self, name):
        path = os.path.join(self.top, name)
        run = run_words(self.program, ["format", path, PLANT])
        check(run.returncode == 0, "format", run.stderr)
        return path

    def served(self, *place, device=None, **more):
        return Served(self.program, device or self.device, *(place or ("--sockets", self.folder)), **more)

    def refused(self, folder, device=None):
        """A server at this folder ends by `fault net`, with nothing printed."""
        words = [self.program, "serve", device or self.device, "--sockets", folder]
        try:
            run = subprocess.run(words, capture_output=True, timeout=20)
        except subprocess.TimeoutExpired:
            raise Wrong(f"{folder}: a server began") from None
        self.done += 1
        check(
            (run.returncode, run.stdout, run.stderr) == (3, b"", b"fault net\n"),
            folder,
            run.returncode,
            run.stdout,
            run.stderr,
        )

    def modes(self):
        """Owner and group may connect and nobody else, whatever the umask. The line names the folder as it was
        given."""
        for mask in (0o000, 0o022, 0o077, 0o777):
            with self.served("--sockets", ".", cwd=self.folder, umask=mask) as server:
                check(server.line == b"serving .\n", "it prints", server.line)
                for slot in SLOTS:
                    mode = os.lstat(os.path.join(self.folder, str(slot))).st_mode
                    check(
                        stat.S_ISSOCK(mode) and mode & PERMISSIONS == 0o660, "slot", slot, oct(mode), "umask", oct(mask)
                    )
            self.done += 1
        check(sorted(map(int, os.listdir(self.folder))) == list(SLOTS), "the folder has", os.listdir(self.folder))

    def second_server(self):
        """Beside a server another is refused, and the first goes on with whoever is connected and whoever comes; a
        killed one's sockets are replaced."""
        other = self.new_device("other.device")
        with self.served() as server, connect(self.folder, 0) as client:
            client.sendall(b"1 STATE 0\n")
            check(replies(client, 1) == b"1 STATE 0 NORM 0 - -\n", "before another server")
            self.refused(self.folder, other)
            client.sendall(b"2 STATE 0\n")
            check(replies(client, 1) == b"2 STATE 0 NORM 0 - -\n", "beside a refused server")
            check(ask(self.folder, CLOCK, b"1 STATE 0\n") == b"1 STATE 0 NORM 0 - -\n", "beside a refused server")
            server.process.send_signal(signal.SIGKILL)
        with self.served(device=other) as server:
            check(server.line == f"serving {self.folder}\n".encode(), "over a killed server's sockets", server.line)
            check(ask(self.folder, CLOCK, b"1 CLOCK 5\n") == b"1 OK 1\n", "behind a killed server")
        self.done += 1

    def in_the_way(self):
        """What stands at a socket's path and is no dead socket stays as it was, and no other socket is made."""
        folder = self.new_folder("way")
        path = os.path.join(folder, "11")
        with open(path, "w", encoding="ascii") as file:
            file.write("kept")
        self.refused(folder)
        with open(path, encoding="ascii") as file:
            check(file.read() == "kept", "a file at a socket's path")
        os.remove(path)
        for make, drop in (
            (os.mkdir, os.rmdir),
            (os.mkfifo, os.remove),
            (lambda at: os.symlink("nowhere", at), os.remove),
        ):
            make(path)
            self.refused(folder)
            drop(path)
        listener = socket.socket(socket.AF_UNIX)
        for backlog in (5, 0):  # one that answers, and one that is full
            listener.bind(path)
            listener.listen(backlog)
            waiting = [connect(folder, 11)]
            self.refused(folder)
            for client in waiting:
                client.close()
            listener.close()
            listener = socket.socket(socket.AF_UNIX)
            os.remove(path)
        listener = socket.socket(socket.AF_UNIX, socket.SOCK_DGRAM)
        listener.bind(path)
        self.refused(folder)
        check(os.listdir(folder) == ["11"], "beside a socket that answers", os.listdir(folder))
        listener.close()

    def no_folder(self):
        """No folder, a file in its place, one that is too deep. The longest path that a socket can have is served."""
        self.refused(os.path.join(self.top, "none"))
        self.refused("")
        self.refused(self.device)
        deep = self.top + "/" + "d" * (LONGEST - len(self.top) - len("/" + "/17"))
        os.mkdir(deep + "d")
        self.refused(deep + "d")
        check(not os.listdir(deep + "d"), "a folder that is too deep", os.listdir(deep + "d"))
        os.mkdir(deep)
        with self.served("--sockets", deep) as server:
            check(server.line == f"serving {deep}\n".encode(), "the longest path", server.line)
            check(ask(deep, CLOCK, b"1 STATE 0\n").startswith(b"1 STATE"), "the longest path")
        self.done += 1

    def both_or_neither(self):
        for words in (
            [],
            ["--port", "5000", "--sockets", self.folder],
            ["--sockets"],
            ["--sockets", self.folder, "--sockets", self.folder],
        ):
            run = subprocess.run([self.program, "serve", self.device, *words], capture_output=True, timeout=60)
            check((run.returncode, run.stdout, run.stderr) == (1, b"", b"fault usage\n"), words, run)
            self.done += 1

    def passed_descriptors(self):
        """A read ends behind a descriptor that a client passes. No line behind it waits."""
        with self.served() as server, connect(self.folder, 2) as client:
            server.process.send_signal(signal.SIGSTOP)  # all of it has come by the first read
            for number in range(8):
                socket.send_fds(client, [b"%d STATE 0\n" % number], [0])
            server.process.send_signal(signal.SIGCONT)
            came = replies(client, 8)
            check(
                [line.split()[0] for line in came.splitlines()] == [b"%d" % number for number in range(8)],
                "passed descriptors",
                came,
            )
        self.done += 1

    def requests_of_http(self):
        """A connection that begins as a request of HTTP is ended here too."""
        with self.served() as server, connect(self.folder, CLOCK) as client:
            client.sendall(b"POST / HTTP/1.1\r\n\r\n\n1 CLOCK 99999\n")
            try:
                came = client.recv(64)
            except ConnectionResetError:
                came = b""
            check(came == b"", "a request of HTTP was answered", came)
            check(server.process.poll() is None, "the server has ended")
            check(ask(self.folder, CLOCK, b"1 CLOCK 99999\n").startswith(b"1 OK"), "behind a request of HTTP")
        self.done += 1

    def same_replies(self):
        """18 clients at once, over sockets and over ports: each slot's lines have the same replies."""
        found = []
        for place in (self.new_folder("same"), free_ports()):
            words = ("--port", str(place)) if isinstance(place, int) else ("--sockets", place)
            with self.served(*words, "--conns", "18", device=self.new_device(f"same{len(found)}.device")) as server:
                found.append(self.all_slots(place))
                printed, said = server.process.communicate(timeout=60)
                check((server.process.returncode, said) == (0, b""), "it ended with", server.process.returncode, said)
                check(
                    printed
                    == b"stopped %d\n" % (sum(b" OK " in line for lines in found[-1] for line in lines.splitlines())),
                    "it printed",
                    printed,
                )
        check(found[0] == found[1], "over sockets", found[0], "and over ports", found[1])
        self.done += 1

    def all_slots(self, place):
        """All are connected, then each asks in turn, so that the order is known; then all at once, by queries."""
        clients = [connect(place, slot) for slot in SLOTS]
        said = []
        for slot in reversed(SLOTS):
            clients[slot].sendall(b"".join(line + b"\n" for line in LINES))
            said.append(replies(clients[slot], len(LINES)))
        again = [b""] * len(SLOTS)

        def query(slot):
            clients[slot].sendall(b"".join(b"%d STATE %d\n" % (number, number % 5) for number in range(500)))
            again[slot] = replies(clients[slot], 500)

        threads = [threading.Thread(target=query, args=(slot,)) for slot in SLOTS]
        for thread in threads:
            thread.start()
        for thread in threads:
            thread.join()
        for client in clients:
            client.close()
        return said + again

    def undelayed(self):
        """Each connection at a port is set to send at once, before its first reply. A folder's sockets have no such
        option: of them the same look finds none that is set, as it would of ports."""
        library, folder = preload(self.top), self.new_folder("undelayed")
        for place, first in ((free_ports(), "nodelay"), (folder, "send")):
            words = ("--port", str(place)) if isinstance(place, int) else ("--sockets", place)
            path = os.path.join(self.top, f"{first}.calls")
            with self.served(*words, env={**os.environ, "LD_PRELOAD": library, "ALM_CALLS": path}):
                for slot in [*SLOTS, *SLOTS]:
                    ask(place, slot, b"1 STATE 0\n")
            made = {}
            for call, where, *_ in read_calls(path, self.device):
                if str(where).startswith("socket:"):
                    made.setdefault(where, []).append(call)
            firsts = [calls[0] for calls in made.values() if "send" in calls]
            check(firsts == [first] * 2 * len(SLOTS), "the first call at each connection of", place, firsts)
            self.done += 1

    def at_once(self, rounds):
        """Two servers over two devices start at one folder: one serves all slots, the other is refused. So is one while
        another makes its sockets."""
        devices = [self.new_device("first.device"), self.new_device("second.device")]
        folder = self.new_folder("once")
        held = os.open(folder, os.O_RDONLY)
        fcntl.flock(held, fcntl.LOCK_EX)
        self.refused(folder)
        os.close(held)
        for _ in range(rounds):
            both = [
                subprocess.Popen(
                    [self.program, "serve", device, "--sockets", folder], stdout=subprocess.PIPE, stderr=subprocess.PIPE
                )
                for device in devices
            ]
            end = time.monotonic() + 20
            while all(one.poll() is None for one in both) and time.monotonic() < end:
                time.sleep(0.01)
            lost = [one for one in both if one.poll() is not None]
            check(len(lost) == 1, "of two servers at one folder", len(lost), "ended")
            check((lost[0].communicate(), lost[0].returncode) == ((b"", b"fault net\n"), 3), "the one that lost")
            won = next(one for one in both if one is not lost[0])
            check(won.stdout.readline() == f"serving {folder}\n".encode(), "the one that won")
            own = {ask(folder, slot, b"1 STATE 0\n").split()[1] for slot in SLOTS}
            check(own == {b"STATE"}, "the slots of the one that won", own)
            won.kill()
            won.communicate()
            self.done += 1

    def tools(self):
        """A tool does the same over sockets as over ports; one that waits for the server gives the sockets to
        groups."""
        printed = []
        folder = self.new_folder("tools")
        group = grp.getgrgid(os.getgid()).gr_name
        for words in (["--sockets", folder], ["--port", str(free_ports())]):
            with self.served(*words, device=self.new_device(f"tool{len(printed)}.device")):
                for script, more in (
                    (TOOLS / "alm_await_server", ["--groups", group, group, group, "--let", "nobody", "12"]),
                    (EXAMPLES / "client.py", []),
                ):
                    run = subprocess.run(
                        [sys.executable, script, *words, *more],
                        capture_output=True,
                        text=True,
                        timeout=60,
                        env=AT_TOOLS,
                    )
                    check(run.returncode == 0 and not run.stderr, script, words, run.stderr)
                printed.append(run.stdout)
        check(printed[0] == printed[1] and "acknowledged as action 3\n" in printed[0], "client.py printed", printed)
        began = time.monotonic()
        run = subprocess.run(
            [sys.executable, TOOLS / "alm_await_server", "--sockets", folder, "--pid", str(NOBODY)], timeout=60
        )
        check(
            run.returncode == 0 and time.monotonic() - began < 10, "alm_await_server for a server that has ended", run
        )
        self.done += 1

    def users(self):
        """The owner and a member of the group connect, another user doesn't; one who may not write to the folder isn't
        served."""
        if os.geteuid() != 0:
            print("sockets.py: isn't run as root, so no other users were tried")
            return
        own = self.new_folder("own")
        os.chmod(self.top, 0o755)
        os.chown(own, OWNER, GROUP)
        os.chmod(own, 0o711)
        device = self.new_device("own.device")
        os.chown(device, OWNER, GROUP)
        with self.served("--sockets", own, device=device, user=OWNER, group=GROUP, extra_groups=[]) as server:
            check(server.line == f"serving {own}\n".encode(), "another user's server", server.line)
            for slot in SLOTS:
                for user, group, groups, may in (
                    (OWNER, OWNER, [], True),
                    (MEMBER, MEMBER, [GROUP], True),
                    (STRANGER, STRANGER, [], False),
                ):
                    check(
                        self.may_connect(own, slot, user, group, groups) == may,
                        "user",
                        user,
                        "at slot",
                        slot,
                        "" if may else "was served",
                    )
                    self.done += 1
            let(own, STRANGER, 12)
            opened = [slot for slot in SLOTS if self.may_connect(own, slot, STRANGER, STRANGER, [])]
            check(opened == [12], "a user who is let in at slot 12 opens", opened)
            check(self.may_connect(own, 12, MEMBER, MEMBER, [GROUP]), "the group no longer opens slot 12")
            self.done += 1
        foreign = self.new_folder("foreign")
        run = subprocess.run(
            [self.program, "serve", device, "--sockets", foreign],
            capture_output=True,
            timeout=60,
            user=OWNER,
            group=GROUP,
            extra_groups=[],
        )
        check((run.returncode, run.stdout, run.stderr) == (3, b"", b"fault net\n"), "a folder of another user", run)

    def may_connect(self, place, slot, user, group, groups):
        said = as_user(user, group, groups, lambda: connect(place, slot).close())
        check(said in ("None", "PermissionError"), "a client of another user", said)
        return said == "None"


def main():
    program, rounds, folder = begin("sockets.py", sys.argv, 30, 5)
    began = time.monotonic()
    sockets = Sockets(program, folder)
    sockets.modes()
    sockets.second_server()
    sockets.in_the_way()
    sockets.no_folder()
    sockets.both_or_neither()
    sockets.passed_descriptors()
    sockets.requests_of_http()
    sockets.same_replies()
    sockets.undelayed()
    sockets.at_once(rounds)
    sockets.tools()
    sockets.users()
    finish(
        "sockets.py",
        folder,
        f"{sockets.done} trials of sockets in a folder, none wrong, {time.monotonic() - began:.0f} s",
    )


if __name__ == "__main__":
    try:
        main()
    except Wrong as wrong:
        sys.exit(f"sockets.py: {wrong}")
