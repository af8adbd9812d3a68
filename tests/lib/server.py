"""A served device: the server's process, and a desk or a server that is asked line by line."""
import os
import socket
import subprocess

from .program import PORTS, Desk, Wrong

# Seconds within which a server ends after a failed call.
END_WITHIN = 10


class Server:
    """A server over a device."""

    def __init__(self, program, device, port, loaded=None, words=()):
        self.port = port
        self.process = subprocess.Popen(
            [program, "serve", device, "--port", str(port), *words],
            stdout=subprocess.PIPE,
            stderr=subprocess.PIPE,
            env={**os.environ, **(loaded or {})},
        )
        self.serves = self.process.stdout.readline() == f"serving {port}\n".encode()
        self.errors = b"" if self.serves else self.process.communicate()[1]

    def connect(self, slot):
        one = socket.create_connection(("127.0.0.1", self.port + slot), timeout=20)
        one.setsockopt(socket.IPPROTO_TCP, socket.TCP_NODELAY, 1)
        return one

    def end(self):
        """What it said at its end; it is killed where it runs."""
        if self.serves and self.process.returncode is None:
            self.process.kill()
            self.errors = self.process.communicate()[1]
        return self.errors

    def ends_by_itself(self, within):
        """Whether it ends by itself in this number of seconds."""
        try:
            self.errors += self.process.communicate(timeout=within)[1] if self.serves else b""
        except subprocess.TimeoutExpired:
            return False
        return True

    def wait(self):
        """What it printed behind its first line, once it has ended."""
        if not self.serves:
            return b""
        printed, self.errors = self.process.communicate(timeout=20)
        return printed


class Lines:
    """A desk, or a server with a connection at each slot that a line names. It is asked line by line."""

    def __init__(self, program, device, loaded, is_served, dice):
        self.desk = self.server = None
        self.connections = {}
        if not is_served:
            self.desk = Desk(program, device, loaded)
            return
        for _ in range(20):
            self.server = Server(program, device, dice.randrange(*PORTS), loaded)
            if self.server.errors != b"fault net\n":
                return
        raise Wrong("no ports")

    def __enter__(self):
        return self

    def __exit__(self, *_):
        self.end()

    def ask(self, line):
        """The reply, or what there is of it."""
        if self.desk:
            return self.desk.ask(line)
        slot, _, request = line.partition(b" ")
        try:
            if slot not in self.connections:
                one = self.server.connect(int(slot))
                self.connections[slot] = one, one.makefile("rb")
            one, replies = self.connections[slot]
            one.sendall(request)
            reply = replies.readline()
        except OSError:
            return b""
        return slot + b" " + reply if reply else b""

    def ended(self):
        """The fault line and the status, once it has ended by itself; None if it doesn't."""
        if self.server:
            return (
                (self.server.errors, self.server.process.returncode) if self.server.ends_by_itself(END_WITHIN) else None
            )
        try:
            errors = self.desk.process.communicate(timeout=END_WITHIN)[1]
        except subprocess.TimeoutExpired:
            return None
        return errors, self.desk.process.returncode

    def end(self):
        for one, replies in self.connections.values():
            replies.close()
            one.close()
        process = self.desk.process if self.desk else self.server.process
        if process.poll() is None:
            process.kill()
        process.communicate()
