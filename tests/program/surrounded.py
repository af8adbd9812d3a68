"""Servers under limits, and what clients ask of them."""
import os
import resource
import socket
import subprocess
import time
from lib.program import Wrong, free_ports


def limited(limits):
    """What a child does before it becomes the program: it takes these limits."""

    def limit():
        for which, most in limits.items():
            resource.setrlimit(which, (most, most))

    return limit


def serve_until(pages, asked, page):
    """Gives a page to whoever asks for one, until a request begins so: then the page runs."""
    pages.settimeout(60)
    head = b"HTTP/1.1 200 OK\r\nConnection: close\r\nContent-Type: text/html\r\nContent-Length: %d\r\n\r\n" % len(page)
    while True:
        one, _ = pages.accept()
        with one:
            one.settimeout(10)
            request = one.recv(4096)
            if request.startswith(asked):
                return
            one.sendall(head + page)


class Served:
    """A server over a device, with limits, to the end of a block."""

    def __init__(self, program, device, limits=None, options=(), loaded=None, port=None):
        self.port = port or free_ports()
        words = [program, "serve", device, "--port", str(self.port), *options]
        self.process = subprocess.Popen(
            words,
            stdout=subprocess.PIPE,
            stderr=subprocess.PIPE,
            preexec_fn=limited(limits or {}),
            env={**os.environ, **(loaded or {})},
        )
        self.serves = self.process.stdout.readline() == f"serving {self.port}\n".encode()

    def __enter__(self):
        return self

    def __exit__(self, *_):
        self.process.kill()
        self.process.communicate()

    def connect(self, slot):
        return socket.create_connection(("127.0.0.1", self.port + slot), timeout=10)

    def ask(self, slot, line):
        """The first reply of a new connection."""
        with self.connect(slot) as client:
            client.sendall(line)
            return client.makefile("rb").readline()


def came(client):
    """What comes next, or nothing where the connection has ended."""
    try:
        return client.recv(64)
    except ConnectionResetError:
        return b""
    except TimeoutError:
        raise Wrong("a client was neither answered nor closed") from None


def asked(client, line):
    """What comes after a line, or nothing where the connection has ended."""
    try:
        client.sendall(line)
    except (BrokenPipeError, ConnectionResetError):
        return b""
    return came(client)


def answers(server, slot, line):
    """What a new connection is answered, or nothing where it is closed."""
    with server.connect(slot) as client:
        return asked(client, line)


def until(holds, *said):
    """Waits until it holds, for ten seconds."""
    for _ in range(100):
        if holds():
            return
        time.sleep(0.1)
    raise Wrong(" ".join(str(word) for word in said))


def own_addresses():
    """The machine's addresses but those of loopback, without a word where they can't be had."""
    found = subprocess.run(["hostname", "-I"], capture_output=True, check=False).stdout.decode().split()
    return [address for address in found if ":" not in address]
