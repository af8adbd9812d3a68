"""The connections of browsers: at most a number at once, and each has a bounded time to ask something.

A connection on which nothing is asked by somebody who was let in is worth nothing: where there are too many, the oldest
of these ends. So whoever may connect, and may not come in, keeps nobody out.
"""
import asyncio
import resource
from typing import Any, Callable, Optional

from aiohttp import web

# Connections at once, and how many descriptors are kept for all else.
MOST, OTHERS = 512, 128
# Connections that the system keeps until they are taken, all of them at once: those that find no place there are tried
# again after a second and later.
BACKLOG = 256
# Seconds for the first request's head, for a request of somebody who wasn't let in, and between two requests.
HEAD, REQUEST, IDLE = 10, 30, 75


def most_connections() -> int:
    """How many connections there may be. The limit of descriptors is raised for them, as far as that is allowed."""
    soft, hard = resource.getrlimit(resource.RLIMIT_NOFILE)
    wanted = MOST + BACKLOG + OTHERS if hard == resource.RLIM_INFINITY else min(hard, MOST + BACKLOG + OTHERS)
    if soft != resource.RLIM_INFINITY and soft < wanted:
        resource.setrlimit(resource.RLIMIT_NOFILE, (wanted, hard))
        soft = wanted
    return MOST if soft == resource.RLIM_INFINITY else max(8, min(MOST, soft - BACKLOG - OTHERS))


class Gate:
    """Makes the protocols of a server's connections."""

    def __init__(self, server: Callable[[], Any], most: int):
        self.server, self.most = server, most
        self.lines: set[Line] = set()
        # Those that may be ended, the oldest first.
        self.waiting: dict[Line, None] = {}

    def __call__(self) -> "Line":
        return Line(self, self.server())

    def admit(self, line: "Line") -> bool:
        """Whether there is room for another one."""
        if len(self.lines) >= self.most:
            if not self.waiting:
                return False
            next(iter(self.waiting)).end()
        self.lines.add(line)
        return True

    def forget(self, line: "Line") -> None:
        self.lines.discard(line)
        self.waiting.pop(line, None)


class Line(asyncio.Protocol):
    """A connection, before aiohttp's own protocol."""

    def __init__(self, gate: Gate, handler: Any):
        self.gate, self.handler = gate, handler
        self.transport: Optional[Any] = None
        self.timer: Optional[asyncio.TimerHandle] = None
        self.is_open = False

    def connection_made(self, transport: Any) -> None:
        self.transport = transport
        self.is_open = self.gate.admit(self)
        if not self.is_open:
            transport.abort()
            return
        self.handler.connection_made(transport)
        self.wait(HEAD)

    def wait(self, seconds: float) -> None:
        """It ends in some seconds, or as others want its place."""
        self.hold()
        if self.is_open:
            self.gate.waiting[self] = None
            self.timer = asyncio.get_running_loop().call_later(seconds, self.end)

    def hold(self) -> None:
        """It stays as long as its request takes."""
        self.gate.waiting.pop(self, None)
        if self.timer:
            self.timer.cancel()
            self.timer = None

    def end(self) -> None:
        self.gate.forget(self)
        if self.transport:
            self.transport.abort()

    def data_received(self, data: bytes) -> None:
        if self.is_open:
            self.handler.data_received(data)

    def eof_received(self) -> Any:
        return self.handler.eof_received() if self.is_open else None

    def pause_writing(self) -> None:
        self.handler.pause_writing()

    def resume_writing(self) -> None:
        self.handler.resume_writing()

    def connection_lost(self, why: Optional[Exception]) -> None:
        self.hold()
        self.gate.forget(self)
        if self.is_open:
            self.is_open = False
            self.handler.connection_lost(why)


def line_of(request: web.Request) -> Optional[Line]:
    """The connection of a request; none where it has gone."""
    found = request.transport.get_protocol() if request.transport else None
    return found if isinstance(found, Line) else None
