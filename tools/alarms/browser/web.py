"""What browsers ask for: the page, the stream of what is shown, and orders."""
import asyncio
import collections
import json
import logging
import time
from pathlib import Path
from typing import Any, Callable, Sequence
from urllib.parse import parse_qs

from aiohttp import web

from .board import REST, BrowserBoard, Reader, written
from .doors import HEADERS, Door, Session
from .gate import IDLE, REQUEST, line_of
from .language import Words
from .orders import NO_REPLY, Answer, BadOrder, NotAllowed, Order, read_order

PAGE = Path(__file__).resolve().parent / "page"
# What anybody may have of the page's files, by their endings.
TYPES = {".css": "text/css", ".js": "text/javascript", ".svg": "image/svg+xml"}
# Streams at once, those of one user, bytes of a request. Seconds that a browser may take what it is sent, and may take
# to send a request; and those after which an order is answered, whatever became of it.
MOST_STREAMS, MOST_OF_USER, MOST_BYTES, PATIENCE, ASKING, ANSWERING = 240, 32, 65_536, 20, 5, 4.5
# The part of the page that has the operator's words.
TOLD = "told_words.js"
# Why there is no stream.
OWN_WINDOWS = "{user} has {most} windows with the list open: close one"
ALL_WINDOWS = "{most} windows with the list are open, and no more are served"
# Seconds after which a user has left whose last stream ended.
AWAY = 10
FORM = "application/x-www-form-urlencoded"


class Site:
    """The handlers, and what they stand on: the boards, and who takes orders."""

    def __init__(self, door: Door, boards: Sequence[BrowserBoard], take: Callable[[Order], None], words: Words):
        self.door, self.boards, self.take, self.words = door, boards, take, words
        self.readers: dict[Reader, Session] = {}
        # When each user's last stream ended: who had a position before this began may come again.
        holders = door.rules.desks.holders() if door.rules.desks else []
        self.left = {holder.user: time.monotonic() for holder in holders if holder.user}
        self.is_ending = False
        self.files = {path.name: path.read_bytes() for path in PAGE.iterdir()}
        for name, page in self.files.items():
            if name.endswith(".html"):
                self.files[name] = words.page(page.decode()).encode()
        self.files[TOLD] = words.script().encode()

    def application(self) -> web.Application:
        site = web.Application(middlewares=[self.guard], client_max_size=MOST_BYTES)
        site.router.add_get("/", self.page)
        site.router.add_post("/sign-in", self.sign_in)
        site.router.add_post("/sign-out", self.sign_out)
        site.router.add_get("/stream", self.stream)
        site.router.add_post("/do", self.do)
        site.router.add_get("/session", self.has_session)
        for name in self.files:
            if Path(name).suffix in TYPES:
                site.router.add_get(f"/{name}", self.file)
        site.on_shutdown.append(self.end)
        return site

    async def end(self, _site: web.Application) -> None:
        self.is_ending = True
        for reader in self.readers:
            reader.news.set()

    @web.middleware
    async def guard(self, request: web.Request, handler: Any) -> web.StreamResponse:
        """Refuses other hosts and origins, and gives each response the headers."""
        line = line_of(request)
        try:
            if line:
                line.wait(REQUEST)
            self.door.check(request)
            response = await handler(request)
        except web.HTTPException as refused:
            refused.headers.update(HEADERS)
            raise
        except (ConnectionError, asyncio.CancelledError):
            raise
        except Exception as fault:
            logging.getLogger(__name__).error("a request failed", exc_info=fault)
            raise web.HTTPInternalServerError(text="it failed\n", headers=HEADERS) from None
        finally:
            if line:
                line.wait(IDLE)
        if not response.prepared:
            response.headers.update(HEADERS)
        return response

    def html(self, name: str, status: int = 200) -> web.Response:
        return web.Response(body=self.files[name], status=status, content_type="text/html", charset="utf-8")

    def entered(self, session: Session) -> web.Response:
        """The reply to a token: a page that keeps the session's key for this origin, and leads to the list."""
        page = self.files["entered.html"].replace(b"KEY", session.key.encode())
        return self.door.give(web.Response(body=page, content_type="text/html", charset="utf-8"), session)

    async def page(self, request: web.Request) -> web.Response:
        """The alarm list for whoever is let in. A token in the address is good once, and goes from the address at
        once."""
        token = request.query.get("token", "")
        session = self.door.session(request)
        if session and not token:
            return self.html("alarms.html")
        entered = self.door.enter(request, token)
        if entered is None:
            return self.see_other() if session else self.html("sign_in.html", 401)
        return self.door.give(self.html("alarms.html"), entered) if self.door.is_proxied else self.entered(entered)

    def see_other(self) -> web.Response:
        return web.Response(status=303, headers={"Location": "/"})

    async def sign_in(self, request: web.Request) -> web.Response:
        """The token as it is typed."""
        given = read_form(request.content_type, await body_of(request)).get("token", [""])
        session = self.door.enter(request, given[0].strip())
        if session is None:
            return self.html("sign_in.html", 401)
        return self.door.give(self.see_other(), session) if self.door.is_proxied else self.entered(session)

    async def sign_out(self, request: web.Request) -> web.Response:
        """The session of a browser ends, and all its windows are told. Answered 401 the browser forgets a proxy's
        password; with another user's it comes again, has no session, and is led to the list."""
        session = self.door.session(request)
        if session is None:
            return self.see_other()
        self.door.end(session, read_form(request.content_type, await body_of(request)).get("key", [""])[0])
        self.left.pop(session.user, None)
        for reader, one in self.readers.items():
            if one is session:
                reader.news.set()
        reply = self.html("signed_out.html" if self.door.is_proxied else "sign_in.html", 401)
        return self.door.take_back(reply)

    async def has_session(self, request: web.Request) -> web.Response:
        """Whether a request has a session: a proxy asks before it judges a password."""
        if self.door.session(request) is None:
            raise web.HTTPUnauthorized(text="no session\n")
        return web.Response(status=204)

    async def file(self, request: web.Request) -> web.Response:
        name = request.path[1:]
        return web.Response(body=self.files[name], content_type=TYPES[Path(name).suffix], charset="utf-8")

    async def stream(self, request: web.Request) -> web.StreamResponse:
        """What is shown, as events: first all of it, then what changes."""
        session = self.door.may_watch(request)
        if collections.Counter(self.users())[session.user] >= MOST_OF_USER:
            said = self.words.of(OWN_WINDOWS, user=session.user, most=MOST_OF_USER)
            raise web.HTTPServiceUnavailable(text=f"{said}\n")
        if len(self.readers) >= MOST_STREAMS:
            raise web.HTTPServiceUnavailable(text=f"{self.words.of(ALL_WINDOWS, most=MOST_STREAMS)}\n")
        hold(request)
        response = web.StreamResponse(
            headers={**HEADERS, "Content-Type": "text/event-stream", "X-Accel-Buffering": "no"}
        )
        reader = Reader(self.boards)
        self.readers[reader] = session
        try:
            await response.prepare(request)
            await response.write(self.hello(session).encode())
            await self.tell(response, reader, session)
        except (ConnectionError, asyncio.TimeoutError):
            pass
        finally:
            del self.readers[reader]
            if not session.is_over:
                self.left[session.user] = time.monotonic()
            reader.leave()
        return response

    def hello(self, session: Session) -> str:
        """The first event of a stream: who the operator is, which actions are the operator's, and what the plants are
        called; behind a proxy also the key."""
        told = {
            "user": session.user,
            "role": session.role,
            "may": self.door.words(session),
            "most": self.door.rules.most,
            "positions": self.door.rules.told_positions(),
            "plants": [board.name for board in self.boards],
        }
        return f"event: hello\ndata: {written(told | ({'key': session.key} if self.door.is_proxied else {}))}\n\n"

    def users(self) -> list[str]:
        """The user of each stream."""
        return [session.user for session in self.readers.values()]

    def present(self) -> list[str]:
        """The users who have the list open, or had it just before: who has a position is at it."""
        now = time.monotonic()
        self.left = {user: left for user, left in self.left.items() if now - left < AWAY}
        return sorted({*self.users(), *self.left})

    async def tell(self, response: web.StreamResponse, reader: Reader, session: Session) -> None:
        """Tells a browser what is new, until it leaves or its user has signed out."""
        present: list[str] = []
        while not self.is_ending and not session.is_over:
            text, now = reader.told(), self.present() if self.door.rules.desks else present
            if now != present:
                text, present = f"event: present\ndata: {written(now)}\n\n{text}", now
            await asyncio.wait_for(response.write(text.encode()), PATIENCE)
            await asyncio.sleep(REST)
            await reader.wait()
        if session.is_over:
            await asyncio.wait_for(response.write(b"event: bye\ndata: {}\n\n"), PATIENCE)

    async def do(self, request: web.Request) -> web.Response:
        """An order, and what came of each of its alarms."""
        session = self.door.may_change(request)
        hold(request)
        loop = asyncio.get_running_loop()
        answered: "asyncio.Future[list[Answer]]" = loop.create_future()

        def answer(answers: list[Answer]) -> None:
            loop.call_soon_threadsafe(lambda: answered.done() or answered.set_result(answers))

        try:
            order = read_order(
                await read_json(request), session.user, session.role, self.door.rules, answer, len(self.boards)
            )
            self.take(order)
        except BadOrder as bad:
            raise web.HTTPBadRequest(text=f"{self.words.of(bad.text, **bad.values)}\n") from None
        except NotAllowed as refused:
            raise web.HTTPForbidden(text=f"{self.words.of(refused.text, **refused.values)}\n") from None
        try:
            answers = await asyncio.wait_for(answered, ANSWERING)
        except asyncio.TimeoutError:
            answers = [Answer(alarm, "lost", None, NO_REPLY) for alarm, _ in order.alarms]
        return web.json_response({"answers": answers}, dumps=written)


def hold(request: web.Request) -> None:
    """Of somebody who was let in: the connection stays as long as the request takes."""
    line = line_of(request)
    if line:
        line.hold()


async def body_of(request: web.Request) -> bytes:
    """What a request brings, which has to come soon."""
    try:
        return await asyncio.wait_for(request.read(), ASKING)
    except asyncio.TimeoutError:
        raise web.HTTPRequestTimeout(text="the request didn't end\n") from None
    except web.HTTPException:
        raise
    except (ValueError, web.RequestPayloadError):
        raise web.HTTPBadRequest(text="that is no request\n") from None


async def read_json(request: web.Request) -> Any:
    try:
        return json.loads(await body_of(request))
    except (ValueError, RecursionError):
        raise web.HTTPBadRequest(text="no JSON\n") from None


def read_form(kind: str, body: bytes) -> dict[str, list[str]]:
    """The fields of a form as our page sends it."""
    try:
        if kind == FORM:
            return parse_qs(body.decode("ascii"), errors="strict", max_num_fields=10)
    except ValueError:
        pass
    raise web.HTTPBadRequest(text="that is no form of ours\n")
