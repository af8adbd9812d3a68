"""Who may: hosts, origins, sessions and roles.

Alone, a browser shows the token that was printed last, once, and has a cookie and a key from then on; the next browser
shows the next token. A browser sends cookies to each port of a host, also to another user's, so who has the cookie
alone is shown nothing and may do nothing: the key is given with the reply to the token, and kept for this origin.
Behind a proxy that authenticates, each request comes over the Unix socket with the user's name and role in headers,
which the proxy sets, and the stream gives the key. In both cases a request that changes something carries the key in a
header of its own, and comes from a page of this origin.
"""
import secrets
from dataclasses import dataclass, field
from typing import Callable, Optional
from urllib.parse import urlsplit

from aiohttp import web

from .orders import Rules
from .positions import ROLES

USER, ROLE, KEY = "X-Alarms-User", "X-Alarms-Role", "X-Alarms-Key"
# Sessions that a user has at once; the oldest one goes first.
MOST_SESSIONS = 20
MOST_NAME = 64
POLICY = (
    "default-src 'none'; script-src 'self'; style-src 'self'; connect-src 'self'; img-src 'self'; form-action 'self';"
    " base-uri 'none'; frame-ancestors 'none'"
)
HEADERS = {
    "Content-Security-Policy": POLICY,
    "X-Content-Type-Options": "nosniff",
    "X-Frame-Options": "DENY",
    "Referrer-Policy": "same-origin",
    "Cross-Origin-Resource-Policy": "same-origin",
    "Cross-Origin-Opener-Policy": "same-origin",
    "Cache-Control": "no-store",
}


@dataclass
class Session:
    """A browser that was let in."""

    user: str
    role: str
    cookie: str = field(default_factory=lambda: secrets.token_urlsafe(32))
    key: str = field(default_factory=lambda: secrets.token_urlsafe(32))
    # Whether its user has signed out.
    is_over: bool = False


class Door:
    """Lets browsers in: by a token that is good once, or behind a proxy by its headers."""

    def __init__(
        self, origin: str, is_proxied: bool, user: str, role: str, rules: Rules, announce: Callable[[str], None]
    ):
        parts = urlsplit(origin)
        self.origin, self.host, self.is_secure = (
            f"{parts.scheme}://{parts.netloc}",
            parts.netloc,
            parts.scheme == "https",
        )
        self.is_proxied, self.user, self.role, self.rules = is_proxied, user, role, rules
        self.announce, self.token = announce, ""
        self.cookie = "__Host-alarms" if self.is_secure else f"alarms-{parts.port or 80}"
        self.sessions: dict[str, Session] = {}

    def open(self) -> None:
        """Announces the address that lets a browser in. Alone it has a token, in the place of the one before."""
        self.token = "" if self.is_proxied else secrets.token_urlsafe(32)
        self.announce(f"{self.origin}/" + (f"?token={self.token}" if self.token else ""))

    def check(self, request: web.Request) -> None:
        """Refuses what no page of ours and no operator sends: another host, another origin, another site's page."""
        if request.headers.getall("Host", []) != [self.host]:
            raise web.HTTPMisdirectedRequest(text="this isn't the host that was asked for\n")
        origins: list[str] = request.headers.getall("Origin", [])
        is_visit = (
            request.method == "GET" and request.path == "/" and request.headers.get("Sec-Fetch-Dest") == "document"
        )
        if (origins and origins != [self.origin]) or (not origins and request.method != "GET"):
            raise web.HTTPForbidden(text="another origin\n")
        if not is_visit and request.headers.get("Sec-Fetch-Site", "same-origin") not in ("same-origin", "none"):
            raise web.HTTPForbidden(text="another site\n")

    def session(self, request: web.Request) -> Optional[Session]:
        """The session of a request, if it has one and, behind a proxy, still is that user's in that role."""
        session = self.sessions.get(request.cookies.get(self.cookie, ""))
        if session and self.is_proxied and (session.user, session.role) != self.named(request):
            return None
        return session

    def named(self, request: web.Request) -> tuple[str, str]:
        """The user and the role that the proxy names. Without a name nobody is let in; an unknown role is a
        viewer's."""
        users: list[str] = request.headers.getall(USER, [])
        roles: list[str] = request.headers.getall(ROLE, [])
        if len(users) != 1 or not 0 < len(users[0]) <= MOST_NAME or not users[0].isprintable():
            raise web.HTTPUnauthorized(text="the proxy names no user\n")
        return users[0], roles[0] if len(roles) == 1 and roles[0] in ROLES else ROLES[0]

    def enter(self, request: web.Request, token: str) -> Optional[Session]:
        """A new session, where the request may have one."""
        if self.is_proxied:
            session = Session(*self.named(request))
        elif self.token and secrets.compare_digest(token.encode(), self.token.encode()):
            session = Session(self.user, self.role)
            self.open()
        else:
            return None
        self.sessions[session.cookie] = session
        own = [cookie for cookie, one in self.sessions.items() if one.user == session.user]
        for cookie in own[:-MOST_SESSIONS]:
            del self.sessions[cookie]
        return session

    def give(self, response: web.Response, session: Session) -> web.Response:
        """The response with the session's cookie."""
        response.set_cookie(
            self.cookie, session.cookie, httponly=True, samesite="Strict", secure=self.is_secure, path="/"
        )
        return response

    def take_back(self, response: web.Response) -> web.Response:
        """The response with an end of the browser's cookie."""
        response.set_cookie(
            self.cookie, "", max_age=0, httponly=True, samesite="Strict", secure=self.is_secure, path="/"
        )
        return response

    def end(self, session: Session, key: str) -> None:
        """Ends the session of a user who signs out, by its key."""
        if not secrets.compare_digest(key.encode(), session.key.encode()):
            raise web.HTTPForbidden(text="no key\n")
        session.is_over = True
        self.sessions.pop(session.cookie, None)

    def words(self, session: Session) -> list[str]:
        """The actions that a session has by its role; where there are positions none by that."""
        return [] if self.rules.desks else self.rules.words(session.role)

    def has_key(self, request: web.Request, session: Session) -> bool:
        return secrets.compare_digest(request.headers.get(KEY, "").encode(), session.key.encode())

    def may_watch(self, request: web.Request) -> Session:
        """The session of a request that is told the list; alone it wants the session's key."""
        session = self.session(request)
        if session is None or not (self.is_proxied or self.has_key(request, session)):
            raise web.HTTPUnauthorized(
                text="this browser isn't signed in: open the address that alm_browser printed last\n"
            )
        return session

    def may_change(self, request: web.Request) -> Session:
        """The session of a request that changes something; refused without the session's key."""
        session = self.session(request)
        if session is None:
            raise web.HTTPUnauthorized(text="no session\n")
        if not self.has_key(request, session):
            raise web.HTTPForbidden(text="no key\n")
        if request.content_type != "application/json":
            raise web.HTTPUnsupportedMediaType(text="JSON is wanted\n")
        return session
