"""A room in the browser: pages that are served on this machine alone, each a member of the room."""
import contextlib
import io
import select
import threading
from http.server import BaseHTTPRequestHandler
from typing import Any, Callable, Dict, Optional

from rdbg.client import LOCAL
from rdbg.commands import is_number
from rdbg.door import Door, Entrance, SilentConnections
from rdbg.failure import Failure
from rdbg.rooms import web_document
from rdbg.rooms import web_guard as guard
from rdbg.rooms.room import Refusal, Room
from rdbg.rooms.web_follower import Follower, Values
from rdbg.rooms.web_known import Known
from rdbg.rooms.web_guard import Denied
from rdbg.rooms.web_pages import Page, Pages, as_json

# A page is told that it is still told something after so many seconds.
STILL_HERE = 15.0
# So many seconds a page may take to read its last events, once the room has ended.
LAST_SECONDS = 2.0
HTML, TEXT, EVENTS = "text/html; charset=utf-8", "text/plain; charset=utf-8", "text/event-stream"

# Where a page is let in by the key of its address.
ENTRY = "/in"
# What a page can say, by the path that is asked, and what it is answered.
SAID: Dict[str, Callable[[Page, str], Optional[Dict[str, str]]]] = {
    "line": lambda page, line: {"reply": page.ask(line)},
    "name": lambda page, name: page.member.rename(name),
    "run": lambda page, _: page.tell("run", ""),  # (where it isn't shown where the target is)
    "save": lambda page, _: {"reply": page.moves()},
    "watches": lambda page, _: {"reply": page.watches()},
}
# For which moves it can ask, by the place at which those begin or end that it has.
MOVES: Dict[str, Callable[[Known, int], Values]] = {
    "before": Known.before,
    "behind": Known.behind,
}


class Handler(BaseHTTPRequestHandler):
    """One request, and its connection: none stays open for a second one."""

    server: "Served"
    timeout = guard.SECONDS
    server_version, sys_version = "rdbg", ""

    def setup(self) -> None:
        super().setup()
        self.bounded = guard.Bounded(self.connection, guard.MOST_HEAD + guard.MOST_BODY)
        self.rfile = io.BufferedReader(self.bounded)

    def do_GET(self) -> None:
        """The page, or what comes to it; of a POST, a line."""
        try:
            self._let_in(self.command)
        except Denied as denied:
            self.send_error(denied.status, denied.text)
        except OSError:
            pass  # (the connection has gone)

    do_POST = do_GET

    def _let_in(self, method: str) -> None:
        if self.bounded.is_over:
            raise Denied(431, "the request head is too long")
        guard.check_origin(self.headers, self.server.port, method)
        if self.path == "/" and method == "GET":
            self.server.unread.remove(self.connection)
            return self._answer(200, HTML, self.server.page)
        if self.path == ENTRY and method == "POST":
            self.server.key.use(self._said().get("key", ""))
            return self._answer(200, guard.JSON, as_json({"token": self.server.token}))
        name, query = guard.check_token(self.path, self.server.token)
        if method == "POST":
            if name not in SAID and name not in MOVES:
                raise Denied(404, "not found")
            return self._line(name, self._said())
        self.server.unread.remove(self.connection)
        if name not in ("room", "events") or guard.one(self.headers, "Sec-Fetch-Site") == "none":
            raise Denied(404, "not found")
        if name == "room":
            return self._answer(200, guard.JSON, self.server.of_room)
        self._events(query)

    def _said(self) -> Dict[str, str]:
        """The texts that a request says, which has come then. Raises `Denied`."""
        said = guard.body_of(self.headers, self.rfile)
        self.server.unread.remove(self.connection)
        return said

    def _line(self, name: str, said: Dict[str, str]) -> None:
        try:
            page = self.server.pages.of(said.get("page", ""))
            if name in MOVES:
                return self._answer(200, guard.JSON, self._moves(name, said.get(name, "")))
            found = SAID[name](page, said.get(name, "")) or {}
        except Refusal as refusal:
            found = {"refused": str(refusal)}
        except Failure as failure:
            found = {"ended": str(failure)}
        self._answer(200, guard.JSON, as_json(found))

    def _moves(self, name: str, place: str) -> str:
        """The moves for which a page asks. Raises `Refusal`."""
        if not is_number(place):
            raise Refusal(f"'{place[:16]}' is not a place")
        follower = self.server.follower
        with follower.guard:
            return as_json(MOVES[name](follower.known, int(place)))

    def _events(self, query: str) -> None:
        """Tells a page what comes, until it goes."""
        name = guard.name_in(query)
        self._head(200, EVENTS)
        try:
            page = self.server.pages.open(name)
        except Refusal as refusal:
            self._event("refused", as_json(str(refusal)))
            return
        try:
            self._event("you", as_json(page.key))
            self._tell(page)
        finally:
            self.server.pages.close(page)

    def _tell(self, page: Page) -> None:
        while True:
            has_ended = self.server.has_ended
            for kind, text in page.take(self.server.room, self.server.follower):
                self._event(kind, text)
            if has_ended:
                return self._event("end", as_json(page.moves()))
            ready = select.select([self.connection, page.woken], [], [], STILL_HERE)[0]
            if self.connection in ready:
                return  # (a page has nothing more to say here: it has gone)
            if page.woken in ready:
                page.woken.recv(4_096)
            elif not ready:
                self.wfile.write(b":\n\n")

    def _event(self, kind: str, text: str) -> None:
        self.wfile.write(f"event: {kind}\ndata: {text}\n\n".encode())

    def _head(self, status: int, kind: str) -> None:
        self.send_response(status)
        self.send_header("Content-Type", kind)
        for name, value in guard.HEADERS:
            self.send_header(name, value)
        if kind == HTML:
            self.send_header("Content-Security-Policy", web_document.FRAMES)
        self.end_headers()

    def _answer(self, status: int, kind: str, text: str) -> None:
        self._head(status, kind)
        self.wfile.write(text.encode())

    def send_error(
        self, code: int, message: Optional[str] = None, explain: Optional[str] = None
    ) -> None:
        """Says why a request isn't answered, and nothing of what it said."""
        why = "bad request" if code == 400 else message or code
        with contextlib.suppress(OSError):
            self._answer(code, TEXT, f"rdbg: {why}\n")

    def log_message(self, format: str, *args: Any) -> None:
        """Says nothing."""


class Served(Entrance):
    """The pages of a room, until they are closed."""

    def __init__(self, room: Room, port: int, door: Optional[Door] = None) -> None:
        """Serves them at a port, or at a free one where it is 0. Raises `Failure` for none."""
        self.room = room
        # (the one lets a browser in, once; the other one it has for it, and says with each request)
        self.key, self.token = guard.Key(), guard.new()
        self.pages, self.page = Pages(room), web_document.page()
        self.of_room = as_json(web_document.of_room(room.app_source))
        room.when_reloaded = self._reload
        self.has_ended = False
        super().__init__(
            port, door or Door(), SilentConnections(guard.MOST_UNREAD, guard.SECONDS), Handler
        )
        try:
            self.follower = Follower(room, self.pages.tell)
        except BaseException:
            self.server_close()
            raise
        self._thread = threading.Thread(target=self.serve_forever, daemon=True)
        self._thread.start()

    def _reload(self) -> None:
        """The room has another source: it is followed anew, and all pages are to be loaded anew."""
        self.of_room = as_json(web_document.of_room(self.room.app_source))
        self.pages.end_all()
        old = self.follower
        try:
            self.follower = Follower(self.room, self.pages.tell)
        except Failure as failure:
            with old.guard:
                old.lose(failure)
        else:
            old.close()
        self.pages.end_all()  # (those that came meanwhile, too)

    @property
    def address(self) -> str:
        """Where the room's page is, with the key that lets a browser in, once. (What stands behind
        `#` a browser keeps for the page, and sends nobody.)"""
        return f"http://{LOCAL}:{self.port}/#{self.key.text}"

    def say_where(self, ends: contextlib.ExitStack, is_terminal: bool) -> str:
        """What is said of where the page is, up to the end that is given; from here on its address
        is said anew once it was used. Raises `Failure` where that can't be."""
        where, say = ends.enter_context(guard.said(self.address, is_terminal))
        self.key.say = lambda: say(self.address)
        return where

    def refusal(self, why: str) -> bytes:
        return guard.refusal(why)

    def handle_error(self, request: Any, client_address: Any) -> None:
        """Says nothing: the connection has gone, or it said what is no request."""

    def close(self) -> None:
        """Ends all pages."""
        self.has_ended = True
        self.shutdown()
        self.server_close()
        self._thread.join()
        self.pages.wait(LAST_SECONDS)
        self.follower.close()
