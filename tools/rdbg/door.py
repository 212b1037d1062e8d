"""Decides who may connect to a port of this machine: the user whose process listens there, or every
user if that is asked for. Refuses what comes by mistake, such as the requests of a browser, which
sends them on behalf of any page."""
import contextlib
import hmac
import os
import re
import secrets
import socket
import sys
import threading
import time
from socketserver import BaseRequestHandler, TCPServer, ThreadingMixIn
from typing import Any, Dict, Type

from rdbg.client import LOCAL
from rdbg.ending import ENDING
from rdbg.failure import trying
from rdbg.owners import client_owner, find_lookup

# The first line of an HTTP request, and the first bytes of an encrypted connection.
REQUEST = re.compile(rb"[!#$%&'*+.^_`|~0-9A-Za-z-]+ \S+ HTTP/[0-9.]+\r?\n?$", re.IGNORECASE)
ENCRYPTED = b"\x16\x03"
# How a client sends its token, on a system that does not tell the owners of connections.
TOKEN = "# token"
REMEDY = "start it with --anyone to let every user in"
# How much of what a refused client has sent is read, so that the system does not drop the answer.
MAX_UNREAD_BYTES = 65_536
# How long to wait if a connection cannot be accepted, which mostly is for lack of descriptors.
PAUSE_SECONDS = 0.02


def is_of_a_browser(line: bytes) -> bool:
    """Returns whether what a browser sends begins with this line."""
    return line.startswith(ENCRYPTED) or REQUEST.match(line) is not None


class Door:
    """Lets in the user of this process, or every user. Root is a user like any other. On a system
    that does not tell the owners of connections, clients must send a token instead."""

    def __init__(self, is_open: bool = False) -> None:
        self.is_open, self._user = is_open, os.geteuid()
        self._lookup = None if is_open else find_lookup()
        self.token = "" if is_open or self._lookup else secrets.token_urlsafe(18)

    @property
    def announcement(self) -> str:
        """What is printed after the number of the port."""
        return ", for anyone of this machine" if self.is_open else ""

    def refusal(self, connection: socket.socket, what: str) -> str:
        """Returns why a connection to `what` is refused before a byte of it is read. Empty if it is
        let in, or if its first line may be the token."""
        if self._lookup is None:
            return ""
        user = client_owner(self._lookup, connection)
        if user is None:
            return f"cannot tell which user this connection belongs to ({REMEDY})"
        return "" if user == self._user else f"{what} belongs to another user ({REMEDY})"

    def refusal_of_line(self, line: bytes) -> str:
        """Returns why a connection with this first line is refused, or an empty text."""
        if is_of_a_browser(line):
            return "this port is for lines, and a browser sent this"
        wanted = f"{TOKEN} {self.token}".encode()
        if self.token and not hmac.compare_digest(line.strip(), wanted):
            return f"the first line must be `{TOKEN} ..`, as it was printed at the start"
        return ""


def refuse(connection: socket.socket, content: bytes = b"") -> None:
    """Sends a last answer, and closes the connection. Waits for nobody."""
    with connection, contextlib.suppress(OSError):
        connection.setblocking(False)
        connection.send(content)
        connection.shutdown(socket.SHUT_WR)
        connection.recv(MAX_UNREAD_BYTES)


class SilentConnections:
    """The connections that have not said yet what they want. None of them keeps another one out: if
    there are too many, the oldest is dropped, and so is each that takes too long."""

    def __init__(self, most: int, seconds: float) -> None:
        self._most, self._seconds = most, seconds
        self._guard = threading.Lock()
        self._since: Dict[socket.socket, float] = {}

    def add(self, connection: socket.socket) -> None:
        """Adds a new connection."""
        with self._guard:
            if len(self._since) >= self._most:
                self._drop(next(iter(self._since)))
            self._since[connection] = time.monotonic()

    def drop_oldest(self) -> bool:
        """Drops the oldest, and returns whether there was one."""
        with self._guard:
            oldest = next(iter(self._since), None)
            if oldest is not None:
                self._drop(oldest)
        return oldest is not None

    def remove(self, connection: socket.socket) -> None:
        """Removes a connection that has said what it wants, or has gone."""
        with self._guard:
            self._since.pop(connection, None)

    def drop_late(self) -> None:
        """Drops those that take too long."""
        latest = time.monotonic() - self._seconds
        with self._guard:
            for connection in [it for it, since in self._since.items() if since < latest]:
                self._drop(connection)

    def _drop(self, connection: socket.socket) -> None:
        drop(connection)
        del self._since[connection]


def drop(connection: socket.socket) -> None:
    """Ends a connection, also for a thread that waits for it."""
    with contextlib.suppress(OSError):  # (it may have gone)
        connection.shutdown(socket.SHUT_RDWR)


class Entrance(ThreadingMixIn, TCPServer):
    """A port of this machine, at which each connection that is let in gets a thread. `what` names in
    refusals what listens there."""

    what = "this room"
    daemon_threads, block_on_close = True, False
    allow_reuse_address = True
    request_queue_size = 64

    def __init__(
        self,
        port: int,
        door: Door,
        unread: SilentConnections,
        handler: Type[BaseRequestHandler] = BaseRequestHandler,
    ) -> None:
        """Listens at a port, or at a free one if it is 0. Raises `Failure` if it is taken."""
        self.door, self.unread = door, unread
        with trying(f"listen at port {port}"):
            super().__init__((LOCAL, port), handler)
        self.port: int = self.server_address[1]

    def get_request(self) -> Any:
        try:
            return super().get_request()
        except OSError:
            time.sleep(PAUSE_SECONDS)
            raise

    def verify_request(self, request: Any, client_address: Any) -> bool:
        """Returns whether a connection is let in, before anything of it is read, and tells a refused
        client why."""
        why = self.door.refusal(request, self.what)
        if why:
            refuse(request, self.refusal(why))
        return not why

    def refusal(self, why: str) -> bytes:
        """Returns what a refused client is sent."""
        raise NotImplementedError

    def process_request(self, request: Any, client_address: Any) -> None:
        """Starts a thread for a connection."""
        self.unread.add(request)
        super().process_request(request, client_address)

    def shutdown_request(self, request: Any) -> None:
        """Closes a connection that has been served."""
        self.unread.remove(request)
        super().shutdown_request(request)

    def handle_error(self, request: Any, client_address: Any) -> None:
        """Says in one line why a connection was dropped."""
        why = sys.exc_info()[1]
        print(f"{ENDING.name}: a connection was dropped: {why}", file=sys.stderr, flush=True)

    def service_actions(self) -> None:
        """Drops silent connections; called about twice a second."""
        self.unread.drop_late()
