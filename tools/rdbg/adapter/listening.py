"""A port for editors, each of which gets a session of its own."""
import contextlib
import socket
import sys
import threading
from typing import Any, Set

from rdbg.adapter.server import Server
from rdbg.door import Door, Entrance, SilentConnections, drop
from rdbg.temporary import temporary_file

# The most editors at a time, the most connections that have sent nothing (the oldest is closed if
# there are more), and the seconds that each may stay silent.
MOST, MOST_SILENT, SECONDS = 16, 16, 10.0
# Printed on systems that do not tell which user made a connection.
UNTOLD = "rdbg dap: this system does not tell which user made a connection"
ASKED = "`launch` and `attach` need as `token` the contents of"


def listen(port: int, door: Door) -> None:
    """Serves editors for ever. Raises `Failure` if the port is not available, or if a token is
    needed and cannot be written."""
    with Editors(port, door) as editors, contextlib.ExitStack() as ends:
        if door.token:
            path = ends.enter_context(temporary_file("token", f"{door.token}\n", "the token"))
            print(f"{UNTOLD}: {ASKED} {path}", file=sys.stderr, flush=True)
        print(f"listening {port}{door.announcement}", flush=True)
        editors.serve_forever()


class Editors(Entrance):
    """The connections of editors: those that have sent nothing yet, and those being served."""

    what = "this adapter"

    def __init__(self, port: int, door: Door) -> None:
        super().__init__(port, door, SilentConnections(MOST_SILENT, SECONDS))
        self._guard = threading.Lock()
        self._served: Set[socket.socket] = set()
        self._has_said = False

    def refusal(self, why: str) -> bytes:
        """Returns no bytes. The first refusal is reported on standard error."""
        if not self._has_said:
            self._has_said = True
            print(f"rdbg dap: a connection was closed: {why}", file=sys.stderr, flush=True)
        return b""

    def finish_request(self, request: Any, client_address: Any) -> None:
        """Serves an editor."""
        try:
            with request.makefile("rb") as lines, request.makefile("wb") as out:
                try:
                    Server(lines, out, lambda: self._comes(request), self.door.token).serve()
                finally:
                    with self._guard:
                        self._served.discard(request)
                    drop(request)  # (a connection cannot be closed while another thread reads it)
        except OSError as error:
            print(f"rdbg dap: lost the connection to an editor: {error.strerror}", file=sys.stderr)

    def _comes(self, connection: socket.socket) -> str:
        """Registers an editor at its first request. Returns why it is refused, if it is."""
        self.unread.remove(connection)
        with self._guard:
            if len(self._served) >= MOST:
                return f"there are already {MOST} editors"
            self._served.add(connection)
        return ""
