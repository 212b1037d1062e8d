"""A connection to a room's port, with bounds on what it may send and leave unread."""
import contextlib
import select
import socket
import threading
import time
from typing import Iterator, Optional

from rdbg.commands import MOST_BYTES
from rdbg.door import drop
from rdbg.rooms.member import Member
from rdbg.rooms.seats import Refusal

# Bytes that are read, and sent, at a time.
READ, PIECE = 65_536, 4_096
# Unread bytes above which the connection's own lines wait, and above which it misses notices.
SLOW, MOST_UNREAD = 262_144, 1_048_576
# A connection whose lines wait is dropped if it reads nothing for this many seconds.
STUCK = 60.0
# Seconds of silence after which a connection is announced as a guest, and after which it is closed
# if there is no session for another guest.
MOMENT, NAMELESS = 1.0, 5.0
# A connection that ends is closed after this many seconds without reading, and after this many in
# all. The bytes that it still sends are discarded up to a limit. It is polled every TURN seconds.
LAST_SECONDS, MOST_SECONDS, LAST_BYTES, TURN = 1.0, 30.0, 4_194_304, 0.05


class Client:
    """A connection and its member. A thread of its own sends what it is told, so that nobody waits
    for it."""

    def __init__(self, connection: socket.socket) -> None:
        self.connection = connection
        self.member: Optional[Member] = None
        # Whether its first line has arrived.
        self.has_spoken = False
        self._came = time.monotonic()
        with contextlib.suppress(OSError):
            connection.setsockopt(socket.IPPROTO_TCP, socket.TCP_NODELAY, 1)
            connection.setsockopt(socket.SOL_SOCKET, socket.SO_SNDBUF, READ)
        # (the unsent bytes, which change only while this is held; and the number of sent bytes)
        self._changed = threading.Condition()
        self._out, self._missed, self._sent = bytearray(), 0, 0
        self._is_ending = False
        self._writer = threading.Thread(target=self._write, daemon=True)
        self._writer.start()

    @property
    def is_waiting(self) -> bool:
        """Whether it has connected, and has sent nothing yet."""
        return self.member is None or not self.member.is_told

    def _patience(self) -> Optional[float]:
        """Returns the seconds until it has been silent for too long, or `None` if it has not."""
        late = self._came + (NAMELESS if self.member is None else MOMENT)
        return max(0.0, late - time.monotonic()) if self.is_waiting else None

    def hear(self, notice: str) -> None:
        """Sends a notice, or drops it if too much is unread. Dropped notices are counted."""
        with self._changed:
            if len(self._out) > MOST_UNREAD:
                self._missed += 1
                return
            if self._missed:
                self._put(
                    f"# {self._missed} notices were dropped here: this client read too slowly"
                )
                self._missed = 0
            self._put(notice)

    def answer(self, reply: str) -> None:
        """Sends a reply."""
        with self._changed:
            self._put(reply)

    def _put(self, line: str) -> None:
        if not self._is_ending:
            self._out += line.encode("utf-8", "replace") + b"\n"
            self._changed.notify_all()

    def _write(self) -> None:
        """Sends the unsent bytes until `finish` was called and all are sent."""
        with contextlib.suppress(OSError):
            piece = self._next()
            while piece:
                sent = self.connection.send(piece)
                with self._changed:
                    del self._out[:sent]
                    self._sent += sent
                    self._changed.notify_all()
                piece = self._next()
            self.connection.shutdown(socket.SHUT_WR)
        self.finish()
        with self._changed:
            self._out.clear()

    def _next(self) -> bytes:
        """Waits for the next bytes to send, and returns them; none at the end."""
        with self._changed:
            self._changed.wait_for(lambda: self._out or self._is_ending)
            return bytes(self._out[:PIECE])

    def wait(self) -> None:
        """Waits while too much is unread. Raises `Refusal` if it reads nothing for too long."""
        with self._changed:
            while len(self._out) > SLOW and not self._is_ending:
                sent = self._sent
                if not self._changed.wait_for(lambda: self._sent > sent or self._is_ending, STUCK):
                    raise Refusal("it does not read its replies")

    def lines(self) -> Iterator[Optional[bytes]]:
        """Yields the received lines, the beginning of one that is too long, and `None` each time
        that nothing has arrived for too long."""
        tail = b""
        with contextlib.suppress(OSError):
            while len(tail) <= MOST_BYTES:
                if not select.select([self.connection], [], [], self._patience())[0]:
                    yield None
                    continue
                content = self.connection.recv(READ)
                *whole, tail = (tail + content).split(b"\n")
                if tail and not content:
                    whole.append(tail)
                yield from (line[: MOST_BYTES + 1] for line in whole)
                if not content:
                    return
            yield tail[: MOST_BYTES + 1]

    def finish(self) -> None:
        """Sends nothing more after what is unsent."""
        with self._changed:
            self._is_ending = True
            self._changed.notify_all()

    def end(self, word: str = "") -> None:
        """Sends the reason, if any, and waits until the connection has read everything, or nothing
        for a while. It can be closed then."""
        if word:
            self.hear(f"# no: {word}")
        self.finish()
        began, left, has_ended = time.monotonic(), LAST_BYTES, False
        until = began + LAST_SECONDS
        with contextlib.suppress(OSError):
            while left >= 0 and (self._writer.is_alive() or not has_ended):
                sent = self._sent
                if has_ended:
                    self._writer.join(TURN)
                elif select.select([self.connection], [], [], TURN)[0]:
                    content = self.connection.recv(READ)
                    left, has_ended = left - len(content), not content
                if self._sent > sent:
                    until = min(time.monotonic() + LAST_SECONDS, began + MOST_SECONDS)
                if time.monotonic() > until:
                    break
        drop(self.connection)
        self._writer.join()
