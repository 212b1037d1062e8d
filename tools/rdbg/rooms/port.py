"""A room's port on this machine. Each connection has a thread, and takes turns in the room."""
import contextlib
import select
import signal
import socket
import threading
import time
from typing import Any, Dict, Iterator, Optional

from rdbg.commands import MOST_BYTES
from rdbg.door import TOKEN, Door, Entrance, SilentConnections, drop, refuse
from rdbg.rooms.client import NAMELESS, Client
from rdbg.rooms.host import Ended
from rdbg.rooms.room import Refusal, Room

# The most connections at a time.
MOST = 128
NO_THREAD = "the system cannot start a thread for another connection"
# How long the room waits at its end for clients that still read.
PATIENCE = 2.0


class Port(Entrance):
    """Serves connections until it is stopped, or the program has ended."""

    request_queue_size = MOST
    timeout = 0
    room: Room

    def __init__(self, port: int, door: Optional[Door] = None) -> None:
        super().__init__(port, door or Door(), SilentConnections(MOST, NAMELESS))
        self._guests: Dict[socket.socket, Client] = {}
        self._waking, self._woken = socket.socketpair()
        self._waking.setblocking(False)
        self._is_stopped, self._is_over = False, threading.Event()

    def stop(self) -> None:
        """Ends `serve`, from any thread, or from what handles a signal."""
        self._is_stopped = True
        with contextlib.suppress(OSError):
            self._waking.send(b".")

    @contextlib.contextmanager
    def heard(self) -> Iterator[None]:
        """As long as signals end the wait, also one that comes just before it, or to another
        thread: else it would be heard once something else happens."""
        signal.set_wakeup_fd(self._waking.fileno(), warn_on_full_buffer=False)
        try:
            yield
        finally:
            signal.set_wakeup_fd(-1)

    def serve(self, room: Room) -> None:
        """Serves until it is stopped."""
        self.room = room
        while not self._is_stopped:
            ready = select.select([self.socket, self._woken], [], [])[0]
            if self._woken in ready:
                self._woken.recv(4_096)
            if self.socket in ready:
                self.handle_request()

    def refusal(self, why: str) -> bytes:
        return f"# no: {why}\n".encode()

    def verify_request(self, request: Any, client_address: Any) -> bool:
        """Returns whether a connection is let in; there may be too many already."""
        if not super().verify_request(request, client_address):
            return False
        if len(self._guests) < MOST or (self.door.token and self.unread.drop_oldest()):
            return True
        refuse(request, self.refusal(f"there are already {MOST} connections"))
        return False

    def process_request(self, request: Any, client_address: Any) -> None:
        """Begins the threads for a connection, or says that the system gives none."""
        try:
            self._guests[request] = Client(request)
            super().process_request(request, client_address)
        except RuntimeError:
            self.unread.remove(request)
            guest = self._guests.pop(request, None)
            if guest is None:
                refuse(request, self.refusal(NO_THREAD))
            else:  # (the thread that writes is there)
                guest.hear(f"# no: {NO_THREAD}")
                guest.finish()

    def shutdown_request(self, request: Any) -> None:
        super().shutdown_request(request)
        self._guests.pop(request, None)

    def finish_request(self, request: Any, client_address: Any) -> None:
        """Executes what a connection sends, up to its end; its member is away then."""
        guest, word = self._guests[request], ""
        try:
            self._greet(guest)
            for line in guest.lines():
                if self._is_stopped:
                    break
                self._line(guest, line)
        except Refusal as refusal:
            word = str(refusal)
        except Ended:
            self.stop()
        finally:
            if self._is_stopped:
                self._is_over.wait()  # (what the room says last is said before)
            elif guest.member is not None:
                guest.member.leave(f"dropped: {word}" if word else "")
            guest.end(word)

    def _greet(self, guest: Client) -> None:
        """Makes a new connection a guest, or asks for the token first."""
        if self.door.token:
            guest.hear(
                f"# send `{TOKEN} ..` first, with the token that the room printed when it started"
            )
        else:
            self.unread.remove(guest.connection)
            self._let_in(guest)

    def _let_in(self, guest: Client) -> None:
        """Makes a connection a guest, if there is a session for one."""
        try:
            guest.member = self.room.join(None, guest.hear, is_told=False)
        except Refusal as refusal:
            guest.hear(
                f"# you have no session yet: {refusal}; send `# name NAME` to join by a name"
            )

    def _line(self, guest: Client, line: Optional[bytes]) -> None:
        """Executes one line of a connection, whose first line may refuse it, or does what is due if
        none has come for too long. Raises `Refusal` to end the connection."""
        if line is None:
            return self._is_late(guest)
        if not guest.has_spoken and not self._goes_on_behind(guest, line):
            return
        text = line.decode("utf-8", "replace")
        words = text.split()
        if len(line) > MOST_BYTES:
            self._ask(guest, text)
            raise Refusal(f"a line has at most {MOST_BYTES} bytes")
        if guest.is_waiting and words[:2] != ["#", "name"]:
            self._is_late(guest)
        if guest.member is None:
            guest.member = self.room.join(" ".join(words[2:]), guest.hear)
        elif words and words[0].startswith("#"):
            guest.member.remark(text)
        else:
            self._ask(guest, text)
        guest.wait()

    def _is_late(self, guest: Client) -> None:
        """Announces a silent connection as a guest, or ends it if it is none."""
        if guest.member is None:
            lacks_token = self.door.token and not guest.has_spoken
            raise Refusal(f"no {'token' if lacks_token else 'name'} was sent in time")
        guest.member.announce()

    def _goes_on_behind(self, guest: Client, line: bytes) -> bool:
        """Returns whether a first line is for the room, and not a token. Raises `Refusal` for a
        connection that a browser has made."""
        guest.has_spoken = True
        self.unread.remove(guest.connection)
        why = self.door.refusal_of_line(line)
        if why:
            raise Refusal(why)
        if self.door.token:
            self._let_in(guest)
        return not line.startswith(TOKEN.encode())

    def _ask(self, guest: Client, line: str) -> None:
        """Answers a line for rdbg, or one that is too long."""
        if guest.member is not None:
            guest.member.announce()
            guest.member.ask(line, guest.answer)

    def close(self) -> None:
        """Ends all connections, once they have read everything, or have not read for a while."""
        self.server_close()
        self._is_over.set()
        for guest in list(self._guests.values()):
            guest.finish()
        end = time.monotonic() + PATIENCE
        while self._guests and time.monotonic() < end:
            time.sleep(0.01)
        for connection in list(self._guests):
            drop(connection)
        self._waking.close()
        self._woken.close()
