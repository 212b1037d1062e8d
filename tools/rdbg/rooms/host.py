"""The `rdbg serve` of a room: its start, until the room has all its sessions, and its audit."""
import contextlib
import re
import signal
import socket
import subprocess
import tempfile
import threading
import time
from typing import IO, Callable, Iterator, List, NamedTuple, Optional, Set

from rdbg import children, owners, serve_port
from rdbg.client import LOCAL, Session, connected, program
from rdbg.ending import STARTED
from rdbg.failure import Failure, trying
from rdbg.rooms import apart, resources
from rdbg.driving.opening import NotLetIn, as_read, greet
from rdbg.driving.target import Limits
from rdbg.files.source import Source

# The most sessions that serve admits.
MOST_SESSIONS = 64
# Without a network of its own, a port that was free can be taken before serve listens there, and
# others can connect to serve first: then other ports are tried, for so many seconds.
SECONDS = 10.0
# A new session must be answered within so many seconds.
PATIENCE = 5.0
TAKEN = "cannot listen"
# How it refuses a session for which it has no memory, or no thread.
NO_MEMORY = "NoMemory"
# How many of the others who connected first are named.
FEW = 3


def status_text(status: int) -> str:
    """Says how a process ended."""
    if status >= 0:
        return f"status {status}"
    return f"killed by {signal.Signals(-status).name}"


class Ended(Failure):
    """The program has ended, and answers no line any more."""


class Hindered(Failure):
    """Each program had to be given up, because others connected first, or it did not answer."""


def free_port() -> int:
    """Returns a port of this machine at which nobody listens."""
    with socket.socket() as found:
        found.bind((LOCAL, 0))
        return int(found.getsockname()[1])


class Host:
    """A program that serves, and all its sessions, whose numbers begin with 1.

    If the system gives the program a network of its own, nobody else can connect to it. Otherwise
    its port is open until the room has all sessions; each has answered then, so none is another
    user's."""

    def __init__(self, process: "subprocess.Popen[bytes]", errors: IO[bytes]) -> None:
        assert process.stdout is not None
        self._process, self._said, self._errors = process, process.stdout, errors
        self.sessions: List[Session] = []
        # (the sockets of the program's own network, if it has one, and the room's own ports)
        self._apart: List[socket.socket] = []
        self._is_apart = False
        self._ours: Set[int] = set()
        # (whether it was asked to end)
        self._is_closing = False

    @classmethod
    def start(
        cls, source: Source, limits: Limits, count: int, seconds: Optional[float] = None
    ) -> "Host":
        """Starts a program with `count` sessions on an application as it was read. Ctrl-C at the
        terminal does not reach it. `seconds` is how long other ports are tried.

        Raises `Failure` if it cannot be started, also for lack of descriptors or memory, and
        `Hindered` if others connected first, or it did not answer, for all that time."""
        resources.check_descriptors(count)
        until = time.monotonic() + (SECONDS if seconds is None else seconds)
        with as_read(source) as path:
            while True:
                port = free_port()
                words = ["--app", path, "--port", str(port), "--sessions", str(count)]
                host = cls._begin([program(), "serve", *words, *limits.words()], count)
                try:
                    if host._listens():
                        host._take(port, count)
                        return host
                    said = host.kill()
                    is_again = TAKEN in said
                    if is_again:
                        said = serve_port.explained(said, port)
                except Failure as failure:
                    admitted = len(host.sessions) - 1
                    said, is_again = host._given_up(port, failure), True
                    if isinstance(failure, NotLetIn) and failure.refusal == NO_MEMORY:
                        raise resources.no_memory(count, admitted) from None
                except BaseException:
                    host.kill()
                    raise
                if not is_again:
                    raise Failure(said or "rdbg serve exited at once")
                if time.monotonic() > until:
                    raise Hindered(said)

    @classmethod
    def _begin(cls, words: List[str], count: int) -> "Host":
        """Starts the program, in a network of its own if the system has one. Raises `Failure`."""
        if not apart.IS_TRIED:
            return cls._started(words, words[0], subprocess.DEVNULL)
        with trying(f"start {words[0]}"):
            here, there = socket.socketpair()
        with here:
            with there:
                host = cls._started(apart.words(count, words), words[0], there.fileno())
            try:
                with trying(f"start {words[0]}"):
                    host._apart = apart.received(here, count)
            except BaseException:
                host.kill()
                raise
        host._is_apart = bool(host._apart)
        if host._is_apart:
            return host
        host.kill()
        return cls._started(words, words[0], subprocess.DEVNULL)

    @classmethod
    def _started(cls, words: List[str], name: str, stdin: int) -> "Host":
        with trying(f"start {name}"), contextlib.ExitStack() as ends:
            errors = ends.enter_context(tempfile.TemporaryFile())
            process = children.start(words, stdin, subprocess.PIPE, errors)
            ends.pop_all()
        return cls(process, errors)

    def _listens(self) -> bool:
        """Waits until it listens, and returns false if it ends before."""
        return self._said.readline().startswith(b"listening")

    def _take(self, port: int, count: int) -> None:
        """Takes all sessions, one after the other, so that their numbers are known.

        Raises `Failure` if somebody else got one, or there is no answer."""
        for _ in range(count):
            connection = connected(port, PATIENCE, self._apart.pop() if self._apart else None)
            self._ours.add(int(connection.getsockname()[1]))
            session = Session.over(connection, port)
            self.sessions.append(session)
            greet(session)
            session.wait_at_most(None)

    @contextlib.contextmanager
    def asking(self, number: int) -> Iterator[Session]:
        """Yields a session to be asked. Raises `Ended` if the program has ended."""
        try:
            yield self.sessions[number - 1]
        except Failure:
            raise Ended(self.why_ended()) from None

    def tell_all(self, number: int, lines: List[str]) -> List[str]:
        """Returns the replies to lines of one session. Raises `Ended`."""
        with self.asking(number) as session:
            return list(session.tell_all(lines))

    def watch(self, when_ended: Callable[["Host"], None]) -> None:
        """Calls `when_ended` from a thread of its own if the program ends and nobody has asked for
        that by `kill` or `close`."""

        def wait() -> None:
            self._process.wait()
            if not self._is_closing:
                when_ended(self)

        threading.Thread(target=wait, daemon=True).start()

    def why_ended(self) -> str:
        """Says that the program has ended, and why, if that is known."""
        with contextlib.suppress(subprocess.TimeoutExpired):
            status = self._process.wait(1)
            return f"rdbg has ended: {self._errors_said() or status_text(status)}"
        return "rdbg has ended"

    def _errors_said(self) -> str:
        """Returns the last line that it wrote to standard error, or an empty text."""
        if self._errors.closed:
            return ""
        self._errors.seek(0)
        said = self._errors.read().decode("utf-8", "replace").strip().splitlines()
        return said[-1] if said else ""

    def _given_up(self, port: int, failure: Failure) -> str:
        """Ends it at once, since its sessions may be another user's, and returns why."""
        clients = {} if self._is_apart else owners.clients_of(port)
        self.kill()
        users = {it: f"user {number}" for it, number in clients.items() if number is not None}
        unknown = "an unknown user"
        theirs = sorted(set(clients) - self._ours)
        named = [f"port {it} of {users.get(it, unknown)}" for it in theirs]
        if not named:
            return f"a new rdbg did not answer: {failure}"
        more = [f"{len(named) - FEW} more"] if len(named) > FEW else []
        others = ", ".join(named[:FEW] + more)
        return f"somebody else connected to port {port} first, from {others}: {failure}"

    def kill(self) -> str:
        """Ends it at once, and returns its last line on standard error."""
        self._is_closing = True
        self._process.kill()
        with self._closing():
            self._process.wait()
            return self._errors_said()

    def close(self) -> "Audit":
        """Ends all sessions, and returns what the program found at its end."""
        self._is_closing = True
        with self._closing():
            for session in self.sessions:
                session.close()
            said = self._said.read().decode("utf-8", "replace")
            status = self._process.wait()
            entries = re.search(r"^closed (\d+)$", said, re.MULTILINE)
            return Audit(int(entries[1]) if entries else None, status, self._errors_said())

    @contextlib.contextmanager
    def _closing(self) -> Iterator[None]:
        try:
            yield
        finally:
            for session in self.sessions:
                session.close()
            for unused in self._apart:
                unused.close()
            self._said.close()
            self._errors.close()
            STARTED.pop(self._process, None)


class Audit(NamedTuple):
    """What a program found at its end: the number of entries of its history, or `None` if it did not
    say, its status, and its last line on standard error."""

    entries: Optional[int]
    status: int
    said: str

    @property
    def is_good(self) -> bool:
        """Whether the history agrees with the answers that the sessions got."""
        return self.entries is not None and self.status == 0

    def text(self) -> str:
        """Returns the audit as a line."""
        if self.is_good:
            return f"closed {self.entries}"
        return self.said or f"rdbg has ended without its audit: {status_text(self.status)}"
