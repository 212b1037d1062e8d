"""A session of rdbg: lines go out, replies come in, one for one and in order.

At a room's port lines that begin with `#` come between them: notices, which are no replies."""
import collections
import contextlib
import errno
import functools
import os
import pathlib
import re
import select
import signal
import socket
import subprocess
import sys
import tempfile
import threading
from typing import IO, Callable, ContextManager, Deque, Iterable, Iterator, List, Optional
from typing import Sequence, Tuple

from rdbg import children, owners, replies
from rdbg.commands import MOST_BYTES
from rdbg.ending import ENDING, STARTED
from rdbg.failure import Failure, trying
from rdbg.printable import printable

WRAPPER = pathlib.Path(__file__).resolve().parents[2] / "rdbg"
# So many bytes of lines fit into an empty pipe, so that writing them waits for nobody.
BATCH = 32_768
LOCAL = owners.LOCAL
# Notices that nobody hears yet are kept, so many of them.
UNHEARD = 100
NOTICE, REFUSED = b"#", "# no: "
# What a room says last.
ROOM_ENDED = "# the room has ended"
YOU = re.compile(r"# you are ([a-z][a-z0-9_]{0,15}), session ([0-9]{1,10})\b")
READ = 65_536


@functools.lru_cache(maxsize=4_096)
def text_of(line: bytes) -> str:
    """A line that has come, without its end, as a terminal can show it, whoever wrote it."""
    return printable(line[:-1].decode("utf-8", "replace"))


def said_by(words: Sequence[str], errors: Optional[int]) -> Tuple[bytes, int]:
    """What a program says on standard output, and its status. Raises `OSError` without one."""
    pipe, none = subprocess.PIPE, subprocess.DEVNULL
    process = children.start(words, none, pipe, errors, signal.SIGTERM, is_apart=False)
    with process:
        said, _ = process.communicate()
    STARTED.pop(process)
    return said.strip(), process.returncode


def program() -> str:
    """The program that a session of its own starts: the one that the environment names, or the one
    that `./rdbg` starts."""
    return os.environ.get("RDBG_PROGRAM") or built_by_wrapper("rdbg")


def wrapper() -> Tuple[str, List[str]]:
    """The script that started this tool, and the option by which it was told which build to run."""
    words = os.environ.get("RDBG_WRAPPER_WORDS", "")
    return os.environ.get("RDBG_WRAPPER", str(WRAPPER)), words.split()


@functools.lru_cache(maxsize=None)
def built_by_wrapper(name: str) -> str:
    """The program, `rdbg` or `rdreach`, that `./rdbg` starts when called with the same option; it
    builds it if necessary. Raises `Failure` if there is none."""
    file, words = wrapper()
    with trying(f"start {file}"):
        asked = [file, *words, "--build", *([] if name == "rdbg" else [name])]
        path, status = said_by(asked, None)
    os.environ["RDBG_BUILD_REPORTED"] = "1"  # (the wrapper says once which build runs)
    if status or not path:
        raise Failure("there is no program to start", 2 if status == 2 else 1)
    return os.fsdecode(path)


def signals_held() -> ContextManager[None]:
    """Defers the exceptions of signals to the end of a block. Only the main thread gets any."""
    is_main = threading.current_thread() is threading.main_thread()
    return ENDING.held() if is_main else contextlib.nullcontext()


class Incoming:
    """The lines that arrive by a connection or a pipe. `receive` reads the next bytes.

    A signal can end the wait for a line by an exception. What has arrived is not lost by that."""

    def __init__(self, number: int, receive: Callable[[int], bytes]) -> None:
        self._number, self._receive = number, receive
        self._whole: Deque[bytes] = collections.deque()
        self._tail = b""
        self._seconds: Optional[float] = None
        # How many lines have arrived that are not notices.
        self.replies = 0

    def fileno(self) -> int:
        """Returns the descriptor to wait for, or -1 once it is closed."""
        return self._number

    def has_line(self) -> bool:
        """Returns whether a whole line has arrived."""
        return bool(self._whole)

    def fill(self) -> bool:
        """Waits until something arrives. Returns false at the end of the input.

        Raises `OSError`, also if nothing arrives in time."""
        self._wait()
        with signals_held():
            content = self._receive(READ)
            *whole, self._tail = (self._tail + content).split(b"\n")
            self._whole.extend(line + b"\n" for line in whole)
            self.replies += sum(not line.startswith(NOTICE) for line in whole)
        return bool(content)

    def _wait(self) -> None:
        """Waits until `receive` would not block."""
        number = self.fileno()
        if number < 0:
            raise OSError(errno.EBADF, os.strerror(errno.EBADF))
        poll = select.poll()
        poll.register(number, select.POLLIN)
        if not poll.poll(None if self._seconds is None else self._seconds * 1_000):
            raise OSError(errno.ETIMEDOUT, os.strerror(errno.ETIMEDOUT))

    def close(self) -> None:
        """Closes what the lines arrive by."""

    def readline(self) -> bytes:
        """Returns the next line with its end, or what is left without one at the end of the input."""
        while not self._whole:
            if not self.fill():
                last, self._tail = self._tail, b""
                return last
        return self._whole.popleft()


class PipeLines(Incoming):
    """The lines that arrive by a pipe."""

    def __init__(self, pipe: IO[bytes]) -> None:
        super().__init__(pipe.fileno(), functools.partial(os.read, pipe.fileno()))
        self._pipe = pipe

    def close(self) -> None:
        """Closes the pipe."""
        self._pipe.close()


class PortLines(Incoming):
    """The lines that arrive by a connection, whose timeout holds until `wait_at_most`."""

    def __init__(self, connection: socket.socket) -> None:
        super().__init__(connection.fileno(), connection.recv)
        self._connection = connection
        self._seconds = connection.gettimeout()

    def fileno(self) -> int:
        """Returns the descriptor to wait for, or -1 once it is closed."""
        return self._connection.fileno()

    def wait_at_most(self, seconds: Optional[float]) -> None:
        """Sets how long to wait for something to arrive, or to be sent; `None` waits for ever."""
        self._seconds = seconds
        self._connection.settimeout(seconds)

    def close(self) -> None:
        """Closes the connection."""
        self._connection.close()


def connected(
    port: int, seconds: Optional[float] = None, unconnected: Optional[socket.socket] = None
) -> socket.socket:
    """A connection to a server of this machine, by a new socket or the one that is given. Whatever
    comes is waited for so many seconds, or for ever. Raises `Failure` where none listens."""
    with contextlib.ExitStack() as ends:
        try:
            connection = ends.enter_context(unconnected or socket.socket())
            connection.settimeout(seconds)
            connection.connect((LOCAL, port))
        except OSError as error:
            is_free = isinstance(error, ConnectionRefusedError)
            why = "nobody listens there" if is_free else error.strerror or str(error)
            raise Failure(f"cannot attach to port {port}: {why}", 2) from None
        ends.pop_all()
    return connection


# How a user can connect to a server of another user.
REMEDY = "use --anyone to connect anyway"


def check_server(connection: socket.socket, port: int, remedy: str = REMEDY) -> None:
    """Raises `Failure` if the server at the other end of a new connection belongs to another user.
    Nothing must have been sent by it: the server could read the token of a room, or answer lies.

    A system that does not tell who owns a connection is named on standard error, once each time."""
    lookup = owners.find_lookup()
    if lookup is None:
        why = f"this system does not tell which user port {port} belongs to"
        print(f"{ENDING.name}: {why}: connecting without checking", file=sys.stderr, flush=True)
        return
    try:
        user = owners.server_owner(lookup, connection)
    except owners.OwnerUnknown:
        why = f"cannot tell which user port {port} belongs to"
        raise Failure(f"{why} ({remedy})", 2) from None
    if user not in (None, os.geteuid()):
        raise Failure(f"port {port} belongs to a program of user {user} ({remedy})", 2)


class Session:
    """One session, by the pipes of a program of its own (`start`) or a port (`attach`).

    `on_line`, where it is set, is told each line with its reply, `on_ask` the lines that are about
    to be sent; `on_notice` each notice, wherever a reply is read, and at once those that came
    before it was set. At a room `name` and `number` are those by which the room knows the session.
    """

    def __init__(self, lines: IO[bytes], answers: Incoming, name: str) -> None:
        self._lines, self._answers, self._name = lines, answers, name
        self._process: Optional["subprocess.Popen[bytes]"] = None
        self._errors: Optional[IO[bytes]] = None
        # How many lines were sent, and whether the replies to the last ones may be unread.
        self._asked = 0
        self._has_unread = False
        self.on_line: Optional[Callable[[str, str], None]] = None
        self.on_ask: Optional[Callable[[Sequence[str]], None]] = None
        self.name: Optional[str] = None
        self.number: Optional[int] = None
        # (the notice that came last, where nothing came behind it)
        self._last = ""
        self._on_notice: Optional[Callable[[str], None]] = None
        self._unheard: Deque[str] = collections.deque(maxlen=UNHEARD)

    @property
    def on_notice(self) -> Optional[Callable[[str], None]]:
        """What is told each notice, as it is and without its line end."""
        return self._on_notice

    @on_notice.setter
    def on_notice(self, hear: Optional[Callable[[str], None]]) -> None:
        self._on_notice = hear
        while hear is not None and self._unheard:
            hear(self._unheard.popleft())

    @classmethod
    def start(cls, words: Sequence[str]) -> "Session":
        """A program of its own, which Ctrl-C doesn't reach. Raises `Failure` where none starts."""
        pipe = subprocess.PIPE
        with trying(f"start {words[0]}"), contextlib.ExitStack() as ends:
            errors = ends.enter_context(tempfile.TemporaryFile())
            process = children.start(words, pipe, pipe, errors)
            ends.pop_all()
        assert process.stdin is not None and process.stdout is not None
        session = cls(process.stdin, PipeLines(process.stdout), "rdbg")
        session._process, session._errors = process, errors
        return session

    @classmethod
    def run(
        cls, file: Optional[str] = None, more: Sequence[str] = (), named: str = ""
    ) -> "Session":
        """`rdbg run` on an application, or on the built-in one."""
        app = [] if file is None else ["--app", file]
        return cls.start([named or program(), "run", *app, *more])

    @classmethod
    def attach(
        cls, port: int, name: Optional[str] = None, anyone: bool = False, remedy: str = REMEDY
    ) -> "Session":
        """Connects to a server, and introduces itself by a name if that is a room.

        The server must belong to the same user, unless `anyone` says that it need not; `remedy` is
        what the user can do about it.

        Raises `Failure` if there is no such server, or it lets nobody in by that name.
        """
        connection = connected(port)
        try:
            if not anyone:
                check_server(connection, port, remedy)
        except BaseException:
            connection.close()
            raise
        session = cls.over(connection, port)
        if name is not None:
            session._introduce(name)
        return session

    @classmethod
    def over(cls, connection: socket.socket, port: int) -> "Session":
        """One more session at the server of a port, over a connection to it."""
        answers = PortLines(connection)
        return cls(connection.makefile("wb"), answers, f"the server at port {port}")

    def _introduce(self, name: str) -> None:
        """Says to a room who this is, behind the room's token where the environment has it."""
        token = os.environ.get("RDBG_TOKEN")
        lines = ([f"# token {token}"] if token else []) + [f"# name {name}"]
        self._send("".join(f"{it}\n" for it in lines).encode("utf-8", "replace"))
        try:
            while self.name != name:
                line = self._line()
                if not line.startswith(NOTICE):
                    raise Failure(f"{self._name} knows no names: it isn't of rdbg room", 2)
                self._unheard.clear()
                self._hear(line)
                if self._unheard[0].startswith(REFUSED):
                    raise Failure(f"{self._name}: {self._unheard[0][len(REFUSED) :]}", 2)
        except BaseException:
            self.close()
            raise

    def __enter__(self) -> "Session":
        return self

    def __exit__(self, *error: object) -> None:
        self.close()

    def tell(self, line: str) -> str:
        """The reply to a line, as it is. Raises `Failure` where rdbg has ended."""
        return next(self.tell_all([line]))

    def ask(self, line: str) -> replies.Reply:
        """The reply to a line, as a value. Raises `Refused` where it is refused."""
        return replies.read(self.tell(line))

    def tell_all(self, lines: Iterable[str]) -> Iterator[str]:
        """The replies to lines that are sent many at a time, as they are."""
        batch: List[str] = []
        size = 0
        for line in lines:
            if batch and size + len(line) + 1 > BATCH:
                yield from self._exchange(batch)
                batch, size = [], 0
            batch.append(line)
            size += len(line) + 1
        if batch:
            yield from self._exchange(batch)

    def _exchange(self, batch: Sequence[str]) -> Iterator[str]:
        self._catch_up()
        if self.on_ask is not None:
            self.on_ask(batch)
        content = "".join(f"{line}\n" for line in batch).encode()
        with signals_held():
            self._asked += len(batch)
            self._has_unread = True
            self._send(content)
        for line in batch:
            reply = self._reply()
            if self.on_line is not None:
                self.on_line(line, reply)
            yield reply
        self._has_unread = False

    def _send(self, content: bytes) -> None:
        """Sends lines. Where the other end has gone, what it said last may say why."""
        with contextlib.suppress(OSError):
            self._lines.write(content)
            self._lines.flush()

    def _catch_up(self) -> None:
        """Discards the replies that were left unread, for example because of a signal."""
        while self._has_unread:
            have_all_arrived = self._answers.replies >= self._asked
            while self._answers.has_line():
                line = self._answers.readline()
                if line[:1] == NOTICE:
                    self._hear(line)
            if have_all_arrived:
                self._has_unread = False
            elif not self._answers.fill():
                self._asked = self._answers.replies
                raise Failure(self.why_ended())

    def _reply(self) -> str:
        reply = self._line()
        while reply[:1] == NOTICE:
            self._hear(reply)
            reply = self._line()
        self._last = ""
        return text_of(reply)

    def _line(self) -> bytes:
        """The next line that comes. Raises `Failure` where none does."""
        try:
            line = self._answers.readline()
        except OSError:
            line = b""
        if line[-1:] != b"\n":
            self._asked, self._has_unread = self._answers.replies, False
            raise Failure(self.why_ended())
        return line

    def _hear(self, line: bytes) -> None:
        """Hears a notice."""
        notice = text_of(line)
        found = YOU.match(notice)
        if found:
            self.name, self.number = found[1], int(found[2])
        self._last = notice
        if self._on_notice is None:
            self._unheard.append(notice)
        else:
            self._on_notice(notice)

    def remark(self, line: str) -> None:
        """Says a line of `#` to a room, and hears its answer. Raises `Failure` without."""
        self._catch_up()
        self._send(f"{line}\n".encode("utf-8", "replace"))
        is_answered = False
        while not is_answered:
            heard = self._line()
            if not heard.startswith(NOTICE):
                raise replies.Unreadable(text_of(heard))
            self._hear(heard)
            heads = (REFUSED, "# you are ", "# here: ", "# at ", f"# {self.name} ")
            is_answered = text_of(heard).startswith(heads)
        self._last = ""

    def note(self, line: str) -> None:
        """Says a line that begins with `#`, and isn't answered, to a room; else it says nothing."""
        content = line.replace("\n", " ").encode("utf-8", "replace")
        if len(content) > MOST_BYTES:
            content = content[: MOST_BYTES - 2].decode("utf-8", "ignore").encode() + b".."
        if self.name is not None:
            self._send(content + b"\n")

    @contextlib.contextmanager
    def looking(self) -> Iterator[None]:
        """As long as a program looks for itself: a room keeps none of it as said."""
        self.note("# does")
        try:
            yield
        finally:
            self.note("# did")

    def wait_at_most(self, seconds: Optional[float]) -> None:
        """Says how long an answer is waited for, at a port; for ever where it is none."""
        if isinstance(self._answers, PortLines):
            self._answers.wait_at_most(seconds)

    def waited_for(self) -> Optional[int]:
        """What becomes readable once a notice comes, at a port."""
        return self._answers.fileno() if isinstance(self._answers, PortLines) else None

    def hear_now(self) -> bool:
        """Hears notices, while no reply is owed; false at the end, also where the room says it."""
        if not isinstance(self._answers, PortLines):
            return False
        try:
            is_there = self._answers.fill()
        except OSError:
            return False
        while self._answers.has_line():
            line = self._answers.readline()
            if line.startswith(NOTICE):
                self._hear(line)
        return is_there and not self._last.startswith(ROOM_ENDED)

    def why_ended(self) -> str:
        """Why there are no more replies."""
        if self._process is None:
            closed = f"{self._name} has closed the connection"
            if self._last.startswith(ROOM_ENDED):
                return self._last[len("# ") :]
            if self._last.startswith(REFUSED):
                return f"{self._name}: {self._last[len(REFUSED) :]}"
            return f"the room has ended: {closed}" if self.name else closed
        status = self._process.wait()
        said = self.errors().strip().splitlines()
        return said[-1] if said else f"rdbg has ended, with status {status}"

    def errors(self) -> str:
        """What the program has said on standard error."""
        if self._errors is None:
            return ""
        self._errors.seek(0)
        return self._errors.read().decode("utf-8", "replace")

    def kill(self) -> None:
        """Ends the session and its program at once, without a look at its history."""
        if self._process is not None:
            self._process.kill()
        self.close()

    def close(self) -> int:
        """Ends the session, and answers the status of its program; 0 where it was a port."""
        for close in (self._lines.close, self._answers.close):
            with contextlib.suppress(OSError):
                close()
        status = 0
        if self._process is not None:
            status = self._process.wait()
            STARTED.pop(self._process, None)
        if self._errors is not None:
            self._errors.close()
            self._errors = None
        return status


UNKNOWN = "rdbg, whose commit isn't known"
# What is said of a program that the environment names, whichever the wrapper would have started.
NAMED = "its program isn't known to be proved (RDBG_PROGRAM names it)"
# What is said of a program that listens at a port.
AT_A_PORT = "the program at the port isn't known to be proved"


@functools.lru_cache(maxsize=None)
def of_wrapper() -> str:
    """What `./rdbg --version` says; empty where it says nothing."""
    file, words = wrapper()
    try:
        said, _ = said_by([file, *words, "--version"], subprocess.DEVNULL)
    except OSError:
        return ""
    return said.decode("utf-8", "replace")


def version(port: bool = False) -> str:
    """What rdbg is, and whether the program that was asked is proved."""
    first, *programs = of_wrapper().splitlines() or [UNKNOWN]
    # (one that is installed says each program's proof in a line of its own)
    built = first if programs else first.rpartition("; ")[0] or first
    if port:
        return f"{built}; {AT_A_PORT}"
    if os.environ.get("RDBG_PROGRAM"):
        return f"{built}; {NAMED}"
    return "; ".join([first, *programs])
