"""A room as its users have it: a process with a port, and programs that open connections to it."""
import contextlib
import pathlib
import random
import signal
import socket
import subprocess
import sys
import tempfile
import time
from typing import Iterator, List, Optional, Sequence

from tests.paths import COMPANION, EXAMPLES

LOST = str(EXAMPLES / "lost_item.json")
# (long enough for a machine that has much to do)
PATIENCE = 120.0


# Ports that the system gives to whoever asks for any begin here. Below them so many are for tests.
EPHEMERAL = pathlib.Path("/proc/sys/net/ipv4/ip_local_port_range")
PORTS = 12_000
# Reserves the ports of this process among all tests of the machine.
RESERVED: List[socket.socket] = []


def free_port() -> int:
    """Returns a port that is free, and that no other test gets as long as this process runs.

    The system gives such a port to nobody by itself, so it is still free when a program is told to
    listen there later.
    """
    first_ephemeral = int(EPHEMERAL.read_text().split()[0])
    while True:
        number = random.randrange(first_ephemeral - PORTS, first_ephemeral)
        reserved = socket.socket(socket.AF_UNIX)
        try:
            reserved.bind(f"\0rdbg-test-port-{number}")
            with socket.socket() as free:
                free.bind(("127.0.0.1", number))
        except OSError:
            reserved.close()
            continue
        RESERVED.append(reserved)
        return number


class Process:
    """A room in a process of its own, and what it says at its end."""

    def __init__(
        self,
        words: Sequence[str],
        path: str,
        head: Sequence[str] = (),
        keys: Optional[int] = None,
    ) -> None:
        self.port = free_port()
        told = [*head, sys.executable, "-B", str(COMPANION), "room", path, "--port", str(self.port)]
        self.process = subprocess.Popen(
            [*told, *words],
            stdin=keys,
            stdout=subprocess.PIPE,
            stderr=subprocess.PIPE,
            text=True,
        )
        self.listening = self.output = self.errors = ""

    def wait(self) -> None:
        """Waits until it listens."""
        assert self.process.stdout is not None
        self.listening = self.process.stdout.readline()
        if not self.listening.startswith("listening"):
            self.end(signal.SIGKILL)
            raise AssertionError(f"{self.listening}{self.errors}")

    def end(self, number: int = signal.SIGTERM) -> int:
        """Ends it by a signal, or waits where that is 0, and answers its status."""
        if number and self.process.poll() is None:
            self.process.send_signal(number)
        self.output, self.errors = self.process.communicate(timeout=2 * PATIENCE)
        return self.process.returncode


@contextlib.contextmanager
def room(
    *words: str,
    path: str = LOST,
    sessions: int = 6,
    head: Sequence[str] = (),
    keys: Optional[int] = None,
) -> Iterator[Process]:
    """A room that listens, started by what stands in `head`, with `keys` as its standard input; it
    ends with the block."""
    found = Process([*words, "--sessions", str(sessions)], path, head, keys)
    try:
        found.wait()
        yield found
    finally:
        found.process.kill()
        found.process.communicate()


@contextlib.contextmanager
def talk() -> Iterator[pathlib.Path]:
    """A file for the talk."""
    with tempfile.TemporaryDirectory() as folder:
        yield pathlib.Path(folder) / "talk"


def rows(file: pathlib.Path) -> List[List[str]]:
    """The rows of a talk, without when they were."""
    first, *others = file.read_text().splitlines()
    assert first == "when\twho\tline\treply", first
    return [line.split("\t")[1:] for line in others]


class Caller:
    """A connection as nc has it: lines go out, and all that comes is there to be read."""

    def __init__(self, port: int, name: Optional[str] = None) -> None:
        self.connection = socket.create_connection(("127.0.0.1", port))
        self.connection.settimeout(PATIENCE)
        self.lines: List[str] = []
        self._tail = b""
        if name is not None:
            try:
                self.send(f"# name {name}")
                self.expect(f"# you are {name}, ")
            except BaseException:
                self.connection.close()
                raise

    def __enter__(self) -> "Caller":
        return self

    def __exit__(self, *_: object) -> None:
        self.connection.close()

    def send(self, *lines: str) -> None:
        """Sends lines."""
        self.connection.sendall("".join(f"{line}\n" for line in lines).encode())

    def read(self) -> bool:
        """Reads what comes; false at the end."""
        content = self.connection.recv(65_536)
        *whole, self._tail = (self._tail + content).split(b"\n")
        self.lines += [line.decode() for line in whole]
        return bool(content)

    def expect(self, text: str) -> str:
        """The next line that begins so; those before are dropped."""
        while True:
            while self.lines:
                line = self.lines.pop(0)
                if line.startswith(text):
                    return line
            if not self.read():
                raise AssertionError(f"no '{text}' before the end")

    def ask(self, line: str) -> str:
        """The reply to a line; notices before it are dropped."""
        self.send(line)
        while True:
            while self.lines:
                reply = self.lines.pop(0)
                if not reply.startswith("#"):
                    return reply
            if not self.read():
                raise AssertionError(f"no reply to '{line}'")

    def rest(self) -> List[str]:
        """All lines up to the end."""
        with contextlib.suppress(ConnectionError):
            while self.read():
                pass
        return self.lines


def until(true: "object", patience: float = PATIENCE) -> None:
    """Waits until something is so."""
    assert callable(true)
    end = time.monotonic() + patience
    while not true():
        if time.monotonic() > end:
            raise AssertionError("it doesn't come")
        time.sleep(0.01)
