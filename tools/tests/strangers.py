"""Another user of this machine at a port: `nobody`, as whom a process connects that root has
started. And companions of which something is another before they start."""
import contextlib
import os
import subprocess
import sys
import tempfile
import unittest
from typing import Iterator, List, Sequence

from tests.dap_schema import DEBIAN
from tests.paths import COMPANION

NOBODY = 65534
# (a test with such a reason fails in the gate, `ci/companions --gate`, instead of being skipped)
NEEDS_ROOT = "needs root, to act as another user"
IS_ROOT = unittest.skipUnless(os.geteuid() == 0, NEEDS_ROOT)
PATIENCE = 30.0
# Connects, says something and nothing behind it, and prints all that is answered.
SAYS = """
import contextlib, socket, sys
said = b""
with socket.create_connection(("127.0.0.1", int(sys.argv[1])), 20) as there:
    with contextlib.suppress(OSError):
        there.sendall(bytes.fromhex(sys.argv[2]))
        there.shutdown(socket.SHUT_WR)
    with contextlib.suppress(ConnectionError):
        more = there.recv(65536)
        while more:
            said += more
            more = there.recv(65536)
sys.stdout.buffer.write(said)
"""
# Opens so many connections and keeps them, or goes on and on where it is 0, until its input ends.
KEEPS = """
import socket, sys, threading
port, count = ("127.0.0.1", int(sys.argv[1])), int(sys.argv[2])
kept = [socket.create_connection(port, 20) for _ in range(count)]
threading.Thread(target=lambda: print("kept", flush=True) or sys.stdin.read(), daemon=True).start()
last = threading.enumerate()[-1]
while last.is_alive():
    if count:
        last.join()
        break
    try:
        with socket.create_connection(port, 20) as there:
            there.sendall(b"wheel take\\ntick\\n")
    except OSError:
        pass
"""
# Listens at a free port and prints it. Accepts one connection at once, or lets it wait until its
# own input ends. Prints in the end what it has read up to the first pause, in hexadecimal.
LISTENS = """
import contextlib, socket, sys
with socket.create_server(("127.0.0.1", 0)) as here:
    print(here.getsockname()[1], flush=True)
    if sys.argv[2] == "waits":
        sys.stdin.read()
    here.settimeout(20)
    there, _ = here.accept()
    with there, contextlib.suppress(ConnectionError):
        there.settimeout(20)
        print(there.recv(65536).hex(), flush=True)
"""
# Runs a companion as nobody, who may not be able to read its files.
AS_NOBODY = """
import importlib, os, sys
sys.path.insert(0, sys.argv[1])
from rdbg import main
importlib.import_module(f"rdbg.companions.{sys.argv[2]}")
os.setgid(65534)
os.setuid(65534)
sys.exit(main.main(sys.argv[2:]))
"""
# Does something before a companion starts, whose words stand behind it.
BEFORE = """
import os, runpy, sys
sys.argv = sys.argv[3:]
sys.path.insert(0, os.path.dirname(sys.argv[0]))
{}
runpy.run_path(sys.argv[0], run_name="__main__")
"""
# A module reads the time from a file's size, a tenth of a second for each byte.
CLOCK = """
import importlib, os, time, types
module = importlib.import_module({!r})
module.time = types.SimpleNamespace(**vars(time))
module.time.monotonic = lambda: os.stat({!r}).st_size / 10
"""
# The system says of nobody who it is.
UNTOLD = "import rdbg.owners; rdbg.owners.find_lookup = lambda: None"


def become() -> None:
    """Becomes nobody."""
    os.setgid(NOBODY)
    os.setuid(NOBODY)


def words(script: str, port: int, *more: str) -> List[str]:
    """What starts a script, by Debian's Python: nobody can start one that is in a home of root."""
    return [DEBIAN, "-I", "-c", script, str(port), *more]


def told_nobody(port: int, content: bytes) -> bytes:
    """All that nobody is answered at a port who says this."""
    return subprocess.run(
        words(SAYS, port, content.hex()),
        preexec_fn=become,
        stdout=subprocess.PIPE,
        timeout=PATIENCE,
        check=True,
    ).stdout


class Listener:
    """A server of nobody's, which accepts one connection at once, or lets it wait."""

    def __init__(self, accepts: bool) -> None:
        how = "accepts" if accepts else "waits"
        pipes = {"stdin": subprocess.PIPE, "stdout": subprocess.PIPE}
        self._process = subprocess.Popen(
            words(LISTENS, 0, how), preexec_fn=become, **pipes  # type: ignore[call-overload]
        )
        self.port = int(self._process.stdout.readline())

    def received(self) -> bytes:
        """Waits for the first bytes of the connection, or for its end, and returns them."""
        return bytes.fromhex(self._process.communicate(timeout=PATIENCE)[0].decode())

    def __enter__(self) -> "Listener":
        return self

    def __exit__(self, *_: object) -> None:
        self._process.kill()
        self._process.communicate()


def run_as_nobody(*companion: str) -> "subprocess.CompletedProcess[str]":
    """Runs a companion as nobody, without input."""
    head = [sys.executable, "-B", "-c", AS_NOBODY, str(COMPANION.parent)]
    pipe = subprocess.PIPE
    return subprocess.run(
        [*head, *companion], input="", stdout=pipe, stderr=pipe, text=True, timeout=PATIENCE
    )


@contextlib.contextmanager
def connected(port: int, count: int) -> Iterator[None]:
    """As long as nobody keeps so many connections; with 0 as long as one after the other comes."""
    process = subprocess.Popen(
        words(KEEPS, port, str(count)),
        preexec_fn=become,
        stdin=subprocess.PIPE,
        stdout=subprocess.PIPE,
    )
    with process:
        assert process.stdin is not None and process.stdout is not None
        try:
            assert process.stdout.readline() == b"kept\n"
            yield
        finally:
            process.stdin.close()


class Clock:
    """The clock of one module of a companion. It stands still until a test moves it."""

    def __init__(self, module: str) -> None:
        self._file = tempfile.NamedTemporaryFile()
        # What is done before the companion starts.
        self.action = CLOCK.format(module, self._file.name)

    def __enter__(self) -> "Clock":
        return self

    def __exit__(self, *_: object) -> None:
        self._file.close()

    def move(self, seconds: float) -> None:
        """Moves the clock on."""
        self._file.write(b"." * round(10 * seconds))
        self._file.flush()


def before(action: str) -> Sequence[str]:
    """What stands in the command line before a companion so that something is done first."""
    return [sys.executable, "-B", "-c", BEFORE.format(action)]
