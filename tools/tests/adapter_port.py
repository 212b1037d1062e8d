"""An adapter at a port, as its editors have it."""
import contextlib
import json
import socket
import subprocess
import sys
import time
from typing import Iterator, Sequence

from tests.dap_client import ALL, Client
from tests.paths import COMPANION
from tests.rooms import free_port

PATIENCE = 30.0
# The silent ones are closed sooner.
SOON = "import rdbg.adapter.listening as it; it.SECONDS = 1.0"
INITIALIZE = {"seq": 1, "type": "request", "command": "initialize", "arguments": {}}


class Port:
    """An adapter at a port, in a process of its own."""

    def __init__(self, words: Sequence[str], head: Sequence[str]) -> None:
        self.number = free_port()
        told = [*head, sys.executable, "-B", str(COMPANION), "dap", "--port", str(self.number)]
        self.process = subprocess.Popen(
            [*told, *words], stdout=subprocess.PIPE, stderr=subprocess.PIPE
        )
        assert self.process.stdout is not None
        self.listening = self.process.stdout.readline().decode()

    def connect(self) -> socket.socket:
        """A connection to it."""
        found = socket.create_connection(("127.0.0.1", self.number))
        found.settimeout(PATIENCE)
        return found

    @contextlib.contextmanager
    def editor(self) -> Iterator[Client]:
        """An editor there."""
        with self.connect() as here, here.makefile("rb") as told, here.makefile("wb") as asked:
            client = Client(told, asked)
            ALL.append(client)
            yield client

    def serves(self) -> None:
        """Whether an editor that comes is answered at once."""
        began = time.monotonic()
        with self.editor() as client:
            client.ask("initialize")
        assert time.monotonic() - began < 5

    def errors(self) -> str:
        """Ends it, and answers what it has said on standard error."""
        self.process.kill()
        return self.process.communicate()[1].decode()


@contextlib.contextmanager
def listening(*words: str, head: Sequence[str] = ()) -> Iterator[Port]:
    """An adapter that listens."""
    found = Port(words, head)
    try:
        yield found
    finally:
        found.process.kill()
        found.process.communicate()


def framed(*messages: object) -> bytes:
    """Messages as an editor sends them."""
    bodies = [json.dumps(it).encode() for it in messages]
    return b"".join(b"Content-Length: %d\r\n\r\n%s" % (len(it), it) for it in bodies)


def rest(connection: socket.socket) -> bytes:
    """All that comes until the connection ends."""
    said = b""
    with contextlib.suppress(ConnectionError):
        more = connection.recv(65_536)
        while more:
            said += more
            more = connection.recv(65_536)
    return said
