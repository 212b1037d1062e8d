"""A client of the protocol, for the tests: it asks, and keeps all that it was told."""
import contextlib
import json
import pathlib
import socket
import subprocess
import sys
import threading
from typing import IO, Any, Dict, Iterator, List, Optional
from unittest import mock

from rdbg.adapter.debugger import Debugger
from rdbg.adapter.server import Server
from tests.paths import COMPANION

Message = Dict[str, Any]
# So many seconds an answer may take.
PATIENCE = 60


class Client:
    """An editor's side of a session."""

    def __init__(self, answers: IO[bytes], lines: IO[bytes]) -> None:
        self._answers, self._lines = answers, lines
        self._sent = 0
        self.told: List[Message] = []
        self._read = 0

    def send(self, command: str, arguments: Optional[Message] = None, **more: Any) -> int:
        """Sends a request, and says its number."""
        self._sent += 1
        message: Message = {"seq": self._sent, "type": "request", "command": command}
        message["arguments"] = {**(arguments or {}), **more}
        self.raw(json.dumps(message).encode())
        return self._sent

    def raw(self, body: bytes, length: Optional[str] = None) -> None:
        """Sends a body, with a length that may be wrong."""
        header = f"Content-Length: {len(body) if length is None else length}\r\n\r\n"
        self.bytes(header.encode() + body)

    def bytes(self, content: bytes) -> None:
        """Sends bytes as they are."""
        self._lines.write(content)
        self._lines.flush()

    def receive(self) -> Optional[Message]:
        """The next message, none at the end."""
        header = b""
        while not header.endswith(b"\r\n\r\n"):
            byte = self._answers.read(1)
            if not byte:
                return None
            header += byte
        body = self._answers.read(int(header.split(b":")[1]))
        message: Message = json.loads(body)
        self.told.append(message)
        return message

    def _next(self) -> Message:
        """The next message that wasn't looked at."""
        while self._read >= len(self.told):
            if self.receive() is None:
                raise AssertionError(f"the session has ended: {self.told[-3:]}")
        self._read += 1
        return self.told[self._read - 1]

    def answer(self, number: int) -> Message:
        """The answer to the request of this number; events before it stay to be looked at."""
        at = self._read
        while True:
            while at >= len(self.told):
                if self.receive() is None:
                    raise AssertionError(f"the session has ended: {self.told[-3:]}")
            message = self.told[at]
            at += 1
            if message["type"] == "response" and message["request_seq"] == number:
                return message

    def ask(self, command: str, arguments: Optional[Message] = None, **more: Any) -> Any:
        """The body of the answer to a request that is done."""
        answer = self.answer(self.send(command, arguments, **more))
        if not answer["success"]:
            raise AssertionError(answer["message"])
        return answer.get("body")

    def refused(self, command: str, arguments: Optional[Message] = None, **more: Any) -> str:
        """Why a request isn't done."""
        answer = self.answer(self.send(command, arguments, **more))
        if answer["success"]:
            raise AssertionError(f"it is done: {answer}")
        return str(answer["message"])

    def event(self, name: str) -> Message:
        """The body of the next event of this name."""
        while True:
            message = self._next()
            if message["type"] == "event" and message["event"] == name:
                return dict(message["body"])

    def output(self) -> List[str]:
        """All lines of output so far."""
        events = (it for it in self.told if it.get("event") == "output")
        return "".join(it["body"]["output"] for it in events).splitlines()

    def stopped(self, command: str, arguments: Optional[Message] = None, **more: Any) -> Message:
        """Where the target stops behind a request."""
        self.ask(command, arguments, **more)
        return self.event("stopped")

    def begin(self, file: Optional[pathlib.Path], **more: Any) -> Message:
        """Launches a file, and says where it stands at first."""
        self.ask("initialize", adapterID="rdbg", supportsInvalidatedEvent=True)
        self.ask("launch", {} if file is None else {"program": str(file)}, **more)
        self.event("initialized")
        return self.stopped("configurationDone")

    def lines(self, file: pathlib.Path, *lines: int, **more: Any) -> List[Message]:
        """Sets breakpoints at lines of a file."""
        asked = [{"line": line, **more} for line in lines]
        found = self.ask("setBreakpoints", source={"path": str(file)}, breakpoints=asked)
        return list(found["breakpoints"])

    def thread(self, name: str) -> int:
        """The number of a task."""
        for it in self.ask("threads")["threads"]:
            if it["name"].split(":")[0] == name:
                return int(it["id"])
        raise AssertionError(name)

    def frame(self, thread: int) -> Message:
        """The frame of a thread."""
        return dict(self.ask("stackTrace", threadId=thread)["stackFrames"][0])

    def scope(self, thread: int, name: str) -> int:
        """The number by which a scope of a thread's frame is asked for."""
        for it in self.ask("scopes", frameId=thread)["scopes"]:
            if it["name"] == name:
                return int(it["variablesReference"])
        raise AssertionError(name)

    def within(self, reference: int, **more: Any) -> Dict[str, Message]:
        """The variables in something, by name."""
        found = self.ask("variables", variablesReference=reference, **more)
        return {it["name"]: it for it in found["variables"]}

    def place(self) -> int:
        """How many moves are done."""
        return int(self.ask("evaluate", expression="place", context="watch")["result"])

    def typed(self, line: str) -> str:
        """What a line says that is typed."""
        return str(self.ask("evaluate", expression=line, context="repl")["result"])


# All that any client was told, to be held against the schema.
ALL: List[Client] = []


@contextlib.contextmanager
def editor() -> Iterator[Client]:
    """A client of a server in this process."""
    here, there = socket.socketpair()
    here.settimeout(PATIENCE)
    lines, answers = there.makefile("rb"), there.makefile("wb")

    def serve() -> None:
        Server(lines, answers).serve()
        with contextlib.suppress(OSError):
            there.shutdown(socket.SHUT_RDWR)

    thread = threading.Thread(target=serve)
    thread.start()
    with here, here.makefile("rb") as told, here.makefile("wb") as asked:
        client = Client(told, asked)
        ALL.append(client)
        try:
            yield client
        finally:
            with contextlib.suppress(OSError):
                here.shutdown(socket.SHUT_RDWR)
            thread.join(PATIENCE)
            for stream in (lines, answers):
                with contextlib.suppress(OSError):
                    stream.close()
            there.close()


@contextlib.contextmanager
def held_run() -> Iterator[threading.Event]:
    """Holds each run of a server in this process at its start, where it serves requests and can be
    paused, until the event is set.

    Without it a run can end before a request that has to come while it runs.
    """
    goes_on, between = threading.Event(), Debugger.between

    def hold(debugger: Debugger) -> None:
        between(debugger)  # (which raises `Interrupted` once a pause was asked for)
        while not goes_on.wait(0.01):
            between(debugger)

    with mock.patch.object(Debugger, "between", hold):
        yield goes_on


@contextlib.contextmanager
def started(*words: str) -> Iterator["Program"]:
    """A client of `rdbg dap` as an editor starts it."""
    pipe = subprocess.PIPE
    process = subprocess.Popen(
        [sys.executable, "-B", str(COMPANION), "dap", *words], stdin=pipe, stdout=pipe, stderr=pipe
    )
    assert process.stdin and process.stdout and process.stderr
    client = Program(process.stdout, process.stdin, process)
    ALL.append(client)
    try:
        yield client
    finally:
        process.kill()
        process.wait()
        for stream in (process.stdin, process.stdout, process.stderr):
            with contextlib.suppress(OSError):
                stream.close()


class Program(Client):
    """A client of a process."""

    def __init__(
        self, answers: IO[bytes], lines: IO[bytes], process: "subprocess.Popen[bytes]"
    ) -> None:
        super().__init__(answers, lines)
        self.process = process
