"""Who comes in at the port of `rdbg dap`: users, browsers, and those who say nothing."""
import contextlib
import os
import pathlib
import subprocess
import sys
import tempfile
import time
import unittest
from typing import List

from rdbg.adapter.listening import MOST, MOST_SILENT
from tests.adapter_port import INITIALIZE, PATIENCE, SOON, Port, framed, listening, rest
from tests.dap_client import Client
from tests.paths import COMPANION, EXAMPLES
from tests.strangers import IS_ROOT, UNTOLD, Clock, before, connected, told_nobody

LOST = EXAMPLES / "lost_item.json"


class Users(unittest.TestCase):
    """Another user of this machine."""

    def asked(self, file: pathlib.Path) -> bytes:
        """What one asks for who wants a file to be written, where another may."""
        save = {"expression": f"save {file}", "context": "repl"}
        return framed(
            INITIALIZE,
            {"seq": 2, "type": "request", "command": "launch", "arguments": {}},
            {"seq": 3, "type": "request", "command": "configurationDone", "arguments": {}},
            {"seq": 4, "type": "request", "command": "evaluate", "arguments": save},
        )

    @IS_ROOT
    def test_another_user_gets_a_close_and_does_nothing(self) -> None:
        with tempfile.TemporaryDirectory() as folder, listening() as port:
            file = pathlib.Path(folder) / "made"
            self.assertEqual(port.listening, f"listening {port.number}\n")
            for content in (b"", self.asked(file), framed(INITIALIZE)):
                self.assertEqual(told_nobody(port.number, content), b"")
            port.serves()
            self.assertEqual(os.listdir(folder), [])
            why = (
                "this adapter belongs to another user (start it with --anyone to let every user in)"
            )
            self.assertEqual(port.errors(), f"rdbg dap: a connection was closed: {why}\n")

    @IS_ROOT
    def test_anyone_opens_it_and_says_so(self) -> None:
        with listening("--anyone") as port:
            said = f"listening {port.number}, for anyone of this machine\n"
            self.assertEqual(port.listening, said)
            self.assertIn(b'"success": true', told_nobody(port.number, framed(INITIALIZE)))

    @IS_ROOT
    def test_many_of_another_take_no_place(self) -> None:
        with listening() as port, port.editor() as client, connected(port.number, 100):
            client.begin(LOST)
            port.serves()
            with connected(port.number, 0):
                for _ in range(10):
                    port.serves()
            self.assertEqual(client.typed("tick").splitlines()[0], "ok at 1")

    def test_where_nobody_is_told_anyone_opens_it(self) -> None:
        with listening("--anyone", head=before(UNTOLD)) as port:
            port.serves()
            self.assertEqual("", port.errors())

    def test_anyone_goes_with_a_port(self) -> None:
        ran = subprocess.run(
            [sys.executable, "-B", str(COMPANION), "dap", "--anyone"],
            stdin=subprocess.DEVNULL,
            stdout=subprocess.PIPE,
            stderr=subprocess.PIPE,
            timeout=PATIENCE,
        )
        self.assertEqual((ran.returncode, ran.stdout), (2, b""))
        self.assertIn(b"--anyone needs --port", ran.stderr)


class Browsers(unittest.TestCase):
    """Requests of HTTP."""

    def ends(self, port: Port, *pieces: bytes, pause: float = 0.0) -> None:
        """Whether these pieces end the connection, with no answer to the message behind them."""
        with port.connect() as other, contextlib.suppress(ConnectionError):
            with contextlib.suppress(ConnectionError):
                for piece in (*pieces, framed(INITIALIZE)):
                    other.sendall(piece)
                    time.sleep(pause)
            self.assertEqual(rest(other), b"", pieces[0][:30])

    def test_requests_end_a_connection(self) -> None:
        long = b"x" * 100_000
        with listening() as port:
            self.ends(port, b"POST / HTTP/1.1\r\n")
            for method in (b"get", b"M-SEARCH", b"!#$%&'*+-.^_`|~09"):
                self.ends(port, method + b" / HTTP/1.1\r\n")
            for size in (4_080, 4_090, 4_096, 100_000):
                self.ends(port, b"POST /" + long[:size] + b" HTTP/1.1\r\n")
            self.ends(port, *[bytes([it]) for it in b"M-SEARCH * HTTP/1.1\r\n"])
            self.ends(port, b"x! /", b" HT", b"TP/1.", b"1\r\n", pause=0.3)
            self.ends(port, b"\x16\x03\x01\x02\x00\x01\x00\r\n\r\n")
            port.serves()


class Silent(unittest.TestCase):
    """Connections whose first message doesn't come."""

    def test_silent_ones_keep_nobody_out(self) -> None:
        with listening() as port, contextlib.ExitStack() as stack:
            silent = [stack.enter_context(port.connect()) for _ in range(16)]
            for other in silent[::2]:
                other.sendall(b"Content-Length: 100\r\n")
            port.serves()
            silent += [stack.enter_context(port.connect()) for _ in range(3 * MOST_SILENT)]
            port.serves()
            for other in silent[: 2 * MOST_SILENT]:
                self.assertEqual(rest(other), b"")

    def test_silent_and_slow_ones_are_closed(self) -> None:
        with Clock("rdbg.door") as clock, contextlib.ExitStack() as stack:
            port = stack.enter_context(listening(head=before(clock.action)))
            client = stack.enter_context(port.editor())
            client.ask("initialize")
            with port.connect() as silent, port.connect() as slow:
                end = time.monotonic() + PATIENCE
                with contextlib.suppress(ConnectionError):
                    while time.monotonic() < end:
                        slow.sendall(b"X")
                        clock.move(0.5)
                        time.sleep(0.1)
                self.assertEqual(rest(silent) + rest(slow), b"")
                self.assertLess(time.monotonic(), end)
            # (who has said something stays)
            client.ask("launch", program=str(LOST))

    def test_one_that_never_ends_its_line(self) -> None:
        with listening(head=before(SOON)) as port, port.connect() as other:
            sent = 0
            with contextlib.suppress(OSError):
                while sent < 1 << 30:
                    sent += other.send(b"x" * 1_000_000)
            self.assertLess(memory(port.process.pid), 200)
            port.serves()

    def test_editors_above_the_most_are_told(self) -> None:
        with listening() as port, contextlib.ExitStack() as stack:
            clients: List[Client] = []
            for _ in range(MOST):
                clients.append(stack.enter_context(port.editor()))
                clients[-1].ask("initialize")
            with port.editor() as client:
                said = client.refused("initialize")
                self.assertEqual(said, f"there are already {MOST} editors")
                self.assertIsNone(client.receive())
            clients[0].ask("disconnect")
            self.assertIsNone(clients[0].receive())
            port.serves()


def memory(process: int) -> int:
    """The most memory that a process has had, in MiB."""
    status = pathlib.Path(f"/proc/{process}/status").read_text()
    line = next(it for it in status.splitlines() if it.startswith("VmHWM"))
    return int(line.split()[1]) >> 10


if __name__ == "__main__":
    unittest.main()
