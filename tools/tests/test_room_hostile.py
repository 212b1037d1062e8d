"""Connections to a room's port that mean no good: nobody else is hurt by them."""
import contextlib
import re
import socket
import threading
import time
import unittest
from typing import Iterator, List, Tuple
from unittest import mock

from rdbg.rooms import client
from rdbg.rooms.port import MOST, Port
from rdbg.rooms.room import Member, Room
from rdbg.files.source import load
from tests.rooms import LOST, Caller, free_port, until

# So many bytes unread are too many, in these tests.
FEW = 100_000


@contextlib.contextmanager
def served(sessions: int = 6) -> Iterator[Tuple[int, Room]]:
    """A room at a port in this process."""
    number = free_port()
    room = Room(load(LOST), sessions=sessions)
    port = Port(number)
    thread = threading.Thread(target=port.serve, args=(room,))
    thread.start()
    try:
        yield number, room
    finally:
        port.stop()
        thread.join()
        audits = room.close()
        port.close()
    assert all(audit.is_good for audit in audits)


class Hostile(unittest.TestCase):
    """Each beside one who works."""

    def test_a_line_without_end(self) -> None:
        with served() as (port, _), Caller(port, "left") as left, Caller(port) as other:
            with contextlib.suppress(ConnectionError):
                other.connection.sendall(b"tick\n" + b"x" * 3_000_000)
            said = other.rest()
            self.assertEqual(said[-2:], ["no LineTooLong", "# no: a line has at most 1024 bytes"])
            self.assertEqual([it for it in said if it[0] != "#"][0], "ok at 1")
            left.expect("# guest1 is away (dropped: a line has at most 1024 bytes)")
            self.assertEqual(left.ask("tick"), "ok at 2")

    def test_the_longest_line(self) -> None:
        with served() as (port, _), Caller(port, "left") as left:
            self.assertEqual(left.ask("x" * 1_024), "no Syntax")
            left.send("tick", "x" * 1_025, "tick")
            self.assertEqual(left.ask(""), "ok at 1")
            self.assertEqual(left.rest()[-2], "no LineTooLong")

    def test_bytes_that_are_no_text(self) -> None:
        with served() as (port, _), Caller(port, "left") as left, Caller(port) as other:
            other.expect("# you are")
            other.connection.sendall(bytes(range(256)) * 3 + b"\n\xff\xfe\n#\xff\x1b[2J\n")
            # (byte 10 is among them, so that those lines are four)
            said = [other.expect("") for _ in range(6)]
            self.assertEqual(said[:5], ["no Syntax"] * 5)
            self.assertEqual(said[5][:15], "# no: unknown r")
            self.assertEqual(left.ask("tick"), "ok at 1")

    def test_one_that_never_reads(self) -> None:
        with mock.patch.object(client, "STUCK", 0.3), mock.patch.object(client, "SLOW", 999):
            with served() as (port, _), Caller(port, "left") as left, deaf(port) as other:
                other.sendall(b"# name deaf\nwheel take\n" + b"show cores\n" * 20_000)
                left.expect("# deaf joined")
                self.assertEqual(left.ask("tick"), "no Held 2")
                word = "it does not read its replies"
                left.expect(f"# deaf is away and still has the wheel (dropped: {word})")

    def test_one_that_reads_late(self) -> None:
        with mock.patch.object(client, "MOST_UNREAD", FEW), mock.patch.object(
            Member, "check_pace", lambda _: None
        ):
            with served() as (port, room), Caller(port, "left") as left, deaf(port) as other:
                other.sendall(b"# name late\n")
                left.expect("# late joined")
                loud = room.join("loud", lambda _: None)
                for _ in range(4_000):
                    loud.remark("# say " + "x" * 900)
                    left.expect("# loud says")
                self.assertEqual(left.ask("tick"), "ok at 1")
                other.settimeout(30)
                other.sendall(b"show wheel\n")
                heard = b""
                while b"\nwheel -\n" not in heard:
                    heard += other.recv(65_536)
                left.send("# say now")
                while b"# left says: now\n" not in heard:
                    heard += other.recv(65_536)
                missed = re.search(rb"\n# (\d+) notices were dropped here", heard)
                assert missed is not None
                self.assertEqual(heard.count(b"# loud says") + int(missed[1]), 4_001)

    def test_a_flood(self) -> None:
        with served() as (port, _), Caller(port, "left") as left, Caller(port, "flood") as flood:
            left.ask("wheel take")
            ended = threading.Event()
            thread = threading.Thread(target=pour, args=(flood, ended))
            thread.start()
            try:
                waited = []
                for number in range(1, 21):
                    began = time.monotonic()
                    self.assertEqual(left.ask("tick"), f"ok at {number}")
                    waited.append(time.monotonic() - began)
                self.assertLess(sorted(waited)[10], 0.5)
            finally:
                ended.set()
                thread.join()

    def test_remarks_by_the_hundred(self) -> None:
        with served() as (port, _), Caller(port, "left") as left, Caller(port, "loud") as loud:
            loud.send(*[f"# say {number}" for number in range(300)])
            loud.expect("# no: more than 20 requests to the room in a second")
            loud.send("tick")
            told: List[str] = []
            while not told or not told[-1].startswith("# loud: tick"):
                told.append(left.expect("# loud"))
            self.assertLess(len(told), 150)

    def test_many_connections(self) -> None:
        with served() as (port, room), Caller(port, "left") as left:
            others: List[socket.socket] = []
            for _ in range(MOST + 20):
                others.append(socket.create_connection(("127.0.0.1", port)))
            # (who has no session is closed after a moment, and names are let in then)
            until(lambda: self._comes(port))
            self.assertEqual(left.ask("tick"), "ok at 1")
            for other in others:
                other.close()
            until(lambda: "guest" not in room.who().partition("; away")[0])

    def _comes(self, port: int) -> bool:
        """Whether somebody gets in by a name."""
        try:
            with Caller(port, "right") as right:
                return right.ask("show wheel") == "wheel -"
        except (AssertionError, ConnectionError):
            return False

    def test_nobody_comes_from_elsewhere(self) -> None:
        with Port(free_port()) as found:
            self.assertEqual(found.socket.getsockname()[0], "127.0.0.1")

    def test_one_that_breaks_off(self) -> None:
        with served() as (port, room), Caller(port, "left") as left:
            for _ in range(20):
                other = socket.create_connection(("127.0.0.1", port))
                other.setsockopt(socket.SOL_SOCKET, socket.SO_LINGER, b"\1\0\0\0\0\0\0\0")
                other.sendall(b"# name right\n" + b"show cores\n" * 50)
                other.close()
            until(lambda: "here: left (session 1)" == room.who().partition("; away")[0])
            self.assertEqual(left.ask("tick"), "ok at 1")


@contextlib.contextmanager
def deaf(port: int) -> Iterator[socket.socket]:
    """A connection for which the system keeps little that isn't read."""
    with socket.socket() as found:
        found.setsockopt(socket.SOL_SOCKET, socket.SO_RCVBUF, 4_096)
        found.connect(("127.0.0.1", port))
        yield found


def pour(caller: Caller, ended: threading.Event) -> None:
    """Asks as fast as it can, and reads all answers."""
    lines = ["show cores", "step 0", "show queue jobs", "x"] * 250
    while not ended.is_set():
        caller.send(*lines)
        left = len(lines)
        while left:
            caller.read()
            left -= sum(not line.startswith("#") for line in caller.lines)
            caller.lines.clear()


if __name__ == "__main__":
    unittest.main()
