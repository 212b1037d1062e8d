"""A session's lines and replies, and how it ends."""
import os
import signal
import socket
import threading
import unittest
from unittest import mock

from rdbg.client import Incoming, Session
from rdbg.ending import ENDING
from rdbg.failure import Failure
from rdbg.replies import Moved, Refused, Unreadable
from tests import fake


def listener() -> socket.socket:
    """A port of this machine on which somebody listens."""
    found = socket.socket()
    found.bind(("127.0.0.1", 0))
    found.listen()
    return found


class Program(unittest.TestCase):
    """Sessions with the program that RDBG_PROGRAM names."""

    def test_values_and_refusals(self) -> None:
        with Session.run() as session:
            self.assertEqual(session.ask("step 0"), Moved(1))
            with self.assertRaises(Refused):
                session.ask("back 5")
            self.assertEqual(session.tell("fly"), "no Syntax")
            self.assertEqual(session.close(), 0)

    def test_many_lines_at_a_time(self) -> None:
        with Session.run(more=["--history", "1000000"]) as session:
            lines = ["step 0", "back 1", "show task t0", "show queue q0"] * 5_000
            replies = list(session.tell_all(lines))
            self.assertEqual(len(replies), len(lines))
            self.assertEqual(replies[:2], ["ok at 1", "ok at 0"])
            self.assertEqual(replies[-4:], replies[:4])

    def test_lines_are_told(self) -> None:
        with Session.run() as session:
            told = []
            session.on_line = lambda line, reply: told.append((line, reply))
            list(session.tell_all(["step 0", "show moves"]))
            self.assertEqual(
                told, [("step 0", "ok at 1"), ("show moves", "moves 1 undone 0 kept 1")]
            )


class Faults(unittest.TestCase):
    """Programs and ports that aren't as they should be."""

    def test_a_program_that_is_not_there(self) -> None:
        with self.assertRaisesRegex(Failure, "cannot start /no/rdbg: No such file"):
            Session.start(["/no/rdbg"])

    def test_a_program_that_ends(self) -> None:
        with fake.program(["ok at 1\n"], "rdbg: no memory\n", 1), Session.run() as session:
            self.assertEqual(session.tell("step 0"), "ok at 1")
            with self.assertRaisesRegex(Failure, "^rdbg: no memory$"):
                session.tell("step 0")

    def test_a_program_that_ends_in_a_reply(self) -> None:
        with fake.program(["ok a"], status=3), Session.run() as session:
            with self.assertRaisesRegex(Failure, "^rdbg has ended, with status 3$"):
                session.tell("step 0")

    def test_broken_replies(self) -> None:
        with fake.program(["\xff\xfe\n", "ok at\n"]), Session.run() as session:
            for _ in range(2):
                with self.assertRaises(Unreadable):
                    session.ask("step 0")

    def test_nobody_listens(self) -> None:
        with listener() as unused:
            port = unused.getsockname()[1]
        with self.assertRaisesRegex(Failure, f"cannot attach to port {port}"):
            Session.attach(port)

    def test_a_port_that_closes(self) -> None:
        with listener() as server:
            threading.Thread(target=lambda: server.accept()[0].close()).start()
            with Session.attach(server.getsockname()[1]) as session:
                with self.assertRaisesRegex(Failure, "has closed the connection"):
                    session.tell("step 0")


class Interrupted(unittest.TestCase):
    """Lines that arrive at the moment of a signal."""

    def setUp(self) -> None:
        before = signal.signal(signal.SIGINT, ENDING._came)
        self.addCleanup(signal.signal, signal.SIGINT, before)
        running = mock.patch.object(ENDING, "is_running", True)
        running.start()
        self.addCleanup(running.stop)

    def test_what_has_arrived_is_not_lost(self) -> None:
        def receive(size: int) -> bytes:
            os.kill(os.getpid(), signal.SIGINT)
            return os.read(reader, size)

        reader, writer = os.pipe()
        self.addCleanup(os.close, reader)
        os.write(writer, b"ok at 1\nok at ")
        os.close(writer)
        lines = Incoming(reader, receive)
        with self.assertRaises(KeyboardInterrupt):
            lines.fill()
        self.assertTrue(lines.has_line())
        self.assertEqual([b"ok at 1\n", 1], [lines.readline(), lines.replies])

    def test_a_session_goes_on_after_it(self) -> None:
        with Session.run() as session:
            replies = session.tell_all(["step 0", "step 0", "back 1"])
            self.assertEqual("ok at 1", next(replies))
            self.assertEqual("ok at 2", session.tell("step 0"))


if __name__ == "__main__":
    unittest.main()
