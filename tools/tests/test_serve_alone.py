"""`rdbg serve` by itself, as docs/TOGETHER.md says it: numbers, who comes late, who doesn't come,
and a history that is full."""
import contextlib
import subprocess
import unittest
from typing import Iterator, Optional, Tuple

from rdbg.client import Session, program
from rdbg.failure import Failure
from tests.rooms import LOST, free_port


@contextlib.contextmanager
def served(
    sessions: int, *words: str, descriptors: Optional[int] = None
) -> "Iterator[Tuple[int, subprocess.Popen[str]]]":
    """Serves the example, and gives the port and the process. The process may have at most
    `descriptors` open files, if that is given: four are its standard streams and its listener."""
    port = free_port()
    told = ["serve", "--app", LOST, "--port", str(port), "--sessions", str(sessions), *words]
    limit = [] if descriptors is None else ["prlimit", f"--nofile={descriptors}"]
    pipe = subprocess.PIPE
    process = subprocess.Popen([*limit, program(), *told], stdout=pipe, stderr=pipe, text=True)
    assert process.stdout is not None
    try:
        assert process.stdout.readline() == f"listening {port}\n"
        yield port, process
    finally:
        process.kill()
        process.communicate()


def attached(port: int) -> Session:
    """One more session, which has answered."""
    session = Session.attach(port)
    session.tell("")
    return session


class Serve(unittest.TestCase):
    """What is written of the server."""

    def test_numbers(self) -> None:
        with served(4) as (port, _):
            one, two = attached(port), attached(port)
            list(one.tell_all(["wheel take", "watch tick = 0"]))
            self.assertEqual(two.tell("show wheel"), "wheel 1")
            one.close()
            three = attached(port)
            self.assertEqual(three.tell("show watches"), "watches -")
            # (its going may be seen after the coming of another)
            while three.tell("wheel take") != "ok wheel":
                pass
            self.assertEqual(three.tell("show wheel"), "wheel 3")
            two.close()
            three.close()

    def test_who_comes_late(self) -> None:
        with served(2) as (port, process):
            one, two = attached(port), attached(port)
            one.close()
            with self.assertRaises(Failure):
                attached(port)
            two.close()
            self.assertEqual(process.communicate(timeout=30), ("closed 4\n", ""))
            self.assertEqual(process.returncode, 0)

    def test_who_does_not_come(self) -> None:
        with served(3) as (port, process):
            with attached(port) as one, attached(port):
                one.tell("tick")
            with self.assertRaises(subprocess.TimeoutExpired):
                process.wait(0.3)
            with attached(port) as three:
                self.assertEqual(three.tell("show moves"), "moves 1 undone 0 kept 1")
            self.assertEqual(process.communicate(timeout=30)[0], "closed 8\n")

    def test_a_port_that_is_taken(self) -> None:
        with served(1) as (port, _):
            words = ["serve", "--app", LOST, "--port", str(port), "--sessions", "1"]
            ran = subprocess.run([program(), *words], stderr=subprocess.PIPE, text=True)
            self.assertEqual(ran.returncode, 1)
            self.assertEqual(ran.stderr, "rdbg: cannot listen\n")

    def test_descriptors_for_four_connections(self) -> None:
        with served(8, descriptors=8) as (port, process):
            sessions = [Session.attach(port) for _ in range(8)]
            for at, session in enumerate(sessions, 1):
                self.assertEqual(session.tell("tick"), f"ok at {at}")
                session.close()
            self.assertEqual(process.communicate(timeout=30), ("closed 24\n", ""))
            self.assertEqual(process.returncode, 0)

    def test_no_descriptor_for_a_connection(self) -> None:
        for sessions, failed in (1, "1 connection"), (3, "3 connections"):
            with self.subTest(sessions), served(sessions, descriptors=4) as (_, process):
                said = process.communicate(timeout=30)
                self.assertEqual(said, ("closed 0\n", f"rdbg: {failed} failed\n"))
                self.assertEqual(process.returncode, 0)

    def test_a_history_that_is_full(self) -> None:
        with served(4, "--history", "9") as (port, process):
            one, two = attached(port), attached(port)
            for line in ("tick", "step 9", "show wheel", "show cores", "show moves"):
                self.assertNotIn("HistoryFull", one.tell(line))
                self.assertEqual(two.tell("x"), "no Syntax")
            for session in (one, two):
                for line in ("tick", "show wheel", "watch tick = 1", "wheel take"):
                    self.assertEqual(session.tell(line), "no HistoryFull")
            with Session.attach(port) as three:
                self.assertEqual(three.tell(""), "no HistoryFull")
            one.close()
            self.assertEqual(two.tell("tick"), "no HistoryFull")
            with Session.attach(port) as four:
                self.assertEqual(four.tell(""), "no HistoryFull")
            two.close()
            said = process.communicate(timeout=30)
            self.assertEqual(said, ("closed 9\n", "rdbg: 2 connections failed\n"))
            self.assertEqual(process.returncode, 0)


if __name__ == "__main__":
    unittest.main()
