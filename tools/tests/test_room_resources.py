"""A room for which the system has too few descriptors or too little memory."""
import contextlib
import io
import os
import re
import resource
import subprocess
import sys
import unittest
from typing import List
from unittest import mock

from rdbg.door import Entrance
from rdbg.ending import ENDING
from rdbg.rooms import port as ports, resources
from tests.paths import COMPANION
from tests.rooms import LOST, PATIENCE, Caller, free_port, room
from tests.test_room_hostile import served

NO_THREAD = "# no: the system cannot start a thread for another connection"


def limited(limit: str) -> List[str]:
    """What starts a room with a limit of `ulimit`."""
    return ["bash", "-c", f'ulimit -S -s 8192; ulimit {limit} && exec "$@"', "room"]


class Scarce(unittest.TestCase):
    """It ends at once, with status 2, and says which limit is to blame and what to do."""

    def refused(self, limit: str, *words: str) -> str:
        """What a room says that cannot be opened below a limit."""
        room_words = ["room", LOST, "--port", str(free_port()), *words]
        done = subprocess.run(
            [*limited(limit), sys.executable, "-B", str(COMPANION), *room_words],
            stdin=subprocess.DEVNULL,
            stdout=subprocess.PIPE,
            stderr=subprocess.PIPE,
            text=True,
            timeout=PATIENCE,
        )
        self.assertEqual((done.returncode, done.stdout), (2, ""), done.stderr)
        return done.stderr

    def test_descriptors(self) -> None:
        for limit, sessions in ((20, 64), (70, 64), (30, 25)):
            with self.subTest(limit):
                said = self.refused(f"-n {limit}", "--sessions", str(sessions))
                few = f"too few file descriptors for {sessions} sessions: `ulimit -n` is {limit}"
                remedy = re.escape(f"rdbg room: {few} (raise it, or use --sessions N)\n")
                found = re.fullmatch(remedy.replace("N", r"(\d+)"), said)
                assert found is not None, said
                # (with so many it opens, and answers)
                with room(sessions=int(found[1]), head=limited(f"-n {limit}")) as here:
                    with Caller(here.port, "ada") as ada:
                        self.assertEqual(ada.ask("tick"), "ok at 1")

    def test_too_few_for_a_single_session(self) -> None:
        few = "too few file descriptors for 1 session: `ulimit -n` is 10 (raise it)"
        self.assertEqual(self.refused("-n 10", "--sessions", "1"), f"rdbg room: {few}\n")

    def test_memory(self) -> None:
        said = self.refused("-v 300000")
        few = r"too little memory for 64 sessions: `ulimit -v` is 300000 \(raise it"
        self.assertRegex(said, rf"^rdbg room: {few}, or use --sessions \d+\)\n$")

    def test_memory_that_no_limit_of_addresses_restricts(self) -> None:
        for threads, why in (
            (90, "the system has none left, or `ulimit -u`, which is 90, is reached (raise it, "),
            (resource.RLIM_INFINITY, "the system has none left ("),
        ):
            limits = {
                resource.RLIMIT_AS: (resource.RLIM_INFINITY, 0),
                resource.RLIMIT_NPROC: (threads, 0),
            }
            with mock.patch("resource.getrlimit", limits.get):
                said = str(resources.no_memory(64, 20))
            start = f"too little memory for 64 sessions: {why}"
            self.assertEqual(said, f"{start}{'or ' if threads == 90 else ''}use --sessions 15)")

    def test_open_descriptors_are_counted(self) -> None:
        before = resources.open_descriptors()
        with open(os.devnull, "rb"):
            self.assertEqual(resources.open_descriptors(), before + 1)


class Threads(unittest.TestCase):
    """A room that gets no more threads for connections."""

    def refused(self, port: int) -> None:
        """A new connection is told why it is closed."""
        with Caller(port) as other:
            self.assertEqual(other.rest(), [NO_THREAD])

    def test_a_client_is_told_and_the_others_go_on(self) -> None:
        none = RuntimeError("can't start new thread")
        errors = io.StringIO()
        with served() as (port, its_room), Caller(port, "ada") as ada:
            with contextlib.redirect_stderr(errors):
                with mock.patch.object(ports, "Client", side_effect=none):
                    self.refused(port)
                with mock.patch("socketserver.ThreadingMixIn.process_request", side_effect=none):
                    self.refused(port)
            self.assertEqual(ada.ask("tick"), "ok at 1")
            self.assertEqual(its_room.who(), "here: ada (session 1)")
        self.assertEqual(errors.getvalue(), "")

    def test_another_port_says_it_in_a_line(self) -> None:
        errors = io.StringIO()
        with contextlib.redirect_stderr(errors):
            try:
                raise RuntimeError("can't start new thread")
            except RuntimeError:
                Entrance.handle_error(mock.Mock(), None, None)
        said = f"{ENDING.name}: a connection was dropped: can't start new thread\n"
        self.assertEqual(errors.getvalue(), said)


if __name__ == "__main__":
    unittest.main()
