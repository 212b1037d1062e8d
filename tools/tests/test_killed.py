"""Companions that are killed: nothing that they have started is left."""
import os
import pathlib
import signal
import tempfile
import threading
import unittest
from typing import List
from unittest import mock

from rdbg.client import Session
from tests.paths import EXAMPLES
from tests.rooms import free_port
from tests.started import Started, sleeper, trace_processes

LOST = str(EXAMPLES / "lost_item.json")
TURNS = str(EXAMPLES / "turns.json")
KILLED = -signal.SIGKILL
LAUNCH = '{"seq": 1, "type": "request", "command": "launch", "arguments": {"file": "%s"}}' % LOST
FRAME = f"Content-Length: {len(LAUNCH)}\r\n\r\n{LAUNCH}"
# As `./rdbg --build`: it has another one build, and ends that where it is asked to end.
BUILDER = """#!/bin/sh
sleep 1000 &
trap "kill $!; exit 143" INT TERM
wait
"""


class Killed(unittest.TestCase):
    """SIGKILL, which no companion hears."""

    def setUp(self) -> None:
        folder = tempfile.TemporaryDirectory()
        self.addCleanup(folder.cleanup)
        self.sleeper = sleeper(folder.name)
        self.scratch = pathlib.Path(folder.name) / "scratch"
        self.scratch.mkdir()
        # (which a companion that is killed can't take away)
        patched = mock.patch.dict(os.environ, {"TMPDIR": str(self.scratch)})
        patched.start()
        self.addCleanup(patched.stop)

    def check(self, started: Started, count: int) -> None:
        """With so many processes it is killed, and none is left."""
        started.wait_for(count)
        self.assertEqual(KILLED, started.end(signal.SIGKILL)[1])

    def test_a_prompt_and_a_trace(self) -> None:
        for name in ("sh", "trace"):
            with self.subTest(name):
                started = Started(name, LOST, program=self.sleeper)
                started.give("forward 3\n")
                self.check(started, 2)

    def test_an_editors_debugger(self) -> None:
        started = Started("dap", program=self.sleeper)
        started.tell(FRAME)
        self.check(started, 2)

    def test_a_hunt(self) -> None:
        self.check(Started("hunt", LOST, "stuck", reach=self.sleeper), 2)
        self.check(Started("hunt", LOST, "differs", program=self.sleeper), 2)

    def test_processes_of_a_trace(self) -> None:
        started = Started("trace", TURNS, "--page", str(self.scratch / "page.html"))
        started.give("forward 100000\n")
        self.check(started, trace_processes())

    def test_a_room_before_it_listens(self) -> None:
        started = Started("room", LOST, "--port", str(free_port()), program=self.sleeper)
        self.check(started, 2)

    def test_a_room(self) -> None:
        choices: List[List[str]] = [[], ["--web", "0"]]
        for words in choices:
            with self.subTest(words):
                started = Started("room", LOST, "--port", str(free_port()), *words)
                assert started.process.stdout is not None
                self.assertTrue(started.process.stdout.readline().startswith(b"listening"))
                self.check(started, 3 if words else 2)

    def test_a_build(self) -> None:
        builder = pathlib.Path(self.scratch / "builder")
        builder.write_text(BUILDER)
        builder.chmod(0o700)
        wrapper = {"RDBG_WRAPPER": str(builder), "RDBG_PROGRAM": ""}
        for name, lines in (("sh", "step 1\n"), ("dap", FRAME)):
            for number in (signal.SIGKILL, signal.SIGTERM, signal.SIGINT):
                with self.subTest(name, signal=number), mock.patch.dict(os.environ, wrapper):
                    started = Started(name, *([LOST] if name == "sh" else []))
                    started.tell(lines)
                    started.wait_for(3)
                    started.end(number)


class Threads(unittest.TestCase):
    """Programs that are started by a thread which ends."""

    def test_they_go_on(self) -> None:
        made = []
        for _ in range(2):
            thread = threading.Thread(target=lambda: made.append(Session.run(LOST)))
            thread.start()
            thread.join()
        for session in made:
            self.assertEqual("ok at 1", session.tell("step 1"))
            self.assertEqual(0, session.close())

    def test_why_one_cannot_be_started(self) -> None:
        said = []

        def begin() -> None:
            try:
                Session.start(["/nowhere/rdbg"])
            except Exception as error:
                said.append(str(error))

        thread = threading.Thread(target=begin)
        thread.start()
        thread.join()
        self.assertEqual(["cannot start /nowhere/rdbg: No such file or directory"], said)


class Signals(unittest.TestCase):
    """What a program has of the signals of who starts it."""

    def test_they_are_as_they_were(self) -> None:
        for ignored, mask in ((None, 0), (signal.SIGINT, 1 << (signal.SIGINT - 1))):
            started = Started("sh", LOST, ignored=ignored)
            self.assertEqual("ok at 1\n", started.ask("step 1\n"))
            (program,) = {*started.family()} - {started.process.pid}
            status = pathlib.Path(f"/proc/{program}/status").read_text()
            (line,) = [it for it in status.splitlines() if it.startswith("SigIgn:")]
            both = (1 << (signal.SIGINT - 1)) | (1 << (signal.SIGTERM - 1))
            self.assertEqual(mask, int(line.split()[1], 16) & both)
            self.assertEqual(["", 0], started.end(0))


if __name__ == "__main__":
    unittest.main()
