"""How `rdreach` writes an answer: in few calls, all of it, and with status 2 if it cannot."""
import os
import pathlib
import socket
import subprocess
import tempfile
import threading
import unittest
from typing import List, NamedTuple, Sequence

from tests import searches
from tests.paths import EXAMPLES

MEETING = str(EXAMPLES / "meeting.json")
PATIENCE = 60
# The program collects up to this many bytes before it writes them.
BUFFER = 8192
# Commands before the start of a search: their lines take several buffers.
TICKS = 20_000


class Run(NamedTuple):
    """The writes of a program to standard output, and its exit status."""

    writes: List[bytes]
    status: int


def run_program(words: Sequence[str]) -> Run:
    """Runs a program and collects its writes to standard output.

    Standard output is a socket that keeps the boundaries between messages, so that each write is
    received by itself.
    """
    ours, theirs = socket.socketpair(socket.AF_UNIX, socket.SOCK_SEQPACKET)
    writes: List[bytes] = []

    def receive() -> None:
        while True:
            message = ours.recv(1 << 20)
            if not message:
                return
            writes.append(message)

    with ours, theirs:
        process = subprocess.Popen(words, stdin=subprocess.DEVNULL, stdout=theirs.fileno())
        theirs.close()
        receiver = threading.Thread(target=receive, daemon=True)
        receiver.start()
        status = process.wait(PATIENCE)
        receiver.join(PATIENCE)
    return Run(writes, status)


class Writes(unittest.TestCase):
    """The writes of the program that searches."""

    def setUp(self) -> None:
        program = searches.real()
        if program is None or not os.access(program, os.X_OK):
            self.skipTest("RDBG_REACH names no program")
        self.program = os.path.abspath(program)
        folder = tempfile.TemporaryDirectory()
        self.addCleanup(folder.cleanup)
        self.ticks = pathlib.Path(folder.name) / "ticks.commands"
        self.ticks.write_text("tick\n" * TICKS)

    def test_a_short_answer_is_one_write(self) -> None:
        ran = run_program([self.program, MEETING, "asleep"])
        self.assertEqual((1, 1), (ran.status, len(ran.writes)))
        self.assertTrue(ran.writes[0].startswith(b"found\nstep 0\n"), ran.writes[0])
        self.assertTrue(ran.writes[0].endswith(b" deepest 21\n"), ran.writes[0])

    def test_a_long_answer_takes_few_writes(self) -> None:
        ran = run_program([self.program, MEETING, f"tick = {TICKS}", "--from", str(self.ticks)])
        answer = b"".join(ran.writes)
        self.assertEqual((1, TICKS), (ran.status, answer.count(b"\ntick")))
        self.assertEqual(b"states 0 moves 0 deepest 0", answer.splitlines()[-1])
        self.assertLessEqual(len(ran.writes), len(answer) // (BUFFER // 2) + 1)

    def test_every_kind_of_question(self) -> None:
        for question in ("--lost", "--doomed"):
            with self.subTest(question):
                words = [self.program, MEETING, "asleep", question, "--from", str(self.ticks)]
                self.assertLessEqual(len(run_program(words).writes), TICKS // 100)

    def test_an_answer_that_cannot_be_written(self) -> None:
        long = ["--from", str(self.ticks)]
        for words in (["asleep"], [f"tick = {TICKS}", *long], ["asleep", "--lost", *long]):
            with self.subTest(words), open("/dev/full", "wb") as full:
                ran = subprocess.run(
                    [self.program, MEETING, *words], stdout=full, stderr=subprocess.PIPE
                )
                self.assertEqual(2, ran.returncode)
                self.assertEqual(b"rdbg reach: cannot write the answer\n", ran.stderr)


if __name__ == "__main__":
    unittest.main()
