"""`rdbg sh` as a filter, and how it begins and ends."""
import contextlib
import io
import os
import pathlib
import subprocess
import sys
import tempfile
import unittest
from typing import List, Tuple
from unittest import mock

from rdbg.client import Session, program
from rdbg.firmware.writer import text_of
from rdbg.main import main
from rdbg.driving.target import Limits
from rdbg.files.source import load
from tests import fake
from tests.paths import COMPANION, EXAMPLES
from tests.shell_talk import both, example, opened, said

LOST = str(EXAMPLES / "lost_item.json")


def start(given: bytes, *words: str) -> Tuple[int, str, str]:
    """The status, the output and the errors of `rdbg sh`, as a process."""
    ran = subprocess.run(
        [sys.executable, "-B", str(COMPANION), "sh", *words],
        input=given,
        stdout=subprocess.PIPE,
        stderr=subprocess.PIPE,
        env={**os.environ, "RDBG_PROGRAM": program()},
    )
    return ran.returncode, ran.stdout.decode(), ran.stderr.decode()


def run(given: bytes, *words: str) -> Tuple[int, str, str]:
    """The same in this process."""
    output, errors = io.StringIO(), io.StringIO()
    lines = io.TextIOWrapper(io.BytesIO(given))
    with contextlib.redirect_stdout(output), contextlib.redirect_stderr(errors):
        with mock.patch("sys.stdin", lines):
            try:
                status = main(["sh", *words])
            except SystemExit as end:
                status = int(str(end.code))
    return status, output.getvalue(), errors.getvalue()


class Filter(unittest.TestCase):
    """Lines of rdbg are answered as rdbg answers them."""

    def test_each_example(self) -> None:
        for file in sorted(EXAMPLES.glob("*.commands")):
            with self.subTest(file.stem), example(file.stem) as shell:
                answers = said(shell, *file.read_text().splitlines())
                self.assertEqual(answers, file.with_suffix(".replies").read_text().splitlines())

    def test_each_example_with_moves(self) -> None:
        for name in ("lost_item", "barrier", "watching", "uart"):
            with self.subTest(name), example(name) as shell:
                lines = (EXAMPLES / f"{name}.commands").read_text().splitlines()
                answers = said(shell, "set moves on", *lines)
                replies = [line for line in answers if not line.startswith("# ")]
                self.assertEqual(
                    "\n".join(replies), (EXAMPLES / f"{name}.replies").read_text().strip()
                )

    def test_by_the_command_line(self) -> None:
        given = (EXAMPLES / "lost_item.commands").read_bytes()
        replies = (EXAMPLES / "lost_item.replies").read_text()
        self.assertEqual(start(given, LOST), (0, replies, ""))

    def test_comments_empty_lines_and_ends_of_lines(self) -> None:
        given = b"# first\n\nstep 0\r\n  tick # a tick\n\xff\nshow moves"
        status, output, errors = run(given)
        self.assertEqual(
            (status, output), (0, "ok at 1\nok at 2\nno Syntax\nmoves 2 undone 0 kept 2\n")
        )
        self.assertIn("unknown command", errors)

    def test_quit_ends(self) -> None:
        self.assertEqual(run(b"step 0\nquit\nstep 0\n"), (0, "ok at 1\n", ""))

    def test_every_line_can_be_shown(self) -> None:
        with example("lost_item") as shell:
            answers = said(shell, "set echo on", "step producer", "set echo off", "step 0")
            expected = ["> show task producer", "> step 1", "ok at 1", "ok at 2"]
            self.assertEqual(answers, expected)

    def test_a_line_that_is_too_long_is_not_sent(self) -> None:
        with example("lost_item") as shell:
            output, errors = both(shell, "x" * 1025, "step 0")
            self.assertEqual(output, ["ok at 1"])
            self.assertIn("1024 bytes", errors[0])

    def test_a_small_history_is_left_to_the_lines(self) -> None:
        lines = ["set moves on", "step 9", "step 0", "show moves", "tick"]
        with example("lost_item", Limits(10, 5)) as shell:
            output = [line for line in said(shell, *lines) if not line.startswith("# ")]
        with Session.run(LOST, ["--history", "5", "--moves", "10"]) as session:
            self.assertEqual(output, list(session.tell_all(lines[1:])))

    def test_the_built_in_application(self) -> None:
        with opened(None) as shell:
            rows = said(shell, "list")
            self.assertEqual([row.split()[-1] for row in rows[1:]], ["41", "0", "0", "0", "end"])
        with example("builtin") as other, opened(None) as shell:
            self.assertEqual(other.target.look(), shell.target.look())


class Ends(unittest.TestCase):
    """Files and programs that aren't as they should be: one clear line each, and a status."""

    def test_files(self) -> None:
        with tempfile.TemporaryDirectory() as folder:
            wrong = pathlib.Path(folder) / "wrong.json"
            wrong.write_text('{"profile": 1, "cores": 9, "tasks": []}')
            status, output, errors = run(b"", str(wrong))
            self.assertEqual((status, output), (1, ""))
            lines = errors.splitlines()
            self.assertRegex(lines[0], r"wrong\.json:1:25: ")
            told = r"is refused as L3 Limit: 2 faults, as `./rdbg check .*wrong\.json` says"
            self.assertRegex(lines[-1], rf"^rdbg sh: .*wrong\.json {told}$")
            status, _, errors = run(b"", str(wrong) + "x")
            self.assertEqual((status, errors.count("\n")), (2, 1))

    def test_a_file_in_lines(self) -> None:
        application = load(LOST).application
        assert application is not None
        with tempfile.TemporaryDirectory() as folder:
            file = pathlib.Path(folder) / "lost.fw"
            file.write_text(text_of(application))
            given = (EXAMPLES / "lost_item.commands").read_bytes()
            replies = (EXAMPLES / "lost_item.replies").read_text()
            self.assertEqual(run(given, str(file)), (0, replies, ""))

    def test_a_file_after_app(self) -> None:
        given = (EXAMPLES / "lost_item.commands").read_bytes()
        replies = (EXAMPLES / "lost_item.replies").read_text()
        self.assertEqual(run(given, "--app", LOST), (0, replies, ""))
        self.assertEqual(run(given, "--app", LOST, LOST)[0], 2)

    def test_words(self) -> None:
        for words in (["--port", "x"], ["--port", "0"], ["--moves", "0"], ["--history", "1"]):
            self.assertEqual(run(b"", *words)[0], 2, words)
        self.assertEqual(run(b"", "--port", "7", "--moves", "5")[0], 2)
        status, _, errors = run(b"", "--port", "1")
        self.assertEqual(status, 2)
        self.assertRegex(errors, "^rdbg sh: cannot attach to port 1: .*\n$")

    def check(self, answers: List[str], ends: str, error: str = "", status: int = 0) -> None:
        """Runs it with a program that isn't rdbg; its one line of errors ends so."""
        with fake.program(["no Syntax\n", *answers], error, status):
            status, _, errors = run(b"step 0\nstep 0\nshow moves\n")
            self.assertEqual((status, errors.count("\n")), (1, 1), errors)
            self.assertRegex(errors, f"^rdbg sh: {ends}\n$")

    def test_programs_that_end(self) -> None:
        self.check(["ok at 1\n"], "rdbg: no memory", "rdbg: no memory\n", 1)
        self.check(["ok at 1\n", "ok a"], "rdbg has ended, with status 3", "", 3)
        self.check([], "rdbg has ended, with status 0")

    def test_broken_replies(self) -> None:
        for reply in ("ok\n", "ok at x\n", "\xff\n", "no Way\n", "\n", "wheel 1\n", "cores - -\n"):
            self.check([reply, "ok at 2\n", "ok at 3\n"], "rdbg answered what no reply looks .*")

    def test_a_first_answer_that_is_none(self) -> None:
        for reply in ("hello\n", "ok at 1\n", "no Full\n"):
            with fake.program([reply]):
                self.assertEqual(run(b"step 0\n")[0], 1)

    def test_a_program_that_is_not_there(self) -> None:
        with mock.patch.dict(os.environ, {"RDBG_PROGRAM": "/no/rdbg"}):
            status, _, errors = run(b"step 0\n")
        self.assertEqual(status, 2)
        self.assertRegex(errors, "^rdbg sh: cannot start /no/rdbg: .*\n$")


if __name__ == "__main__":
    unittest.main()
