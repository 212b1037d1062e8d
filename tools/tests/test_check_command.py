"""`rdbg check`: its lines, its words and its status."""
import contextlib
import io
import json
import os
import pathlib
import subprocess
import sys
import tempfile
import unittest
from typing import Dict, List, Tuple
from unittest import mock

from rdbg.companions import check
from tests.paths import COMPANION, EXAMPLES

LOST = (EXAMPLES / "lost_item.json").read_text()
WRONG = LOST.replace("recv jobs max", "recv jobs").replace('"cores": 2', '"cores": 9')
FIRST = "wrong.json:3:12: cores must be 1 to 8 in profile 1, found 9 (profile 2 allows 16)"
SECOND = (
    'wrong.json:6:48: task worker, instruction 0: "recv jobs": recv Q T: missing block time'
    " (max, a number, or r0 to r7)"
)
FILES: Dict[str, str] = {"right.json": LOST, "wrong.json": WRONG, "long.json": " " * 1_048_577}


class Command(unittest.TestCase):
    """What it prints, in a folder with a few files."""

    def setUp(self) -> None:
        folder = tempfile.TemporaryDirectory()
        self.addCleanup(folder.cleanup)
        self.addCleanup(os.chdir, os.getcwd())
        os.chdir(folder.name)
        for name, text in FILES.items():
            pathlib.Path(name).write_text(text)

    def run_on(self, *words: str, given: str = "") -> Tuple[int, List[str], List[str]]:
        """The status, and the lines on standard output and on standard error."""
        output, errors = io.StringIO(), io.StringIO()
        taken = io.TextIOWrapper(io.BytesIO(given.encode()))
        with contextlib.redirect_stdout(output), contextlib.redirect_stderr(errors):
            with mock.patch.object(sys, "stdin", taken):
                status = check.main(words)
        return status, output.getvalue().splitlines(), errors.getvalue().splitlines()

    def test_a_file_that_is_accepted(self) -> None:
        line = "right.json: accepted: 3 tasks, 1 queue, 2 cores"
        self.assertEqual((0, [line], []), self.run_on("right.json"))

    def test_a_file_that_is_refused(self) -> None:
        last = "wrong.json: refused as L3 Limit; 2 faults"
        self.assertEqual((1, [FIRST, SECOND, last], []), self.run_on("wrong.json"))

    def test_as_json(self) -> None:
        twice = LOST.replace('"cores"', '"cores": 1, "cores"')
        pathlib.Path("twice.json").write_text(twice)
        status, output, errors = self.run_on("--json", "wrong.json", "none.json", "twice.json")
        self.assertEqual((status, len(errors)), (2, 1))
        wrong, accepted = json.loads("\n".join(output))["files"]
        self.assertEqual(
            [f"wrong.json:{it['line']}:{it['column']}: {it['message']}" for it in wrong["faults"]],
            [FIRST, SECOND],
        )
        self.assertEqual([it["kind"] for it in wrong["faults"]], ["L3 Limit", "L5 Instr"])
        self.assertEqual(wrong["verdict"], "refused as L3 Limit; 2 faults")
        self.assertEqual((wrong["accepted"], accepted["accepted"]), (False, True))
        self.assertEqual([it["severity"] for it in accepted["faults"]], ["note"])
        self.assertTrue(accepted["faults"][0]["message"].startswith('duplicate key "cores"'))
        _, output, _ = self.run_on("--json", "--name", "a.fw", "-", given="cores 0\n")
        self.assertEqual(json.loads("\n".join(output))["files"][0]["file"], "a.fw")

    def test_the_first_fault_alone(self) -> None:
        self.assertEqual((1, [FIRST], []), self.run_on("--first", "wrong.json"))
        self.assertEqual((0, [], []), self.run_on("--first", "right.json"))

    def test_so_many_faults_at_the_most(self) -> None:
        last = "wrong.json: refused as L3 Limit; 2 faults, 1 shown"
        self.assertEqual((1, [FIRST, last], []), self.run_on("--most", "1", "wrong.json"))

    def test_a_key_that_stands_twice_is_no_fault_and_is_told(self) -> None:
        status, lines, _ = self.run_on("-", given=LOST.replace("{", '{"cores": 1,', 1))
        self.assertEqual((0, 2), (status, len(lines)))
        self.assertTrue(lines[0].startswith('-:3:3: note: duplicate key "cores"'))

    def test_a_file_that_cannot_be_read(self) -> None:
        status, lines, errors = self.run_on("none.json", "right.json", ".", "long.json")
        self.assertEqual((2, 1), (status, len(lines)))
        expected = [
            "rdbg check: cannot read none.json: No such file or directory",
            "rdbg check: cannot read .: Is a directory",
            "rdbg check: long.json: the file has 1,048,577 bytes (at most 1,048,576 are allowed)",
        ]
        self.assertEqual(expected, errors)

    def test_standard_input(self) -> None:
        self.assertEqual(0, self.run_on("-", given=LOST)[0])
        named = self.run_on("--name", "wrong.json", "-", given=WRONG)
        self.assertEqual(self.run_on("wrong.json"), named)

    def test_words_that_are_none(self) -> None:
        wrong: Tuple[Tuple[str, ...], ...] = (
            (),
            ("--most", "-1", "right.json"),
            ("--most", "x", "right.json"),
            ("--no", "right.json"),
        )
        for words in wrong:
            with self.assertRaises(SystemExit) as end:
                self.run_on(*words)
            self.assertEqual(2, end.exception.code)


class Process(unittest.TestCase):
    """What no test within one process shows."""

    def check(self, content: bytes, *before: str) -> Tuple[int, bytes]:
        """The status and the errors of a check of standard input."""
        done = subprocess.run(
            [*before, sys.executable, "-B", str(COMPANION), "check", "-"],
            env={**os.environ, "PYTHONIOENCODING": "ascii", "PYTHONUTF8": "0"},
            input=content,
            stdout=subprocess.PIPE,
            stderr=subprocess.PIPE,
        )
        return done.returncode, done.stderr

    def test_a_terminal_that_knows_ascii_alone(self) -> None:
        self.assertEqual((1, b""), self.check("{\u201ca\u201d}".encode()))

    def test_an_input_that_is_closed(self) -> None:
        expected = b"rdbg check: -: cannot read standard input\n"
        self.assertEqual((2, expected), self.check(b"", "sh", "-c", '"$@" <&-', "sh"))


if __name__ == "__main__":
    unittest.main()
