"""Output that cannot be written: each tool says so, names it, and ends with status 2."""
import os
import pathlib
import shutil
import subprocess
import sys
import tempfile
import unittest
from typing import List, Sequence, Tuple

from tests.paths import COMPANION, EXAMPLES
from tests.shell_talk import example, said

FULL, WHY = "/dev/full", "No space left on device"
TURNS = str(EXAMPLES / "turns.json")
LOST = str(EXAMPLES / "lost_item.json")
CASES = '{"cases": [{"file": "lost_item.json", "goal": "tick = 1", "expect": "found"}]}'
# Each prints something.
PRINT: Sequence[List[str]] = (
    ["--help"],
    ["--manual"],
    ["trace", "--help"],
    ["check", "--help"],
    ["completion", "bash"],
    ["check", LOST],
    ["check", "--json", LOST],
    ["check", "none.json", LOST],
    ["make", "--back", LOST],
    ["trace", LOST],
    ["trace", LOST, "--page", "-"],
    ["trace", LOST, "--events", "-"],
    ["hunt", LOST, "tick = 1"],
    ["reach", LOST, "tick = 1"],
    ["test", "."],
    ["sh", LOST],
)


def run(*words: str, output: int) -> Tuple[int, str]:
    """Runs a tool, and returns its status and what it prints on standard error."""
    command = [sys.executable, "-B", str(COMPANION), *words]
    ran = subprocess.run(
        command, input=b"forward 20\n", stdout=output, stderr=subprocess.PIPE, timeout=120
    )
    return ran.returncode, ran.stderr.decode()


class FullDisk(unittest.TestCase):
    """No space for what a tool writes."""

    def setUp(self) -> None:
        folder = tempfile.TemporaryDirectory()
        self.addCleanup(folder.cleanup)
        self.addCleanup(os.chdir, os.getcwd())
        os.chdir(folder.name)
        shutil.copy(LOST, ".")
        pathlib.Path("goals.json").write_text(CASES)
        self.full = os.open(FULL, os.O_WRONLY)
        self.addCleanup(os.close, self.full)

    def test_standard_output(self) -> None:
        for words in PRINT:
            with self.subTest(words):
                status, errors = run(*words, output=self.full)
                self.assertEqual(2, status, errors)
                last = errors.splitlines()[-1:]
                self.assertEqual([f"rdbg {words[0]}: cannot write standard output: {WHY}"], last)

    def test_a_reader_that_has_gone(self) -> None:
        reading, writing = os.pipe()
        os.close(reading)
        self.addCleanup(os.close, writing)
        for words in (["check", LOST], ["trace", LOST], ["trace", "--help"], ["sh", LOST]):
            with self.subTest(words):
                self.assertEqual((2, ""), run(*words, output=writing))

    def test_output_files(self) -> None:
        for name in ("full.json", "full.fw"):
            os.symlink(FULL, name)
        pathlib.Path("model.fw").write_text("cores 1\ntask t priority 1\n    end\n")
        for words, path in (
            (["trace", LOST, "--page", FULL], FULL),
            (["trace", LOST, "--events", FULL], FULL),
            (["make", "model.fw", "-o", "full.json"], "full.json"),
            (["hunt", LOST, "tick = 1", "-o", FULL], FULL),
            (["hunt", LOST, "tick = 1", "--page", FULL], FULL),
            (["hunt", LOST, "tick = 1", "--report", FULL], FULL),
            (["reach", LOST, "tick = 1", "-o", FULL], FULL),
            (["reach", LOST, "tick = 1", "--page", FULL], FULL),
            (["reach", LOST, "tick = 1", "--report", FULL], FULL),
            (["test", ".", "--report", FULL], FULL),
        ):
            with self.subTest(words):
                status, errors = run(*words, output=subprocess.PIPE)
                self.assertEqual(2, status, errors)
                wanted = f"rdbg {words[0]}: cannot write {path}: {WHY}"
                self.assertEqual([wanted], errors.splitlines()[-1:])

    def test_saved_commands(self) -> None:
        os.symlink(FULL, "full.commands")
        with example("lost_item") as shell:
            answers = said(shell, "step 1", "save! full.commands")
        self.assertIn(f"# cannot write full.commands: {WHY}", answers)


if __name__ == "__main__":
    unittest.main()
