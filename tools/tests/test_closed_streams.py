"""Standard streams that are closed when a tool starts: no traceback, and no file takes their place."""
import os
import pathlib
import subprocess
import tempfile
import unittest
from typing import List, NamedTuple

from rdbg.client import program
from rdbg.reaching.asking import program as reach
from tests.paths import COMPANION, EXAMPLES, WRAPPER
from tests.rooms import free_port

LOST, MEETING = str(EXAMPLES / "lost_item.json"), str(EXAMPLES / "meeting.json")
TURNS = str(EXAMPLES / "turns.commands")
# How a shell closes each stream.
INPUT, OUTPUT, ERRORS = "<&-", ">&-", "2>&-"
CASES = '{"cases": [{"file": "a.fw", "goal": "failed", "expect": "never"}]}'
WRONG = ("Traceback", "Exception ignored", "Fatal Python", "write error", "No such file")


class Ran(NamedTuple):
    """What a command wrote, and its status."""

    status: int
    output: str
    errors: str


class Closed(unittest.TestCase):
    """Each tool, with each stream closed."""

    def setUp(self) -> None:
        folder = tempfile.TemporaryDirectory()
        self.addCleanup(folder.cleanup)
        self.folder = pathlib.Path(folder.name)
        (self.folder / "a.fw").write_text("cores 1\ntask worker priority 1\n    end\n")
        (self.folder / "goals.json").write_text(CASES)

    def words(self) -> List[List[str]]:
        """Words of each tool that end by themselves."""
        lines, page = str(self.folder / "a.fw"), str(self.folder / "page.html")
        return [
            ["check", LOST],
            ["make", lines],
            ["trace", LOST, TURNS],
            ["trace", LOST, TURNS, "--page", page],
            ["test", str(self.folder)],
            ["hunt", MEETING, "asleep"],
            ["reach", MEETING, "asleep"],
            ["sh", LOST],
            ["dap"],
            ["completion", "bash"],
            ["--help"],
        ]

    def run_closed(self, closed: str, *words: str) -> Ran:
        """Runs a command with streams closed."""
        ran = subprocess.run(
            ["bash", "-c", f'exec "$@" {closed}', "bash", *words],
            env={**os.environ, "RDBG_PROGRAM": program(), "RDBG_REACH": reach()},
            stdin=subprocess.DEVNULL,
            stdout=subprocess.PIPE,
            stderr=subprocess.PIPE,
            universal_newlines=True,
        )
        for text in WRONG:
            self.assertNotIn(text, ran.stdout + ran.stderr)
        return Ran(ran.returncode, ran.stdout, ran.stderr)

    def test_input_and_errors(self) -> None:
        for words in self.words():
            open_ones = self.run_closed("", str(COMPANION), *words)
            for closed in (INPUT, ERRORS):
                with self.subTest(words, closed=closed):
                    ran = self.run_closed(closed, str(COMPANION), *words)
                    if words[0] in ("sh", "dap") and closed == INPUT:
                        self.assertIn(ran.status, (0, 1, 2))
                    else:
                        self.assertEqual(open_ones.status, ran.status, ran.errors)
                        if words[0] != "test":  # (which says how long each case took)
                            self.assertEqual(open_ones.output, ran.output)

    def test_output(self) -> None:
        room = ["room", LOST, "--port", str(free_port())]
        for words in [*self.words(), room]:
            with self.subTest(words):
                ran = self.run_closed(OUTPUT, str(COMPANION), *words)
                self.assertIn(ran.status, (0, 1, 2))
                if words[0] not in ("dap", "sh", "trace"):
                    self.assertNotEqual(0, ran.status)
                    self.assertIn("rdbg", ran.errors)

    def test_all(self) -> None:
        for words in self.words():
            with self.subTest(words):
                ran = self.run_closed(f"{INPUT} {OUTPUT} {ERRORS}", str(COMPANION), *words)
                self.assertIn(ran.status, (0, 1, 2))

    def test_the_script(self) -> None:
        choices = (["run", "--app", LOST], ["run", "--app", "none"], ["--version"], ["fly"])
        for words in [*choices, ["reach", MEETING, "asleep"], ["serve", "--app", "none"]]:
            for closed in (INPUT, OUTPUT, ERRORS, f"{INPUT} {OUTPUT} {ERRORS}"):
                with self.subTest(words, closed=closed):
                    ran = self.run_closed(closed, str(WRAPPER), *words)
                    self.assertIn(ran.status, (0, 1, 2))

    def test_a_page_is_no_stream(self) -> None:
        page = self.folder / "page.html"
        words = ["trace", LOST, TURNS, "--page", str(page)]
        self.run_closed(f"{INPUT} {OUTPUT} {ERRORS}", str(COMPANION), *words)
        self.assertTrue(page.read_text().startswith("<!"))


if __name__ == "__main__":
    unittest.main()
