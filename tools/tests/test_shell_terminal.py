"""History, Tab, Enter and Ctrl-C at a pseudo-terminal."""
import os
import pathlib
import signal
import tempfile
import unittest
from typing import Dict
from unittest import mock

from rdbg.client import program
from rdbg.shell.history import history_path
from tests.paths import EXAMPLES
from tests.shell_terminal import PROMPT, Terminal

LOST = str(EXAMPLES / "lost_item.json")
LINES = ["show task worker", "step 1", "moves 1", "step 1", "break producer 2"]
UP, TAB, CONTROL_C, CONTROL_D = "\x1b[A", "\t", "\x03", "\x04"


class AtATerminal(unittest.TestCase):
    """A person at the prompt."""

    def setUp(self) -> None:
        scratch = tempfile.TemporaryDirectory()
        self.addCleanup(scratch.cleanup)
        self.history = pathlib.Path(scratch.name) / "state" / "history"

    def terminal(self, *words: str, **more: str) -> Terminal:
        """A terminal, after its first prompt."""
        environment: Dict[str, str] = {
            "RDBG_PROGRAM": program(),
            "RDBG_HISTORY": str(self.history),
            **more,
        }
        found = Terminal(*words, environment=environment)
        self.addCleanup(found.kill)
        self.greeting = found.expect(PROMPT)
        return found

    def test_sigterm_at_the_prompt(self) -> None:
        terminal = self.terminal(LOST)
        self.assertIn("# 3", terminal.ask("forward 3"))
        os.kill(terminal.pid, signal.SIGTERM)
        self.assertEqual("rdbg sh: ended by SIGTERM\n", terminal.expect(r"SIGTERM\n"))
        self.assertEqual((143, ""), (terminal.end(), terminal.screen))

    def test_a_session(self) -> None:
        terminal = self.terminal(LOST)
        self.assertIn("`help` lists the commands", self.greeting)
        self.assertIn("core 1  producer  0 data 41", self.greeting)
        # Tab over words and names, Enter that repeats, and the moves that are told
        terminal.type(f"sh{TAB}ta{TAB}wo{TAB}")
        answer = terminal.ask("")
        self.assertIn("task worker core 0 pc 0 phase run", answer)
        self.assertIn("producer 0 data 41\n", terminal.ask("step 1"))
        self.assertIn("producer 1 send jobs 0 -> 1, jobs 1/1\n", terminal.ask(""))
        self.assertIn("# 2  core 1  producer 1 send jobs 0 -> 1", terminal.ask("moves 1"))
        # the line before the last one, by the key
        terminal.type(UP + UP)
        self.assertIn("producer 2 end, left core 1 (ended)", terminal.ask(""))
        self.assertIn("ok watch 0", terminal.ask("break producer 2"))
        self.assertNotIn("watch", terminal.ask(""))  # (which Enter doesn't repeat)
        # Ctrl-C ends the line that is typed, and not the program
        terminal.type("quit")
        terminal.interrupt(r"\^C\n" + PROMPT)
        self.assertIn(
            "no Syntax\nhint: unknown command 'fly'", terminal.ask("fly").replace("\r", "")
        )
        terminal.type(CONTROL_D)
        self.assertEqual(terminal.end(), 0)
        kept = self.history.read_text().splitlines()
        self.assertEqual(kept, [*LINES, "fly"])
        # (the next one has the lines of the one before)
        again = self.terminal(LOST)
        again.type(UP)
        self.assertIn("hint: unknown command 'fly'", again.ask(""))
        again.type("q\n")
        self.assertEqual(again.end(), 0)

    def test_control_c_in_a_long_run(self) -> None:
        terminal = self.terminal(LOST, "--moves", "1000000")
        terminal.ask("set moves off")
        terminal.ask("set echo on")
        terminal.type("forward 1000000\n")
        terminal.expect("> forward 2000\n")
        terminal.type(CONTROL_C)
        answer = terminal.expect(r"# stopped by Ctrl-C, at \d+\n")
        place = int(answer.split()[-1])
        terminal.expect(PROMPT)
        self.assertGreater(place, 0)
        self.assertIn(f"moves {place} undone 0 kept {place}\n", terminal.ask("show moves"))
        self.assertIn("ok at 0\n", terminal.ask("goto 0"))
        terminal.type("until! tick = 400000 900000\n")
        terminal.expect("> until tick = 400000 ")
        terminal.type(CONTROL_C)
        terminal.expect("# stopped by Ctrl-C, back at 0\n")
        terminal.expect(PROMPT)
        terminal.type(CONTROL_D)
        self.assertEqual(terminal.end(), 0)

    def test_a_history_that_can_t_be_written(self) -> None:
        terminal = self.terminal(RDBG_HISTORY="/dev/null/history")
        self.assertIn("ok at 1", terminal.ask("step 0"))
        terminal.type(CONTROL_D)
        self.assertEqual(terminal.end(), 0)


class HistoryFile(unittest.TestCase):
    """Where the lines that were typed are kept."""

    def test_places(self) -> None:
        places = {
            ("RDBG_HISTORY", "/a/b"): "/a/b",
            ("XDG_STATE_HOME", "/state"): "/state/rdbg/history",
            ("HOME", "/ada"): "/ada/.local/state/rdbg/history",
        }
        for (name, value), path in places.items():
            with mock.patch.dict(os.environ, {name: value}, clear=True):
                self.assertEqual(str(history_path()), path)
        with mock.patch.dict(os.environ, {"RDBG_HISTORY": ""}):
            self.assertIsNone(history_path())


if __name__ == "__main__":
    unittest.main()
