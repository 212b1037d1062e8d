"""`moves`, `goto`, `save` and `reload`."""
import pathlib
import random
import tempfile
import unittest
from typing import List
from unittest import mock

from rdbg.client import Session
from rdbg.driving.interrupt import Interrupted
from rdbg.driving.target import Limits
from tests.paths import EXAMPLES
from tests.shell_apps import application, wander
from tests.shell_talk import both, example, file, opened, said

LOST = EXAMPLES / "lost_item.json"
TO_THE_FAULT = ["until count jobs > 0 50", "step 1", "step 1", "step 1", "step 0"]
REPLAYED = "# checked: a new program replays them to this place and state"


class Folder(unittest.TestCase):
    """Tests with a scratch folder and a copy of an example in it."""

    def setUp(self) -> None:
        scratch = tempfile.TemporaryDirectory()
        self.addCleanup(scratch.cleanup)
        self.folder = pathlib.Path(scratch.name)
        self.app = self.folder / "app.json"
        self.app.write_text(LOST.read_text())
        self.saved = self.folder / "found.commands"

    def edit(self, old: str, new: str) -> None:
        """Edits the copy."""
        text = LOST.read_text()
        assert old in text
        self.app.write_text(text.replace(old, new))


class Save(Folder):
    """The moves as a file of commands."""

    def test_the_program_replays_it(self) -> None:
        lines = [*TO_THE_FAULT, "back until count jobs > 0", "poke pc poller 1", "step 1", "back 1"]
        with example("lost_item") as shell:
            answers = said(shell, *lines, f"save {self.saved}")
            self.assertEqual(answers[-2:], [f"# saved 8 moves in {self.saved}", REPLAYED])
            self.assertEqual(said(shell, "show moves"), ["moves 8 undone 1 kept 8"])
            here = shell.target.look()
        commands = self.saved.read_text().splitlines()
        expected = ["step 0", "step 1", "tick", "step 0", "step 1", "step 1", "step 1"]
        self.assertEqual(commands, [*expected, "poke pc poller 1"])
        with Session.run(str(LOST)) as session:
            self.assertEqual(list(session.tell_all(commands))[-1], "ok at 8")
            with example("lost_item") as other:
                names = other.target.names.lines()
                self.assertEqual(
                    other.target.tell_all([*commands, *names])[8:],
                    [session.tell(name) for name in names],
                )
                self.assertEqual(other.target.look(), here)

    def test_random_moves(self) -> None:
        for seed in range(4):
            with self.subTest(seed), opened(application(seed)) as shell:
                wander(random.Random(seed), shell.target, 40)
                self.assertEqual(said(shell, f"save! {self.saved}")[-1], REPLAYED)

    def test_the_file_as_it_was_read(self) -> None:
        with file(self.app) as shell:
            said(shell, *TO_THE_FAULT)
            self.app.write_text("{}")
            self.assertEqual(said(shell, f"save {self.saved}")[-1], REPLAYED)

    def test_files_that_are_not_written(self) -> None:
        with example("builtin") as shell:
            self.assertIn("refusing to overwrite", said(shell, f"save {self.app}")[0])
            self.assertIn("cannot write", said(shell, f"save {self.folder}/no/x.commands")[0])
            self.assertIn("needs one file name", said(shell, "save")[0])
            long, nul = said(shell, f"save {'x' * 300}"), said(shell, "save a\0b")
            self.assertIn("cannot write xxx", long[0])
            self.assertEqual(nul, ["# cannot write 'a\\x00b': not a valid file name"])
        self.assertEqual(self.app.read_text(), LOST.read_text())

    def test_a_long_run_takes_no_place_in_the_history(self) -> None:
        with example("turns") as shell:
            said(shell, "forward 700", "step 0", "forward 2000", "back 100")
            before = shell.target.used
            answers = said(shell, f"save {self.saved}")
            self.assertEqual([f"# saved 2601 moves in {self.saved}", REPLAYED], answers[-2:])
            # (one look at each thing, whatever the number of moves)
            self.assertLess(shell.target.used - before, 20)
            self.assertEqual(said(shell, "show moves"), ["moves 2601 undone 100 kept 2601"])
        self.assertEqual(2601, len(self.saved.read_text().splitlines()))
        self.assertNotIn("forward", self.saved.read_text())

    def test_no_moves(self) -> None:
        with example("lost_item") as shell:
            self.assertEqual(said(shell, f"save {self.saved}")[-1], REPLAYED)
        self.assertEqual(self.saved.read_text(), "")


class Reload(Folder):
    """The same moves on an edited file."""

    def reload(self, *more: str) -> List[str]:
        """What reload says where the fault is, and what later lines say."""
        with file(self.app) as shell:
            said(shell, *TO_THE_FAULT, "watch tick = 3", "watch count jobs > 0", "unwatch 0")
            self.change()
            return said(shell, "reload", *more)

    def change(self) -> None:
        """Edits the file in the middle of a session."""
        self.edit(*self.changes)

    def test_a_number_changes_nothing_of_who_did_what(self) -> None:
        self.changes = ("recv jobs max", "recv jobs 10")
        answers = self.reload("show task worker", "show watches")
        self.assertEqual(answers[0], f"# all 9 moves are the same with the new {self.app}; at 9")
        self.assertIn("phase wait:recv:jobs:10", answers[1])
        self.assertEqual(answers[2], "watches 1:fails")

    def test_bytes_change_nothing_of_it(self) -> None:
        for found in ("42", "4b", "-"):
            self.changes = ("data 41", f"data {found}")
            with self.subTest(found):
                answers = self.reload()
                same = f"# all 9 moves are the same with the new {self.app}; at 9"
                self.assertEqual(same, answers[0])
            self.edit("data 41", "data 41")

    def test_the_first_difference(self) -> None:
        self.changes = ('"recv jobs 0", "jump 0"', '"recv jobs 0", "end"')
        answers = self.reload("show moves", "redo 1")
        self.assertEqual(
            answers[0], f"# 6 of 9 moves are the same with the new {self.app}; the next one"
        )
        self.assertEqual(answers[1], "#   was  7  core 1  poller 1 jump 0")
        self.assertEqual(answers[2], "#   is   7  core 1  poller 1 end, left core 1 (ended)")
        self.assertEqual(answers[3:], ["moves 6 undone 1 kept 6", "ok at 7"])

    def test_a_move_that_is_refused(self) -> None:
        with file(self.app) as shell:
            said(shell, "poke reg producer 1 5", "step 0")
            self.edit("producer", "sender")
            answers = said(shell, "reload", "show moves")
        expected = ["#   is   poke reg producer 1 5: no NoSuch", "moves 0 undone 0 kept 0"]
        self.assertEqual(answers[2:], expected)

    def test_files_that_are_wrong(self) -> None:
        self.changes = ("recv jobs max", "recv job max")
        answers = self.reload("show moves")
        self.assertRegex(answers[0], r"^# .*app\.json:6:\d+: task worker, instruction 0: ")
        self.assertEqual(answers[1:], ["# the target stays as it is", "moves 9 undone 0 kept 9"])
        self.app.unlink()
        with example("builtin") as shell, mock.patch.object(shell, "source", None):
            self.assertIn("`rdbg sh FILE`", said(shell, "reload")[0])

    def test_ctrl_c_says_which_file_is_loaded(self) -> None:
        with file(self.app) as shell:
            said(shell, *TO_THE_FAULT)
            self.edit("recv jobs max", "recv jobs 10")
            with mock.patch("rdbg.shell.replay.in_chunks", side_effect=Interrupted):
                answers = said(shell, "reload", "show moves")
            stopped = f"# stopped by Ctrl-C, at 9; the target still has the old {self.app}"
            self.assertEqual(answers, [stopped, "moves 9 undone 0 kept 9"])

    def test_it_is_said_how_far_it_is(self) -> None:
        with file(self.app) as shell, mock.patch("rdbg.shell.shell.MOMENT", 0.0):
            shell.is_terminal = True
            said(shell, *TO_THE_FAULT)
            answers = said(shell, "reload")
            self.assertTrue(any("9 of 9 compared" in line for line in answers), answers)
            self.assertTrue(
                answers[-1].endswith(f"# all 9 moves are the same with the new {self.app}; at 9")
            )

    def test_a_file_that_has_gone(self) -> None:
        with file(self.app) as shell:
            self.app.unlink()
            self.assertIn("No such file", said(shell, "reload")[0])
            self.assertEqual(said(shell, "step 0"), ["ok at 1"])


class Places(unittest.TestCase):
    """`moves` and `goto`."""

    def test_moves(self) -> None:
        with example("lost_item") as shell:
            self.assertEqual(said(shell, "moves"), ["# at 0"])
            answers = said(shell, "forward 30", "back 2", "moves 2")
            self.assertEqual(answers[2], "# .. 26 earlier moves")
            self.assertEqual([row.split()[1] for row in answers[3:5]], ["27", "28"])
            self.assertEqual(answers[5], "# at 28; `redo` can repeat 2 undone moves")
            self.assertEqual(len(said(shell, "moves all")), 29)
            self.assertEqual(said(shell, "show moves"), ["moves 28 undone 2 kept 28"])

    def test_goto(self) -> None:
        with example("lost_item") as shell:
            lines = ["forward 9", "goto 4", "goto 4", "goto 9", "goto 10", "goto", "goto x"]
            answers = said(shell, *lines)
            self.assertEqual(answers[:4], ["ok at 9", "ok at 4", "# already at 4", "ok at 9"])
            self.assertEqual(answers[4], "# there is no place 10: 9 moves done")
            self.assertEqual(len(answers), 7)

    def test_a_history_without_room(self) -> None:
        with example("lost_item", Limits(1000, 700)) as shell:
            answers, hints = both(shell, "forward 100", "moves all", "show moves")
            self.assertRegex(
                answers[1], r"^# it needs \d+ entries of the history, and 6\d\d are left$"
            )
            self.assertEqual(answers[2], "moves 100 undone 0 kept 100")


if __name__ == "__main__":
    unittest.main()
