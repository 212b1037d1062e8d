"""`reach` and `again`: what can still come from where the prompt is, and what a mend has
changed."""
import pathlib
import shutil
import tempfile
import unittest
from typing import List

from tests import searches
from tests.paths import EXAMPLES
from tests.shell_talk import both, example, file, opened, said


# A run in which the poller takes the item, and the worker waits again.
RUN = ("until count jobs > 0 50", "step 1", "step 1", "step 1", "step 0")
NOWHERE = "#   no run from boot reaches the goal"


class Reach(unittest.TestCase):
    """`reach GOAL`."""

    def test_it_is_asked_from_here(self) -> None:
        with example("lost_item") as shell:
            answers = said(shell, "reach reg poller 0 = 1")
            self.assertEqual(["# found", *["#   step 1"] * 4], answers)
            # (the place stays; and where the worker has the item no order gives it to the poller)
            self.assertEqual(["moves 0 undone 0 kept 0"], said(shell, "show moves"))
            answers = said(shell, "forward 7", "reach reg poller 0 = 1")
            missed = "#   no order came to producer 0 1"
            self.assertEqual(["ok at 7", "# never", missed], answers)

    def test_goals_of_the_search(self) -> None:
        with example("meeting") as shell:
            self.assertEqual("# found", said(shell, "reach stuck")[0])
            self.assertEqual(said(shell, "reach stuck"), said(shell, "reach asleep"))
            self.assertEqual("# found", said(shell, "reach waits left group there")[0])
            self.assertEqual("# never", said(shell, "reach failed or reg left 7 = 1")[0])

    def test_what_cant_be_asked(self) -> None:
        with example("lost_item") as shell:
            self.assertIn("`reach asleep`", said(shell, "reach")[0])
            self.assertIn("word 1, 'stuk'", said(shell, "reach stuk")[0])
            with searches.program("", end=searches.KILLED):
                self.assertIn("was killed by SIGKILL", said(shell, "reach stuck")[0])
        with opened(None) as shell:
            self.assertIn("`rdbg sh FILE`", said(shell, "reach stuck")[0])

    def test_after_an_edit(self) -> None:
        # (an edit belongs to where it is asked from)
        with example("early_count_mended") as shell:
            self.assertEqual("# never", said(shell, "reach stuck")[0])
            answers = said(shell, "forward 2", "poke note worker 0 1", "reach stuck")
            self.assertIn(answers[2], ("# never", "# found"))
            self.assertNotIn("refused", " ".join(answers))


class Origin(unittest.TestCase):
    """How the program that searches is told where the prompt stands."""

    def lines_to(self, *lines: str) -> List[str]:
        """Returns the lines that the program is given after these, but for files' names."""
        answer = f"{searches.NEVER}\n"
        with example("turns") as shell, searches.program(answer, hears=True) as fake:
            said(shell, *lines)
            before = shell.target.used
            self.assertEqual("# never", said(shell, "reach failed")[0])
            # (the target isn't asked how it came here)
            self.assertEqual(before, shell.target.used)
            return fake.heard()

    def test_one_file_has_all_moves(self) -> None:
        steps = ["step 0"] * 40
        given = self.lines_to("forward 500", *steps, "back 30", "redo 2")
        self.assertEqual(["from", "reach"], [it.split()[0] for it in given])

    def test_at_boot_there_is_none(self) -> None:
        self.assertEqual(["reach failed"], self.lines_to("forward 5", "back 5"))


class Lost(unittest.TestCase):
    """`lost GOAL` and `doomed GOAL`."""

    def test_the_move_that_lost_it(self) -> None:
        with example("lost_item") as shell:
            answers = said(shell, *RUN, "lost at worker 1")
            self.assertEqual(
                [
                    "# lost at 8",
                    "#   8  core 1  poller 0 recv jobs 0 -> 1, data 41, jobs 0/1",
                    "#   `goto 7` returns to before this move, and this run from there reaches the goal:",
                ],
                answers[-5:-2],
            )
            # (the place stays; and the order that is told leads there)
            order = [it.lstrip("# ") for it in answers[-2:]]
            self.assertEqual("moves 9 undone 0 kept 9", said(shell, "show moves")[0])
            said(shell, "goto 7", *order)
            self.assertIn(" pc 1 ", said(shell, "show task worker")[0])

    def test_what_wasnt_lost(self) -> None:
        with example("lost_item") as shell:
            self.assertEqual(["# lost at 0", NOWHERE], said(shell, "lost failed"))
            answers = said(shell, "forward 7", "lost at worker 1")
            self.assertEqual("# still", answers[1])
            said(shell, *(it.lstrip("# ") for it in answers[2:]))
            self.assertEqual(
                ["# still", "#   the goal holds here"], said(shell, "lost at worker 1")
            )

    def test_the_goal_before(self) -> None:
        with example("lost_item") as shell:
            for word in ("reach", "lost", "doomed"):
                self.assertIn(f"{word} needs a goal, for example `{word} ", said(shell, word)[0])
            said(shell, *RUN)
            for line, goal in (
                ("until! count jobs > 0 1", "count jobs > 0"),
                ("rc! waits worker", "waits worker"),
                ("rc! wakes worker", "waits worker"),
                ("until asleep 1", "asleep"),
                ("until count jobs < 9 1", "count jobs < 9"),
                ("reach reg poller 0 = 1", "reg poller 0 = 1"),
                ("lost at worker 1", "at worker 1"),
                ("reach no goal", "at worker 1"),
            ):
                with self.subTest(line):
                    said(shell, line, "goto 9")
                    self.assertEqual(f"# goal: {goal} (the last one)", said(shell, "lost")[0])

    def test_doomed(self) -> None:
        with example("lost_item") as shell:
            answers = said(shell, "doomed at worker 1")
            self.assertEqual("# found", answers[0])
            said(shell, *(it.lstrip("# ") for it in answers[1:]))
            self.assertEqual("# never", said(shell, "reach at worker 1")[0])
            here = ["# found", "#   no run from here reaches the goal"]
            self.assertEqual(here, said(shell, "doomed at worker 1"))
        with example("stolen_answer_mended") as shell:
            self.assertEqual("# never", said(shell, "doomed ended client")[0])


class Play(unittest.TestCase):
    """`play`."""

    def test_the_order_that_was_answered(self) -> None:
        with example("lost_item") as shell:
            self.assertIn("the last answer of `reach`, `lost` or `doomed`", said(shell, "play")[0])
            said(shell, "forward 2", "reach reg poller 0 = 1")
            said(shell, "play")
            self.assertEqual(["# still", "#   the goal holds here"], said(shell, "lost")[1:])
            self.assertIn("the last answer of `reach`, `lost` or `doomed`", said(shell, "play")[0])

    def test_it_begins_where_it_was_asked(self) -> None:
        with example("lost_item") as shell:
            said(shell, *RUN, "lost at worker 1")
            self.assertEqual(
                "# the run begins at 7; use `goto 7`, then `play`", said(shell, "play")[0]
            )
            answers = said(shell, "set moves on", "goto 7", "play")
            self.assertEqual(["ok at 9", "# 8  tick 2"], answers[2:4])
            self.assertEqual(
                "# 9  core 0  worker 0 recv jobs max -> 1, data 41, jobs 0/1", answers[4]
            )
            self.assertIn(" pc 1 ", said(shell, "show task worker")[0])


class Again(unittest.TestCase):
    """`again`, once the file has another text."""

    def setUp(self) -> None:
        folder = tempfile.TemporaryDirectory()
        self.addCleanup(folder.cleanup)
        self.file = pathlib.Path(folder.name) / "meeting.json"
        shutil.copy(EXAMPLES / "meeting.json", self.file)

    def mend(self, name: str = "meeting_mended") -> None:
        """The file has the text of another example."""
        shutil.copy(EXAMPLES / f"{name}.json", self.file)

    def test_a_mend(self) -> None:
        with file(self.file) as shell:
            self.assertEqual("# found", said(shell, "reach stuck")[0])
            self.mend()
            answers = said(shell, "again")
            self.assertEqual("# all 0 moves are the same", answers[0][:26])
            self.assertEqual("# stuck, from boot: was found, is now never", answers[1])
            self.assertEqual("# never", answers[2])
            # (the next time it is held against this)
            self.mend("meeting")
            answers = said(shell, "again")
            self.assertEqual("# stuck, from boot: was never, is now found", answers[1])

    def test_from_a_place(self) -> None:
        with file(self.file) as shell:
            said(shell, "step 1", "reach stuck", "forward 3")
            answers = said(shell, "again")
            self.assertIn("# stuck, from 1: was found, is now found", answers)
            self.mend()
            # (the first moves of both are others)
            answers = said(shell, "again")
            self.assertIn("# stuck, from boot: was found, is now never", answers)

    def test_what_cant_be(self) -> None:
        with file(self.file) as shell:
            self.assertIn(
                "repeats the last `reach`, `lost` or `doomed` on the changed file",
                said(shell, "again")[0],
            )
            said(shell, "reach stuck")
            self.assertIn(
                "repeats the last `reach`, `lost` or `doomed` on the changed file",
                said(shell, "again stuck")[0],
            )
            self.file.write_text("{}")
            answers, _ = both(shell, "again")
            self.assertIn("the target stays as it is", " ".join(answers))
            self.mend("lost_item")
            self.assertIn("was found, is now never", " ".join(said(shell, "again")))


if __name__ == "__main__":
    unittest.main()
