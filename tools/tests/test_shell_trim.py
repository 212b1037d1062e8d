"""`trim` at the prompt: what is given up is said to be, and nothing else changes."""
import unittest

from tests.shell_talk import both, example, said


class Trims(unittest.TestCase):
    """A session that trims."""

    def test_back_goes_no_further(self) -> None:
        with example("turns") as shell:
            output, hints = both(shell, "forward 10", "trim 3", "show moves", "back 4")
            self.assertEqual(output[0], "ok at 10")
            self.assertEqual(output[-3:], ["ok at 10", "moves 10 undone 0 kept 3", "no TooFar 3"])
            self.assertIn("only 3 moves can be undone; `goto 7`", hints[-1])
            output, hints = both(shell, "back 3", "back 1")
            self.assertEqual(output[-1], "no TooFar 0")
            self.assertIn("`trim` dropped the records before place 7", hints[-1])

    def test_places_before_the_base(self) -> None:
        with example("turns") as shell:
            said(shell, "forward 10", "trim 3")
            self.assertIn("`goto 7` is possible", said(shell, "goto 6")[-1])
            self.assertEqual(said(shell, "goto 7")[0], "ok at 7")
            self.assertEqual(said(shell, "show moves"), ["moves 7 undone 3 kept 0"])

    def test_the_list_of_moves(self) -> None:
        with example("turns") as shell:
            said(shell, "forward 10", "trim 3")
            answers = said(shell, "moves all")
            self.assertEqual(answers[0], "# .. 7 earlier moves")
            self.assertEqual(answers[-1], "# at 10")

    def test_what_needs_all_moves(self) -> None:
        with example("turns") as shell:
            said(shell, "forward 10", "trim 3")
            answers = said(shell, "save /nowhere/found.commands")
            self.assertIn("the first 7 moves were trimmed", answers[-1])

    def test_a_longer_trim_changes_nothing(self) -> None:
        with example("turns") as shell:
            said(shell, "forward 10", "trim 3", "trim 9")
            self.assertEqual(said(shell, "show moves"), ["moves 10 undone 0 kept 3"])


if __name__ == "__main__":
    unittest.main()
