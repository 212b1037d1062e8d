"""`print` of expressions, `display`, and `tbreak`."""
import unittest

from rdbg.files.source import source
from rdbg.goals import computed
from rdbg.goals.reading import NoGoal
from rdbg.goals.scope import Scope
from tests.shell_talk import example, opened, said

BITS = """cores 1
const STOP 1 << 2
group flags
queue jobs length 2 item 1
task worker priority 1
    set r1 6
    gset flags STOP
    end
"""


class Expressions(unittest.TestCase):
    """What is computed of what there is."""

    def test_numbers(self) -> None:
        with opened(source("bits.fw", BITS.encode())) as shell:
            said(shell, "step 0", "step 0")
            for text, value in (
                ("reg worker 1 + 1", "7"),
                ("worker.r1*2-count jobs", "12"),
                ("$worker.r1 % 4 + 10 / 3", "5"),
                ("(0 - 7) / 2", "-3"),
                ("-7 % 3", "-1"),
                ("bits flags & STOP", "4"),
                ("bits flags|0x3", "7"),
                ("6 ^ 3 << 1 >> 1", "5"),
                ("~0", "-1"),
                ("tick", "0"),
                ("STOP + jobs.count", "4"),
                ("worker.pc + pc worker", "4"),
                ("2 + 3 * 4 = 14", "holds"),
                ("worker.r1 & 4 == 4", "holds"),
                ("worker.r1 != 6", "fails"),
                ("worker.r1 >= 6", "holds"),
                ("1 <= 0", "fails"),
                ("note worker 0", "0"),
                ("not runs worker or count jobs > 0", "fails"),
                ("phase worker run", "holds"),
                ("asleep", "fails"),
            ):
                with self.subTest(text):
                    sign = ":" if value in computed.TRUTHS else " ="
                    self.assertEqual(said(shell, f"print {text}"), [f"# {text}{sign} {value}"])

    def test_what_is_wrong(self) -> None:
        with example("lost_item") as shell:
            for text, why in (
                ("count jobs +", "it ends too early: expected a number"),
                ("count job + 1", "word 2, 'job': expected the name of a queue (defined:"),
                ("worker.r0 + wroker.r0", "word 6, 'wroker': expected the name of a task"),
                ("worker.r0 1", "word 4, '1': expected an operator or the end"),
                ("(1 + 2", "missing ')'"),
                (
                    "r0 + 1",
                    "word 1, 'r0': expected a number: 41, 0x29, `count QUEUE`, `TASK",
                ),
                ("1 / count jobs", "division by 0"),
                ("1 << 40", "shift by 40 (at most 32 is allowed)"),
                ("1 < 2 < 3", "word 4, '<': expected an operator or the end"),
                ("reg worker 9 + 1", "word 3, '9': expected a register number"),
                ("asleep and", "it ends too early"),
                ("1 ! 2", "word 2, '!'"),
                ("(" * 40 + "1", "the expression is too long"),
                ("- " * 40 + "1", "the expression is too long"),
                ("1" + " + 1" * 200, "the expression is too long"),
            ):
                with self.subTest(text):
                    answers = said(shell, f"print {text}")
                    self.assertEqual(len(answers), 1)
                    self.assertTrue(answers[0].startswith(f"# {why}"), answers)

    def test_short_forms(self) -> None:
        words = computed.words_of("worker.r3+$jobs.count", "poller")
        self.assertEqual(words, "reg worker 3 + count jobs".split())
        self.assertEqual(computed.words_of("r3 - pc worker", "poller")[:3], ["reg", "poller", "3"])
        with example("lost_item") as shell, self.assertRaises(NoGoal):
            computed.expression("", Scope.of(shell.source))


class Displays(unittest.TestCase):
    """`display` and `undisplay`."""

    def test_behind_each_line_that_moves(self) -> None:
        with example("lost_item") as shell:
            answers = said(shell, "display count jobs * 2", "display r0 producer", "show moves")
            first = ["# 1: count jobs * 2 = 0", "# 2: producer: r0 = 0"]
            self.assertEqual(answers, [*first, "moves 0 undone 0 kept 0"])
            answers = said(shell, "until! count jobs > 0", "where", "back 1")
            shown = [it for it in answers if it[:4] in ("# 1:", "# 2:")]
            then = ["# 1: count jobs * 2 = 2", "# 2: producer: r0 = 1"]
            self.assertEqual(shown, [*then, *first])
            self.assertEqual(answers[-3:], ["ok at 4", *first])
            self.assertEqual(said(shell, "undisplay 1", "step producer"), ["ok at 5", then[1]])
            self.assertEqual(said(shell, "display jobs")[0][:16], "# 3: queue jobs ")
            self.assertEqual(len(said(shell, "display")), 2)
            self.assertEqual(said(shell, "undisplay", "back 1"), ["ok at 4"])

    def test_one_line_of_several_moves_displays_once(self) -> None:
        with example("lost_item") as shell:
            answers = said(shell, "display tick", "step producer 2", "tick 2", "rs 3")
            moves = ["ok at 1", "ok at 2", "# 1: tick = 0", "ok at 4", "# 1: tick = 2"]
            self.assertEqual(answers[1:], [*moves, "ok at 1", "# 1: tick = 0"])

    def test_what_is_wrong(self) -> None:
        with example("lost_item") as shell:
            self.assertIn("there are no displays", said(shell, "display")[0])
            self.assertIn("expected the name", said(shell, "display count jobz + 1")[0])
            self.assertEqual(said(shell, "display 4 / count jobs"), ["# division by 0"])
            self.assertEqual(shell.displays, {})
            said(shell, "until! count jobs > 0", "display 4 / count jobs")
            answers = said(shell, "back 1")
            self.assertEqual(answers[1:], ["# 1: 4 / count jobs: division by 0"])
            for line in ("undisplay 2", "undisplay x"):
                self.assertIn("needs numbers of displays (1)", said(shell, line)[0])

    def test_they_are_kept_by_reload(self) -> None:
        with example("lost_item") as shell:
            answers = said(shell, "step 0", "display count jobs", "reload")
            self.assertEqual(answers[-1], "# 1: count jobs = 0")


class Temporary(unittest.TestCase):
    """`tbreak`."""

    def test_it_is_met_once(self) -> None:
        with example("lost_item") as shell:
            said(shell, "tbreak producer:1", "break poller 0", "tbreak count jobs > 0")
            answers = said(shell, "c", "c", "info break")
            self.assertIn("# removed watch 0 after its hit: pc producer = 1", answers)
            self.assertIn("# removed watch 2 after its hit: count jobs > 0", answers)
            self.assertEqual(answers[-2:], ["# watch  now    condition", answers[-1]])
            self.assertRegex(answers[-1], "^# w1 ")

    def test_backwards_and_what_else_goes_there(self) -> None:
        with example("lost_item") as shell:
            said(shell, "forward 9", "tb count jobs > 0", "rc w0")
            self.assertEqual(shell.target.watches, {0: "count jobs > 0"})
            answers = said(shell, "goto 9", "rc")
            self.assertIn("# removed watch 0 after its hit: count jobs > 0", answers)
            self.assertEqual(shell.target.watches, {})

    def test_another_watch_of_its_number_stays(self) -> None:
        with example("lost_item") as shell:
            said(shell, "tbreak producer 1", "delete 0", "break count jobs > 0", "c")
            self.assertEqual(shell.target.watches, {0: "count jobs > 0"})
            self.assertIn("`until failed` runs to this goal", said(shell, "tbreak failed")[0])


if __name__ == "__main__":
    unittest.main()
