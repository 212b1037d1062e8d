"""Runs in pieces are as one line, and Ctrl-C comes between two of them."""
import random
import unittest
from typing import List
from unittest import mock

from rdbg.driving.interrupt import HardInterrupt, Interrupt, Interrupted
from rdbg.driving.opening import begin
from rdbg.shell.shell import Shell
from rdbg.driving.target import Limits, Target
from rdbg.driving.walk import Pace, Walk
from tests.shell_apps import application, random_line
from tests.shell_talk import both, example, said

SMALL = 3
CONDITIONS = (
    "count q0 > 0",
    "bytes b0 > 1",
    "bits g0 = 1",
    "tick = 5",
    "phase t0 wait",
    "pc no = 1",
)


class SmallPace(Pace):
    """Three moves at a time, however long they take."""

    def __init__(self) -> None:
        super().__init__()
        self.piece = SMALL

    def end(self, made: int) -> None:
        """Stays."""


def line(chance: random.Random, target: Target) -> str:
    """A line of many moves, or another."""
    condition, count = chance.choice(CONDITIONS), chance.randint(1, 25)
    lines = [f"forward {count}", f"until {condition} {count}", f"back {count}", f"redo {count}"]
    lines += [f"watch {condition}", f"until w0 {count}", f"back until {condition}"]
    lines += [random_line(chance, target)] * 3
    return chance.choice(lines)


def in_pieces(seed: int, limits: Limits, lines: List[str]) -> List[str]:
    """What a shell at a terminal answers, in small pieces."""
    source = application(seed)
    with mock.patch("rdbg.driving.walk.Pace", SmallPace):
        shell = Shell(begin(source, limits), source, Interrupt())
        shell.is_terminal = True
    with shell.target.session:
        return [it for it in said(shell, *lines) if not it.startswith("# ")]


class Pieces(unittest.TestCase):
    """Random lines, in pieces and whole."""

    def check(self, seed: int, limits: Limits) -> None:
        chance = random.Random(seed)
        target = begin(application(seed), limits)
        with target.session:
            lines = []
            for _ in range(40):
                lines.append(line(chance, target))
                if limits.moves < 1000 and lines[-1].startswith("redo"):
                    lines.pop()  # (what a refused run leaves to be made again may differ)
                lines += target.names.lines()
            answers = target.tell_all(lines)
        self.assertEqual(in_pieces(seed, limits, lines), answers)

    def test_a_run_that_can_t_fit_is_one_line(self) -> None:
        with example("turns", Limits(moves=3000)) as shell:
            shell.is_terminal = True
            output, hints = both(
                shell, "set echo on", "forward 9000", "forward 2500", "forward 600"
            )
            self.assertEqual(output[:2], ["> forward 9000", "no MovesFull"])
            self.assertEqual(output[-2:], ["> forward 600", "no MovesFull"])
            self.assertIn("only 3000 moves left", hints[0])
            self.assertIn("only 500 moves left", hints[1])

    def test_as_one_line(self) -> None:
        for seed in range(2):
            with self.subTest(seed):
                self.check(seed, Limits())

    def test_where_a_later_piece_is_refused(self) -> None:
        for seed in range(2):
            with self.subTest(seed):
                self.check(seed, Limits(moves=30))

    def test_what_is_refused_can_be_made_again(self) -> None:
        with mock.patch("rdbg.driving.walk.Pace", SmallPace), example("turns", Limits(10)) as shell:
            shell.is_terminal = True
            answers = said(shell, "step 0", "until tick = 99 20", "show moves", "until tick = 9 99")
            self.assertEqual(answers[:2], ["ok at 1", "no MovesFull"])
            self.assertEqual(answers[2], "# no move was made; `redo` makes the undone moves again")
            self.assertEqual(answers[3:], ["moves 1 undone 9 kept 1", "no MovesFull"])


class Interrupts(unittest.TestCase):
    """Ctrl-C."""

    def test_between_two_pieces(self) -> None:
        with mock.patch("rdbg.driving.walk.Pace", SmallPace), example("turns") as shell:
            shell.is_terminal = True
            tell, asked = shell.target.tell, []

            def answer(text: str) -> str:
                asked.append(text)
                if len(asked) == 2:
                    shell.interrupt._came(2, None)
                return tell(text)

            with mock.patch.object(shell.target, "tell", answer):
                answers = said(shell, "forward 100")
            self.assertEqual(answers, ["", "# stopped by Ctrl-C, at 6"])
            self.assertEqual(
                said(shell, "show moves", "back 6"), ["moves 6 undone 0 kept 6", "ok at 0"]
            )

    def test_a_goal_goes_back(self) -> None:
        with example("turns") as shell:
            said(shell, "forward 4")
            with mock.patch.object(shell.interrupt, "check", side_effect=[None, Interrupted]):
                answers = said(shell, "until failed 10000")
            self.assertEqual(answers, ["# stopped by Ctrl-C, back at 4"])
            self.assertEqual(said(shell, "step 0"), ["ok at 5"])

    def test_one_line_that_takes_long(self) -> None:
        interrupt = Interrupt()
        with mock.patch("rdbg.driving.interrupt.os.write") as written:
            interrupt._came(2, None)
            written.assert_not_called()
            interrupt._came(2, None)
            written.assert_called_once()
            with self.assertRaises(HardInterrupt):
                interrupt._came(2, None)
        with interrupt.at_prompt(), self.assertRaises(KeyboardInterrupt):
            interrupt._came(2, None)
        interrupt.check()


class Walks(unittest.TestCase):
    """Runs up to where there are no more moves."""

    def test_walls(self) -> None:
        with example("turns", Limits(moves=37)) as shell:
            walk = Walk(shell.target, Interrupt())
            self.assertEqual((walk.forward(30), walk.wall), (30, ""))
            self.assertEqual((walk.forward(30), walk.wall), (7, "MovesFull"))
            walk.goto(5)
            self.assertIsNone(walk.until("tick = 1000", 100))
            self.assertEqual(walk.place, 37)

    def test_a_goal_at_the_wall(self) -> None:
        with example("turns", Limits(moves=37)) as shell:
            answers, _ = both(shell, "until failed")
            end = "'failed' was not met in 37 moves, and rdbg refuses more: MovesFull"
            self.assertTrue(answers[0].startswith(f"# at 37 limit: {end}"), answers[0])


if __name__ == "__main__":
    unittest.main()
