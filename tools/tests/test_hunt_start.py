"""`rdbg hunt` by its words, held against searches of their own: through every order, with the
fewest moves, and by surprises; the start, where no move is made yet, is a state as each other.

Whatever searches is held to this: it asks by the command line, and reads what is printed."""
import tempfile
import unittest
from typing import List, Optional, Tuple

from tests.hunts import found, replayed, said
from tests.hunts import states as gone_through
from tests.hunts import written
from tests.plain_search import FAILED, STUCK, Plain, small

ONE = """{"profile": 1, "cores": 1,
"tasks": [{"name": "a", "priority": 1, "code": ["set r1 1", "end"]}]}"""
NEVER = "reg a 7 = 1"
# Of them several hold at the start of each application, and some never.
GOALS = (
    *("reg a 1 = 0", "reg a 1 = 1", "reg a 0 = 1", "pc a = 0", "pc a > 1", "count q ="
        " 0", "count q > 0"),
    *("phase a run", "phase a ended", "phase a wait", "note a 0 < 1", "reg a 1 > 2", STUCK, FAILED),
)  # fmt: skip
SEEDS = range(6)
MOVES, SURPRISES = 6, 2
# What stands in an order for the second call of `BOTH` alone.
SECOND = "isr notify a 0 2 set"
RING, SEND, BOTH = "notify a 0 1 inc", "send q 41", "send q 42; notify a 0 2 set"


class Held(unittest.TestCase):
    """Hunts through a file of their own."""

    def setUp(self) -> None:
        folder = tempfile.TemporaryDirectory()
        self.addCleanup(folder.cleanup)
        self.folder = folder.name

    def fewest(self, file: str, goal: str, *words: str) -> Optional[Tuple[int, int]]:
        """The surprises and the moves of the first find, none where there is none."""
        status, lines, errors = said(file, goal, *words)
        finds = found(errors)
        self.assertEqual(bool(finds), status == 1, errors)
        if not finds:
            self.assertEqual(f"none found: {goal}", errors[0])
            return None
        answers = replayed(file, lines)
        self.assertFalse([it for it in answers if it.startswith("no ")], lines)
        if goal not in (STUCK, FAILED):
            self.assertEqual("watches 0:holds", answers[-2])
        surprises, place = finds[0]
        # (an interrupt is one move, whatever it calls)
        return surprises, place - lines.count(SECOND)


class Start(Held):
    """A goal that holds at the start."""

    def test_it_is_found_there_by_each_search(self) -> None:
        file = written(self.folder, ONE)
        searches: List[List[str]] = [[], ["--smallest"], ["--exhaustive"], ["--surprises", "0"]]
        for words in searches:
            with self.subTest(words):
                goal = [file, "reg a 1 = 0", "--expect", "none"]
                status, lines, errors = said(*goal, *words)
                self.assertEqual(1, status)
                self.assertEqual([(0, 0)], found(errors))
                self.assertTrue(errors[1].startswith("searched:"), errors)
                self.assertEqual(["watch reg a 1 = 0", "show watches", "show task a"], lines)
                self.assertEqual("watches 0:holds", replayed(file, lines)[1])

    def test_it_hides_no_other_find(self) -> None:
        # (the first step ends it; the second ends the task, where the register is 1)
        file = written(self.folder, ONE)
        searches: List[List[str]] = [[], ["--exhaustive"]]
        for words in searches:
            with self.subTest(words):
                goal = [file, "pc a < 2", "--all", "9", *words]
                _, lines, errors = said(*goal)
                self.assertEqual([(0, 0), (0, 1)], found(errors)[:2])
                self.assertFalse([it for it in replayed(file, lines) if it.startswith("no ")])


class Random(Held):
    """Small applications made at random, and what may come to them."""

    def check(self, seed: int, *handlers: str) -> None:
        """Each search finds what there is, with as few moves, and nothing else."""
        text = small(seed)
        file = written(self.folder, text)
        isr = [word for handler in handlers for word in ("--isr", handler)]
        with Plain(file, text, GOALS, handlers) as plain:
            fewest, states = plain.fewest(MOVES)
            surprised = plain.by_surprises(SURPRISES, MOVES)
        limits = ["--moves", str(MOVES), *isr]
        levels = ["--surprises", str(SURPRISES)]
        _, _, errors = said(file, NEVER, "--exhaustive", *limits)
        self.assertEqual(states, gone_through(errors))
        for goal in GOALS:
            with self.subTest(f"{seed}: {goal}"):
                every = self.fewest(file, goal, "--exhaustive", *limits)
                self.assertEqual(fewest.get(goal), every and every[1])
                smallest = self.fewest(file, goal, "--smallest", *levels, *limits)
                self.assertEqual(surprised.get(goal), smallest)
                first = self.fewest(file, goal, *levels, *limits)
                self.assertEqual(surprised.get(goal), first)

    def test_small_applications(self) -> None:
        for seed in SEEDS:
            self.check(seed)

    def test_interrupts_one_by_one(self) -> None:
        # (two of them in any order, one named twice, and one whose calls are two moves)
        self.check(3, RING, RING, SEND)
        self.check(4, BOTH, SEND)


if __name__ == "__main__":
    unittest.main()
