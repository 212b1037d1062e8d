"""`--exhaustive` against a search of its own, that keeps the views as they are told."""
import re
import tempfile
import unittest
from typing import Dict, List, Tuple

from rdbg.client import Session
from tests.hunts import found, path, said, states, written

TIMED = """{"profile": 1, "cores": 2, "queues": [{"name": "q", "length": 1, "item": 1}],
"tasks": [{"name": "a", "priority": 1, "code": ["recv q 2", "jumpz r0 0", "end"]},
{"name": "b", "priority": 1, "code": ["send q 1", "jumpz r0 3", "jump 0", "end"]},
{"name": "c", "priority": 0, "code": ["recv q 0", "jump 0"]}]}"""


class EveryOrder:
    """Every order of at most so many moves, each from boot, and the states by their views."""

    def __init__(self, file: str, names: List[str], goal: str) -> None:
        self.session = Session.run(file, ["--history", "1000000"])
        self.session.tell(f"watch {goal}")
        self.views = ["show cores", *(f"show {name}" for name in names)]
        # Each state, and with how few moves it is reached; the same of the goal.
        self.states: Dict[str, int] = {}
        self.least = -1

    def state(self) -> Tuple[str, List[str]]:
        """The state, with times from now on, and the moves that can be made."""
        views = list(self.session.tell_all(self.views))
        words = views[0].split()
        tick, cores = int(words[-3]), words[1].split(",")
        text = "\n".join([" ".join(words[:-4]), str(tick % len(cores)), *views[1:]])

        def later(found: "re.Match[str]") -> str:
            return f"{found[1]}in {max(0, int(found[2]) - tick)} "

        text = re.sub(r"((?:wait:\w+:\w+|again):)(\d+) ", later, text)
        return text, [*(f"step {at}" for at, name in enumerate(cores) if name != "-"), "tick"]

    def go(self, made: int, left: int) -> None:
        """Goes on with every move."""
        state, moves = self.state()
        if self.states.get(state, made + 1) <= made:
            return
        self.states[state] = made
        if made and self.session.tell("show watches").endswith(":holds"):
            self.least = made if self.least < 0 else min(self.least, made)
        for move in moves if left else ():
            self.session.tell(move)
            self.go(made + 1, left - 1)
            self.session.tell("back 1")


class Exhaustive(unittest.TestCase):
    """The same states, and the same fewest moves."""

    def check(self, file: str, names: List[str], goal: str, moves: int) -> None:
        """Both come to as many states, and to the goal with as few moves."""
        slow = EveryOrder(file, names, goal)
        with slow.session:
            slow.go(0, moves)
        status, _, errors = said(file, goal, "--exhaustive", "--moves", str(moves))
        if slow.least < 0:
            self.assertEqual((0, f"not within {moves} moves"), (status, errors[1]))
            self.assertEqual(len(slow.states), states(errors))
        else:
            self.assertEqual((1, [(0, slow.least)]), (status, found(errors)))

    def test_the_lost_item(self) -> None:
        names = ["task worker", "task producer", "task poller", "queue jobs"]
        for goal in ("reg poller 7 = 1", "reg poller 0 = 1", "pc producer = 2"):
            self.check(path("lost_item"), names, goal, 6)

    def test_times(self) -> None:
        with tempfile.TemporaryDirectory() as folder:
            file = written(folder, TIMED)
            for goal in ("reg c 7 = 1", "reg c 0 = 1", "phase b ended"):
                self.check(file, ["task a", "task b", "task c", "queue q"], goal, 7)

    def test_all_there_is(self) -> None:
        names = ["task sender", "task worker", "queue items", "queue acks"]
        file = path("early_count_mended")
        slow = EveryOrder(file, names, "reg sender 7 = 1")
        with slow.session:
            slow.go(0, 30)
        status, _, errors = said(file, "stuck", "--exhaustive")
        self.assertEqual((0, "never"), (status, errors[1]))
        self.assertEqual(len(slow.states), states(errors))
        self.assertLess(max(slow.states.values()), 30)


if __name__ == "__main__":
    unittest.main()
