"""Goals are exact: each is held against looks at every place, over random applications."""
import random
import unittest
from typing import Any, Callable, Dict, List, Tuple

from rdbg.looks import Look, content_of
from rdbg.goals.conditions import read
from rdbg.goals import reading
from rdbg.goals.changes import Changes
from rdbg.goals.claims import Holds, SomeFailed, Stuck, Waits
from rdbg.goals.scope import Scope
from rdbg.goals.ways import To, Wakes, Way
from rdbg.driving.interrupt import Interrupt
from rdbg.driving.target import Target
from rdbg.driving.walk import Walk
from tests.shell_apps import started, wander

SEEDS = (0, 3, 5)
FORWARD = 20
CONDITIONS = (
    "count q0 = 1", "count q1 > 0", "bytes b0 < 2", "bits g0 = 1", "tick = 3", "phase t0 wait",
    "phase t0 run", "phase t0 again", "reg t0 0 = 1", "pc t0 = 1", "count q0 = 0", "msgs m0 > 0",
    "note t0 0 > 0", "phase t0 ended", "bytes b0 > 1",
)  # fmt: skip
# Goals that are no conditions; what they say of a place is tested elsewhere.
FORMULAS = (
    "asleep", "finished", "waits t0", "not waits t0 and count q0 = 0", "at t0 1 or bits g0 & 1 = 1",
    "runs t0", "not runs t0", "reg t0 0 = reg t0 1", "failed t0 or ended t0", "waits t0 recv q0",
    "not (stuck or count q0 > 0)", "note t0 0 & 1 = 0 and phase t0 run", "not at t0 2",
    "sleeps t0 or tick > 4", "not not failed",
)  # fmt: skip
# Whether a goal is met at the second look, the one before it being the first.
Met = Callable[[Look, Look], bool]


def amount(look: Look, words: List[str]) -> bool:
    """Whether a condition holds, found in another way than `Condition.holds`."""
    kind, name = words[0], words[1]
    if kind == "phase":
        return look.tasks[name].phase.word == words[2]
    objects: Any = look.objects
    amounts: Dict[str, Callable[[], int]] = {
        "count": lambda: len(objects["queue", name].items),
        "bytes": lambda: len(objects["stream", name].content),
        "msgs": lambda: len(objects["message", name].messages),
        "bits": lambda: int(objects["group", name].bits),
        "reg": lambda: look.tasks[name].registers[int(words[2])],
        "pc": lambda: look.tasks[name].pc,
        "note": lambda: look.tasks[name].notes[int(words[2])].value,
        "tick": lambda: look.cores.tick,
    }
    found = amounts[kind]()
    compare = {"=": found == int(words[-1]), "<": found < int(words[-1])}
    return compare.get(words[-2], found > int(words[-1]))


def stuck(look: Look) -> bool:
    """Whether only ticks are left, and wake nobody."""
    deadlines = [it.phase.deadline for it in look.tasks.values() if it.phase.word == "wait"]
    return not any(look.cores.running) and all(each is None for each in deadlines)


def failed(look: Look) -> bool:
    """Whether a task has failed."""
    return "failed" in [it.phase.word for it in look.tasks.values()]


def wakes_up(name: str) -> Met:
    """Whether a task waited, and doesn't any more."""
    return lambda a, b: (a.tasks[name].phase.word == "wait" and b.tasks[name].phase.word != "wait")


def sleeps(name: str) -> Met:
    """Whether a task has begun to wait without a deadline."""
    return lambda a, b: (
        a.tasks[name].phase.word != "wait"
        and b.tasks[name].phase.word == "wait"
        and b.tasks[name].phase.deadline is None
    )


def changed(kind: str, name: str) -> Met:
    """Whether an object isn't as it was."""
    return lambda a, b: content_of(a.objects[kind, name]) != content_of(b.objects[kind, name])


def came(so: Callable[[Look], bool]) -> Met:
    """Whether something is so that wasn't."""
    return lambda a, b: so(b) and not so(a)


def here(so: Callable[[Look], bool]) -> Met:
    """Whether something is so, whatever was before."""
    return lambda a, b: so(b)


def holding(words: List[str]) -> Callable[[Look], bool]:
    """Whether a condition holds."""
    return lambda look: amount(look, words)


def goals(target: Target) -> Dict[str, Tuple[Way, Met]]:
    """Goals, each with what it means."""
    found: Dict[str, Tuple[Way, Met]] = {
        "stuck": (To(Stuck(), False), lambda a, b: stuck(b)),
        "failed": (To(SomeFailed(), False), lambda a, b: failed(b)),
        "stuck!": (To(Stuck(), True), came(stuck)),
        "failed!": (To(SomeFailed(), True), came(failed)),
    }
    scope = Scope(target.names, target.application)
    for text in FORMULAS:
        goal = reading.plain(text.split(), scope)
        found[text] = To(goal, False), here(goal.is_so)
        found[f"{text} !"] = To(goal, True), came(goal.is_so)
    for name in target.names.tasks:
        found[f"wakes {name}"] = Wakes(name), wakes_up(name)
        found[f"sleeps {name}"] = To(Waits(name, is_endless=True), True), sleeps(name)
    for kind, name in target.names.objects:
        found[f"changes {name}"] = Changes(target, kind, name), changed(kind, name)
    for text in CONDITIONS:
        condition = read(text.split())
        assert condition is not None
        found[text] = To(Holds(condition), True), came(holding(text.split()))
    return found


def looks(walk: Walk, line: str, count: int) -> List[Look]:
    """Looks at this place and at the next ones."""
    found = [walk.target.look()]
    for _ in range(count):
        walk.target.tell(line)
        found.append(walk.target.look())
    return found


class Exact(unittest.TestCase):
    """Each goal, both ways."""

    def check(self, seed: int) -> None:
        chance = random.Random(seed)
        target = started(seed)
        with target.session:
            walk = Walk(target, Interrupt())
            wander(chance, target, 25)
            here = walk.place
            walk.goto(0)
            behind = looks(walk, "redo 1", here)
            ahead = looks(walk, "forward 1", FORWARD)
            walk.goto(here)
            for text, (goal, met) in goals(target).items():
                with self.subTest(f"seed {seed}: back to {text}"):
                    places = [at for at in range(1, here) if met(behind[at - 1], behind[at])]
                    self.assertEqual(goal.last(walk), max(places, default=None))
                    walk.goto(here)
                with self.subTest(f"seed {seed}: on to {text}"):
                    first = (n for n in range(1, FORWARD + 1) if met(ahead[n - 1], ahead[n]))
                    expected = next(first, None)
                    found = goal.next(walk, FORWARD)
                    self.assertEqual(found, None if expected is None else here + expected)
                    walk.settle(here, here + (expected or FORWARD))
                    self.assertEqual(target.look(), ahead[expected or FORWARD])
                    self.assertEqual(target.places().undone, 0)
                    walk.goto(here)

    def test_random_applications(self) -> None:
        for seed in SEEDS:
            self.check(seed)


if __name__ == "__main__":
    unittest.main()
