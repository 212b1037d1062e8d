"""The reader of goals: held against the program that searches, and against what views show."""
import json
import os
import pathlib
import random
import re
import tempfile
import unittest
from typing import List

from rdbg.driving.opening import begin
from rdbg.driving.target import Limits
from rdbg.files.source import load, source
from rdbg.goals import reading
from rdbg.goals import words as goal_words
from rdbg.goals.reading import NoGoal
from rdbg.goals.scope import Scope
from tests.made import Maker
from tests.paths import EXAMPLES
from tests.reaching.engine import talk
from tests.reaching.goals import Goals
from tests.reaching.states import State

# Applications and goals of each, for each of two tests.
SEEDS, COUNT, PLACES = range(6), 40, 30
# How the search program words its refusals, as patterns, and how the tools word the same.
WORDINGS = (
    (r"a claim, ('not' or '\(') is wanted there, as (.*)", r"expected an atom, \1, for example \2"),
    (r"a number of at most (\d+) is wanted there", r"expected a number from 0 to \1"),
    (r"a register is wanted there, 0 to 7", r"expected a register number, 0 to 7"),
    (r"the name of a phase is wanted there: (.*), failed", r"expected a phase: \1 or failed"),
    (r"a place where a task waits is wanted there:", r"expected a place where a task can wait:"),
    (r"('and', 'or', '\)' or the end) is wanted there", r"expected \1 of the goal"),
    (r"((?:the name|the index|the number|'=') ?.*) is wanted there", r"expected \1"),
    (r"this parenthesis isn't open", r"unmatched ')'"),
    (r"a parenthesis isn't closed", r"missing ')'"),
    (
        r"this is said of a move, and stands by itself where a run is to go: until!, rc!",
        r"this condition is about a move and must stand alone, after until! or rc!",
    ),
    (
        r"a stream buffer and a message buffer have this name: say (.*)",
        r"this names both a stream and a message buffer (use \1)",
    ),
)
# A word of a goal becomes one of these.
OTHERS = (
    "and", "or", "not", "(", ")", "=", "<", ">", "&", "==", "0", "7", "8", "255", "4294967295",
    "4294967296", "01", "-1", "reg", "note", "pc", "phase", "tick", "count", "bits", "bytes",
    "msgs", "at", "waits", "runs", "ended", "failed", "finished", "asleep", "wait", "run", "recv",
    "send", "select", "read", "write", "sread", "mwrite", "group", "nobody", "x",
)  # fmt: skip
LINES = """
cores 1
const STOP 1 << 0
const FULL 1 << 1
group flags
queue jobs length 1 item 1
task logger priority 2
again:
    recv jobs 10
    jumpz r0 again
    gset flags STOP|FULL
    end
task button priority 1
    data 0x01
    send jobs max
    end
"""


def scope_of(path: str) -> Scope:
    """What goals of an application can name."""
    return Scope.of(load(path))


def as_tools_say(why: str) -> str:
    """Returns the search program's refusal of a goal in the wording of the tools."""
    for own, wording in WORDINGS:
        why = re.sub(own, wording, why)
    return why


class Refusals(unittest.TestCase):
    """The tools refuse the goals that the search program refuses, for the same reason."""

    def check(self, path: str, goals: List[str]) -> None:
        """Each goal, by both."""
        words = [os.environ["RDBG_REACH"], "--engine", "--moves", "0", "--states", "10", path]
        ended = talk(words, "".join(f"reach {it}\n" for it in goals).encode())
        self.assertEqual(len(goals), len(ended.answers))
        scope = scope_of(path)
        for goal, answer in zip(goals, ended.answers):
            with self.subTest(goal):
                try:
                    goal_words.read(goal.split(), scope)
                    self.assertFalse(answer.startswith("no: goal"), answer)
                except NoGoal as wrong:
                    self.assertEqual("no: goal: ", answer[:10])
                    why = as_tools_say(answer[10:])
                    self.assertEqual(why, str(wrong)[: len(why)])

    def test_words_at_random(self) -> None:
        if "RDBG_REACH" not in os.environ:
            self.skipTest("RDBG_REACH names no program")
        with tempfile.TemporaryDirectory() as folder:
            for seed in SEEDS:
                dice, values = random.Random(seed), Maker(seed).application()
                path = pathlib.Path(folder) / f"made{seed}.json"
                path.write_text(json.dumps(values))
                maker = Goals(dice, values)
                goals = []
                for _ in range(COUNT):
                    words = reading.words_of(maker.goal().words)
                    for _ in range(dice.choice([0, 1, 1, 2])):
                        at = dice.randrange(len(words) + 1)
                        words[at : at + dice.randint(0, 1)] = [dice.choice(OTHERS)]
                    goals.append(" ".join(words) or "x")
                self.check(str(path), goals)

    def test_what_would_be_right(self) -> None:
        scope = scope_of(str(EXAMPLES / "lost_item.json"))
        for goal, meant in (
            ("stuk", "(did you mean `stuck`?)"),
            ("jobs > 0", "`count jobs > 0`?)"),
            ("count jobs>=1 && !asleep", "`count jobs > 0 and not asleep`?)"),
            ("worker r1 = 0x10", "`reg worker 1 = 16`?)"),
            ("count job = 1", "`count jobs = 1`?)"),
            ("at nobody 0", " (defined: worker, producer, poller)"),
            ("wakes worker", "this condition is about a move and must stand alone"),
        ):
            with self.subTest(goal), self.assertRaises(NoGoal) as refused:
                goal_words.read(goal.split(), scope)
            self.assertIn(meant, str(refused.exception))

    def test_long_ones(self) -> None:
        scope = scope_of(str(EXAMPLES / "lost_item.json"))
        for goal in (" and ".join(["asleep"] * 33), "not " * 64 + "asleep", "( " * 65 + "asleep"):
            with self.assertRaises(NoGoal) as refused:
                goal_words.read(goal.split(), scope)
            self.assertEqual("the goal is too long", str(refused.exception))


class Labels(unittest.TestCase):
    """Labels of a text in lines, where an instruction is wanted."""

    TEXT = "cores 1\ntask t priority 1\nlost: add r1 1\nlate: end\ntask u priority 1\nend\n"

    def test_which_there_are(self) -> None:
        scope = Scope.of(source("x.fw", self.TEXT.encode()))
        wanted = "expected the number of an instruction of the task"
        for goal, said in (
            ("at t lsot", f"word 3, 'lsot': {wanted} (did you mean `at t lost`?)"),
            (
                "failed or at t lsot",
                f"word 5, 'lsot': {wanted} (did you mean `failed or at t lost`?)",
            ),
            ("at t elsewhere", f"word 3, 'elsewhere': {wanted}, or a label: lost, late"),
            ("at t", f"it ends too early: {wanted}, or a label: lost, late"),
            ("at u lost", f"word 3, 'lost': {wanted}"),
        ):
            with self.subTest(goal), self.assertRaises(NoGoal) as caught:
                goal_words.read(goal.split(), scope)
            self.assertEqual(said, str(caught.exception))


class Truth(unittest.TestCase):
    """What goals say of places."""

    def test_random_goals(self) -> None:
        with tempfile.TemporaryDirectory() as folder:
            for seed in SEEDS:
                dice, values = random.Random(seed), Maker(seed).application()
                path = pathlib.Path(folder) / f"made{seed}.json"
                path.write_text(json.dumps(values))
                scope = scope_of(str(path))
                goals = [Goals(dice, values).goal() for _ in range(COUNT)]
                read = [goal_words.read(it.words.split(), scope) for it in goals]
                target = begin(load(str(path)), Limits())
                with target.session:
                    for _ in range(PLACES):
                        target.tell("forward 1")
                        state = State(tuple(target.tell_all(target.names.lines())))
                        look = target.look()
                        for goal, known in zip(read, goals):
                            self.assertEqual(known.holds(state), goal.is_so(look), known.words)
                for goal, known in zip(read, goals):
                    again = goal_words.read(goal.text.split(), scope)
                    self.assertEqual(goal, again, known.words)
                    self.assertEqual(goal.text, goal.asked(target.names.tasks))

    def test_a_text_in_lines(self) -> None:
        scope = Scope.of(source("logger.fw", LINES.encode()))
        for goal, text in (
            ("at logger again", "at logger 0"),
            ("pc logger = again", "pc logger = 0"),
            ("bits flags & STOP|FULL = FULL", "bits flags & 3 = 2"),
            ("bits flags & 0x3 > STOP", "bits flags & 3 > 1"),
            ("sleeps logger or stuck", "sleeps logger or stuck"),
        ):
            with self.subTest(goal):
                self.assertEqual(text, goal_words.read(goal.split(), scope).text)
        stuck = goal_words.read(["stuck"], scope).asked(scope.names.tasks)
        over = "(ended logger or failed logger) and (ended button or failed button)"
        self.assertEqual(f"(asleep or {over})", stuck)
        for goal in ("at button again", "bits flags & STOPP = 1", "at logger nowhere"):
            with self.subTest(goal), self.assertRaises(NoGoal):
                goal_words.read(goal.split(), scope)


if __name__ == "__main__":
    unittest.main()
