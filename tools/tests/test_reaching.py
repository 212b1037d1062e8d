"""The enumeration that the search through orders is held against: its worked figures, its clock,
what it takes for one, and what it finds wrong."""
import contextlib
import json
import pathlib
import random
import tempfile
import unittest
from typing import Iterator, List, Sequence

from rdbg.client import program
from tests.paths import EXAMPLES
from tests.reaching.clock import Clock, Interrupt, Rules, Schedule, policy
from tests.reaching.enumeration import Enumeration
from tests.reaching.fewest import Levels, counting
from tests.reaching.goals import ASLEEP, NEVER, NOWHERE, Goal, Goals, joined, negated
from tests.reaching.judge import Judge, Most
from tests.reaching.machine import Alike, Machine
from tests.reaching.questions import EXACT, SURPRISES
from tests.reaching.saying import AT_LAST_TICK, Asked, Tally, said
from tests.reaching.states import State, by_clock, by_laws
from tests.reaching import unread as unread_
from tests.reaching.unread import unread, without
from tests.reaching.worked import UNREAD, WORKED

# No example with more places is gone through here.
MOST_PLACES = 10_000
# In how many of them all sleep.
ALL_SLEEP = {"meeting_mended": 0, "meeting": 16, "lost_item": 0}
TWO_BUSY = State(("cores a,b ready - tick 3 turn 1",))
ONE_BUSY = State(("cores a,- ready - tick 3 turn 1",))
OTHER = State(("cores a,c ready - tick 3 turn 2",))


class Worked(unittest.TestCase):
    """The figures of examples, every order."""

    def test_figures(self) -> None:
        for name, expected in WORKED.items():
            if expected[0] > MOST_PLACES:
                continue
            file = EXAMPLES / f"{name}.json"
            with self.subTest(name), Machine(program(), file) as machine:
                there = Enumeration(Alike(machine, by_laws), Rules(Schedule()), 1_000, MOST_PLACES)
                self.assertTrue(there.is_all)
                self.assertEqual((len(there.places), there.made), expected)
                if name in ALL_SLEEP:
                    sleeping = sum(ASLEEP.holds(machine.states[it]) for it, _ in there.places)
                    self.assertEqual(sleeping, ALL_SLEEP[name])

    def test_figures_without_what_nobody_reads(self) -> None:
        for name, expected in UNREAD.items():
            file = EXAMPLES / f"{name}.json"
            hidden = unread(json.loads(file.read_text()), NOWHERE.words)
            with self.subTest(name), Machine(program(), file) as machine:
                alike = Alike(machine, lambda state: without(hidden, by_laws(state)))
                there = Enumeration(alike, Rules(Schedule()), 1_000, MOST_PLACES)
                self.assertTrue(there.is_all)
                self.assertEqual((len(there.places), there.made), expected)


class Unread(unittest.TestCase):
    """What nobody reads."""

    def out(self, *code: str, words: str = "asleep") -> List[int]:
        """The registers of a task with this script that it counts in and nobody reads."""
        application = {"tasks": [{"name": "a", "code": [*code, "jump 0"]}]}
        left = unread(application, words)
        return [number for number in range(8) if ("a", number) in left.registers]

    def test_what_only_counts(self) -> None:
        self.assertEqual(self.out("set r2 7", "add r3 1", "unpack r4", "recv r5 max"), [3])

    def test_what_counts_round_by_round(self) -> None:
        code = ["add r1 1", "add r2 1", "jumpz r0 1", "add r3 1", "end"]
        left = unread({"tasks": [{"name": "a", "code": code}]}, "asleep")
        self.assertEqual(left.registers, {("a", 2)})

    def between(self, sends: List[str], receives: List[str]) -> unread_.Unread:
        """What nobody reads of two tasks of these scripts, round by round, and a queue between
        them."""
        tasks = [
            {"name": "a", "code": [*sends, "jump 0"]},
            {"name": "b", "code": [*receives, "jump 0"]},
        ]
        return unread({"tasks": tasks}, "asleep")

    def test_what_is_packed_into_what_nobody_reads(self) -> None:
        self.assertEqual(self.out("add r7 1", "pack r7"), [7])
        self.assertEqual(self.out("add r7 1", "pack r7", "swrite w max"), [])
        self.assertEqual(self.out("add r7 1", "pack r7", "unpack r2", "jumpz r2 0"), [])

    def test_what_goes_through_a_queue(self) -> None:
        sends = ["add r7 1", "pack r7", "send q max"]
        left = self.between(sends, ["recv q max", "unpack r1"])
        self.assertEqual(left, ({("a", 7), ("b", 1)}, {"a", "b"}, {"q"}))
        for reads in (["recv q max", "unpack r1", "jumpz r1 0"], ["peek q max", "mwrite m max"]):
            with self.subTest(reads):
                self.assertEqual(self.between(sends, reads), (set(), set(), set()))

    def test_what_is_tested_or_an_operand(self) -> None:
        self.assertEqual(self.out("add r2 1", "add r3 1", "jumpz r2 0"), [3])
        self.assertEqual(self.out("add r3 1", "sread w 4 r3"), [])
        self.assertEqual(self.out(*(f"add r{it} 1" for it in range(5)), "gsync g r1 r2 r4"), [0, 3])
        self.assertEqual(self.out("add r6 1", "notify a 0 r6 inc"), [])

    def test_what_is_moved_on(self) -> None:
        self.assertEqual(self.out("add r1 1", "move r2 r1", "move r3 r2"), [1, 2, 3])
        self.assertEqual(self.out("add r1 1", "move r2 r1", "move r3 r2", "jumpz r3 0"), [])

    def test_what_the_goal_speaks_of(self) -> None:
        code = ("add r2 1", "add r3 1", "move r4 r2")
        self.assertEqual(self.out(*code, words="reg a 3 > 4 and not reg b 2 = 1"), [2, 4])
        self.assertEqual(self.out(*code, words="reg a 0 < reg a 4"), [3])

    def test_what_is_shown(self) -> None:
        view = "task a core - pc 0 phase run regs 4,5,6 data 05 notes 0:waiting"
        queue = "queue q 2/3 items 05 07 recv - send b set -"
        hidden = unread_.Unread(frozenset([("a", 1), ("b", 0)]), frozenset("a"), frozenset("q"))
        seen = without(hidden, (view, queue))
        self.assertEqual(seen[0], view.replace("4,5,6", "4,-,6").replace("data 05", "data 2"))
        self.assertEqual(seen[1], queue.replace("05 07", "-"))


def shown(tick: int, turn: int, phase: str) -> State:
    """A place of two cores, with a task in a phase."""
    task = f"task a core - pc 0 phase {phase} regs 0 data - notes 0:waiting"
    return State((f"cores -,- ready - tick {tick} turn {turn}", task))


class Taken(unittest.TestCase):
    """Which places are taken for one."""

    def test_ticks_by_the_cores_and_deadlines_as_far_ahead(self) -> None:
        one, other = shown(3, 0, "wait:recv:q:8"), shown(7, 0, "wait:recv:q:12")
        self.assertEqual(by_clock(one), by_clock(other))
        for different in (shown(6, 0, "wait:recv:q:11"), shown(7, 0, "wait:recv:q:11")):
            self.assertNotEqual(by_laws(one), by_laws(different))

    def test_deadlines_that_are_over(self) -> None:
        self.assertEqual(by_laws(shown(9, 0, "again:3")), by_laws(shown(9, 0, "again:9")))
        self.assertNotEqual(by_laws(shown(9, 0, "again:9")), by_laws(shown(9, 0, "again:10")))

    def test_the_turn_alone_where_it_is_not_seen(self) -> None:
        one, other = shown(3, 0, "run"), shown(3, 1, "run")
        self.assertEqual(by_laws(one), by_laws(other))
        self.assertNotEqual(by_clock(one), by_clock(other))

    def test_an_entry_is_no_deadline(self) -> None:
        for at in (0, 2):
            seen = by_laws(shown(at, 0, "wait:note:1:max"))[1]
            self.assertIn("wait:note:1:max", seen)
            self.assertIn("wait:note:1:+4", by_laws(shown(at, 0, f"wait:note:1:{at + 4}"))[1])

    def test_the_first_seen_stands_for_all(self) -> None:
        with Machine(program(), EXAMPLES / "delay.json") as machine:
            alike = Alike(machine, lambda state: ())
            self.assertEqual(alike.after(0, [("tick",)]), [0])
            self.assertNotEqual(machine.after(0, [("tick",)]), [0])


class Fewest(unittest.TestCase):
    """With how few surprises and moves a goal comes, of orders of any length."""

    def test_as_with_a_bound(self) -> None:
        with Machine(program(), EXAMPLES / "meeting.json") as machine:
            rules = counting(Schedule())
            bounded = Levels(machine, rules, 20).fewest([ASLEEP])
            self.assertEqual(bounded, [(1, 8)])
            self.assertEqual(
                Levels(Alike(machine, by_clock), rules, None).fewest([ASLEEP]), bounded
            )


class OnTick(unittest.TestCase):
    """Which goals speak of the tick."""

    def test_those_that_are_made_of_one_that_does(self) -> None:
        self.assertFalse(joined("and", ASLEEP, negated(NOWHERE)).on_tick)
        for goal in (negated(NEVER), joined("or", ASLEEP, NEVER), joined("and", NEVER, ASLEEP)):
            self.assertTrue(goal.on_tick)

    def test_their_words_tell(self) -> None:
        application = {"tasks": [{"name": "a", "code": ["end"]}], "tick": 7}
        goals = Goals(random.Random("goals"), application)
        made = [goals.goal() for _ in range(300)]
        self.assertEqual({"tick" in goal.words for goal in made}, {False, True})
        self.assertTrue(all(("tick" in goal.words) == goal.on_tick for goal in made))


@contextlib.contextmanager
def answering(answer: str, status: int) -> Iterator[str]:
    """A program that answers the same to whatever it is asked."""
    with tempfile.TemporaryDirectory() as folder:
        file = pathlib.Path(folder) / "rdreach"
        lines = ["#!/bin/sh", "cat <<'END'", *answer.splitlines(), "END", f"exit {status}", ""]
        file.write_text("\n".join(lines))
        file.chmod(0o755)
        yield str(file)


class Judged(unittest.TestCase):
    """What is found wrong in what a program says of orders of any length."""

    def faults(self, name: str, answer: str, status: int, goals: Sequence[Goal]) -> List[str]:
        """All of it, but for those of orders of some moves."""
        options = frozenset((EXACT, SURPRISES))
        with answering(answer, status) as answers:
            with Machine(program(), EXAMPLES / f"{name}.json") as machine:
                judge = Judge(machine, Schedule(), Asked(program(), answers, options))
                faults = [*judge.faults(goals, Most(2, 50, 300))]
        self.assertEqual(judge.tally.closed, 1)
        return [fault for fault in faults if "--moves" not in fault]

    def test_all_places_and_moves(self) -> None:
        right = "never\nstates 82 moves 218 deepest 9\nno order came to left 3"
        self.assertEqual(self.faults("meeting_mended", right, 0, [ASLEEP]), [])
        for wrong in ("states 81 moves 218", "states 82 moves 217"):
            answer = right.replace("states 82 moves 218", wrong)
            faults = self.faults("meeting_mended", answer, 0, [ASLEEP])
            self.assertEqual(len(faults), 2)
            self.assertIn("('never', 0, 82, 218) is due", faults[0])

    def test_a_goal_that_comes(self) -> None:
        never = "never\nstates 200 moves 516 deepest 9"
        (fault,) = self.faults("meeting", never, 0, [ASLEEP])
        self.assertIn("asleep: there is one with 1 surprises and 8 moves", fault)
        late = "found\ntick\nstep 0\nstep 1\nstates 200 moves 516 deepest 9"
        fault = self.faults("meeting", late, 1, [ASLEEP])[-1]
        self.assertIn("one has 1 surprises and 8 moves, and it has []", fault)

    def test_an_order_that_leads_there(self) -> None:
        order = "\n".join(f"step {core}" for core in (0, 1, 0, 0, 0, 0, 0, 1))
        found = f"found\n{order}\nstates 1 moves 1 deepest 8"
        faults = self.faults("meeting", found, 1, [ASLEEP])
        self.assertEqual([fault for fault in faults if fault.startswith("asleep")], [])
        self.assertEqual(len(faults), 1)


class Saying(unittest.TestCase):
    """How what a program says is read."""

    def test_full(self) -> None:
        answer = (
            f"full: not within 12 moves and 1 surprises\n{AT_LAST_TICK}\nstates 3 moves 4 deepest 5"
        )
        with answering(answer, 2) as answers:
            heard = said(answers, [])
        self.assertTrue(heard.is_full())
        self.assertEqual((heard.depth(), heard.states, heard.moves), (12, 3, 4))

    def test_full_of_another_room(self) -> None:
        answer = "full: not within 12 moves\nstopped\nstates 3 moves 4 deepest 5"
        with answering(answer, 2) as answers:
            self.assertFalse(said(answers, []).is_full())

    def test_tallies(self) -> None:
        tally = Tally(places=1, closed=2)
        tally.add(Tally(places=3, never_comes=4))
        self.assertEqual(tally, Tally(places=4, closed=2, never_comes=4))


class Policy(unittest.TestCase):
    """What a run would make next, and what is a surprise."""

    def test_first_busy_core_from_the_turn_on(self) -> None:
        self.assertEqual(policy(TWO_BUSY), ("core", 1))

    def test_tick_where_there_is_none(self) -> None:
        self.assertEqual(policy(ONE_BUSY), ("tick", 0))

    def test_moves_of_one_core_ahead_are_one_surprise(self) -> None:
        rules = Rules(Schedule(surprises=1))
        clock = rules.after(TWO_BUSY, rules.at_start(TWO_BUSY), ("core", 0), TWO_BUSY)
        self.assertEqual((clock.spent, clock.ahead), (1, 0))
        self.assertEqual(rules.choices(TWO_BUSY, clock), [("core", 0), ("core", 1)])
        clock = rules.after(TWO_BUSY, clock, ("core", 0), TWO_BUSY)
        self.assertEqual((clock.spent, clock.ahead), (1, 0))

    def test_no_longer_where_the_policy_is_followed_between(self) -> None:
        rules = Rules(Schedule(surprises=2))
        clock = rules.after(TWO_BUSY, rules.at_start(TWO_BUSY), ("core", 0), TWO_BUSY)
        clock = rules.after(TWO_BUSY, clock, ("core", 1), TWO_BUSY)
        clock = rules.after(TWO_BUSY, clock, ("core", 0), TWO_BUSY)
        self.assertEqual((clock.spent, clock.ahead), (2, 0))

    def test_early_ticks_and_interrupts_are_one_each(self) -> None:
        rules = Rules(Schedule(surprises=9, interrupts=(Interrupt(("send q -",)),)))
        clock = rules.at_start(TWO_BUSY)
        for choice in (("tick", 0), ("tick", 0), ("isr", 0), ("isr", 0)):
            clock = rules.after(TWO_BUSY, clock, choice, TWO_BUSY)
        self.assertEqual((clock.spent, clock.ahead), (4, None))


class Pace(unittest.TestCase):
    """The pace, whose counts begin anew at a tick, and where another task comes."""

    def test_tick_waits_for_each_busy_core(self) -> None:
        rules = Rules(Schedule(least=1, most=2))
        clock = rules.at_start(TWO_BUSY)
        for core in (0, 1):
            self.assertFalse(rules.may_come(TWO_BUSY, clock, ("tick", 0)))
            clock = rules.after(TWO_BUSY, clock, ("core", core), TWO_BUSY)
        self.assertTrue(rules.may_come(TWO_BUSY, clock, ("tick", 0)))

    def test_core_waits_for_the_tick(self) -> None:
        rules = Rules(Schedule(least=0, most=2))
        clock = rules.at_start(TWO_BUSY)._replace(made=(2, 1))
        self.assertFalse(rules.may_come(TWO_BUSY, clock, ("core", 0)))
        self.assertTrue(rules.may_come(TWO_BUSY, clock, ("core", 1)))
        clock = rules.after(TWO_BUSY, clock, ("tick", 0), TWO_BUSY)
        self.assertEqual(clock.made, (0, 0))

    def test_task_that_comes_has_made_none(self) -> None:
        rules = Rules(Schedule(least=0, most=2))
        clock = rules.at_start(TWO_BUSY)._replace(made=(1, 1))
        self.assertEqual(rules.after(TWO_BUSY, clock, ("core", 1), OTHER).made, (1, 0))

    def test_counts_end_at_the_most_that_matters(self) -> None:
        rules = Rules(Schedule(least=1))
        clock = rules.at_start(TWO_BUSY)._replace(made=(1, 0))
        self.assertEqual(rules.after(TWO_BUSY, clock, ("core", 0), TWO_BUSY).made, (1, 0))


class Interrupts(unittest.TestCase):
    """How often interrupts come, behind which, and how far apart."""

    def test_limit(self) -> None:
        rules = Rules(Schedule(interrupts=(Interrupt(("send q -",), times=1),)))
        clock = rules.at_start(TWO_BUSY)
        self.assertTrue(rules.may_come(TWO_BUSY, clock, ("isr", 0)))
        clock = rules.after(TWO_BUSY, clock, ("isr", 0), TWO_BUSY)
        self.assertFalse(rules.may_come(TWO_BUSY, clock, ("isr", 0)))

    def test_distance(self) -> None:
        rules = Rules(Schedule(interrupts=(Interrupt(("send q -",), apart=2),)))
        clock = rules.after(TWO_BUSY, rules.at_start(TWO_BUSY), ("isr", 0), TWO_BUSY)
        came = []
        for _ in range(3):
            came.append(rules.may_come(TWO_BUSY, clock, ("isr", 0)))
            clock = rules.after(TWO_BUSY, clock, ("tick", 0), TWO_BUSY)
        self.assertEqual(came, [False, False, True])

    def test_one_that_follows_comes_more_rarely(self) -> None:
        one, other = Interrupt(("send q -",), times=2), Interrupt(("send q 01",), 2, follows=0)
        rules = Rules(Schedule(interrupts=(one, other)))
        for came, may_come in {(0, 0): False, (1, 0): True, (1, 1): False, (2, 1): True}.items():
            clock = Clock((0, 0), came, (0, 0), 0, None)
            self.assertEqual(rules.may_come(TWO_BUSY, clock, ("isr", 1)), may_come)

    def test_without_a_limit_nothing_is_counted(self) -> None:
        rules = Rules(Schedule(interrupts=(Interrupt(("send q -",)),)))
        clock = rules.at_start(TWO_BUSY)
        self.assertEqual(rules.after(TWO_BUSY, clock, ("isr", 0), TWO_BUSY), clock)


if __name__ == "__main__":
    unittest.main()
