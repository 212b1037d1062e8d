"""`rdbg dap` where a breakpoint is far: few lines find it, and what is known isn't looked for
again."""
import pathlib
import tempfile
import time
import unittest
from typing import Any, Callable, List

from rdbg.adapter.running import Pause, Runner
from rdbg.adapter.stops import Amount, Becomes, Begins, Counted, Stop, Where
from rdbg.goals.claims import ASLEEP, Holds, SomeFailed
from rdbg.goals.conditions import Condition
from rdbg.driving.interrupt import Interrupted
from rdbg.driving.opening import begin
from rdbg.driving.target import Limits, Target
from rdbg.driving.walk import Walk
from rdbg.files.source import load
from tests.dap_client import Client, editor
from tests.dap_schema import Held
from tests.started import processor_seconds

# So many seconds of a processor a button may take.
MOST = 2.0
# A task that counts down in a loop before it comes to what stands behind it.
COUNTER = """cores 1
task counter priority 1
    set r0 {rounds}
again:
    add r0 4294967295
    jumpz r0 done
    jump again
done:
    add r2 1
    set r0 {rounds}
    jump again
"""
LOOP, DONE = 5, 9
ROUNDS = 16_667
# A task that toggles r2, and comes to its `add` with a 1 in it once it has counted.
TOGGLES = 2_000
TOGGLING = f"""cores 1
task toggler priority 1
    set r1 {TOGGLES}
again:
    set r2 0
there:
    add r1 4294967295
    set r2 1
    jumpz r1 there
    jump again
"""
# Tasks that count as far before they change a queue and leave its count, or a set's handles alone.
QUIET = """cores 1
queue last length 1 item 1
queue one length 2 item 1
queue other length 2 item 1
set both length 4 members one other
task writer priority 1
    set r1 16667
again:
    add r1 4294967295
    jumpz r1 go
    jump again
go:
    data 41
    over last
    data 42
    over last
    send one 0
    recv one 0
    select both 0
    send other 0
more:
    jump more
"""


def far(rounds: int) -> int:
    """At which place the counter comes to `add r2 1` for the first time: behind `set` and three
    instructions a round, of which the last one has two. On one core an instruction is a move, and
    the tick behind it another."""
    return 2 * (1 + 3 * rounds - 1) - 1


def written(folder: str, rounds: int) -> pathlib.Path:
    """The application, with so many rounds."""
    file = pathlib.Path(folder) / "counter.fw"
    file.write_text(COUNTER.format(rounds=rounds))
    return file


class Buttons(Held):
    """An editor's buttons."""

    def setUp(self) -> None:
        folder = tempfile.TemporaryDirectory()
        self.addCleanup(folder.cleanup)
        self.file = written(folder.name, ROUNDS)

    def timed(self, client: Client, command: str, description: str) -> None:
        """A button, and where it stops within so many seconds."""
        began = processor_seconds()
        stop = client.stopped(command, threadId=2)
        took = processor_seconds() - began
        self.assertEqual(stop["description"], description)
        self.assertLess(took, MOST, command)

    def there_and_back(self, client: Client, description: str) -> None:
        """On to a stop, back to the start, and on again, as an editor does by itself."""
        self.timed(client, "continue", description)
        self.timed(client, "reverseContinue", "at 0: the start: no breakpoint was hit before")
        self.timed(client, "continue", description)

    def test_a_breakpoint_100000_moves_ahead(self) -> None:
        with editor() as client:
            client.begin(self.file)
            client.lines(self.file, DONE)
            self.assertGreater(far(ROUNDS), 100_000)
            self.there_and_back(client, f"at {far(ROUNDS)}: counter reaches 4")

    def test_by_a_condition_and_a_number_of_hits(self) -> None:
        with editor() as client:
            client.begin(self.file)
            place = 1 + 6 * (ROUNDS - 5)
            client.lines(self.file, LOOP, condition="reg counter 0 = 5")
            self.there_and_back(client, f"at {place}: counter reaches 1, reg counter 0 = 5")
            client.stopped("reverseContinue", threadId=2)
            client.lines(self.file, LOOP, hitCondition="3000")
            self.there_and_back(client, f"at {1 + 6 * 2_999}: counter reaches 1, hit 3000")

    def test_among_several(self) -> None:
        with editor() as client:
            client.begin(self.file)
            asked = [{"dataId": "reg counter 2"}, {"dataId": "reg counter 7"}]
            client.ask("setDataBreakpoints", breakpoints=asked)
            names = [{"name": f"reg counter {at} > 0"} for at in (1, 3, 4, 5, 6)]
            client.ask("setFunctionBreakpoints", breakpoints=names)
            self.there_and_back(client, f"at {far(ROUNDS) + 2}: reg counter 2 changes")

    def test_a_change_that_leaves_how_much_there_is(self) -> None:
        first = 2 * (1 + 3 * ROUNDS - 1 + 2) - 1
        self.file.write_text(QUIET)
        for name, places in (
            ("last", [first, first + 4]),
            ("both", [first + 6, first + 10, first + 12]),
        ):
            with editor() as client:
                client.begin(self.file)
                client.ask("setFunctionBreakpoints", breakpoints=[{"name": f"changes {name}"}])
                for place in places:
                    self.timed(client, "continue", f"at {place}: changes {name}")
                for place in places[-2::-1]:
                    self.timed(client, "reverseContinue", f"at {place}: changes {name}")
                self.assertEqual(client.stopped("continue", threadId=2)["reason"][:8], "function")

    def test_a_pause_comes_between(self) -> None:
        with editor() as client:
            client.begin(self.file)
            client.lines(self.file, LOOP, hitCondition="9999999")
            client.ask("continue", threadId=2)
            time.sleep(0.1)  # (so that it is amid the run)
            began = processor_seconds()
            client.ask("pause", threadId=2)
            self.assertIn("paused", client.event("stopped")["description"])
            self.assertLess(processor_seconds() - began, MOST)


class Tally:
    """Counts the lines that a target is asked, and the moves that they make or take back."""

    def __init__(self, target: Target) -> None:
        self._target: Any = target
        self._told: Any = target.session.on_line
        target.session.on_line = self._seen
        self.lines = self.moves = 0

    def _seen(self, line: str, reply: str) -> None:
        before = self._target.place
        self._told(line, reply)
        self.lines, self.moves = self.lines + 1, self.moves + abs(self._target.place - before)

    def of(self, work: Callable[[], object]) -> List[int]:
        """How many moves and lines some work takes."""
        self.lines = self.moves = 0
        work()
        return [self.moves, self.lines]


class Joint(unittest.TestCase):
    """A breakpoint with a condition that holds elsewhere again and again."""

    def test_all_places_of_it_are_asked_for_at_once(self) -> None:
        with tempfile.TemporaryDirectory() as folder:
            file = pathlib.Path(folder) / "toggler.fw"
            file.write_text(TOGGLING)
            target = begin(load(str(file)), Limits())
        self.addCleanup(target.session.close)
        walk, tally = Walk(target, Pause()), Tally(target)
        at_add = Becomes(Condition("pc", "toggler", number=2))
        stop = Where(at_add, Holds(Condition("reg", "toggler", 2, "=", 1)))
        place = 2 * (1 + 5 * (TOGGLES - 1) + 4) - 1  # (the last round lacks its `jump`)
        _, lines = tally.of(lambda: Runner(walk, lambda: [stop], lambda: None).forwards(40_000))
        self.assertEqual(walk.place, place)
        self.assertLess(lines, 6 * TOGGLES)
        self.assertTrue(stop.is_met(walk))
        _, lines = tally.of(lambda: self.assertIsNone(stop.last(walk)))
        self.assertLess(lines, 6 * TOGGLES)


class Once(unittest.TestCase):
    """How often moves are made that were taken back."""

    ROUNDS = 833
    LINES = 20

    def setUp(self) -> None:
        with tempfile.TemporaryDirectory() as folder:
            self.target = begin(load(str(written(folder, self.ROUNDS))), Limits())
        self.addCleanup(self.target.session.close)
        self.walk, self.tally = Walk(self.target, Pause()), Tally(self.target)
        self.place = far(self.ROUNDS)

    def arrival(self, pc: int) -> Stop:
        """That the counter comes to an instruction."""
        return Becomes(Condition("pc", "counter", number=pc), is_at_start=True)

    def runner(self, *stops: Stop) -> Runner:
        """A run to some stops and to failures, as one button begins it."""
        all_of_them = [*stops, Begins(SomeFailed()), Begins(ASLEEP)]
        return Runner(self.walk, lambda: list(all_of_them), lambda: None)

    def check_again(self, stop: Callable[[], Stop], place: int) -> None:
        """On to a stop and back, by moves that each are made and taken back once."""
        self.assertEqual(self.runner(stop()).forwards(10_000).how, "met")
        self.assertEqual(self.walk.place, place)
        self.runner(stop()).backwards()
        self.assertEqual(self.walk.place, 0)
        for way, end in (("forwards", place), ("backwards", 0)):
            runner = self.runner(stop())
            work = (lambda: runner.forwards(0)) if way == "forwards" else runner.backwards
            moves, lines = self.tally.of(work)
            self.assertEqual((self.walk.place, moves), (end, place), way)
            self.assertLess(lines, self.LINES, way)
        self.assertEqual(self.target.places().undone, place)

    def test_of_a_breakpoint(self) -> None:
        self.assertEqual(self.place, 4_997)
        self.check_again(lambda: self.arrival(4), self.place)

    def test_of_conditions_hits_and_variables(self) -> None:
        once = lambda hits: hits == 1
        small = Condition("reg", "counter", 0, "=", 0)
        self.check_again(lambda: Where(self.arrival(4), Holds(small)), self.place)
        self.walk.goto(0)
        self.check_again(lambda: Counted(self.arrival(4), "1", once), self.place)
        self.walk.goto(0)
        self.check_again(lambda: Amount("reg counter 2"), self.place + 2)

    def check_set_later(self, *by_hand: str) -> None:
        """A breakpoint that is set once its moves were taken back."""
        self.runner().forwards(self.place)
        self.target.tell_all(by_hand)
        self.walk.goto(0)
        moves, _ = self.tally.of(lambda: self.runner(self.arrival(4)).forwards(0))
        self.assertEqual(self.walk.place, self.place)
        self.assertLessEqual(moves, self.place + 8)
        self.assertEqual(self.target.places().undone, len(by_hand))

    def test_of_a_breakpoint_that_is_set_later(self) -> None:
        self.check_set_later()

    def test_of_a_breakpoint_that_is_set_later_where_a_move_was_made_by_hand(self) -> None:
        self.check_set_later("step 0", "poke reg counter 0 9")

    def test_on_the_way_to_the_end_of_them(self) -> None:
        self.runner().forwards(4_000)
        self.walk.goto(2)
        moves, lines = self.tally.of(lambda: self.runner(self.arrival(4)).forwards(0))
        self.assertEqual((self.walk.place, moves), (4_000, 3_998))
        self.assertLess(lines, 302)

    def test_those_behind_a_stop_stay(self) -> None:
        self.runner().forwards(8_000)
        self.walk.goto(0)
        self.runner(self.arrival(4)).forwards(0)
        places = self.target.places()
        self.assertEqual((places.done, places.undone), (self.place, 8_000 - self.place))
        self.walk.goto(8_000)

    def test_a_pause_leaves_them(self) -> None:
        self.runner().forwards(9_000)
        for calls in range(1, 12):
            self.walk.goto(0)
            left = [calls]

            def between() -> None:
                left[0] -= 1
                if not left[0]:
                    raise Interrupted

            stop = Becomes(Condition("pc", "counter", number=100 + calls))
            Runner(self.walk, lambda: [stop], between).forwards(0)
            places = self.target.places()
            self.assertEqual(places.done + places.undone, 9_000)

    def test_an_edit_makes_others_of_them(self) -> None:
        self.runner(self.arrival(4)).forwards(10_000)
        self.walk.goto(101)
        self.target.tell("poke reg counter 0 7")
        self.runner(self.arrival(4)).forwards(10_000)
        # (the edit is a move; at 101 the task stands at an `add`, and goes seven rounds)
        rounds = self.target.look().tasks["counter"].registers[0]
        self.assertEqual((rounds, self.walk.place < self.place), (0, True))
        known = self.walk.place
        self.runner(self.arrival(4)).backwards()
        self.runner(self.arrival(4)).forwards(0)
        self.assertEqual(self.walk.place, known)


if __name__ == "__main__":
    unittest.main()
