"""What `rdbg hunt` says where it finds none: of which orders that is so, and which instructions
none of them came to. It is asked by its words, and what it prints is read."""
import json
import re
import tempfile
import unittest
from typing import FrozenSet, List, Sequence, Tuple

from tests.hunts import found, path, said, written
from tests.plain_search import At, Plain, small

# (it speaks of the register in which tasks count here, so that this is seen)
NEVER = "reg a 7 = 1 and reg a 1 > 0"
# It counts, a move each tick and two each time: at 429 the count comes to 108.
COUNTS = """{"profile": 1, "cores": 1,
"tasks": [{"name": "a", "priority": 1, "code": ["add r1 1", "jump 0"]}]}"""
# The first task counts for ever, once it finds the item; by `forward` it finds none, and ends.
LATE = """{"profile": 1, "cores": 2, "queues": [{"name": "q", "length": 1, "item": 1}],
"tasks": [{"name": "a", "priority": 1,
 "code": ["recv q 0", "jumpz r0 4", "add r1 1", "jump 2", "end"]},
{"name": "b", "priority": 1, "code": ["data 41", "send q 0", "end"]}]}"""
# Behind the last surprise, that it finds the item, the first task jumps to where it counts.
JUMPS = """{"profile": 1, "cores": 2, "queues": [{"name": "q", "length": 1, "item": 1}],
"tasks": [{"name": "a", "priority": 1,
"code": ["recv q 0", "add r0 4294967295", "jumpz r0 4", "end", "set r1 5", "end"]},
{"name": "b", "priority": 1, "code": ["data 41", "send q 0", "end"]}]}"""
# Two that go round and round, a core each: one surprise, and they go round otherwise.
ROUND = """{"profile": 1, "cores": 2, "tasks": [
{"name": "a", "priority": 1, "code": ["set r1 1", "set r1 0", "jump 0"]},
{"name": "b", "priority": 1,
 "code": ["set r1 1", "set r1 2", "set r1 3", "set r1 0", "jump 0"]}]}"""
# It waits with no limit of time, until an interrupt comes.
WAITS = """{"profile": 2, "cores": 1,
"tasks": [{"name": "a", "priority": 1, "code": ["take 0 clear max", "add r1 1", "jump 1"]}]}"""
ITEM = re.compile(r"(\w+) (\d+): ")
FEW = ("--states", "1000")


class Asked(unittest.TestCase):
    """Hunts through a file of their own."""

    def setUp(self) -> None:
        folder = tempfile.TemporaryDirectory()
        self.addCleanup(folder.cleanup)
        self.folder = folder.name

    def none(self, text: str, *words: str, goal: str = NEVER) -> Tuple[int, List[str]]:
        """The status and what is said of a hunt that finds none, which `--expect none` asks."""
        asked = [goal, "--expect", "none", *words]
        status, _, errors = said(written(self.folder, text), *asked)
        self.assertEqual(f"none found: {goal}", errors[0])
        return status, errors


class OfWhichOrders(Asked):
    """Of which orders it is said that none comes to the goal."""

    def test_no_fault_lies_behind_a_limit_that_nobody_gave(self) -> None:
        searches: List[List[str]] = [[], ["--surprises", "0"], ["--exhaustive"]]
        for words in searches:
            with self.subTest(words):
                file = written(self.folder, COUNTS)
                status, _, errors = said(file, "reg a 1 = 108", *words, "--expect", "none")
                self.assertEqual(1, status)
        self.assertEqual([(0, 429)], found(said(file, "reg a 1 = 108", "--surprises", "0")[2]))

    def test_who_gives_a_limit_is_told_it(self) -> None:
        for words, head in (
            (["--moves", "100"], "not within 100 moves"),
            (["--moves", "7", "--exhaustive"], "not within 7 moves"),
            (["--moves", "7", "--surprises", "2"], "not within 7 moves and 2 surprises"),
        ):
            status, errors = self.none(COUNTS, *words)
            self.assertEqual((0, head), (status, errors[1]))

    def test_where_there_is_no_end_of_states_it_cant_be_told(self) -> None:
        status, errors = self.none(COUNTS, *FEW)
        self.assertEqual(2, status)
        self.assertRegex(errors[1], r"full: not within \d+ moves")
        self.assertEqual((0, "not within 0 surprises"), self.head(LATE, "--surprises", "0"))
        # (the first task counts for ever behind one surprise)
        self.assertEqual(2, self.none(LATE, "--surprises", "1", *FEW)[0])

    def head(self, text: str, *words: str) -> Tuple[int, str]:
        """The status, and of which orders it is said."""
        status, errors = self.none(text, *words)
        return status, errors[1]

    def test_orders_that_go_round(self) -> None:
        for surprises in ("0", "1", "2"):
            wanted = (0, f"not within {surprises} surprises")
            self.assertEqual(wanted, self.head(ROUND, "--surprises", surprises))
        self.assertEqual((0, "never"), self.head(ROUND))
        self.assertEqual((0, "never"), self.head(ROUND, "--exhaustive"))

    def test_an_interrupt(self) -> None:
        self.assertEqual((0, "never"), self.head(WAITS))
        self.assertEqual(2, self.none(WAITS, *FEW, "--isr", "notify a 0 1 inc")[0])

    def test_each_goal(self) -> None:
        # (nobody reads what it counts then)
        status, errors = self.none(COUNTS, *FEW, goal="stuck")
        self.assertEqual((0, "never"), (status, errors[1]))
        status, errors = self.none(COUNTS, goal="differs")
        self.assertEqual(2, status)
        self.assertIn("the default run of 100 moves does not come to rest", errors[-1])
        self.assertEqual(1, said(written(self.folder, COUNTS), "tick = 400")[0])
        self.assertEqual((0, "never"), self.head(ROUND))

    def test_none_is_hidden(self) -> None:
        # (what is said of orders with one surprise is so of those of so many moves)
        for seed in range(12):
            file = written(self.folder, small(seed))
            for goal in ("reg a 1 > 1", "phase a ended", "count q > 0"):
                words = [file, goal, "--surprises", "1", *FEW]
                if said(*words)[0] == 0:
                    self.assertEqual(0, said(*words, "--moves", "30")[0], f"{seed}: {goal}")


class Instructions(Asked):
    """Instructions that no order came to."""

    def named(self, errors: Sequence[str]) -> FrozenSet[At]:
        """Those that are named."""
        return frozenset((task, int(pc)) for task, pc in ITEM.findall("\n".join(errors)))

    def check(self, seed: int, surprises: int, moves: int, *handlers: str) -> int:
        """Exactly those are named at which no task is on a core, or waits, in any order. Answers
        how many."""
        text = small(seed)
        isr = [word for handler in handlers for word in ("--isr", handler)]
        tasks = json.loads(text)["tasks"]
        every = {(it["name"], at) for it in tasks for at in range(len(it["code"]))}
        file = written(self.folder, text)
        limits = ["--moves", str(moves), *isr]
        with Plain(file, text, [], handlers) as plain:
            plain.fewest(moves)
            named = self.named(self.none(text, "--exhaustive", *limits)[1])
            self.assertEqual(every - plain.stood, named, seed)
            plain.stood.clear()
            plain.by_surprises(surprises, moves)
            levels = ["--surprises", str(surprises)]
            named = self.named(self.none(text, *levels, *limits)[1])
            self.assertEqual(every - plain.stood, named, seed)
        return len(named)

    def test_small_applications(self) -> None:
        counts = [self.check(seed, seed % 3, 5 + seed % 3) for seed in range(24)]
        self.assertGreater(sum(map(bool, counts)), 5)

    def test_interrupts(self) -> None:
        for seed in range(6):
            self.check(seed, 1, 5, "notify a 0 1 inc", "send q 41; notify a 0 2 set")

    def test_long_orders(self) -> None:
        # (a loop is five instructions and five ticks: behind 700 of them it counts one more, and
        # jumps)
        late = """{"profile": 1, "cores": 1, "tasks": [{"name": "a", "priority": 1,
        "code": ["add r1 1", "move r2 r1", "add r2 4294966595", "jumpz r2 5", "jump 0", "end"]}]}"""
        words = ["--surprises", "0", "--moves"]
        self.assertIn(("a", 5), self.named(self.none(late, *words, "6000")[1]))
        self.assertNotIn(("a", 5), self.named(self.none(late, *words, "7100")[1]))

    def test_behind_a_jump(self) -> None:
        levels = ["--moves", "20", "--surprises"]
        _, errors = self.none(JUMPS, *levels, "0")
        self.assertEqual(frozenset({("a", 4), ("a", 5)}), self.named(errors))
        _, errors = self.none(JUMPS, *levels, "1")
        self.assertEqual(frozenset(), self.named(errors))

    def test_how_they_are_told(self) -> None:
        status, errors = self.none(LATE, "--surprises", "0")
        self.assertEqual("never executed (2 instructions):", errors[2])
        self.assertEqual("  a 2: add r1 1; a 3: jump 2", errors[3])
        status, errors = self.none(LATE, "--surprises", "1", "--moves", "20")
        self.assertFalse([line for line in errors if "never executed" in line])
        long = ["recv q 0", "jumpz r0 17", *(["set r1 1"] * 14), "jump 2", "end"]
        tasks = [{"name": "a", "priority": 1, "code": long}]
        queues = [{"name": "q", "length": 1, "item": 1}]
        made = {"profile": 1, "cores": 1, "queues": queues, "tasks": tasks}
        _, errors = self.none(json.dumps(made), "--exhaustive")
        self.assertEqual("never executed (15 instructions):", errors[2])
        self.assertEqual("  a 2: set r1 1; a 3: set r1 1; a 4: set r1 1", errors[3])
        self.assertEqual(
            ["  a 11: set r1 1; a 12: set r1 1; a 13: set r1 1", "  and 3 more"], errors[6:8]
        )

    def test_nothing_is_named_where_one_is_found(self) -> None:
        _, _, errors = said(path("lost_item"), "reg poller 0 = 1")
        self.assertFalse([line for line in errors if "never executed" in line])

    def test_of_an_example(self) -> None:
        words = [path("lost_wakeup"), "failed", "--surprises", "0", "--moves", "30"]
        self.assertIn("  gate 2: recv in 0; gate 3: send out max; gate 4: jump 0", said(*words)[2])


if __name__ == "__main__":
    unittest.main()
