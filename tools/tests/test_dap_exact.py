"""Runs of `rdbg dap` end at the first place where a stop is met, ways back at the last: held
against a look at each place."""
import json
import pathlib
import random
import tempfile
import unittest
from typing import Callable, Dict, Iterator, List, Sequence, Set, Tuple

from rdbg import replies
from rdbg.adapter.running import Pause, Runner
from rdbg.adapter.stops import Amount, Becomes, Begins, Content, Counted, Reaches, Stop, Where
from rdbg.looks import Look
from rdbg.goals.conditions import Condition
from rdbg.goals.claims import ASLEEP, Holds, Joined, Not, Runs, SomeFailed, Waits
from rdbg.driving.opening import begin
from rdbg.driving.target import Limits, Target
from rdbg.driving.walk import Walk
from rdbg.files.source import load
from tests.made import Maker
from tests.paths import EXAMPLES

PLACES = 60
HITS: Dict[str, Callable[[int], bool]] = {
    "3": lambda hits: hits == 3,
    "> 1": lambda hits: hits > 1,
    "% 2": lambda hits: hits % 2 == 0,
}


AMOUNTS = {"queue": "count", "stream": "bytes", "message": "msgs", "group": "bits"}
NAMES = ("lost_item", "barrier", "stale")
SEEDS = 1


def applications() -> Iterator[Tuple[str, str]]:
    """Some of the examples, and some that are made at random: a name, and the path."""
    for name in NAMES:
        yield name, str(EXAMPLES / f"{name}.json")
    with tempfile.TemporaryDirectory() as folder:
        for seed in range(SEEDS):
            file = pathlib.Path(folder) / f"made{seed}.json"
            file.write_text(json.dumps(Maker(seed).application()))
            yield file.stem, str(file)


class Known:
    """A target with so many moves done, and at which places each of some stops is met."""

    def __init__(self, target: Target, chance: random.Random, straight: float = 0.7) -> None:
        self.target, self.chance, self.straight = target, chance, straight
        self.walk = Walk(target, Pause())
        self._mixed()
        self.looks = [self._at(place) for place in range(PLACES + 1)]
        self.met: Dict[Stop, Set[int]] = {}

    def _mixed(self) -> None:
        """Moves as `forward` makes them, and others between them."""
        while self.target.place < PLACES:
            if self.chance.random() < self.straight:
                self.target.tell("forward 1")
            else:
                cores = range(self.target.application.cores if self.target.application else 1)
                self.target.tell(f"step {self.chance.choice(cores)}")

    def change(self) -> None:
        """Other moves from some place on, an edit among them."""
        self.walk.goto(self.chance.randint(1, PLACES - 1))
        task = self.chance.choice(list(self.looks[0].tasks))
        self.target.tell(f"poke reg {task} 0 {self.chance.randint(0, 3)}")
        self._mixed()
        self.met.clear()

    def _at(self, place: int) -> Look:
        self.walk.goto(place)
        return self.target.look()

    def places(self, stop: Stop) -> Set[int]:
        """Where a stop is met, by a look at each place."""
        if stop not in self.met:
            seen = []
            for place in range(PLACES + 1):
                self.walk.goto(place)
                seen.append(stop.look(self.target))
            pairs = enumerate(zip(seen, seen[1:]), 1)
            found = {place for place, (was, now) in pairs if stop.is_met_by(was, now)}
            if isinstance(stop, Becomes) and stop.is_at_start and seen[0]:
                found.add(0)
            self.met[stop] = found
        return self.met[stop]

    def holding(self, condition: Condition) -> Set[int]:
        """Where a condition holds."""
        found = set()
        for place in range(PLACES + 1):
            self.walk.goto(place)
            if condition.holds(replies.read(self.target.tell(condition.view))):
                found.add(place)
        return found

    def condition(self) -> Condition:
        """A condition of what there is."""
        look, chance = self.chance.choice(self.looks), self.chance
        task = chance.choice(list(look.tasks.values()))
        operator = chance.choice("=<>")
        kinds = [
            Condition("pc", task.name, operator=operator, number=task.pc),
            Condition("reg", task.name, 0, operator, task.registers[0]),
            Condition("phase", task.name, phase=task.phase.word),
            Condition("tick", operator=operator, number=look.cores.tick),
        ]
        for kind, name in look.objects:
            if kind == "queue":
                kinds.append(
                    Condition("count", name, operator=operator, number=chance.choice([0, 1]))
                )
            if kind == "group":
                kinds.append(
                    Condition("bits", name, operator=operator, number=chance.choice([0, 1]))
                )
        return chance.choice(kinds)

    def plain(self) -> Stop:
        """A stop that needs no other."""
        look, chance = self.looks[0], self.chance
        task = chance.choice(list(look.tasks))
        watched = [f"reg {task} 0", f"pc {task}", f"phase {task}"]
        watched += [f"note {task} 0", "tick"]
        watched += [f"{AMOUNTS[kind]} {name}" for kind, name in look.objects if kind in AMOUNTS]
        stops: List[Stop] = [
            Becomes(self.condition(), is_at_start=True),
            Becomes(self.condition()),
            Amount(chance.choice(watched)),
            Begins(SomeFailed()),
            Begins(ASLEEP),
            Reaches(Waits(task, is_endless=True)),
            Reaches(Not(Waits(task)), f"wakes {task}"),
            Reaches(Joined("or", Runs(task), Holds(self.condition()))),
            Reaches(Joined("and", Not(Waits(task)), Holds(self.condition()))),
            *(Content(self.target, key) for key in look.objects),
        ]
        return chance.choice(stops)

    def stop(self) -> Stop:
        """A stop, whose places are known then."""
        stop = self.plain()
        found = self.places(stop)
        if self.chance.random() < 0.3:
            condition = self.condition()
            stop, found = Where(stop, Holds(condition)), found & self.holding(condition)
            self.met[stop] = found
        if self.chance.random() < 0.3:
            text = self.chance.choice(list(HITS))
            counted = [place for hits, place in enumerate(sorted(found), 1) if HITS[text](hits)]
            stop = Counted(stop, text, HITS[text])
            self.met[stop] = set(counted)
        return stop


class Exact(unittest.TestCase):
    """Both ways, among moves that there are, and by new ones."""

    def both_ways(self, known: Known, stops: Sequence[Stop]) -> None:
        """From some place on, among moves that there are."""
        met = sorted({place for stop in stops for place in known.met[stop]})
        runner = Runner(known.walk, lambda: list(stops), lambda: None)
        start = known.chance.randint(0, PLACES)
        text = f"from {start}: {[it.text for it in stops]}"
        known.walk.goto(start)
        outcome = runner.backwards()
        before = [place for place in met if place < start]
        self.assertEqual(known.target.place, before[-1] if before else 0, text)
        self.assertEqual(outcome.how, "met" if before else "start", text)
        known.walk.goto(start)
        outcome = runner.forwards(0)
        behind = [place for place in met if place > start]
        self.assertEqual(known.target.place, behind[0] if behind else PLACES, text)
        self.assertEqual(outcome.how, "met" if behind else "limit", text)
        self.assertEqual(set(outcome.met), self.met_at(known, stops) if behind else set(), text)
        self.assertEqual(known.target.places().done + known.target.places().undone, PLACES)

    def met_at(self, known: Known, stops: Sequence[Stop]) -> Set[Stop]:
        """Which of the stops are met where the target stands, if it stopped there."""
        return {stop for stop in stops if known.target.place in known.met[stop]}

    def test_among_moves_that_there_are(self) -> None:
        for name, path in applications():
            with self.subTest(name):
                target = begin(load(path), Limits())
                with target.session:
                    known = Known(target, random.Random(name))
                    for _ in range(2):
                        stops = [known.stop() for _ in range(known.chance.randint(1, 3))]
                        for _ in range(2):
                            self.both_ways(known, stops)

    def test_once_moves_are_others(self) -> None:
        for name, path in applications():
            with self.subTest(name):
                target = begin(load(path), Limits())
                with target.session:
                    known = Known(target, random.Random(name))
                    plain = [known.plain() for _ in range(3)]
                    counted = Counted(plain[0], "% 2", HITS["% 2"])
                    for _ in range(4):
                        found = [known.places(stop) for stop in plain]
                        known.met[counted] = set(sorted(found[0])[1::2])
                        groups: List[List[Stop]] = [plain[1:], [*plain, counted], [counted]]
                        for stops in groups:
                            self.both_ways(known, stops)
                        known.change()

    def test_by_new_moves(self) -> None:
        for name, path in applications():
            with self.subTest(name):
                source = load(path)
                target = begin(source, Limits())
                with target.session:
                    known = Known(target, random.Random(name), 1.0)
                    for _ in range(2):
                        stops = [known.stop() for _ in range(known.chance.randint(1, 3))]
                        self.anew(known, stops)

    def anew(self, known: Known, stops: Sequence[Stop]) -> None:
        """From some place on, by moves as `forward` makes them."""
        start = known.chance.randint(1, PLACES)
        met = sorted({place for stop in stops for place in known.met[stop] if place > start})
        known.walk.goto(start - 1)
        known.target.tell("forward 1")  # (which drops the moves that were taken back)
        runner = Runner(known.walk, lambda: list(stops), lambda: None)
        outcome = runner.forwards(PLACES - start)
        text = f"from {start}: {[it.text for it in stops]}"
        here = known.target.place
        if outcome.how == "stuck":
            self.assertFalse(met and met[0] > here, text)
        else:
            self.assertEqual(here, met[0] if met else PLACES, text)
            self.assertEqual(set(outcome.met), self.met_at(known, stops), text)
        self.assertEqual(known.target.look(), known.looks[here])
        self.assertEqual(known.target.places().undone, 0)
        # (for the next stops, whose places are looked at anew)
        known.target.tell(f"forward {PLACES - here}") if here < PLACES else None


if __name__ == "__main__":
    unittest.main()
