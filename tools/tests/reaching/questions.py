"""What is asked at random: an application, lines before the start, a schedule, and goals."""
import dataclasses
import json
import random
from typing import Any, Dict, FrozenSet, List, Sequence, Tuple

from tests.reaching.applications import SmallMaker
from tests.reaching.clock import Interrupt, Schedule
from tests.reaching.goals import ASLEEP, Goal, Goals

PACE, SURPRISES, ISR, FROM, EXACT = "--pace", "--surprises", "--isr", "--from", "--exact"
# The options that a schedule and a start are asked by, and whether states are told apart exactly.
OPTIONS = (PACE, SURPRISES, ISR, FROM, EXACT)
ACTIONS = ("none", "bits", "inc", "inc", "set", "setif")
GOALS = 3


@dataclasses.dataclass(frozen=True)
class Question:
    """What is asked of an application: its JSON, the lines before the start, the schedule, and the
    goals."""

    text: str
    start: Tuple[str, ...]
    schedule: Schedule
    goals: Tuple[Goal, ...]


def words_of(schedule: Schedule) -> List[str]:
    """The words by which rdreach is asked for it."""
    words = []
    if schedule.least or schedule.most is not None:
        most = "" if schedule.most is None else schedule.most
        words += [PACE, f"{schedule.least}..{most}"]
    if schedule.surprises is not None:
        words += [SURPRISES, str(schedule.surprises)]
    for isr in schedule.interrupts:
        words += [ISR, "; ".join(isr.calls)]
        words += ["--times", "any" if isr.times is None else str(isr.times)]
        words += ["--after", str(isr.follows)] if isr.follows is not None else []
        words += ["--apart", str(isr.apart)] if isr.apart else []
    return words


class Asker:
    """Makes the question of a seed, of what these options ask."""

    def __init__(self, seed: int, options: FrozenSet[str] = frozenset(OPTIONS)) -> None:
        self.dice = random.Random(f"question {seed}")
        self.options = options
        self.application: Dict[str, Any] = SmallMaker(seed).application()

    def question(self) -> Question:
        """The question."""
        schedule, start = self._schedule(), self._start()
        goals = Goals(self.dice, self.application)
        asked = (ASLEEP, *(goals.goal() for _ in range(GOALS)))
        return Question(json.dumps(self.application), start, schedule, asked)

    def _schedule(self) -> Schedule:
        pace, surprises = self._pace(), self._surprises()
        interrupts = self._interrupts()
        return Schedule(
            *(pace if PACE in self.options else (0, None)),
            surprises if SURPRISES in self.options else None,
            tuple(interrupts) if ISR in self.options else (),
        )

    def _pace(self) -> Tuple[int, Any]:
        least = self.dice.choice([0, 0, 1, 2])
        return self.dice.choice([(0, None), (least, least + self.dice.randint(least == 0, 2))])

    def _surprises(self) -> Any:
        return self.dice.choice([None, None, None, 0, 1, 2, 2, 3])

    def _interrupts(self) -> Sequence[Interrupt]:
        made: List[Interrupt] = []
        for number in range(self.dice.choice([0, 0, 1, 1, 2])):
            calls = tuple(self._call() for _ in range(self.dice.choice([1, 1, 2])))
            times, apart = self.dice.choice([1, 1, 2, None]), self.dice.choice([0, 0, 0, 1, 2])
            follows = 0 if number and made[0].times and times and self.dice.random() < 0.5 else None
            made.append(Interrupt(calls, times, follows, apart))
        return made

    def _call(self) -> str:
        queues = self.application.get("queues", [])
        if queues and self.dice.random() < 0.6:
            return (
                f"send {self.dice.choice(queues)['name']} {self.dice.choice(['-', '07', '0809'])}"
            )
        task = self.dice.choice(self.application["tasks"])["name"]
        entry = self.dice.randrange(self.application.get("notes", 1))
        return f"notify {task} {entry} {self.dice.randint(0, 3)} {self.dice.choice(ACTIONS)}"

    def _start(self) -> Tuple[str, ...]:
        task = self.dice.choice(self.application["tasks"])["name"]
        forward, register = self.dice.randint(1, 6), self.dice.randint(0, 2)
        lines = (f"forward {forward}", f"poke reg {task} 1 {register}", f"isr {self._call()}")
        chosen = tuple(line for line in lines if self.dice.random() < 0.7)
        return chosen if FROM in self.options and self.dice.random() < 0.4 else ()
