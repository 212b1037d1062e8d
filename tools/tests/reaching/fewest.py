"""With how few surprises, and then with how few moves, a goal comes."""
import dataclasses
from typing import Callable, Dict, List, Optional, Sequence, Tuple

from tests.reaching.clock import Clock, Rules, Schedule
from tests.reaching.goals import Goal
from tests.reaching.machine import Places
from tests.reaching.states import State

# How many surprises, and how many moves.
Cost = Tuple[int, int]
# Where surprises aren't counted, so many may come.
ANY_NUMBER = 1_000_000
Place = Tuple[int, Clock]
Wanted = Callable[[Place], bool]
# Places by how many moves lead there.
Level = Dict[int, List[Place]]


def counting(schedule: Schedule) -> Rules:
    """The rules of a schedule by which surprises are counted in any case."""
    limit = ANY_NUMBER if schedule.surprises is None else schedule.surprises
    return Rules(dataclasses.replace(schedule, surprises=limit))


def _judging(goal: Goal, states: Sequence[State]) -> Wanted:
    return lambda place: goal.holds(states[place[0]])


class Levels:
    """Goes through places by rising numbers of surprises, and among these of moves, of which there
    are so many at the most, or any number. At a level are the places that orders of so many
    surprises lead to, and that none of fewer surprises leads to with as few moves; with any number
    of moves, those that none of fewer surprises leads to."""

    def __init__(self, machine: Places, rules: Rules, most_moves: Optional[int]) -> None:
        self.machine, self.rules, self.most = machine, rules, most_moves
        self.best: Dict[Place, int] = {}
        # of this number of surprises, by how many moves
        self.level: Level = {0: [(0, self.rules.at_start(machine.states[0]))]}

    def fewest(self, goals: Sequence[Goal]) -> List[Cost]:
        """With how few each of these goals comes, each of which does."""
        states = self.machine.states
        return self.fewest_to([_judging(goal, states) for goal in goals])

    def fewest_to(self, wanted: Sequence[Wanted]) -> List[Cost]:
        """With how few an order comes to a place that is wanted, of each sort, to which one
        does."""
        met: List[Optional[Cost]] = [None] * len(wanted)
        surprises = 0
        while None in met and self.level:
            level, self.level = self.level, {}
            while level:
                moves = min(level)
                for place in level.pop(moves):
                    if self._was_there(place, moves):
                        continue
                    self.best[place] = moves
                    self._judge(place, (surprises, moves), wanted, met)
                    if moves != self.most:
                        self._go_on(place, moves + 1, level)
            surprises += 1
        return [cost or (ANY_NUMBER, 0) for cost in met]

    def _was_there(self, place: Place, moves: int) -> bool:
        """Whether nothing comes from a place that didn't come from it before, with as few surprises
        and moves."""
        before = self.best.get(place)
        return before is not None and (self.most is None or before <= moves)

    def _judge(
        self, place: Place, cost: Cost, wanted: Sequence[Wanted], met: List[Optional[Cost]]
    ) -> None:
        for at, is_wanted in enumerate(wanted):
            if met[at] is None and is_wanted(place):
                met[at] = cost

    def _go_on(self, place: Place, moves: int, level: Level) -> None:
        number, clock = place
        state = self.machine.states[number]
        choices = self.rules.choices(state, clock)
        lines = [self.rules.lines(choice) for choice in choices]
        for choice, later in zip(choices, self.machine.after(number, lines)):
            after = self.rules.after(state, clock, choice, self.machine.states[later])
            its_level = self.level if after.spent else level
            its_level.setdefault(moves, []).append((later, after._replace(spent=0)))
