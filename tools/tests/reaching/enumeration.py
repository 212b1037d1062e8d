"""All places that orders lead to, breadth first."""
from typing import Callable, Dict, List, Optional, Tuple

from tests.reaching.clock import Clock, Rules
from tests.reaching.machine import Places
from tests.reaching.states import State

# The number of a state, and the clock beside it.
Place = Tuple[int, Clock]


class Enumeration:
    """The places that orders of a schedule lead to, each with how few moves lead there: of orders
    of at most so many moves, and of fewer where there are more than so many places."""

    def __init__(
        self, machine: Places, rules: Rules, most_moves: int, most_places: int, begin: int = 0
    ) -> None:
        self.machine, self.rules = machine, rules
        start = (begin, rules.at_start(machine.states[begin]))
        # (the places with fewer moves come first)
        self.places: Dict[Place, int] = {start: 0}
        # how many moves were gone through, and whether there is no place behind them
        self.moves, self.is_all = 0, False
        # how many moves lead from one place to another
        self.made = 0
        last = [start]
        while self.moves < most_moves and not self.is_all:
            last = self._new_behind(last)
            if not last:
                self.is_all = True
            elif len(self.places) + len(last) > most_places and self.moves:
                break
            self.moves += int(not self.is_all)
            self.places.update((place, self.moves) for place in last)

    def behind(self, place: Place) -> List[Place]:
        """The places one move behind a place, by each move that may come there."""
        number, clock = place
        state = self.machine.states[number]
        choices = self.rules.choices(state, clock)
        moves = [self.rules.lines(choice) for choice in choices]
        return [
            (later, self.rules.after(state, clock, choice, self.machine.states[later]))
            for choice, later in zip(choices, self.machine.after(number, moves))
        ]

    def _new_behind(self, places: List[Place]) -> List[Place]:
        """The places one move behind these that weren't there before."""
        found: Dict[Place, None] = {}
        for place in places:
            later = self.behind(place)
            self.made += len(later)
            found.update((it, None) for it in later if it not in self.places)
        return list(found)

    def fewest_moves(self, holds: Callable[[State], bool]) -> Optional[int]:
        """With how few moves orders lead to a place where that holds."""
        known: Dict[int, bool] = {}
        for (number, _), moves in self.places.items():
            if number not in known:
                known[number] = holds(self.machine.states[number])
            if known[number]:
                return moves
        return None
