"""From which places a goal can still come: the graph of all places, gone through backwards."""
from typing import Callable, Dict, List, Set

from tests.reaching.enumeration import Enumeration, Place
from tests.reaching.states import State


class Graph:
    """All places that orders lead to, each with those from which a move leads there."""

    def __init__(self, there: Enumeration) -> None:
        assert there.is_all
        self.states = there.machine.states
        self.before: Dict[Place, List[Place]] = {place: [] for place in there.places}
        for place in there.places:
            for later in there.behind(place):
                self.before[later].append(place)

    def come(self, holds: Callable[[State], bool]) -> Set[Place]:
        """The places from which an order leads to one where that holds, and these themselves."""
        found = {place for place in self.before if holds(self.states[place[0]])}
        left = list(found)
        while left:
            for place in self.before[left.pop()]:
                if place not in found:
                    found.add(place)
                    left.append(place)
        return found
