"""A cache of facts about the moves of a target: where stops are hit, and which moves a run would
make again. Facts about moves are dropped when those moves are replaced."""
import bisect
import weakref
from typing import Dict, Hashable, List, Sequence, Tuple

from rdbg.driving.target import SINGLE, Target
from rdbg.driving.walk import Walk

# Words by which a run makes moves.
RUNS = ("forward", "until")


class Stretches:
    """Stretches of moves, each from behind a place up to another, in order and apart."""

    def __init__(self) -> None:
        self._all: List[Tuple[int, int]] = []

    def add(self, low: int, high: int) -> None:
        """Adds the moves behind `low` up to `high`."""
        if low >= high:
            return
        near = [it for it in self._all if it[0] <= high and it[1] >= low]
        apart = [it for it in self._all if it not in near]
        low = min([low, *(it[0] for it in near)])
        high = max([high, *(it[1] for it in near)])
        self._all = sorted([*apart, (low, high)])

    def cut(self, place: int) -> None:
        """Drops what is behind a place."""
        if self._all and self._all[-1][1] > place:
            self._all = [(low, min(high, place)) for low, high in self._all if low < place]

    def end(self, place: int) -> int:
        """How far a stretch leads on from a place: no further than there, where none does."""
        return next((high for low, high in self._all if low <= place < high), place)

    def begin(self, place: int) -> int:
        """From where a stretch leads to a place: from there, where none does."""
        return next((low for low, high in self._all if low < place <= high), place)

    def before(self, place: int, least: int) -> int:
        """Where the last stretch ends that does before a place: at `least` where none does."""
        return max([least, *(high for _, high in self._all if high < place)])


class Met:
    """At which places one stop is met, where that is known."""

    def __init__(self) -> None:
        self.known = Stretches()
        self._places: List[int] = []

    def learn(self, low: int, high: int, places: Sequence[int]) -> None:
        """Takes note that behind `low` up to `high` it is met at these places alone."""
        self.known.add(low, high)
        there = self._places
        first, last = bisect.bisect_right(there, low), bisect.bisect_right(there, high)
        there[first:last] = sorted(places)

    def between(self, low: int, high: int) -> List[int]:
        """Where it is met behind `low` up to `high`, as far as that is known."""
        there = self._places
        return there[bisect.bisect_right(there, low) : bisect.bisect_right(there, high)]

    def cut(self, place: int) -> None:
        """Forgets what is behind a place."""
        self.known.cut(place)
        del self._places[bisect.bisect_right(self._places, place) :]


class Facts:
    """What is known of one target's moves. It hears each line, and so when they become others."""

    def __init__(self, target: Target) -> None:
        self._target = target
        target.hearing.append(self._seen)
        self._met: Dict[Hashable, Met] = {}
        # Where a run makes just the moves that there are.
        self.runs = Stretches()

    @classmethod
    def of(cls, walk: Walk) -> "Facts":
        """Those of the target that is walked here, which are the same for all who ask."""
        if walk not in ALL:
            ALL[walk] = cls(walk.target)
        return ALL[walk]

    @property
    def floor(self) -> int:
        """Behind which place one can know whether a stop is met: the start is behind -1."""
        return self._target.base or -1

    def met(self, key: Hashable) -> Met:
        """Where a stop is met."""
        return self._met.setdefault(key, Met())

    def forget(self) -> None:
        """Forgets all, where others may have moved the target."""
        self._met.clear()
        self.runs = Stretches()

    def _seen(self, line: str, reply: str, before: int) -> None:
        word = line.split(" ", 1)[0]
        if not reply.startswith("ok at "):
            return
        if word in SINGLE:
            self._cut(before)
        elif word in RUNS:
            # (from here a run makes the moves that a run has made here)
            self._cut(self.runs.end(before))
            self.runs.add(before, self._target.place)

    def _cut(self, place: int) -> None:
        """Forgets what was known of moves that are others now."""
        self.runs.cut(place)
        for met in self._met.values():
            met.cut(place)


# What is known, for as long as somebody walks there.
ALL: "weakref.WeakKeyDictionary[Walk, Facts]" = weakref.WeakKeyDictionary()
