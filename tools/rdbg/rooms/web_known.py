"""What is known of a room's moves: blocks, one behind the other, of which a page shows a chain."""
from typing import Any, Dict, List, Optional, Tuple

from rdbg.application import Application
from rdbg.page.recorder import Recorder
from rdbg.driving.parts import Part

# So many moves are kept at the least, and so many more until the oldest are forgotten.
MOST_MOVES, SLACK = 20_000, 4_096
# A block has so many moves, and so many values, until the next one is begun.
BLOCK_MOVES, BLOCK_VALUES = 1_024, 20_000
# A page begins with so many moves before a place, where they are known.
NEAR = 24
Values = Dict[str, object]


def block(application: Application, part: Part) -> Recorder:
    """A new block with what a part has."""
    found = Recorder(application)
    found.add(part)
    return found


class Known:
    """The moves that were looked at. The chain is what is shown: its blocks touch each other. Where
    many moves were made at once it begins anew at their end, and what was known before is kept
    until the moves between have been looked at, from the end on."""

    def __init__(self, application: Application, part: Part) -> None:
        self._application = application
        self._chain: List[Recorder] = [block(application, part)]
        self._older: List[Recorder] = []
        # The trims, each with its place and line, also those whose places aren't known yet.
        self.trims: List[List[Any]] = []
        # Whether other moves than those of the chain have been made since.
        self._is_void = False

    @property
    def first(self) -> int:
        """The first place that is shown."""
        return self._chain[0].first

    @property
    def last(self) -> int:
        """The last place that is known, undone or not."""
        return self._chain[-1].last

    def has(self, place: int) -> bool:
        """Whether a place is among those that are shown."""
        return not self._is_void and self.first <= place <= self.last

    def find(self, place: int) -> bool:
        """Shows a place of what was known before, and keeps in its stead what was shown; if any."""
        older, self._older = self._older, [] if self._is_void else self._chain
        self._is_void = False
        if not older or not older[0].first <= place <= older[-1].last:
            return False
        self._chain, self._older = older, []
        return True

    def near(self, place: int, most: int) -> int:
        """How many moves up to a place are looked at first: unknown ones, so many at the most."""
        least = self._older[-1].last if self._older else 0
        return min(most, place - least if least < place else place)

    def jump(self, part: Part) -> None:
        """Begins anew with moves that aren't in the chain, nor in what was known before."""
        begun = block(self._application, part)
        if begun.last < self.last:
            self._older = []
        self._chain = [begun]
        self._join()

    def _join(self) -> None:
        """Shows what was known before as well, once the moves between are known."""
        if self._older and self._older[-1].last >= self.first:
            self._chain = self._older + self._chain
            self._older = []

    def cut(self, place: int) -> bool:
        """Forgets the moves behind a place, where others are made; whether the chain ends there."""
        self.trims = [it for it in self.trims if it[0] <= place]
        if place < self.first and self._older:
            self._chain, self._older = self._older, []
        self._is_void = self._is_void or place < self.first
        if not self.has(place):
            return False
        while len(self._chain) > 1 and self._chain[-1].first >= place:
            self._chain.pop()
        if self.last > place:
            self._chain[-1].cut(place)
        return True

    def add(self, part: Part) -> Values:
        """Takes note of the moves behind the last one, and answers what a page has to add."""
        place = part.before.place
        end = self._chain[-1]
        if end.last - end.first >= BLOCK_MOVES or end.size > BLOCK_VALUES:
            end = block(self._application, part)
            self._chain.append(end)
        else:
            end.add(part)
        return {"cut": place, "last": self.last, **end.behind(place)}

    def wanted(self, count: int, end: int) -> Optional[Tuple[int, int]]:
        """The first and the last place of at most so many moves that should be looked at next: those
        behind the last one, which were taken back, up to an end; then those before the first."""
        if self._is_void:
            return None
        if self.last < end and self.last - self.first < MOST_MOVES:
            return self.last + 1, min(self.last + count, end)
        least = self._least()
        return (max(least, self.first - count) + 1, self.first) if least < self.first else None

    def missing(self, end: int) -> int:
        """How many moves there are that should be looked at."""
        ahead = max(0, min(end, self.first + MOST_MOVES) - self.last)
        return ahead + max(0, self.first - self._least())

    def _least(self) -> int:
        """Up to which place the moves before the first one should be looked at."""
        least = max(0, self.last - MOST_MOVES)
        return max(least, self._older[-1].last) if self._older else least

    def put(self, part: Part) -> Values:
        """Takes note of moves that were wanted, and answers what a page has to add behind."""
        if part.before.place == self.last:
            return self.add(part)
        self._chain.insert(0, block(self._application, part))
        self._join()
        return {}

    def forget(self) -> bool:
        """Forgets the oldest moves where there are too many, and answers whether it did."""
        if self.last - self.first <= MOST_MOVES + SLACK:
            return False
        while len(self._chain) > 1 and self.last - self._chain[0].last >= MOST_MOVES:
            self._chain.pop(0)
        self.trims = [it for it in self.trims if it[0] >= self.first]
        return True

    def around(self, place: int) -> Values:
        """The blocks at a place, with which a page begins; the first of them alone has scripts."""
        at = begin = max(at for at, it in enumerate(self._chain) if it.first <= place)
        while begin and place - self._chain[begin].first < NEAR:
            begin -= 1
        shown = self._chain[begin : at + 1]
        blocks = [it.values(has_code=not index) for index, it in enumerate(shown)]
        return {"blocks": blocks, "trims": self.trims}

    def before(self, place: int) -> Values:
        """The block that ends at a place, which a page has as its first; none where none does."""
        found = [it for it in self._chain if it.last == place and it.first < place]
        return found[0].values(has_code=False) if found else {}

    def behind(self, place: int) -> Values:
        """The moves of a block that a page which ends at a place has to add; none behind all."""
        if not self.first <= place < self.last:
            return {}
        found = next(it for it in self._chain if it.last > place)
        return {"cut": place, "last": found.last, **found.behind(place)}
