"""Runs to the first of several stops, and ways back to the last: exact both ways.

Where a stop is met among moves that are known is remembered (`known`), so that these are made
again, or taken back, without a look. Moves that were taken back, and aren't known, are looked at
one by one, a few of them; beyond these a run makes them anew, where it makes the same."""
import dataclasses
from typing import Any, Callable, List, Optional, Sequence

from rdbg import record, replies
from rdbg.adapter.known import Facts
from rdbg.adapter.messages import Wrong
from rdbg.adapter.stops import Begins, Stop, met_here
from rdbg.driving.interrupt import Interrupt, Interrupted
from rdbg.driving.target import Unable, read
from rdbg.driving.walk import MOST_PIECE, Walk
from rdbg.goals.paced import PacedWalk
from rdbg.goals.ways import is_stuck

# Stops are looked for within so many moves, then within so many times more, up to this.
FIRST_WINDOW, WIDER, MOST_WINDOW = 64, 8, 65_536
# Moves that were taken back are looked at so many at a time, at first and at the most; so many of
# those that a run would make again, and so many of others.
FIRST_LOOKED, MOST_LOOKED = 16, 256
LOOKED_OF_RUNS, LOOKED = 64, 8_192
# So many moves are made at a pace until something else can be done meanwhile.
FEW = 16


class Pause(Interrupt):
    """Whether a pause was asked for. What is long looks between two of its pieces."""

    def ask(self) -> None:
        """Asks for a pause, from any thread."""
        self._count = 1

    def forget(self) -> None:
        """Forgets what was asked before."""
        self._count = 0


@dataclasses.dataclass(frozen=True)
class Outcome:
    """How a run ended: `met`, at a stop; `limit`, after as many moves as were asked for; `wall`,
    where there is no further move; `stuck`, where nothing but the tick changes; `start`, where no
    move is left to be taken back; `paused`."""

    how: str
    met: Sequence[Stop] = ()
    wall: str = ""


class Runner:
    """Runs a target. `stops` says at what, and is asked again and again; `between` is called where
    something else can be done meanwhile."""

    def __init__(
        self, walk: Walk, stops: Callable[[], List[Stop]], between: Callable[[], None]
    ) -> None:
        self.walk, self._ask, self._between = walk, stops, between
        self.facts = Facts.of(walk)
        if not walk.target.is_own:
            self.facts.forget()
        # Where the run was last, and up to where there were moves when it began.
        self._here = self._end = walk.place

    def _stops(self) -> List[Stop]:
        """The stops, once something else was done meanwhile."""
        self._between()
        return prepared(self.walk, self._ask())

    def met(self) -> Outcome:
        """What is met here."""
        walk, facts, here = self.walk, self.facts, self.walk.place
        stops = prepared(walk, self._ask())
        unknown = [stop for stop in stops if stop.begin(facts, here) == here]
        met = met_here(walk, unknown) if unknown else []
        for stop in unknown:
            stop.learn(facts, here - 1, here, [here] if stop in met else [])
        return Outcome("met", [stop for stop in stops if stop.places(facts, here - 1, here)])

    def begin(self, limit: int) -> Outcome:
        """From the start on: to the first place where a stop is met, the start among them."""
        found = self.met()
        return found if found.met else self.forwards(limit)

    def forwards(self, limit: int) -> Outcome:
        """To the first place where a stop is met: through the moves that were taken back, which are
        made again, and then on, with so many new moves at the most."""
        walk = self.walk
        self._here = self._end = walk.place
        walk.wall = ""
        try:
            if isinstance(walk, PacedWalk):
                return self._paced(limit)
            self._end += walk.target.places().undone
            return self._again() or self._on(limit)
        except (Interrupted, Unable, Wrong) as ended:
            self._keep()
            if not isinstance(ended, Interrupted):
                raise
            walk.goto(self._here)
            return Outcome("paused")

    def _paced(self, limit: int) -> Outcome:
        """To the first stop by so many moves at the most at the walk's pace, one after the other."""
        walk = self.walk
        for made in range(limit):
            self._here = walk.place
            if made % FEW == 0:
                self._between()
            if is_stuck(walk.target) and not any("tick" in it.text for it in self._stops()):
                return Outcome("stuck")
            if not walk.forward(1):
                return Outcome("wall", wall=walk.wall)
            found = self.met()
            if found.met:
                return found
        return Outcome("limit")

    def _again(self) -> Optional[Outcome]:
        """To the first stop among moves that were taken back; none where there is no stop, or
        where a run makes those that are left."""
        walk, facts, low, end = self.walk, self.facts, self._here, self._end
        looked, size = 0, FIRST_LOOKED
        while low < end:
            self._here = low
            stops = self._stops()
            sure = min([end, *(stop.end(facts, low) for stop in stops)])
            found = first_of(stops, facts, low, sure)
            if found is not None:
                walk.goto(found)
                return self.met()
            walk.goto(sure)
            if sure > low:
                low = sure
                continue
            if facts.runs.end(low) >= end and looked >= LOOKED_OF_RUNS:
                return None  # (since a run makes the same)
            high = min(end, low + size)
            self._learn(stops, low, high, looked < LOOKED)
            looked += high - low
            size = min(2 * size, MOST_LOOKED if looked < LOOKED else MOST_WINDOW)
        return None

    def _learn(self, stops: Sequence[Stop], low: int, high: int, is_each: bool) -> None:
        """Learns where stops are met behind `low`, where this is, up to `high`, among moves that
        were taken back; by a look behind each, where there is room in the history. Ends there."""
        walk, facts = self.walk, self.facts
        unknown = [stop for stop in stops if stop.end(facts, low) < high]
        lasting = [stop for stop in unknown if isinstance(stop, Begins)]
        was = [stop.look(walk.target) for stop in lasting]
        plain = [stop.plain for stop in unknown if stop not in lasting]
        views = list(dict.fromkeys(view for stop in plain for view in stop.views(walk.target)))
        lines = (1 + len(views)) * (high - low + 1)
        if plain and is_each and walk.target.can_afford(lines):
            look_each(walk, plain, views, high)
        else:
            for stop in plain:
                walk.goto(high)
                stop.learn(facts, low, high, stop.all_last(walk, low))
        walk.goto(high)
        for stop, was_so in zip(lasting, was):
            self._begun(stop, low, was_so)

    def _begun(self, stop: Begins, low: int, was_so: bool) -> Optional[int]:
        """The place behind `low` up to here where something has begun that lasts. Stays here."""
        walk, facts, here = self.walk, self.facts, self.walk.place
        place: Optional[int] = None
        if not was_so and stop.look(walk.target):
            place = stop.began(walk, low)
            walk.goto(here)
        stop.learn(facts, low, here, [] if place is None else [place])
        return place

    def _on(self, limit: int) -> Outcome:
        """To the first stop by moves that weren't made yet, so many at the most. Before them come
        those that were taken back, and that a run makes anew."""
        walk, size = self.walk, FIRST_WINDOW
        while True:
            self._here = here = walk.place
            stops = self._stops()
            left, is_old = self._end + limit - here, here < self._end
            if left < 1:
                return Outcome("limit")
            if not is_old and is_stuck(walk.target) and not any("tick" in it.text for it in stops):
                return Outcome("stuck")
            window = min(size, self._end - here if is_old else left)
            found = self._first(stops, window)
            if found is not None:
                walk.settle(here, found)
                self._keep()
                return self.met()
            walk.wall = ""
            walk.reach(here + window)
            if walk.place < here + window:
                return Outcome("wall", wall=walk.wall)
            size = min(size * WIDER, MOST_WINDOW)

    def _keep(self) -> None:
        """Has the moves that were there behind those of this run be there to be made again."""
        walk, here = self.walk, self.walk.place
        there = here + walk.target.places().undone
        if there < self._end:
            walk.goto(there)
            while walk.place < self._end:
                piece = min(MOST_PIECE, self._end - walk.place)
                walk.target.ask(f"forward {piece}", replies.Moved)
            walk.goto(here)

    def _first(self, stops: Sequence[Stop], limit: int) -> Optional[int]:
        """The first place of so many moves where a stop is met. Ends anywhere among them."""
        walk, start, end = self.walk, self.walk.place, self.walk.place + limit
        found: Optional[int] = None
        lasting = [stop for stop in stops if isinstance(stop, Begins)]
        was = [stop.look(walk.target) for stop in lasting]
        for stop in stops:
            if end > start and stop not in lasting:
                place = self._next(stop, start, end)
                if place is not None:
                    found, end = place, place - 1
        walk.reach(end if found is None else found)
        # (what stays so once it is so hasn't begun where it isn't so at the end)
        for each, was_so in zip(lasting, was):
            place = self._begun(each, start, was_so)
            if place is not None:
                found = place
                walk.reach(place)
        return found

    def _next(self, stop: Stop, start: int, end: int) -> Optional[int]:
        """The first place behind `start` up to `end` where one stop is met."""
        walk, facts = self.walk, self.facts
        if stop.end(facts, start) >= end:
            return first_of([stop], facts, start, end)
        walk.wall = ""
        walk.reach(start)
        place = stop.next(walk, end - start)
        if place is not None:
            stop.learn(facts, start, place, [place])
        elif not walk.wall:
            stop.learn(facts, start, end, [])
        return place

    def backwards(self) -> Outcome:
        """Back to the last place before this one where a stop is met, or to the start."""
        walk, start = self.walk, self.walk.place
        found: Optional[int] = None
        try:
            # (those that are seen from here come first)
            for stop in sorted(self._stops(), key=lambda it: not isinstance(it, Begins)):
                self._between()
                place = self._last(stop, start, found)
                found = found if place is None else place
        except (Interrupted, Unable, Wrong) as ended:
            walk.goto(start)  # (what is in between may have been made by hand)
            if not isinstance(ended, Interrupted):
                raise
            return Outcome("paused")
        walk.goto(walk.target.base if found is None else found)
        return Outcome("start") if found is None else self.met()

    def _last(self, stop: Stop, start: int, least: Optional[int]) -> Optional[int]:
        """The last place before `start`, and behind `least`, where one stop is met."""
        walk, facts = self.walk, self.facts
        least = facts.floor if least is None else least
        if start - 1 <= least:
            return None
        low = stop.begin(facts, start - 1)
        known = stop.places(facts, max(low, least), start - 1)
        if known or low <= least:
            return known[-1] if known else None
        walk.goto(low + 1)
        place = stop.last(walk)
        if place is None:
            stop.learn(facts, facts.floor, low, [])
        else:
            stop.learn(facts, place - 1, low, [place])
        return place if place is not None and place > least else None


def prepared(walk: Walk, stops: List[Stop]) -> List[Stop]:
    """Stops of which all is known that has to be before a run from here."""
    for stop in stops:
        stop.prepare(walk)
    return stops


def first_of(stops: Sequence[Stop], facts: Facts, low: int, high: int) -> Optional[int]:
    """The first place behind `low` up to `high` where one of some stops is known to be met."""
    return min((place for it in stops for place in it.places(facts, low, high)[:1]), default=None)


def look_each(walk: Walk, stops: Sequence[Stop], views: Sequence[str], high: int) -> None:
    """Learns where stops are met behind this place up to one among the moves that were taken back,
    by a look behind each. Ends there."""
    low, target = walk.place, walk.target
    of = [stop.views(target) for stop in stops]
    answers = iter(target.tell_all([*views, *([record.again(), *views] * (high - low))]))
    seen: List[List[Any]] = []
    for place in range(low, high + 1):
        if place > low:
            read(next(answers))
        told = {view: read(next(answers)) for view in views}
        seen.append([stop.seen([told[view] for view in each]) for stop, each in zip(stops, of)])
    for stop, its in zip(stops, zip(*seen)):
        moves = enumerate(zip(its, its[1:]), low + 1)
        met = [place for place, (before, after) in moves if stop.is_met_by(before, after)]
        stop.learn(Facts.of(walk), low, high, met)
