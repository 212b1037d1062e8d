"""The ways to a goal: what a run goes to, and a way back.

A goal is found by small runs and looks between. A way says the place of the very move, and may
leave the target anywhere that a run from where it began came through."""
import dataclasses
from functools import partial
from typing import Callable, Iterator, List, Optional, Sequence, Tuple

from rdbg import record, replies
from rdbg.by_hand import INTERRUPT
from rdbg.driving.target import Target, read
from rdbg.driving.walk import Walk
from rdbg.goals.claims import Goal, Holds, Not, Stuck, Turns, Waits
from rdbg.goals.conditions import Condition
from rdbg.looks import Look, Names

# What lasts is looked for after so many moves, and then after twice as many.
FIRST_STRIDE, MOST_STRIDE = 32, 8_192
# So many places are looked at one by one at first, and twice as many each time, up to this: where
# conditions don't say how far it is, or it was less than so far so many times.
FIRST_CHUNK, MOST_CHUNK = 8, 256
NEAR, TURNS = 8, 4
# The first of several goals is looked for within so many moves, and then within so many times more.
FIRST_WINDOW, WIDER = 64, 8
Place = Optional[int]


def first_of(walk: Walk, finds: Sequence[Callable[[int], Place]], limit: int) -> Tuple[Place, int]:
    """The first place of so many moves that one of these finds, and which. Stays where it is."""
    start, left, which = walk.place, limit, -1
    found: Optional[int] = None
    for at, find in enumerate(finds):
        if left < 1:
            break
        place = find(left)
        if place is not None:
            found, left, which = place, place - start - 1, at
        walk.reach(start)
    return found, which


def last_of(walk: Walk, finds: Sequence[Callable[[], Place]]) -> Tuple[Place, int]:
    """The last earlier place that one of these finds, and which. Stays where it is."""
    start, which = walk.place, -1
    found: Optional[int] = None
    for at, find in enumerate(finds):
        place = find()
        if place is not None and (found is None or place > found):
            found, which = place, at
        walk.goto(start)
    return found, which


def nearest(walk: Walk, conditions: Sequence[Condition], limit: int) -> Optional[int]:
    """The first place of a run where one of these conditions holds. Stays where it is."""
    return first_of(walk, [partial(walk.until, it.text) for it in conditions], limit)[0]


def latest(walk: Walk, conditions: Sequence[Condition]) -> Optional[int]:
    """The last earlier place where one of these conditions holds. Stays where it is."""
    return last_of(walk, [partial(walk.back_until, it.text) for it in conditions])[0]


def look_at(target: Target, goal: Goal) -> Look:
    """A look at what a goal speaks of."""
    return target.look(goal.names(target.names))


def looked(
    walk: Walk, end: int, most: int, views: Sequence[str]
) -> Iterator[Tuple[int, List[replies.Reply]]]:
    """Some of the places up to one, or back to one, so many at the most, each with what these lines
    are answered there. The target ends behind the last; at a wall no more are told."""
    start, is_later = walk.place, end > walk.place
    line = "forward 1" if is_later else record.back(1)
    size, width = min(most, abs(end - start)), len(views) + 1
    walk.target.afford(width * size)
    answers = walk.target.tell_all([line, *views] * size)
    for step in range(size):
        moved, *seen = answers[step * width : (step + 1) * width]
        if moved.startswith("no "):
            walk.wall = moved[3:]
            return
        yield start + (step + 1 if is_later else -step - 1), [read(each) for each in seen]


def otherwise(walk: Walk, end: int, view: str, of: Callable[[replies.Reply], object]) -> Place:
    """The first place up or back to one where a line doesn't show what it does here."""
    here, chunk = of(read(walk.target.tell(view))), FIRST_CHUNK
    while True:
        walk.interrupt.check()
        start = walk.place
        for place, (seen,) in looked(walk, end, chunk, [view]):
            if of(seen) != here:
                return place
        if abs(walk.place - start) < chunk:
            return None
        chunk = min(2 * chunk, MOST_CHUNK)


def is_so(target: Target, goal: Goal) -> bool:
    """Whether a goal holds where the target stands."""
    if isinstance(goal, Holds):
        return goal.condition.holds(read(target.tell(goal.condition.view)))
    # (mostly it is seen by one line that something goes on)
    if isinstance(goal, Stuck) and any(target.ask("show cores", replies.Cores).running):
        return False
    return goal.is_so(look_at(target, goal))


def is_stuck(target: Target) -> bool:
    """Whether no run changes more than the tick."""
    return is_so(target, Stuck())


@dataclasses.dataclass
class Search:
    """A search for places where a goal holds: by conditions from one that can be it to the next, or
    by looks at all of them, where these are near to each other."""

    walk: Walk
    goal: Goal

    def __post_init__(self) -> None:
        self._chunk, self._short = FIRST_CHUNK, 0
        self._names: Names = self.goal.names(self.walk.target.names)

    def first(self, limit: int) -> Optional[int]:
        """The first place behind this one, at most so many moves on."""
        walk = self.walk
        if isinstance(self.goal, Holds):
            return walk.until(self.goal.text, limit) if limit > 0 else None
        if self.goal.is_lasting and not is_so(walk.target, self.goal):
            return self._begun(limit)
        end = walk.place + limit
        while walk.place < end:
            walk.interrupt.check()
            look = look_at(walk.target, self.goal)
            turns = None if self.goal.is_so(look) else self.goal.turns(look, earlier=False)
            place, is_end = self._onwards(turns, end)
            if place is not None or is_end:
                return place
        return None

    def last(self) -> Optional[int]:
        """The last place before this one, as far as records lead."""
        walk, base = self.walk, self.walk.target.base
        if isinstance(self.goal, Holds):
            return walk.back_until(self.goal.text)
        while walk.place > base:
            walk.interrupt.check()
            walk.goto(walk.place - 1)
            look, here = look_at(walk.target, self.goal), walk.place
            if self.goal.is_so(look):
                return here
            if self.goal.is_lasting and only_runs(walk.target):
                return None
            if isinstance(self.goal, Not) and self.goal.goal.is_lasting and only_runs(walk.target):
                # (it isn't so behind the last place at which what lasts isn't so yet)
                walk.goto(base)
                is_there = is_so(walk.target, self.goal)
                return Search(walk, self.goal.goal).between(base, here) - 1 if is_there else None
            place, is_end = self._onwards(self.goal.turns(look, earlier=True), base)
            if place is not None or is_end:
                return place
        return None

    def _onwards(self, turns: Turns, end: int) -> Tuple[Optional[int], bool]:
        """Goes on to where the goal may be so, at most up to a place, or back to one: the place
        where it is so, and whether there is no further one."""
        walk, here = self.walk, self.walk.place
        if turns is None or self._short >= TURNS:
            return self._scan(end), end > here and walk.place == here
        place = nearest(walk, turns, end - here) if end > here else latest(walk, turns)
        if place is None:
            return None, True
        walk.reach(place)
        # (how often it wasn't far to a place that could have been it)
        self._short = self._short + 1 if abs(place - here) < NEAR else 0
        return place if is_so(walk.target, self.goal) else None, False

    def _scan(self, end: int) -> Optional[int]:
        """The first of some of the next places, looked at one by one, where it is so, or none."""
        most = self._chunk
        self._chunk, self._short = min(2 * most, MOST_CHUNK), self._short // 2
        for place, seen in looked(self.walk, end, most, self._names.lines()):
            if self.goal.is_so(Look.of(place, seen)):
                return place
        return None

    def _begun(self, limit: int) -> Optional[int]:
        """The first place of so many moves where what lasts is so, which it isn't here."""
        walk = self.walk
        start, stride = walk.place, FIRST_STRIDE
        while walk.place - start < limit:
            low = walk.place
            asked = min(stride, limit - (low - start))
            made = walk.forward(asked)
            if is_so(walk.target, self.goal):
                return self.between(low, walk.place)
            if made < asked:
                break
            stride = min(stride * 2, MOST_STRIDE)
        return None

    def between(self, low: int, high: int) -> int:
        """The first place above `low`, where what lasts isn't so, up to `high`, where it is."""
        while high - low > 1:
            self.walk.goto((low + high) // 2)
            if is_so(self.walk.target, self.goal):
                high = self.walk.place
            else:
                low = self.walk.place
        return high


def only_runs(target: Target) -> bool:
    """Whether tasks and ticks alone have moved the target, as far as is known."""
    made = target.by_hand.values()
    return target.is_own and not any(it.line.split(" ")[0] == INTERRUPT for it in made)


class Way:
    """A way to a goal. `text` names it as it is typed."""

    text = ""

    def next(self, walk: Walk, limit: int) -> Optional[int]:
        """The first place behind this one, at most so many moves on, where it is met, or none."""
        raise NotImplementedError

    def last(self, walk: Walk) -> Optional[int]:
        """The last place before this one where it is met, or none."""
        raise NotImplementedError

    def is_so(self, target: Target) -> Optional[bool]:
        """Whether what the goal asks for is so here; none where it asks for a change."""
        return None


class To(Way):
    """Places where a goal holds, or (`becoming`) where it does behind a move, and didn't before."""

    def __init__(self, goal: Goal, becoming: bool, text: str = "") -> None:
        self.goal, self.becoming, self.text = goal, becoming, text or goal.text

    def is_so(self, target: Target) -> bool:
        return is_so(target, self.goal)

    def next(self, walk: Walk, limit: int) -> Optional[int]:
        start = walk.place
        if self.becoming and self.is_so(walk.target):
            gone = None if self.goal.is_lasting else Search(walk, Not(self.goal)).first(limit)
            if gone is None:
                return None
            walk.reach(gone)
        return Search(walk, self.goal).first(limit - (walk.place - start))

    def last(self, walk: Walk) -> Optional[int]:
        place = Search(walk, self.goal).last()
        if place is None or not self.becoming:
            return place
        walk.goto(place)
        other = Search(walk, Not(self.goal)).last()
        return None if other is None else other + 1


class Wakes(To):
    """A task is woken, or its time is up: it waited before a move, and doesn't after it."""

    def __init__(self, task: str) -> None:
        super().__init__(Not(Waits(task)), True, f"wakes {task}")


class AnyOf(Way):
    """The first of several. `met` is the one that was met."""

    def __init__(self, text: str, ways: Sequence[Way]) -> None:
        self.text, self.ways = text, ways
        self.met: Optional[Way] = None

    def next(self, walk: Walk, limit: int) -> Optional[int]:
        start, window = walk.place, FIRST_WINDOW if len(self.ways) > 1 else limit
        while True:
            here = walk.place
            left = limit - (here - start)
            finds = [partial(it.next, walk) for it in self.ways]
            found, which = first_of(walk, finds, min(window, left))
            if found is not None or left <= window or walk.wall:
                return self._met(found, which)
            walk.reach(here + window)
            window *= WIDER

    def last(self, walk: Walk) -> Optional[int]:
        return self._met(*last_of(walk, [partial(it.last, walk) for it in self.ways]))

    def _met(self, place: Optional[int], which: int) -> Optional[int]:
        self.met = self.met if place is None else self.ways[which]
        return place
