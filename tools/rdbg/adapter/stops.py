"""Stops of a run. A move hits a stop; rdbg's own `until` and `back until` find the move.

`next` and `last` return the place of that move. They may leave the target at any place that a run
from the starting place passed, or after it."""
import dataclasses
from typing import Any, Hashable, List, Optional, Sequence, Tuple

from rdbg import kinds
from rdbg.adapter.known import Facts
from rdbg.adapter.messages import Wrong
from rdbg.adapter.sweeps import Backwards, Counts, Onwards
from rdbg.application import Application
from rdbg.driving.target import Target, read
from rdbg.driving.walk import Walk
from rdbg.goals.changes import HIDING, Changes
from rdbg.goals.claims import Goal, Holds
from rdbg.goals.conditions import Condition
from rdbg.goals.ways import Search, To, Way, is_so, latest, nearest, otherwise
from rdbg.looks import Key, Look, content_of

# So many places are looked at one by one before one asks rdbg for the last where it was otherwise.
NEAR = 4
# So many turns two conditions are gone to, now the one and now the other, before all places of one
# are looked at.
TURNS = 8
# Instructions that put an item into a queue, and so a handle into its set.
PUTTING = ("send", "front", "over")
# So many hits are counted at the most.
MOST_HITS = 100_000


class Stop(Way):
    """Something at which a run stops: `text` says what."""

    @property
    def plain(self) -> "Stop":
        """It, or the one whose hits it counts."""
        return self

    @property
    def key(self) -> Hashable:
        """What it has in common with all that are met at the same places."""
        return type(self).__name__, self.text

    def views(self, target: Target) -> List[str]:
        """The lines whose replies say what of the target it hangs on."""
        raise NotImplementedError

    def seen(self, answers: Sequence[Any]) -> Any:
        """What these replies say of that."""
        raise NotImplementedError

    def look(self, target: Target) -> Any:
        """What of the target it hangs on."""
        return self.seen([read(target.tell(view)) for view in self.views(target)])

    def is_met_by(self, before: Any, after: Any) -> bool:
        """Whether a move meets it, by what it hangs on before and after: mostly that it changes."""
        return bool(before != after)

    def is_met_at_start(self, walk: Walk) -> bool:
        """Whether it is met at the first place, to which no move leads."""
        return False

    def is_met(self, walk: Walk) -> bool:
        """Whether the move to this place has met it. Stays where it is."""
        return bool(met_here(walk, [self]))

    def all_next(self, walk: Walk, limit: int, counts: Counts) -> Tuple[List[int], int]:
        """All places behind this one, at most so many moves on, where it is met, up to one that
        counts, or a little further; and up to where they are all."""
        end, found = walk.place + limit, []  # type: int, List[int]
        while walk.place < end:
            walk.interrupt.check()
            place = self.next(walk, end - walk.place)
            if place is None:
                return found, walk.place if walk.wall else end
            found.append(place)
            walk.reach(place)
            if counts(len(found)):
                break
        return found, walk.place

    def all_last(self, walk: Walk, low: int) -> List[int]:
        """All places behind `low` up to this one where it is met."""
        found = [walk.place] if self.is_met(walk) else []
        while walk.place > low:
            walk.interrupt.check()
            place = self.last(walk)
            if place is None or place <= low:
                break
            found.append(place)
            not_too_many(self, found)
            walk.goto(place)
        return found

    def prepare(self, walk: Walk) -> None:
        """Learns what has to be known before a run from here. Stays where it is."""

    def end(self, facts: Facts, place: int) -> int:
        """How far on from a place it is known where it is met."""
        return facts.met(self.key).known.end(place)

    def begin(self, facts: Facts, place: int) -> int:
        """From where on up to a place it is known where it is met."""
        return facts.met(self.key).known.begin(place)

    def places(self, facts: Facts, low: int, high: int) -> List[int]:
        """Where it is met behind `low` up to `high`, as far as that is known."""
        return facts.met(self.key).between(low, high)

    def learn(self, facts: Facts, low: int, high: int, places: Sequence[int]) -> None:
        """Takes note that behind `low` up to `high` it is met at these places alone."""
        facts.met(self.key).learn(low, high, places)


class Reaches(Stop, To):
    """A goal becomes so: it didn't hold before a move, and does after it."""

    def __init__(self, goal: Goal, text: str = "") -> None:
        super().__init__(goal, True, text)

    @property
    def key(self) -> Hashable:
        return "reaches", self.goal

    def views(self, target: Target) -> List[str]:
        return self.goal.names(target.names).lines()

    def seen(self, answers: Sequence[Any]) -> bool:
        return self.goal.is_so(Look.of(0, answers))

    def is_met_by(self, before: bool, after: bool) -> bool:
        return after and not before


class Becomes(Reaches):
    """A condition becomes so: it didn't hold before a move, and does after it. `is_at_start` says
    that it is met at boot, too, where it holds there."""

    def __init__(self, condition: Condition, text: str = "", is_at_start: bool = False) -> None:
        super().__init__(Holds(condition), text)
        self.condition, self.is_at_start = condition, is_at_start

    @property
    def key(self) -> Hashable:
        return "becomes", self.condition, self.is_at_start

    def views(self, target: Target) -> List[str]:
        return [self.condition.view]

    def seen(self, answers: Sequence[Any]) -> bool:
        return self.condition.holds(answers[0])

    def is_met_at_start(self, walk: Walk) -> bool:
        return self.is_at_start and walk.place == 0 and self.look(walk.target)

    def last(self, walk: Walk) -> Optional[int]:
        if walk.place <= walk.target.base or walk.back_until(self.condition.text) is None:
            return None
        for _ in range(min(NEAR, walk.place - walk.target.base)):
            walk.goto(walk.place - 1)
            if not self.look(walk.target):
                return walk.place + 1
        other = latest(walk, self.condition.others(earlier=True))
        if other is None:
            return 0 if self.is_at_start and not walk.target.base else None
        return other + 1

    def all_next(self, walk: Walk, limit: int, counts: Counts) -> Tuple[List[int], int]:
        sweep = Onwards(walk, self.condition, walk.place + limit)
        sweep.run(counts)
        return sweep.found, sweep.place

    def all_last(self, walk: Walk, low: int) -> List[int]:
        sweep = Backwards(walk, self.condition, max(low, walk.target.base))
        sweep.run(lambda hits: hits > MOST_HITS)
        not_too_many(self, sweep.found)
        return sweep.found + ([0] if low < 0 and self.began(sweep) else [])

    def began(self, sweep: Backwards) -> bool:
        """Whether it was met at the start, to which a sweep has come."""
        return self.is_at_start and sweep.place == 0 and sweep.holds and sweep.fits


class Amount(Stop):
    """A number of the target's changes, or the phase of a task. `watched` are the words of a
    condition that stand before its operator."""

    def __init__(self, watched: str) -> None:
        self.text = f"{watched} changes"
        kind, *rest = watched.split()
        name = rest[0] if rest else ""
        self._shape = Condition(kind, name, int(rest[1]) if rest[1:] else 0)

    @property
    def key(self) -> Hashable:
        return "amount", self._shape

    def views(self, target: Target) -> List[str]:
        return [self._shape.view]

    def seen(self, answers: Sequence[Any]) -> Any:
        is_phase = self._shape.kind == "phase"
        return answers[0].phase.word if is_phase else self._shape.amount(answers[0])

    def _others(self, target: Target, earlier: bool) -> List[Condition]:
        """Conditions of which one holds wherever it is otherwise than here."""
        now = {"phase" if self._shape.kind == "phase" else "number": self.look(target)}
        return dataclasses.replace(self._shape, **now).others(earlier)

    def next(self, walk: Walk, limit: int) -> Optional[int]:
        return nearest(walk, self._others(walk.target, False), limit)

    def last(self, walk: Walk) -> Optional[int]:
        if walk.place <= walk.target.base:
            return None
        walk.goto(walk.place - 1)
        other = latest(walk, self._others(walk.target, True))
        return None if other is None else other + 1


class Content(Stop, Changes):
    """What an object holds changes, whoever waits at it."""

    def __init__(self, target: Target, key: Key) -> None:
        super().__init__(target, *key)
        self._parts = parts_of(target.application, *key) if target.application else []

    @property
    def key(self) -> Hashable:
        return "content", self.view

    def views(self, target: Target) -> List[str]:
        return [self.view]

    def seen(self, answers: Sequence[Any]) -> Any:
        return content_of(answers[0])

    def next(self, walk: Walk, limit: int) -> Optional[int]:
        if not self._parts:
            return super().next(walk, limit)
        start, end, found = walk.place, walk.place + limit, None
        for part in self._parts:
            walk.reach(start)
            while walk.place < end:
                walk.interrupt.check()
                place = part.next(walk, end - walk.place)
                if place is None:
                    break
                walk.reach(place)
                if self._is_changed(walk, part):
                    found, end = place, place - 1
        return found

    def last(self, walk: Walk) -> Optional[int]:
        if not self._parts or not walk.target.is_own or walk.target.by_hand:
            return super().last(walk)
        start, found = walk.place, -1
        for part in self._parts:
            walk.goto(start)
            place = part.last(walk)
            while place is not None and place > found:
                walk.interrupt.check()
                walk.goto(place)
                if self._is_changed(walk, part):
                    found = place
                    break
                place = part.last(walk)
        return None if found < 0 else found

    def _is_changed(self, walk: Walk, part: Stop) -> bool:
        return isinstance(part, Amount) or self.is_met(walk)


class Seat(Stop):
    """Who is on a core changes, or who is ready; `watched` is `core 0`, or `ready`."""

    def __init__(self, watched: str) -> None:
        self.text, self._watched = f"{watched} changes", watched

    def views(self, target: Target) -> List[str]:
        return ["show cores"]

    def seen(self, answers: Sequence[Any]) -> Any:
        _, _, core = self._watched.partition(" ")
        return answers[0].running[int(core)] if core else answers[0].ready

    def _otherwise(self, walk: Walk, end: int) -> Optional[int]:
        return otherwise(walk, end, "show cores", lambda seen: self.seen([seen]))

    def next(self, walk: Walk, limit: int) -> Optional[int]:
        return self._otherwise(walk, walk.place + limit)

    def last(self, walk: Walk) -> Optional[int]:
        if walk.place <= walk.target.base:
            return None
        walk.goto(walk.place - 1)
        place = self._otherwise(walk, walk.target.base)
        return None if place is None else place + 1


def parts_of(application: Application, kind: str, name: str) -> List[Stop]:
    """Stops of which one is met wherever a move of a task changes an object: that there is more or
    less in it, or that a task has done what can change it and leave that."""
    codes = [
        (Condition("pc", task.name, number=at + 1), code.words())
        for task in application.tasks
        for at, code in enumerate(task.code)
    ]
    word = kinds.OF_WORD[kind].amount
    amount = [Amount(f"{word} {name}")] if word else []
    done: List[Tuple[str, str]] = [(word, name) for word in HIDING.get(kind, ("select",))]
    if kind == kinds.QUEUE_SET.word:
        members = [member for it in application.sets if it.name == name for member in it.members]
        members += [words[1] for _, words in codes if words[0] == "setadd" and words[2] == name]
        done += [(word, member) for word in PUTTING for member in members]
    return [*amount, *(Becomes(behind) for behind, words in codes if tuple(words[:2]) in done)]


class Begins(Reaches):
    """Something that stays once it is so has become so: a task has failed, or all is asleep."""

    def last(self, walk: Walk) -> Optional[int]:
        base = walk.target.base
        if walk.place <= base or not self.look(walk.target):
            return None
        walk.goto(walk.place - 1)
        return self.began(walk, base) if self.look(walk.target) else None

    def began(self, walk: Walk, low: int) -> Optional[int]:
        """The place behind `low`, up to here, where it has become so, if it wasn't there."""
        high = walk.place
        walk.goto(low)
        return None if self.look(walk.target) else Search(walk, self.goal).between(low, high)


def becoming(goal: Goal, text: str = "") -> Stop:
    """The stop where a goal becomes so."""
    return Becomes(goal.condition, text) if isinstance(goal, Holds) else Reaches(goal, text)


class Where(Stop):
    """A stop that counts only where a goal holds behind its move."""

    def __init__(self, stop: Stop, goal: Goal) -> None:
        self._stop, self._goal, self._behind = stop, goal, becoming(goal)
        # (what is one condition can be looked for by many lines at a time)
        self._condition = goal.condition if isinstance(goal, Holds) else None
        self._width = 0
        self.text = f"{stop.text}, {goal.text}"

    @property
    def key(self) -> Hashable:
        return self._stop.key, self._goal

    def views(self, target: Target) -> List[str]:
        views = self._stop.views(target)
        self._width = len(views)
        return [*views, *self._behind.views(target)]

    def seen(self, answers: Sequence[Any]) -> Tuple[Any, bool]:
        width = self._width
        return self._stop.seen(answers[:width]), self._behind.seen(answers[width:])

    def is_met_by(self, before: Tuple[Any, bool], after: Tuple[Any, bool]) -> bool:
        return after[1] and self._stop.is_met_by(before[0], after[0])

    def is_met_at_start(self, walk: Walk) -> bool:
        return self._stop.is_met_at_start(walk) and is_so(walk.target, self._goal)

    def next(self, walk: Walk, limit: int) -> Optional[int]:
        end, turns = walk.place + limit, 0
        while walk.place < end:
            walk.interrupt.check()
            if turns == TURNS and isinstance(self._stop, Becomes) and self._condition:
                sweep = Onwards(walk, self._stop.condition, end, self._condition)
                sweep.run(bool)
                return sweep.found[0] if sweep.found else None
            place, turns = self._stop.next(walk, end - walk.place), turns + 1
            if place is None:
                return None
            walk.reach(place)
            if is_so(walk.target, self._goal):
                return place
            # (it isn't met before the condition holds again)
            place = Search(walk, self._goal).first(end - place)
            if place is None:
                return None
            walk.reach(place)
            if self._stop.is_met(walk):
                return place
        return None

    def last(self, walk: Walk) -> Optional[int]:
        turns = 0
        while True:
            walk.interrupt.check()
            if turns == TURNS and isinstance(self._stop, Becomes) and self._condition:
                sweep = Backwards(walk, self._stop.condition, walk.target.base, self._condition)
                sweep.run(bool)
                if sweep.found:
                    return sweep.found[0]
                return 0 if self._stop.began(sweep) else None
            turns += 1
            place = self._stop.last(walk)
            if place is None:
                return None
            walk.goto(place)
            if is_so(walk.target, self._goal):
                return place
            place = Search(walk, self._goal).last()
            if place is None:
                return None
            walk.goto(place)
            if self._stop.is_met(walk):
                return place


class Counted(Stop):
    """A stop that counts only at some of the times that it is met, numbered from the start on. What
    is known of it is what is known of the other one, back to the start."""

    def __init__(self, stop: Stop, text: str, counts: Counts) -> None:
        self.stop, self._counts = stop, counts
        self.text = f"{stop.text}, hit {text}"

    @property
    def plain(self) -> Stop:
        return self.stop

    def prepare(self, walk: Walk) -> None:
        """Learns where the other one is met from the start up to here."""
        stop, here, facts = self.stop, walk.place, Facts.of(walk)
        place = stop.begin(facts, here)
        try:
            while place > facts.floor:
                walk.goto(place)
                low = facts.met(stop.key).known.before(place, facts.floor)
                stop.learn(facts, low, place, stop.all_last(walk, low))
                place = stop.begin(facts, here)
        finally:
            walk.goto(here)

    def begin(self, facts: Facts, place: int) -> int:
        begin = self.stop.begin(facts, place)
        return begin if begin <= facts.floor else place

    def end(self, facts: Facts, place: int) -> int:
        is_counted = self.stop.begin(facts, place) <= facts.floor
        return self.stop.end(facts, place) if is_counted else place

    def _hits(self, facts: Facts, place: int) -> int:
        """How often the other one was met up to a place."""
        return len(self.stop.places(facts, self.stop.begin(facts, place), place))

    def places(self, facts: Facts, low: int, high: int) -> List[int]:
        hits = self._hits(facts, low)
        numbered = enumerate(self.stop.places(facts, low, high), hits + 1)
        return [place for number, place in numbered if self._counts(number)]

    def learn(self, facts: Facts, low: int, high: int, places: Sequence[int]) -> None:
        """Nothing: which of the hits count says nothing of the others."""

    def next(self, walk: Walk, limit: int) -> Optional[int]:
        start, facts = walk.place, Facts.of(walk)
        self.prepare(walk)
        hits = self._hits(facts, start)
        places, end = self.stop.all_next(walk, limit, lambda at: self._counts(hits + at))
        self.stop.learn(facts, start, end, [place for place in places if place <= end])
        return next(iter(self.places(facts, start, end)), None)

    def last(self, walk: Walk) -> Optional[int]:
        self.prepare(walk)
        facts = Facts.of(walk)
        return next(reversed(self.places(facts, facts.floor, walk.place - 1)), None)


def not_too_many(stop: Stop, found: Sequence[int]) -> None:
    """Raises `Wrong` where a stop is met too often to be counted."""
    if len(found) > MOST_HITS:
        raise Wrong(f"{stop.text} has more than {MOST_HITS} hits, which is too many to count")


def met_here(walk: Walk, stops: Sequence[Stop]) -> List[Stop]:
    """Those of some stops that the move to this place has met. Stays where it is."""
    place = walk.place
    if place <= walk.target.base:
        return [stop for stop in stops if stop.is_met_at_start(walk)]
    after = [stop.look(walk.target) for stop in stops]
    walk.goto(place - 1)
    before = [stop.look(walk.target) for stop in stops]
    walk.goto(place)
    return [it for it, was, now in zip(stops, before, after) if it.is_met_by(was, now)]
