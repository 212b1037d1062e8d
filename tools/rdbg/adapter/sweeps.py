"""Finds all places of a range at which a condition turns true, with many lines per request."""
from typing import Callable, List, Optional

from rdbg import replies
from rdbg.driving.target import read
from rdbg.driving.walk import WALLS, Walk
from rdbg.goals.conditions import Condition
from rdbg.goals.ways import latest, nearest
from rdbg.replies import Refused

# So many lines are asked at once at first; fewer where a condition holds on, more where it doesn't.
LEAST, FIRST, MOST = 4, 8, 512
# A condition holds on where it became so at less than one of so many places.
HOLDING = 4
# Whether a place that is found counts, by its number, from 1 on.
Counts = Callable[[int], bool]


class Sweep:
    """A sweep from here to a place. `found` are the places so far, those alone where `only` holds
    too; `place` is how far it has come, and `holds` and `fits` say whether the two hold there."""

    def __init__(
        self, walk: Walk, condition: Condition, end: int, only: Optional[Condition] = None
    ) -> None:
        self.walk, self.condition, self.end, self.only = walk, condition, end, only
        self.place, self.found = walk.place, []  # type: int, List[int]
        self.holds = condition.holds(read(walk.target.tell(condition.view)))
        self.fits = self.fits_here()
        self._size, self._times = FIRST, 0

    @property
    def is_done(self) -> bool:
        """Whether it has come to its end."""
        raise NotImplementedError

    def run(self, counts: Counts) -> None:
        """Goes on to its end, or until one of the places counts."""
        seen = 0
        while not self.is_done and not any(map(counts, range(seen + 1, len(self.found) + 1))):
            seen = len(self.found)
            self.walk.interrupt.check()
            self.go()

    def go(self) -> None:
        """Goes further. Raises `Unable` where the history has too little room."""
        target, only, met, before = self.walk.target, self.only, 0, self._times
        lines = [line for each in self.lines() for line in ([each, only.view] if only else [each])]
        target.afford(len(lines))
        answers = iter(target.tell_all(lines))
        for answer in answers:
            fits = only is None or only.holds(read(next(answers)))
            if self.is_done:
                return
            met += self.take(answer, fits)
        is_holding = (self._times - before) * HOLDING < met
        self._size = max(LEAST, self._size // 2) if is_holding else min(self._size * 2, MOST)
        if is_holding and self.holds and not self.is_done:
            self.leave()

    def lines(self) -> List[str]:
        """The next lines."""
        raise NotImplementedError

    def take(self, answer: str, fits: bool) -> bool:
        """Takes a reply, and whether `only` holds behind it; whether the condition does."""
        raise NotImplementedError

    def leave(self) -> None:
        """Goes to where the condition doesn't hold any more."""
        raise NotImplementedError

    def fits_here(self) -> bool:
        """Whether `only` holds where the target stands."""
        only = self.only
        return only is None or only.holds(read(self.walk.target.tell(only.view)))

    def became(self, place: int, fits: bool) -> None:
        """Takes note of a place where the condition became so."""
        self._times += 1
        if fits:
            self.found.append(place)


def moved(answer: str) -> replies.Moved:
    """A reply of a run or a way back. Raises `Refused`."""
    value = read(answer)
    assert isinstance(value, replies.Moved)
    return value


class Onwards(Sweep):
    """By moves that are made."""

    @property
    def is_done(self) -> bool:
        return self.place >= self.end or bool(self.walk.wall)

    def lines(self) -> List[str]:
        left = self.end - self.place
        size = min(self._size, left)
        return [f"until {self.condition.text} {left // size}"] * size

    def take(self, answer: str, fits: bool) -> bool:
        try:
            run = moved(answer)
        except Refused as refused:
            if refused.name not in WALLS:
                raise
            place = self.walk.until(self.condition.text, self.end - self.place)
            run = replies.Moved(self.walk.place, "limit" if place is None else "met")
            fits = self.fits_here()
        is_met = run.how == "met"
        if is_met and not (self.holds and run.at == self.place + 1):
            self.became(run.at, fits)
        self.place, self.holds = run.at, is_met
        return is_met

    def leave(self) -> None:
        walk = self.walk
        gone = nearest(walk, self.condition.others(earlier=False), self.end - self.place)
        if gone is None and walk.wall:
            return
        walk.reach(self.end if gone is None else gone)
        self.place, self.holds = walk.place, gone is None


class Backwards(Sweep):
    """By moves that are taken back, maybe to before that place."""

    @property
    def is_done(self) -> bool:
        return self.place <= self.end

    def lines(self) -> List[str]:
        return [f"back until {self.condition.text}"] * min(self._size, self.place - self.end)

    def take(self, answer: str, fits: bool) -> bool:
        way = moved(answer)
        is_met = way.how != "start"
        if self.holds and not (is_met and way.at == self.place - 1):
            self.became(self.place, self.fits)
        self.place, self.holds, self.fits = way.at, is_met, fits
        return is_met

    def leave(self) -> None:
        other = latest(self.walk, self.condition.others(earlier=True))
        if other is None:
            self.place = self.walk.target.base
            self.walk.goto(self.place)
            self.fits = self.fits_here()
            return
        if other >= self.end:
            self.walk.goto(other + 1)
            self.became(other + 1, self.fits_here())
        self.walk.goto(other)
        self.place, self.holds = other, False
