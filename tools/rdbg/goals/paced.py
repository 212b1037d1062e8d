"""Runs at a pace: made of `step` and `tick`, and of interrupts that come by themselves."""
import dataclasses
from typing import Dict, Mapping, NamedTuple, Optional, Sequence, Tuple

from rdbg import replies
from rdbg.application import ANY, Interrupt
from rdbg.driving.interrupt import Interrupt as Break
from rdbg.driving.pacing import Clock, TickPace
from rdbg.driving.target import BY_HAND, Target
from rdbg.driving.walk import WALLS, Walk
from rdbg.goals import conditions
from rdbg.replies import Cores, Refused

# Words of lines that make new moves; the runs of the program's own among them.
RUNS = ("forward", "until")
NEW = ("step", "tick", *BY_HAND, *RUNS)
# So many lines is asked for a move.
LINES = 4


class Came(NamedTuple):
    """How often an interrupt has come, and at which tick last."""

    times: int = 0
    tick: int = 0


@dataclasses.dataclass(frozen=True)
class State:
    """What a run at a pace knows at a place: its clock, which interrupts have come, the lines that
    one that has begun still has, and whether a tick has passed since they were last looked at."""

    clock: Clock = Clock()
    came: Mapping[str, Came] = dataclasses.field(default_factory=dict)
    left: Tuple[str, ...] = ()
    is_new_tick: bool = False


class PacedWalk(Walk):
    """Moves of a target at a pace. Those that such a run has made, and that were taken back, are
    made again where it goes on from there."""

    def __init__(
        self, target: Target, interrupt: Break, pace: TickPace, interrupts: Sequence[Interrupt] = ()
    ) -> None:
        super().__init__(target, interrupt)
        self.tick_pace, self.interrupts = pace, tuple(interrupts)
        self._states: Dict[int, State] = {target.place: State(is_new_tick=True)}
        # (the line of each move that such a run has made, by the place behind it)
        self._own: Dict[int, str] = {}
        target.hearing.append(self._seen)

    def end(self) -> None:
        """Hears of no more lines."""
        self.target.hearing.remove(self._seen)

    def _seen(self, line: str, reply: str, before: int) -> None:
        """Takes note of moves, whoever makes them."""
        word, *others = line.split(" ")
        if not reply.startswith("ok at ") or word not in NEW:
            return
        state = self._states.get(before, State())
        self._states = {at: it for at, it in self._states.items() if at <= before}
        self._own = {at: it for at, it in self._own.items() if at <= before}
        clock = state.clock.moved(int(others[0])) if word == "step" else state.clock
        self._states[self.target.place] = dataclasses.replace(
            state,
            clock=Clock() if word in ("tick", *RUNS) else clock,
            is_new_tick=state.is_new_tick or word == "tick",
        )

    def _next(self) -> str:
        """The line of the next move."""
        state = self._states.get(self.place, State())
        cores = self.target.ask("show cores", Cores)
        if state.is_new_tick and not state.left:
            state = self._with_interrupt(state, cores.tick)
        clock = state.clock.seen(cores.running)
        line, *left = state.left or [self.tick_pace.line(cores, clock.of(len(cores.running)))]
        self._states[self.place] = dataclasses.replace(state, clock=clock, left=tuple(left))
        return line

    def _with_interrupt(self, state: State, tick: int) -> State:
        """The state with the lines of the first interrupt that may come now. Where none may, none
        is looked for until the next tick."""
        for it in self.interrupts:
            before = state.came.get(it.name, Came())
            is_left = it.times == ANY or before.times < it.times
            is_apart = not before.times or tick >= before.tick + max(1, it.apart)
            other = state.came.get(it.after, Came()) if it.after else None
            if is_left and is_apart and (other is None or before.times < other.times):
                came = {**state.came, it.name: Came(before.times + 1, tick)}
                return dataclasses.replace(state, came=came, left=it.lines())
        return dataclasses.replace(state, is_new_tick=False)

    def _one(self) -> bool:
        """Makes the next move, where there is one."""
        self.interrupt.check()
        self.target.afford(LINES)
        place = self.place
        if place + 1 in self._own and self.target.places().undone:
            self.target.ask("redo 1", replies.Moved)
            return True
        line = self._next()
        try:
            self.target.ask(line, replies.Moved)
        except Refused as refused:
            if refused.name not in WALLS:
                raise
            self.wall = refused.name
            return False
        self._own[self.place] = line
        return True

    def forward(self, count: int) -> int:
        """Makes so many moves at the pace, or as many as there can be; how many those are."""
        made = 0
        while made < count and self._one():
            made += 1
        return made

    def ticks(self, count: int) -> None:
        """Goes on up to so many ticks, or as far as there are moves."""
        while count and self._one():
            count -= self._own.get(self.place) == "tick"

    def until(self, condition: str, count: int) -> Optional[int]:
        """Makes moves at the pace until a condition holds after one, as `Walk.until` does."""
        found = conditions.read(condition.split())
        assert found is not None, condition
        for _ in range(count):
            if not self._one():
                return None
            if found.holds(replies.read(self.target.tell(found.view))):
                return self.place
        return None

    def settle(self, start: int, place: int) -> None:
        """As `Walk.settle`; the last move is made anew, so that none behind it is left undone."""
        line = self._own.get(place)
        if place > start and line is not None and (self.place > place or self.target.undone):
            self.goto(min(place - 1, self.place))
            self.reach(place - 1)
            self.target.ask(line, replies.Moved)
            self._own[place] = line
        self.reach(place)
