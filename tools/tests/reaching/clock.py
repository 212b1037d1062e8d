"""What may come at a place, by a schedule and a clock that is kept beside the state.

The clock has for each core how many moves its task has made since the last tick, or since the task
came there, up to the most that matters; for each interrupt how often it came, up to its limit, and
how many ticks ago, up to its distance; and, where surprises are counted, how many there were, and
which core is ahead of the policy."""
import dataclasses
from typing import List, NamedTuple, Optional, Tuple

from tests.reaching.machine import Lines
from tests.reaching.states import State

LAST_TICK = 4_294_967_295
CORE, TICK, ISR = "core", "tick", "isr"
# What comes: a core's move, a tick, or an interrupt, by its number.
Choice = Tuple[str, int]


@dataclasses.dataclass(frozen=True)
class Interrupt:
    """An interrupt: the calls that it makes in a row; how often it may come, none for any number;
    the number of the one that it follows; and how many ticks it stays away after it came."""

    calls: Tuple[str, ...]
    times: Optional[int] = None
    follows: Optional[int] = None
    apart: int = 0


@dataclasses.dataclass(frozen=True)
class Schedule:
    """What may come next: the pace, how many surprises are left, where they are counted, and the
    interrupts."""

    least: int = 0
    most: Optional[int] = None
    surprises: Optional[int] = None
    interrupts: Tuple[Interrupt, ...] = ()


class Clock(NamedTuple):
    """The clock beside a state."""

    made: Tuple[int, ...]
    came: Tuple[int, ...]
    ago: Tuple[int, ...]
    spent: int
    ahead: Optional[int]


def policy(state: State) -> Choice:
    """What a run would make next: the move of the first busy core from the turn on, or a tick."""
    busy = [core for core in state.busy() if core >= state.turn]
    return (CORE, busy[0]) if busy else (TICK, 0)


class Rules:
    """The rules of one schedule."""

    def __init__(self, schedule: Schedule) -> None:
        self.schedule = schedule
        self.matters = max(schedule.least, schedule.most or 0)

    def at_start(self, state: State) -> Clock:
        """The clock where an order begins."""
        interrupts = self.schedule.interrupts
        made = (0,) * len(state.cores)
        return Clock(made, (0,) * len(interrupts), tuple(it.apart for it in interrupts), 0, None)

    def lines(self, choice: Choice) -> Lines:
        """The lines of what comes."""
        kind, number = choice
        if kind == ISR:
            return tuple(f"isr {call}" for call in self.schedule.interrupts[number].calls)
        return (f"step {number}",) if kind == CORE else ("tick",)

    def choices(self, state: State, clock: Clock) -> List[Choice]:
        """What may come at a place."""
        all_there_are: List[Choice] = [(CORE, core) for core in range(len(state.cores))]
        all_there_are += [(TICK, 0)]
        all_there_are += [(ISR, number) for number in range(len(self.schedule.interrupts))]
        return [it for it in all_there_are if self.may_come(state, clock, it)]

    def may_come(self, state: State, clock: Clock, choice: Choice) -> bool:
        """Whether it may come there."""
        most = self.schedule.surprises
        if most is not None and clock.spent + self.surprises(state, clock, choice) > most:
            return False
        kind, number = choice
        if kind == CORE:
            pace = self.schedule.most
            return state.cores[number] is not None and (pace is None or clock.made[number] < pace)
        if kind == TICK:
            least = self.schedule.least
            return state.tick < LAST_TICK and all(clock.made[it] >= least for it in state.busy())
        isr = self.schedule.interrupts[number]
        is_left = isr.times is None or clock.came[number] < isr.times
        is_behind = isr.follows is None or clock.came[number] < clock.came[isr.follows]
        return is_left and is_behind and clock.ago[number] >= isr.apart

    def surprises(self, state: State, clock: Clock, choice: Choice) -> int:
        """How many surprises it is, none or one: what the policy wouldn't make next, but for a
        further move of the core that is ahead."""
        goes_on = choice[0] == CORE and choice[1] == clock.ahead
        return int(choice != policy(state) and not goes_on)

    def after(self, state: State, clock: Clock, choice: Choice, later: State) -> Clock:
        """The clock behind it."""
        came, ago, spent, ahead = list(clock.came), list(clock.ago), clock.spent, clock.ahead
        if choice[0] == TICK:
            ago = [min(it + 1, isr.apart) for it, isr in zip(ago, self.schedule.interrupts)]
        if choice[0] == ISR:
            isr = self.schedule.interrupts[choice[1]]
            ago[choice[1]] = 0
            came[choice[1]] += int(isr.times is not None)
        if self.schedule.surprises is not None:
            spent += self.surprises(state, clock, choice)
            is_ahead = choice[0] == CORE and choice != policy(state)
            ahead = choice[1] if is_ahead else None
        made = self._made(state, clock, choice, later)
        return Clock(made, tuple(came), tuple(ago), spent, ahead)

    def _made(self, state: State, clock: Clock, choice: Choice, later: State) -> Tuple[int, ...]:
        if choice[0] == TICK:
            return (0,) * len(state.cores)
        counts = [count + int(choice == (CORE, it)) for it, count in enumerate(clock.made)]
        stayed = [old == new for old, new in zip(state.cores, later.cores)]
        return tuple(min(it, self.matters) if stay else 0 for it, stay in zip(counts, stayed))
