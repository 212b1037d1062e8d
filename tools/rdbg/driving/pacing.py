"""A pace: how many instructions each busy core makes between two ticks.

On a board a tick is thousands of instructions, so that a wait of 5 ticks isn't over before whoever
is to end it has made a move. The program's `forward` makes one instruction of each busy core in a
tick; a run at a pace makes more, by lines `step` and `tick`."""
import dataclasses
import re
from typing import Mapping, NamedTuple, Optional, Sequence, Tuple

from rdbg.replies import Cores

PACE = re.compile(r"([0-9]{1,3})?\.\.([0-9]{1,3})?")
MOST = 255
NONE = "none"
IS = f"a pace is M..N, M.. or ..N with M from 0 to {MOST} and N from 1 to {MOST}, at least M"


class TickPace(NamedTuple):
    """Each busy core makes so many moves between two ticks, at least and (if bounded) at most."""

    least: int
    most: Optional[int] = None

    @property
    def text(self) -> str:
        """It as it is written."""
        return f"{self.least or ''}..{'' if self.most is None else self.most}"

    def line(self, cores: Cores, made: Sequence[int]) -> str:
        """The line of a run's next move, where the cores have made so many moves since the last
        tick: the busy core moves that has made the fewest, the lowest first, until each has made
        enough; then a tick comes."""
        enough = max(1, self.least)
        busy = [core for core, task in enumerate(cores.running) if task is not None]
        left = [core for core in busy if made[core] < enough]
        return f"step {min(left, key=lambda core: made[core])}" if left else "tick"


def pace(text: str) -> Optional[TickPace]:
    """The pace that a text is, if it is one."""
    found = PACE.fullmatch(text)
    if not found or not (found[1] or found[2]):
        return None
    least, most = int(found[1] or 0), int(found[2]) if found[2] else None
    if least > MOST or (most is not None and not max(1, least) <= most <= MOST):
        return None
    return TickPace(least, most)


@dataclasses.dataclass(frozen=True)
class Clock:
    """What is known at a place of the moves since the last tick: how many each core has made, and
    which task was there when that was looked at."""

    made: Mapping[int, int] = dataclasses.field(default_factory=dict)
    tasks: Sequence[Optional[str]] = ()

    def moved(self, core: int) -> "Clock":
        """Behind a move of a core."""
        return Clock({**self.made, core: self.made.get(core, 0) + 1}, self.tasks)

    def seen(self, running: Sequence[Optional[str]]) -> "Clock":
        """Where these tasks are on the cores: of one that has come since, the moves begin anew."""
        pairs = enumerate(zip(self.tasks, running))
        return Clock(
            {**self.made, **{core: 0 for core, (was, now) in pairs if was != now}}, running
        )

    def of(self, cores: int) -> Tuple[int, ...]:
        """How many moves each of so many cores has made."""
        return tuple(self.made.get(core, 0) for core in range(cores))
