"""What rdreach is asked, and what it says."""
import dataclasses
import subprocess
from typing import FrozenSet, NamedTuple, Optional, Sequence, Tuple

FOUND, FULL = "found", "full: "
# What ends a search that doesn't see the tick.
AT_LAST_TICK = "the tick came to the last there is (--exact)"
COUNTED, MISSED = "states ", "no order came to "


class Asked(NamedTuple):
    """The programs that are asked, what rdreach has of the options of questions, and whether it
    tells where goals are lost."""

    rdbg: str
    rdreach: str
    options: FrozenSet[str]
    tells_lost: bool = False


class Said(NamedTuple):
    """What rdreach said: its first line, the lines of the order, or of what ended it, how many
    states it kept, how many moves it made, its status, and what stood on standard error."""

    answer: str
    order: Tuple[str, ...]
    states: Optional[int]
    moves: Optional[int]
    status: int
    errors: str

    def is_full(self) -> bool:
        """Whether its tick came to the last there is."""
        is_full = self.answer.startswith(FULL) and self.status == 2
        return is_full and AT_LAST_TICK in self.order

    def depth(self) -> int:
        """The number of moves that it says of what is full."""
        return int(self.answer.split()[3])


def said(program: str, words: Sequence[str], start: Sequence[str] = ()) -> Said:
    """Asks it. The order is what stands behind the lines of the start, which come before it."""
    ran = subprocess.run([program, *words], stdout=subprocess.PIPE, stderr=subprocess.PIPE)
    lines = ran.stdout.decode().splitlines()
    order = tuple(it for it in lines[1:] if not it.startswith((COUNTED, MISSED)))
    order = order[len(start) :] if order[: len(start)] == tuple(start) else order
    counted = next((it.split() for it in lines if it.startswith(COUNTED)), None)
    states, moves = (int(counted[1]), int(counted[3])) if counted else (None, None)
    answer = lines[0] if lines else ""
    return Said(answer, order, states, moves, ran.returncode, ran.stderr.decode())


@dataclasses.dataclass
class Tally:
    """How many places were gone through; for how many goals there were orders, and for how many
    none; and of how many applications all places. By the laws, and of any length: of how many
    applications all, and how many places these have; for how many goals there were orders, and for
    how many none."""

    places: int = 0
    found: int = 0
    none: int = 0
    never: int = 0
    closed: int = 0
    closed_places: int = 0
    comes: int = 0
    never_comes: int = 0

    def add(self, other: "Tally") -> None:
        """Counts the other's, too."""
        for field in dataclasses.fields(self):
            both = getattr(self, field.name) + getattr(other, field.name)
            setattr(self, field.name, both)

    def __str__(self) -> str:
        return (
            f"{self.places} places, {self.found} goals found, {self.none} not, "
            f"{self.never} times all places; by the laws {self.closed} times all, "
            f"{self.closed_places} places, {self.comes} goals found, {self.never_comes} never"
        )
