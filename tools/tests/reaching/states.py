"""A place of a target, as the views show it."""
import functools
import re
from typing import Dict, NamedTuple, Optional, Sequence, Tuple

Views = Tuple[str, ...]
DEADLINE = re.compile(r"\b((?:wait:\S+|again):)(\d+)(?!\S)")


class Task(NamedTuple):
    """What the view of a task shows of it. `phase` is the word in front, `rest` what stands behind
    it, apart at the colons."""

    core: Optional[int]
    pc: int
    phase: str
    rest: Tuple[str, ...]
    registers: Tuple[int, ...]
    notes: Tuple[str, ...]

    def place(self) -> Tuple[str, ...]:
        """Where it waits: `("recv", "q")`, nothing where it doesn't."""
        return self.rest[:-1] if self.phase == "wait" else ()

    def has_deadline(self) -> bool:
        """Whether it waits, and not for ever."""
        return self.phase == "wait" and self.rest[-1] != "max"


class State:
    """What the views show: that of the cores first, then those of tasks and objects."""

    def __init__(self, views: Views) -> None:
        words = views[0].split()
        self.views = views
        self.cores = tuple(None if name == "-" else name for name in words[1].split(","))
        self.tick, self.turn = int(words[-3]), int(words[-1])

    @functools.cached_property
    def tasks(self) -> Dict[str, Task]:
        """The tasks by their names."""
        split = [view.split() for view in self.views if view.startswith("task ")]
        return {words[1]: task_of(words) for words in split}

    def count(self, queue: str) -> int:
        """How many items a queue has."""
        return int(self._words("queue", queue)[2].split("/")[0])

    def bits(self, group: str) -> int:
        """The bits of an event group."""
        return int(self._words("group", group)[3])

    def _words(self, kind: str, name: str) -> Sequence[str]:
        return next(it for it in map(str.split, self.views) if it[:2] == [kind, name])

    def busy(self) -> Tuple[int, ...]:
        """The cores that a task is on."""
        return tuple(core for core, name in enumerate(self.cores) if name is not None)


def task_of(words: Sequence[str]) -> Task:
    """A task by the words of its view."""
    core = None if words[3] == "-" else int(words[3])
    phase, *rest = words[7].split(":")
    registers = tuple(map(int, words[9].split(",")))
    return Task(core, int(words[5]), phase, tuple(rest), registers, tuple(words[13].split(",")))


def by_clock(state: State) -> Views:
    """What a place is by the law of the clock: with the tick as what is left of it by the number of
    cores, and each deadline as how far ahead it is."""
    tick = state.tick
    cores = " ".join(state.views[0].split()[:-4])
    ahead = (
        DEADLINE.sub(lambda it: f"{it[1]}+{max(0, int(it[2]) - tick)}", it)
        for it in state.views[1:]
    )
    return (f"{cores} tick {tick % len(state.cores)} turn {state.turn}", *ahead)


def by_laws(state: State) -> Views:
    """The same by the law of the turn, too: without it."""
    cores, *others = by_clock(state)
    return (cores.rpartition(" turn ")[0], *others)
