"""Tasks as threads, and the thread `time`, whose steps are ticks."""
from typing import List, Optional, Sequence

from rdbg import replies
from rdbg.adapter.messages import Values, Wrong
from rdbg.adapter.sources import Text
from rdbg.looks import Look
from rdbg.shell.views import phase_text

# The thread of the time; tasks are numbered behind it.
TIME, TIME_NAME = 1, "time"


class Threads:
    """The numbers of the tasks, which stay the same as more become known."""

    def __init__(self) -> None:
        self.names: List[str] = []

    def learn(self, names: Sequence[str]) -> None:
        """Takes note of tasks."""
        self.names += [name for name in names if name not in self.names]

    def number(self, task: str) -> int:
        """The number of a task."""
        self.learn([task])
        return TIME + 1 + self.names.index(task)

    def task(self, number: int) -> Optional[str]:
        """The task of this number; none for the time. Raises `Wrong` where there is none."""
        if number == TIME:
            return None
        at = number - TIME - 1
        if not 0 <= at < len(self.names):
            raise Wrong(f"there is no thread {number}")
        return self.names[at]

    def values(self, look: Optional[Look], text: Text) -> List[Values]:
        """All of them, each with what it does, and at which line, where that is known."""
        time = f"{TIME_NAME}: tick {look.cores.tick}" if look else TIME_NAME
        found: List[Values] = [{"id": TIME, "name": time}]
        for number, name in enumerate(self.names, TIME + 1):
            if look is None:
                found.append({"id": number, "name": name})
            elif name in look.tasks:
                task = look.tasks[name]
                spot = text.of(name, task.pc) if task.phase.word != "ended" else None
                at = f", line {spot.line}" if spot else ""
                found.append({"id": number, "name": f"{name}: {task.doing}{at}"})
        return found


def frame(number: int, task: Optional[replies.Task], look: Look, text: Text) -> Values:
    """Where a task stands, as the one frame of its stack; of the time, which tick it is."""
    if task is None:
        name = f"tick {look.cores.tick}, at place {look.place}"
        return {"id": number, "name": name, "line": 0, "column": 0, "presentationHint": "label"}
    spot = text.of(task.name, task.pc)
    name = str(spot) if spot else f"{task.name} {task.pc}"
    if task.phase.word != "run":
        name += f" ({phase_text(task)})"
    found: Values = {"id": number, "name": name, "line": 0, "column": 0}
    return {**found, **text.place(spot), "source": text.value()} if spot else found
