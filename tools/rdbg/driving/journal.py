"""A journal of a target's moves: few lines that make the same moves in a new program."""
import dataclasses
from typing import List, Optional

from rdbg import record, replies
from rdbg.commands import Command

# `forward` chooses its moves itself, so that their number says all of them.
FORWARD = "forward"


@dataclasses.dataclass
class Run:
    """`count` moves: those of one `forward`, or the single move of another line."""

    line: str
    count: int = 1

    @property
    def is_forward(self) -> bool:
        """Whether `forward` chooses the moves."""
        return self.line == FORWARD

    @property
    def text(self) -> str:
        """The line that makes the moves."""
        return f"{FORWARD} {self.count}" if self.is_forward else self.line


class Journal:
    """The moves that are done, the moves that can be made again, and the first place whose record
    was not trimmed (`base`)."""

    def __init__(self) -> None:
        self._done: List[Run] = []
        # (the run that `redo` makes next is the last one)
        self._undone: List[Run] = []
        self.place, self.base = 0, 0

    def moved(self, command: Command, moved: replies.Moved) -> None:
        """Takes note of a line that has moved the target."""
        word, count = command.form.word, moved.at - self.place
        if word == record.TRIM:
            self.base = max(self.base, moved.at - int(command.words[1]))
        elif word == record.BACK:
            carry(self._done, self._undone, -count)
        elif word == record.REDO:
            carry(self._undone, self._done, count)
        else:
            self._undone.clear()
            is_run = word in (FORWARD, "until")
            put(self._done, Run(FORWARD if is_run else " ".join(command.words), count))
        self.place = moved.at

    @property
    def undone(self) -> int:
        """How many moves can be made again."""
        return sum(run.count for run in self._undone)

    def __len__(self) -> int:
        """How many lines `lines` has, or up to two more."""
        return len(self._done) + len(self._undone) + 2

    def done(self, place: Optional[int] = None) -> List[Run]:
        """Returns the runs that lead from boot to a place on the way here; to here by default."""
        found, left = [], self.place if place is None else place
        for run in self._done:
            if left <= 0:
                break
            found.append(Run(run.line, min(left, run.count)))
            left -= run.count
        return found

    def lines(self) -> List[str]:
        """Returns lines that lead here from boot, with the same moves undone and records kept."""
        runs = [*self._done, *reversed(self._undone)]
        back = [record.back(self.undone)] if self.undone else []
        trim = [record.trim(self.place - self.base)] if self.base else []
        return [it.text for it in runs] + back + trim


def put(runs: List[Run], run: Run) -> None:
    """Adds moves at the end of a list."""
    if runs and run.is_forward and runs[-1].is_forward:
        runs[-1].count += run.count
    else:
        runs.append(run)


def carry(runs: List[Run], others: List[Run], count: int) -> None:
    """Moves the last `count` moves of one list to the end of another."""
    while count > 0:
        last = runs.pop()
        taken = min(count, last.count)
        put(others, Run(last.line, taken))
        runs += [Run(last.line, last.count - taken)] if taken < last.count else []
        count -= taken
