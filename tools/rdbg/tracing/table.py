"""Moves as the rows of a table."""
import dataclasses
from typing import FrozenSet, Iterable, Iterator, Sequence, Tuple

from rdbg import record
from rdbg.application import Application
from rdbg.digits import is_digits
from rdbg.driving.parts import Trim
from rdbg.effects import Move

HEADS = ("place", "tick", "core", "who", "pc", "does")
WIDEST = 40
GIVEN_UP = "records of earlier moves given up"


@dataclasses.dataclass(frozen=True)
class Row:
    """What stands in the columns, and what a row is of or speaks of: tasks and objects by name, its
    core by number. Of a tick, an edit and a trim stands what they are in place of a task."""

    cells: Tuple[str, ...]
    about: FrozenSet[str]


@dataclasses.dataclass(frozen=True)
class Table:
    """How wide each column is, but for the last one, the effects."""

    widths: Tuple[int, ...]

    @classmethod
    def of(
        cls, application: Application, done: int, tick: int, lines: Sequence[str] = ()
    ) -> "Table":
        """A table for so many moves of an application, up to a tick, that these lines made."""
        texts = [it.told for task in application.tasks for it in task.code]
        # (an interrupt stands as its line, and has effects behind it, as an edit hasn't)
        texts += [line for line in lines if line.split()[0] == "isr"]
        widest = max(len(text) + len(" -> 1") for text in texts)
        first = ("9" * len(str(done)), "9" * len(str(tick)), str(application.cores - 1))
        does = "x" * min(widest, WIDEST)
        tasks = application.tasks
        return cls.wide_enough((*first, it.name, str(len(it.code) - 1), does) for it in tasks)

    @classmethod
    def wide_enough(cls, rows: Iterable[Sequence[str]]) -> "Table":
        """A table for rows that are known."""
        return cls(tuple(max(map(len, column)) for column in zip(HEADS, *rows)))

    def row(self, cells: Sequence[str]) -> str:
        """The cells in a line: numbers at the right of their columns, words at the left."""
        numbers = (True, True, True, False, True, False)
        laid = [
            text.rjust(width) if is_number else text.ljust(width)
            for text, width, is_number in zip(cells, self.widths, numbers)
        ]
        return "  ".join([*laid, *cells[len(laid) :]]).rstrip()

    def head(self) -> str:
        """The line above the rows."""
        return self.row([*HEADS, "effects"])


def about(move: Move) -> FrozenSet[str]:
    """Whom a move is of, and of what its instruction or line and its effects speak."""
    words = (move.instruction or move.line).split()[1:]
    found = {move.who, *(it.name for it in move.effects)}
    found.update(word for word in words if not is_digits(word))
    found.update(it.how for it in move.effects if it.kind == "turns")
    return frozenset(found if move.core is None else {*found, str(move.core)})


def row_of(move: Move) -> Row:
    """The row of a move."""
    numbers = ["" if it is None else str(it) for it in (move.place, move.tick, move.core)]
    pc = "" if move.pc is None else str(move.pc)
    effects = ", ".join(it.text(move.task) for it in move.effects)
    return Row((*numbers, move.who, pc, move.does, effects), about(move))


def row_of_trim(trim: Trim) -> Row:
    """The row of a trim."""
    cells = (str(trim.place), "", "", record.TRIM, "", trim.line, GIVEN_UP)
    return Row(cells, frozenset([record.TRIM]))


def rows(moves: Iterable[Move], trims: Sequence[Trim] = ()) -> Iterator[Row]:
    """The rows of moves, and of trims behind the moves that were done then."""
    left = sorted(trims, key=lambda it: it.place)
    for move in moves:
        while left and left[0].place < move.place:
            yield row_of_trim(left.pop(0))
        yield row_of(move)
    yield from (row_of_trim(it) for it in left)
