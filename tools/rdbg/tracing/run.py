"""A run that is traced: its commands are told to programs of their own, and its moves looked at.

A look takes a place of the history, of which there are a million at most, so a long run is looked
at in pieces, by programs side by side."""
import dataclasses
import functools
from typing import Callable, Iterator, List, Optional, Sequence, Tuple

from rdbg import record
from rdbg.driving import trail
from rdbg.driving.opening import begin
from rdbg.driving.parts import Part, Told, Trim, look_through
from rdbg.driving.target import RESERVE, Limits, Target
from rdbg.driving.walk import LEAST_PIECE
from rdbg.failure import Failure
from rdbg.files.source import Source
from rdbg.looks import Look
from rdbg.workers import side_by_side

# So many moves are looked at by one program at the most: so few, that others have as many, and that
# what one has seen is taken while it looks at the next.
MOST_MOVES = 2_048


@dataclasses.dataclass(frozen=True)
class Line:
    """A line of the commands, and where it stands, counted from 1."""

    number: int
    text: str


@dataclasses.dataclass(frozen=True)
class Run:
    """What is traced: an application, or the built-in one, and the lines that it is told."""

    source: Optional[Source]
    lines: Tuple[Line, ...]
    limits: Limits

    def begin(self) -> Target:
        """A program of its own, at boot."""
        return begin(self.source, self.limits)

    @property
    def ways(self) -> int:
        """How many lines it takes to go back to moves, and forth again, at the most."""
        return 2 * self.limits.moves // LEAST_PIECE


@dataclasses.dataclass(frozen=True)
class Piece:
    """The moves to the places `first` to `last`, as they are once so many lines were told."""

    told: int
    first: int
    last: int


@dataclasses.dataclass(frozen=True)
class Plan:
    """What there is to look at, which lines were refused, with replies, and which did what; where
    the run ended, and the first place to which `back` leads from there."""

    pieces: Tuple[Piece, ...]
    trims: Tuple[Trim, ...]
    refused: Tuple[Tuple[Line, str], ...]
    told: Tuple[Told, ...]
    end: Look
    base: int

    @property
    def done(self) -> int:
        """How many moves are done at the end."""
        return self.end.place

    def within(self, first: int, last: Optional[int]) -> "Plan":
        """The part of it that leads to places between two."""
        end = self.done if last is None else last
        cut = (
            dataclasses.replace(it, first=max(it.first, first), last=min(it.last, end))
            for it in self.pieces
        )
        pieces = tuple(it for it in cut if it.first <= it.last)
        trims = tuple(it for it in self.trims if first - 1 <= it.place <= end)
        return dataclasses.replace(self, pieces=pieces, trims=trims)

    def count(self) -> int:
        """How many moves are to be looked at."""
        return sum(it.last - it.first + 1 for it in self.pieces)


def pieces_of(run: Run, target: Target, told: int, first: int, last: int) -> Iterator[Piece]:
    """The pieces in which moves are looked at. Raises `Failure` for a history without room."""
    left = run.limits.history - told - RESERVE - run.ways - trail.lines_for(0, target.names)
    count = min(MOST_MOVES, left // (trail.lines_for(1, target.names) + 1))
    if first <= last and count < 1:
        raise Failure(
            f"the history has no room left to show moves after {told} lines (raise --history)"
        )
    for at in range(first, last + 1, max(1, count)):
        yield Piece(told, at, min(last, at + count - 1))


def plan(run: Run) -> Plan:
    """Tells the lines once, and says what there is to look at. A trim gives up how moves are taken
    back: they can't change any more, and are looked at as they are before it."""
    pieces: List[Piece] = []
    trims: List[Trim] = []
    refused: List[Tuple[Line, str]] = []
    told: List[Told] = []
    target = run.begin()
    with target.session:
        seen = 0
        answers = target.session.tell_all(it.text for it in run.lines)
        for at, (line, reply) in enumerate(zip(run.lines, answers)):
            if target.base > seen:
                pieces += pieces_of(run, target, at, seen + 1, target.base)
                seen = target.base
            word = line.text.split()[0]
            if reply.startswith("no "):
                refused.append((line, reply))
            elif word != "show":
                told.append(Told(line.text, target.place))
            if word == record.TRIM and not reply.startswith("no "):
                trims.append(Trim(target.place, line.text))
        pieces += pieces_of(run, target, len(run.lines), seen + 1, target.place)
        accepted = (tuple(trims), tuple(refused), tuple(told))
        return Plan(tuple(pieces), *accepted, target.look(), target.base)


class Looker:
    """Looks at pieces of a run, one after the other. Its program, which has been told the lines up
    to one piece, is kept for the next as long as its history has room."""

    def __init__(self, run: Run) -> None:
        self._run = run
        self._target: Optional[Target] = None
        self._told = 0

    def __enter__(self) -> Callable[[Piece], Part]:
        return self.part

    def __exit__(self, *error: object) -> None:
        if self._target is not None:
            self._target.session.kill()

    def part(self, piece: Piece) -> Part:
        """What there is to see of a piece."""
        target = self._ready(piece)
        target.tell_all(it.text for it in self._run.lines[self._told : piece.told])
        self._told = piece.told
        return look_through(target, piece.first, piece.last)

    def _ready(self, piece: Piece) -> Target:
        """The program as it is, where it has room for a piece, or a new one."""
        target = self._target
        if target is not None:
            count = piece.last - piece.first + 1
            needed = piece.told - self._told + trail.lines_for(count, target.names)
            if piece.told >= self._told and target.can_afford(needed + self._run.ways):
                return target
            target.session.kill()
        self._target, self._told = self._run.begin(), 0
        return self._target


def parts(run: Run, pieces: Sequence[Piece], workers: int) -> Iterator[Part]:
    """Looks at the pieces, so many at a time, and yields each in its order. Of those that are
    looked at no more are kept than there are workers."""
    if workers < 2 or len(pieces) < 2:
        with Looker(run) as look:
            yield from map(look, pieces)
    else:
        yield from side_by_side(functools.partial(Looker, run), pieces, workers)
