"""Which places a move leads to, by the lines of a session of `rdbg run` alone."""
import json
import pathlib
import subprocess
from types import TracebackType
from typing import Callable, Dict, List, Optional, Protocol, Sequence, Tuple, Type

from tests.reaching.states import State, Views

KINDS = {
    "tasks": "task",
    "queues": "queue",
    "sets": "set",
    "streams": "stream",
    "messages": "message",
    "groups": "group",
}
# So many lines go through one session; then another begins.
MOST_LINES = 900_000
LINES_AT_ONCE = 1_000
# The lines of a move: one, but for an interrupt of several calls.
Lines = Tuple[str, ...]


class Answered(Exception):
    """A line was answered in another way than the views before it say."""


class Session:
    """A run of the program, which is asked line by line."""

    def __init__(self, program: str, file: pathlib.Path) -> None:
        words = [program, "run", "--app", str(file), "--history", "1000000", "--moves", "100000"]
        pipe = subprocess.PIPE
        self.process = subprocess.Popen(words, stdin=pipe, stdout=pipe)
        self.count = 0

    def ask(self, lines: Sequence[str]) -> List[str]:
        """The answers to these lines. They are written by so many as a pipe has room for."""
        assert self.process.stdin is not None and self.process.stdout is not None
        self.count += len(lines)
        read = self.process.stdout.readline
        answers: List[str] = []
        for at in range(0, len(lines), LINES_AT_ONCE):
            some = lines[at : at + LINES_AT_ONCE]
            self.process.stdin.write("".join(f"{line}\n" for line in some).encode())
            self.process.stdin.flush()
            answers += [read().decode().rstrip("\n") for _ in some]
        return answers

    def close(self) -> None:
        """Ends it."""
        self.process.communicate()


def lines_taken(program: str, file: pathlib.Path, lines: Sequence[str]) -> Lines:
    """Those of the lines that a run of the program doesn't refuse, one behind the other."""
    session = Session(program, file)
    taken = tuple(line for line in lines if session.ask([line])[0].startswith("ok "))
    session.close()
    return taken


class Places(Protocol):
    """Places that moves lead to, each by its number: 0 is the start."""

    states: List[State]

    def after(self, place: int, moves: Sequence[Lines]) -> List[int]:
        """The places that moves lead to, each of which can be made at that place."""


class Machine:
    """The places of a session that stands behind these lines at the start. Places are the same
    where all that is shown of them is."""

    def __init__(self, program: str, file: pathlib.Path, start: Sequence[str] = ()) -> None:
        application = json.loads(file.read_text())
        self.program, self.file, self.start = program, file, tuple(start)
        self.shown = ["show cores"]
        for kind, word in KINDS.items():
            self.shown += [f"show {word} {it['name']}" for it in application.get(kind, [])]
        self.states: List[State] = []
        self.numbers: Dict[Views, int] = {}
        # The place from which each was seen first, with the lines that led here.
        self.seen_from: List[Tuple[int, Lines]] = []
        self.next: Dict[Tuple[int, Lines], int] = {}
        self.session = self._begun()
        self.at = self._number(self.session.ask(self.shown), (0, ()))

    def __enter__(self) -> "Machine":
        return self

    def __exit__(
        self,
        kind: Optional[Type[BaseException]],
        error: Optional[BaseException],
        trace: Optional[TracebackType],
    ) -> None:
        self.session.close()

    def after(self, place: int, moves: Sequence[Lines]) -> List[int]:
        """The places that moves lead to, each of which can be made at that place."""
        asked = [move for move in moves if (place, move) not in self.next]
        if asked:
            self._look(place, asked)
        return [self.next[place, move] for move in moves]

    def _begun(self) -> Session:
        session = Session(self.program, self.file)
        for line, answer in zip(self.start, session.ask(self.start)):
            if not answer.startswith("ok "):
                raise Answered(f"'{line}' of the start: {answer}")
        return session

    def _number(self, views: Sequence[str], seen_from: Tuple[int, Lines]) -> int:
        number = self.numbers.setdefault(tuple(views), len(self.states))
        if number == len(self.states):
            self.states.append(State(tuple(views)))
            self.seen_from.append(seen_from)
        return number

    def _way(self, place: int) -> List[Tuple[int, Lines]]:
        """The moves from the start to a place, each with the place behind it."""
        way = []
        while place:
            before, lines = self.seen_from[place]
            way.append((place, lines))
            place = before
        return way[::-1]

    def _go(self, place: int) -> None:
        """Has the session stand at a place."""
        if self.session.count > MOST_LINES:
            self.session.close()
            self.session, self.at = self._begun(), 0
        here, there = self._way(self.at), self._way(place)
        same = 0
        while same < min(len(here), len(there)) and here[same] == there[same]:
            same += 1
        back = sum(len(lines) for _, lines in here[same:])
        lines = [f"back {back}"] if back else []
        lines += [line for _, move in there[same:] for line in move]
        self._made(lines, self.session.ask(lines))
        self.at = place

    def _look(self, place: int, moves: Sequence[Lines]) -> None:
        """Makes each move at a place, looks, and takes it back."""
        self._go(place)
        lines: List[str] = []
        for move in moves:
            lines += [*move, *self.shown, f"back {len(move)}"]
        answers = self.session.ask(lines)
        at = 0
        for move in moves:
            views = answers[at + len(move) : at + len(move) + len(self.shown)]
            self._made(move, answers[at : at + len(move)])
            self.next[place, move] = self._number(views, (place, move))
            at += len(move) + len(self.shown) + 1

    @staticmethod
    def _made(lines: Sequence[str], answers: Sequence[str]) -> None:
        for line, answer in zip(lines, answers):
            if not answer.startswith("ok "):
                raise Answered(f"'{line}' was answered '{answer}'")


class Alike:
    """The places of others, of which those are one that are the same by what `is_what` says of
    them. The first one that is seen stands for all."""

    def __init__(self, places: Places, is_what: Callable[[State], Views]) -> None:
        self.states = places.states
        self._places, self._is_what = places, is_what
        self._stands_for: Dict[int, int] = {}
        self._first: Dict[Views, int] = {}
        self.one_for(0)

    def after(self, place: int, moves: Sequence[Lines]) -> List[int]:
        """The places that moves lead to, each of which can be made at that place."""
        return [*map(self.one_for, self._places.after(place, moves))]

    def one_for(self, place: int) -> int:
        if place not in self._stands_for:
            one = self._first.setdefault(self._is_what(self.states[place]), place)
            self._stands_for[place] = one
        return self._stands_for[place]
