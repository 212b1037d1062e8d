"""A program of its own that does what a room's program does, to be looked at: so looks take no
place of the history that all share, and nobody waits for them."""
import contextlib
import time
from typing import Sequence

from rdbg import record
from rdbg.commands import MOST_COUNT
from rdbg.failure import Failure
from rdbg.replies import Moved
from rdbg.driving.journal import Journal
from rdbg.driving import trail
from rdbg.driving.interrupt import Interrupt
from rdbg.driving.opening import begin
from rdbg.driving.target import RESERVE, SINGLE, Limits, read, read_line
from rdbg.driving.walk import LEAST_PIECE, Walk
from rdbg.files.source import Source
from rdbg.driving.parts import Part, Told, walk_through

# The history of such a program: a new one is begun where it is full.
HISTORY = 100_000
# So many seconds a move takes to be looked at, until that was measured.
GUESS = 0.005


class Differs(Failure):
    """The program didn't do what the room's did."""


class Mirror:
    """Does the moves of a room, and looks at them. It keeps all records, whatever was trimmed."""

    def __init__(self, source: Source, lines: Sequence[str]) -> None:
        self._source, self._limits = source, Limits(MOST_COUNT, HISTORY)
        self._journal = Journal()
        self._target = begin(self._source, self._limits)
        self._seconds = GUESS
        for line in lines:
            self.tell(line)

    @property
    def place(self) -> int:
        """How many moves are done."""
        return self._journal.place

    @property
    def undone(self) -> int:
        """How many moves can be made again."""
        return self._journal.undone

    def close(self) -> None:
        """Ends the program."""
        self._target.session.kill()

    def tell(self, line: str) -> None:
        """Does what a line does that changes the target. One that trims does nothing here."""
        if line.split(" ")[0] == record.TRIM:
            return
        self._room(1 + abs(self._target.place - self.place) // LEAST_PIECE)
        Walk(self._target, Interrupt()).goto(self.place)
        reply = self._target.tell(line)
        command = read_line(line)
        value = None if reply.startswith("no ") else read(reply)
        if command is None or not isinstance(value, Moved):
            raise Differs(f"{line} was answered {reply}")
        self._journal.moved(command, value)

    def do(self, told: Told) -> None:
        """Does what a line did, which leads to a place."""
        word, count = told.text.split(" ")[0], told.place - self.place
        if word in (record.BACK, record.REDO):
            if count:
                self.tell(record.way(self.place, told.place))
        elif word != record.TRIM:
            self.tell(told.text if word in SINGLE else f"forward {count}")
        if self.place != told.place:
            raise Differs(f"{told.text} led to {told.place}, and here to {self.place}")

    def part(self, first: int, last: int) -> Part:
        """The moves to these places, done or undone, with looks. The program comes back only before
        it does anything else: so earlier and earlier moves aren't gone to again and again."""
        lines = trail.lines_for(last - first + 1, self._target.names) + last - first
        self._room(lines + abs(self._target.place - first) // LEAST_PIECE)
        walk = Walk(self._target, Interrupt())
        walk.goto(first - 1)
        began = time.monotonic()
        found = walk_through(walk, first, last)
        self._seconds = (time.monotonic() - began) / (last - first + 2)
        return found

    def newest(self, most: int) -> Part:
        """The last moves up to the place, so many or as many as there are, with looks."""
        return self.part(self.place - min(most, self.place) + 1, self.place)

    def count(self, seconds: float) -> int:
        """How many moves can be looked at in so many seconds, as it was seen last."""
        return int(seconds / self._seconds)

    def _room(self, lines: int) -> None:
        """Has a new program do what this one did if its history has no space for so many lines."""
        left = self._target.left()
        if left is None or left >= lines + 2 * RESERVE:
            return
        self.restart()

    def restart(self) -> None:
        """Ends the program if it runs, and has a new one make the same moves. Raises `Failure` if
        none can be started, and `Differs` if it does not come to the same place."""
        with contextlib.suppress(OSError):
            self._target.session.kill()
        self._target = begin(self._source, self._limits)
        for reply in self._target.session.tell_all(self._journal.lines()):
            if reply.startswith("no "):
                raise Differs(f"the moves were made again, and one was answered {reply}")
        if self._target.place != self.place:
            raise Differs(f"all moves were made again, and {self._target.place} are done")
