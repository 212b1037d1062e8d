"""Runs and ways back in pieces, so that Ctrl-C can come between two of them."""
import contextlib
import time
from typing import Iterator, List, Optional, Sequence

from rdbg import commands, record, replies
from rdbg.replies import Refused
from rdbg.driving.interrupt import Interrupt
from rdbg.driving.target import Target, Unable

LEAST_PIECE, FIRST_PIECE, MOST_PIECE = 250, 2_000, 64_000
# A piece should take about so long, in seconds.
QUICK, SLOW = 0.05, 0.2
# Refusals at which there is no further move.
WALLS = ("MovesFull", "TickLimit")


class Pace:
    """How many moves are asked for at a time: as many as take a moment."""

    def __init__(self) -> None:
        self.piece = FIRST_PIECE
        self._began = 0.0

    def begin(self, count: int) -> int:
        """The next piece of so many moves."""
        self._began = time.monotonic()
        return min(count, self.piece)

    def end(self, made: int) -> None:
        """Takes note of how long a piece took."""
        took = time.monotonic() - self._began
        if took < QUICK and made >= self.piece:
            self.piece = min(self.piece * 2, MOST_PIECE)
        elif took > SLOW:
            self.piece = max(self.piece // 2, LEAST_PIECE)


class Walk:
    """Moves of the target in pieces. `wall` is the refusal that ended a run, if any."""

    def __init__(self, target: Target, interrupt: Interrupt) -> None:
        self.target, self.interrupt = target, interrupt
        self.pace = Pace()
        self.wall, self.is_again = "", False

    @property
    def place(self) -> int:
        """How many moves are done."""
        return self.target.place

    def forward(self, count: int) -> int:
        """Makes so many moves of a run's choice, or as many as there can be; how many those are."""
        start, left = self.place, count
        while left and self._run("forward {}", left) is not None:
            left = count - (self.place - start)
        return self.place - start

    def until(self, condition: str, count: int) -> Optional[int]:
        """Runs until a condition holds after a move, at most so many on: the place, or none."""
        end = self.place + count
        while self.place < end:
            moved = self._run(f"until {condition} {{}}", end - self.place)
            if moved is None or moved.how == "met":
                return None if moved is None else moved.at
        return None

    def _run(self, form: str, count: int) -> Optional[replies.Moved]:
        """One piece of a run; a smaller one at a wall, none where there is no further move."""
        self.interrupt.check()
        self.target.afford(1)
        piece = self.pace.begin(count)
        while True:
            try:
                moved = self.target.ask(form.format(piece), replies.Moved)
                self.pace.end(piece)
                return moved
            except Refused as refused:
                if refused.name not in WALLS:
                    raise
                if piece == 1:
                    self.wall = refused.name
                    return None
                piece //= 2

    def back_until(self, condition: str) -> Optional[int]:
        """Goes back to where a condition held last, and answers it; else to the start, and none."""
        moved = self.target.ask(f"back until {condition}", replies.Moved)
        return None if moved.how == "start" else moved.at

    def goto(self, place: int) -> None:
        """Goes to a place that is there; Ctrl-C doesn't end it. Raises `Unable` without records."""
        if place < self.target.base:
            raise Unable(self.target.trimmed(place))
        while self.place != place:
            piece = self.pace.begin(abs(place - self.place))
            step = -piece if place < self.place else piece
            self.target.ask(record.way(self.place, self.place + step), replies.Moved)
            self.pace.end(piece)

    @contextlib.contextmanager
    def staying(self) -> Iterator[None]:
        """Ends where it began. Raises `Unable` where no record leads there any more."""
        here = self.place
        try:
            yield
        except BaseException:
            self.target.places()  # (a signal may have come before the answer to a move was read)
            raise
        finally:
            self.goto(here)

    def reach(self, place: int) -> None:
        """Goes to a place that a run came through from here, or from behind here."""
        if place < self.place:
            self.goto(place)
        elif place > self.place:
            self.forward(place - self.place)

    def settle(self, start: int, place: int) -> None:
        """Goes to a place of a run from `start`, and leaves no move undone that it wouldn't."""
        if place > start and (self.place > place or self.target.places().undone):
            self.goto(min(place - 1, self.place))
        self.reach(place)

    def tell(self, command: commands.Command, line: str) -> str:
        """The reply to a line that is one of rdbg's commands, asked in pieces where it is long, as
        one line would have it: where a later piece of a run is refused, what the earlier ones made
        is taken back, and the refusal is the answer; `is_again` alone differs, that these moves can
        be made again. Raises `Interrupted` where Ctrl-C came between two pieces: the moves made
        until then are made."""
        count, word = command.count(), command.form.word
        self.is_again = False
        if count is None or count <= self.pace.piece:
            return self.target.tell(line)
        if word in ("forward", "until"):
            return self._run_as_one(command, count, line)
        places = self.target.places()
        there_are = places.kept if word == record.BACK else places.undone
        if not self.target.is_own or count > there_are:
            return self.target.tell(line)
        return self._in_pieces([word], count)[-1]

    def _run_as_one(self, command: commands.Command, count: int, line: str) -> str:
        """A run; in one piece where moves were taken back that a run refused as a whole leaves."""
        limits = self.target.limits
        fits = limits is None or self.place + count <= limits.moves
        is_whole = command.form.word == "forward" and not fits
        if is_whole or not self.target.can_afford(2 * count // LEAST_PIECE):
            return self.target.tell(line)  # (which refuses it, or does it, as a whole)
        with contextlib.suppress(Refused), self.target.wheel():
            places = self.target.places()
            is_sure = not places.undone
            if places.undone and limits and fits:
                tick = self.target.ask("show cores", replies.Cores).tick
                is_sure = tick + count < commands.MOST_NUMBER
            if not is_sure:
                return self.target.tell(line)
            answers = self._in_pieces(command.words[:-1], count)
            if answers[-1].startswith("no ") and len(answers) > 1:
                with contextlib.suppress(Refused):
                    self.goto(places.done)
                    self.is_again = True
            return answers[-1]
        return self.target.tell(line)

    def _in_pieces(self, words: Sequence[str], count: int) -> List[str]:
        """The replies to the pieces of a line, up to the first that says an end."""
        answers: List[str] = []
        left = count
        while left:
            if answers:
                self.interrupt.check()
            piece = self.pace.begin(left)
            answers.append(self.target.tell(" ".join([*words, str(piece)])))
            self.pace.end(piece)
            left -= piece
            if answers[-1].startswith("no ") or answers[-1].endswith(" met"):
                break
        return answers
