"""The program of a room: what it was asked and answered, its target's place, who has the wheel."""
import contextlib
import threading
import time
from typing import Callable, Dict, Iterator, List, Optional, Sequence, Tuple

from rdbg import replies
from rdbg.failure import Failure
from rdbg.looks import Look
from rdbg.replies import Refused
from rdbg.rooms.host import Audit, Ended, Host
from rdbg.driving.journal import Journal
from rdbg.rooms.memory import Memory
from rdbg.rooms.seats import Seat
from rdbg.shell import replay
from rdbg.driving import trail
from rdbg.driving.parts import look_through
from rdbg.driving.target import Limits, Target, read, read_line
from rdbg.files.source import Source
from rdbg.wording import counted

# So many entries have room for some 30,000 moves of a small application, with the looks that tell
# them; then a new program goes on, and the memory of the old one is free.
HISTORY = 250_000
# With so little of the history left, the room looks no more by itself, one part of so many, and a
# new program should go on.
SCARCE = 10
# That is tried to be had for so many seconds, while nobody is answered, and again after so many.
TRIES, AGAIN = 0.3, 1.0
FULL = "no HistoryFull"


class Program:
    """A program that serves, whose answers are all known. `when_over` is told of its end."""

    def __init__(self, source: Source, limits: Limits, seats: Sequence[Seat]) -> None:
        assert source.application is not None
        self.source, self.limits, self._seats = source, limits, seats
        self.host = Host.start(source, limits, len(seats))
        self.target = target_of(self.host, source, limits)
        self.target.hearing.append(self._hear)
        # The session that asks, or has asked last.
        self._asks = seats[0]
        self.journal, self.memory = Journal(), Memory()
        # What there is, where that was looked at.
        self._seen: Optional[Look] = None
        # Who has the wheel.
        self.holder: Optional[Seat] = None
        self.when_over: Callable[[str], None] = lambda why: None
        # Is called with a program that has ended by itself, from another thread.
        self._when_ended_by_itself: Callable[[Host], None] = lambda host: None
        # Is told the audit of each program before this one, from another thread.
        self.when_ended: Callable[[Audit], None] = lambda audit: None
        self._rows: Dict[int, List[str]] = {}
        # (programs before this one, whose history was full: each ends in a thread)
        self._ending: List[threading.Thread] = []
        # (when a new one is tried to be had again, where that failed)
        self._again = 0.0

    def watch(self, when_ended: Callable[[Host], None]) -> None:
        """Calls `when_ended` from another thread if a program ends by itself, this one or a later
        one."""
        self._when_ended_by_itself = when_ended
        self.host.watch(when_ended)

    @property
    def place(self) -> int:
        """How many moves are done."""
        return self.target.place

    def left(self) -> int:
        """For how many entries the history has room."""
        return max(0, self.limits.history - self.target.used)

    def can_look(self, lines: int) -> bool:
        """Whether the room may ask so many lines by itself."""
        return self.left() - lines > self.limits.history // SCARCE

    def ask(self, seat: Seat, line: str) -> str:
        """The program's own reply to a line of a session. Raises `Ended`."""
        return self._ask_all(seat, [line])[0]

    @contextlib.contextmanager
    def _asking(self, seat: Seat) -> Iterator[Target]:
        """The target, for as long as it is asked by a session. Raises `Ended`, which is told."""
        self._asks = seat
        try:
            with self.host.asking(seat.number) as session:
                self.target.session = session
                yield self.target
        except Ended as ended:
            self.when_over(str(ended))
            raise

    def _ask_all(self, seat: Seat, lines: List[str]) -> List[str]:
        with self._asking(seat) as target:
            return target.tell_all(lines)

    def _hear(self, line: str, reply: str, before: int) -> None:
        """Takes note of a line of the session that asks, and of its reply."""
        command = read_line(line)
        if command is None:
            return
        seat = self._asks
        self.memory.keep(seat.number, command, reply)
        value = None if command.form.is_look or reply.startswith("no ") else read(reply)
        if isinstance(value, replies.Moved):
            self._rows.clear()
            self._seen = None
            self.journal.moved(command, value)
        elif isinstance(value, replies.WheelDone):
            self.holder = seat if command.words[1] == "take" else None
        elif isinstance(value, replies.WatchDone) and command.form.word == "watch":
            seat.watches[value.number] = " ".join(command.condition_words())
        elif isinstance(value, replies.WatchDone):
            seat.watches.pop(value.number, None)

    def look(self, seat: Seat) -> Optional[Look]:
        """A look at all there is; none where too little of the history is left."""
        lines = self.target.names.lines()
        if self._seen is None and self.can_look(len(lines)):
            self._seen = Look.of(self.place, [read(it) for it in self._ask_all(seat, lines)])
        return self._seen

    def last_rows(self, seat: Seat, most: int) -> List[str]:
        """What the last moves did, so many at the most; they aren't looked at twice."""
        if most not in self._rows:
            self._rows[most] = self.rows(seat, 0, most)
        return self._rows[most]

    def rows(self, seat: Seat, place: int, most: int) -> List[str]:
        """What the last moves from a place on did, so many at the most, a row each: they are taken
        back, and made again with looks between them."""
        made, here = self.place - place, self.place
        count = min(made, most, here - self.target.base)
        if count < 1 or not self.can_look(trail.lines_for(count, self.target.names)):
            return []
        try:
            with self._asking(seat) as target:
                part = look_through(target, here - count + 1, here)
        except Refused as refused:
            return [f"the target is at {self.place}: its moves cannot be described (no {refused})"]
        self._seen = part.looks[-1]
        more = [f".. {counted(made - count, 'move')} before these"] if made > count else []
        return more + trail.rows(part.moves)

    def renew(self) -> bool:
        """Goes on with a new program that is where this one is, and whose history has only what
        leads there; false where that would soon be full again, or was tried just now. The old one
        ends meanwhile. Raises `Failure`."""
        if time.monotonic() < self._again:
            return False
        checks = [*self.target.names.lines(), "show moves", "show wheel"]
        lines = self.journal.lines()
        watches = sum(2 * max(it.watches, default=-1) + 2 for it in self._seats)
        used = 2 * len(self._seats) + watches + 1 + len(lines) + len(checks)
        is_new = False
        try:
            if 2 * used <= self.limits.history:
                self._go_on(self.source, lines, checks)
                is_new = True
        finally:
            self._again = 0.0 if is_new else time.monotonic() + AGAIN
        return is_new

    def reload(self, source: Source, lines: List[str]) -> List[str]:
        """Goes on with a new program that has another source, where these lines lead. Answers the
        watches that it refuses, which are dropped. Raises `Failure`."""
        assert source.application is not None
        answers, dropped = self._go_on(source, lines, [])
        self.source, self._seen = source, None
        self.journal, self.memory = Journal(), Memory()
        self._rows.clear()
        for line, reply in zip(lines, answers):
            self._hear(line, reply, 0)
        return dropped

    def _go_on(
        self, source: Source, lines: List[str], checks: List[str]
    ) -> Tuple[List[str], List[str]]:
        """Goes on with a new program, which these lines bring where it is to be. Answers what it
        replied to them, and the watches that it refuses. Raises `Failure` where it refuses one of
        them, or answers these looks otherwise. (Where the history of the one before is full, that
        shows nothing any more: then the same moves have to do.)"""
        host = Host.start(source, self.limits, len(self._seats), TRIES)
        target = target_of(host, source, self.limits)
        try:
            answers = host.tell_all(1, lines)
            refused = next((it for it in answers if it.startswith("no ")), None)
            if refused is not None:
                raise Failure(f"the new rdbg answered {refused}")
            dropped = [it for seat in self._seats for it in watch_again(host, seat)]
            if self.holder is not None:
                host.tell_all(self.holder.number, ["wheel take"])
            before = self._ask_all(self._seats[0], checks)
            for was, reply in zip(before, host.tell_all(1, checks)):
                if reply != was != FULL:
                    raise Failure(f"the new rdbg shows {reply} instead of {was}")
        except BaseException:
            host.kill()
            raise
        old, self.host, self.target = self.host, host, target
        target.hearing.append(self._hear)
        host.watch(self._when_ended_by_itself)
        thread = threading.Thread(target=lambda: self.when_ended(old.close()))
        self._ending.append(thread)
        thread.start()
        return answers, dropped

    def wait(self) -> None:
        """Waits until the programs before this one have ended."""
        for thread in self._ending:
            thread.join()


def target_of(host: Host, source: Source, limits: Limits) -> Target:
    """What the sessions of a program that has begun have told, whichever of them it was."""
    first, *others = host.sessions
    target = Target(first, source.application, limits)
    for other in others:
        other.on_line = first.on_line
    # (an entry of the history is for the coming of each session, and one for its leaving)
    target.used = 2 * len(host.sessions)
    return target


def watch_again(host: Host, seat: Seat) -> List[str]:
    """Has a new program keep the watches of a session, under the same numbers. Answers those that
    it refuses, which are none any more."""
    with host.asking(seat.number) as session:
        dropped = replay.watch_again(session.tell, seat.watches)
    return [
        f"watch w{it} of {seat.name} ({text}) was dropped: {reply}" for it, text, reply in dropped
    ]
