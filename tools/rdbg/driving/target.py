"""A session with what is known of its target: names, place, moves by hand, watches."""
import contextlib
import dataclasses
import functools
from typing import Callable, Dict, Iterable, Iterator, List, Optional, Tuple, Type, TypeVar

from rdbg import commands, kinds, record, replies
from rdbg.application import Application
from rdbg.by_hand import INTERRUPT, ByHand
from rdbg.client import Session
from rdbg.driving.journal import Journal
from rdbg.looks import OBJECTS, Look, Names, key_of
from rdbg.replies import Refused, Unreadable

# Refusals of lines that have no place in the history.
UNCOUNTED = ("Syntax", "LineTooLong", "HistoryFull", "NoMemory")
# Words of which a line makes one move.
SINGLE = ("step", "tick", "poke", INTERRUPT)
# Those of them that are done by hand: no task makes such a move, nor does time.
BY_HAND = ("poke", INTERRUPT)
# So many places of the history are left to the lines that are typed.
RESERVE = 1_000
# A look is taken anew so many times at the most.
AGAIN = 5
Value = TypeVar("Value")
# Many looks have the same replies, and many lines are the same: each is read once.
read = functools.lru_cache(maxsize=16_384)(replies.read)
read_line = functools.lru_cache(maxsize=4_096)(commands.read)


class Unable(Exception):
    """A command of sh cannot be executed; the message says why. Nothing has changed."""


@dataclasses.dataclass(frozen=True)
class Limits:
    """How many moves may be done in a program of one's own, and entries be in its history."""

    moves: int = 100_000
    history: int = 1_000_000

    def words(self) -> List[str]:
        """The words that ask the program for them."""
        return ["--moves", str(self.moves), "--history", str(self.history)]


class Target:
    """A session and what it has told. `limits` is none where others move the target too; then what
    is known of its place may be old."""

    def __init__(
        self, session: Session, application: Optional[Application], limits: Optional[Limits]
    ) -> None:
        self.session, self.application, self.limits = session, application, limits
        self.names = Names() if application is None else Names.of(application)
        self.place, self.undone = 0, 0
        # So many of the moves done have no record any more: `back` goes no further.
        self.base = 0
        # From where to where others have moved the target since that was last told.
        self.drift: Optional[Tuple[int, int]] = None
        # The edits and interrupts that were made here, each by the place behind it.
        self.by_hand: Dict[int, ByHand] = {}
        # The moves as lines, which is exact where nobody else moves the target (`is_own`).
        self.journal = Journal()
        self.watches: Dict[int, str] = {}
        self.has_wheel = False
        # How many lines were answered, and how many entries of the history there are. (One is for
        # the coming of a session, and one is kept for its leaving.)
        self.lines, self.used = 0, 2
        # Counts what can have changed the target, so that a look is known to be new.
        self.changes = 0
        self.echo: Optional[Callable[[str], None]] = None
        # Who hears of each line with its reply, once that is known here, and where the target
        # stood.
        self.hearing: List[Callable[[str, str, int], None]] = []
        session.on_line = self._hear

    @property
    def is_own(self) -> bool:
        """Whether nobody else moves the target."""
        return self.limits is not None

    def tell(self, line: str) -> str:
        """The reply to a line, as it is."""
        return self.session.tell(line)

    def tell_all(self, lines: Iterable[str]) -> List[str]:
        """The replies to lines that are sent many at a time."""
        return list(self.session.tell_all(lines))

    def ask(self, line: str, kind: Type[Value]) -> Value:
        """The reply to a line, of a kind that is known. Raises `Refused`."""
        reply = self.tell(line)
        value = read(reply)
        if not isinstance(value, kind):
            raise Unreadable(reply)
        return value

    def places(self) -> replies.Moves:
        """How many moves are done, how many can be made again, and how many taken back."""
        if self.is_own:
            return replies.Moves(self.place, self.undone, self.place - self.base)
        return self.ask("show moves", replies.Moves)

    def trimmed(self, place: int) -> str:
        """Why there is no way back to a place before the base."""
        what = f"the records before place {self.base}"
        return f"cannot go back to {place}: {record.given_up(what)}; `goto {self.base}` is possible"

    def left(self) -> Optional[int]:
        """How many entries the history has room for; none where that isn't known."""
        return None if self.limits is None else max(0, self.limits.history - self.used)

    def afford(self, lines: int) -> None:
        """Raises `Unable` where so many lines would leave too little of the history."""
        if not self.can_afford(lines):
            raise Unable(f"it needs {lines} entries of the history, and {self.left()} are left")

    def can_afford(self, lines: int) -> bool:
        """Whether so many lines leave enough of the history."""
        left = self.left()
        return left is None or left >= lines + RESERVE

    def look(self, names: Optional[Names] = None) -> Look:
        """A look at all that is known by name, or at some of it."""
        for _ in range(AGAIN):
            looked = self.names if names is None else names
            seen, is_whole = self._look(looked)
            # (a look may tell of names that are looked at, too, and others may move in between)
            if is_whole and looked is (self.names if names is None else names):
                break
        return seen

    def _look(self, names: Names) -> Tuple[Look, bool]:
        lines = names.lines()
        if self.is_own:
            return Look.of(self.place, [read(it) for it in self.tell_all(lines)]), True
        answers = self.tell_all(["show moves", *lines, "show moves"])
        first = read(answers[0])
        assert isinstance(first, replies.Moves)
        return Look.of(first.done, [read(it) for it in answers[1:-1]]), answers[0] == answers[-1]

    @contextlib.contextmanager
    def wheel(self) -> Iterator[None]:
        """As long as nobody else may move the target. Raises `Refused` where another has it."""
        if self.is_own or self.has_wheel:
            yield
            return
        self.ask("wheel take", replies.WheelDone)
        try:
            self.places()
            yield
        finally:
            if self.has_wheel:
                self.tell("wheel give")

    def instruction(self, task: str, pc: int) -> Optional[str]:
        """An instruction as rdbg reads it, where it is known."""
        found = self.application.instruction(task, pc) if self.application else None
        return found.text if found else None

    def _hear(self, line: str, reply: str) -> None:
        before = self.place
        self._seen(line, reply)
        for hear in self.hearing:
            hear(line, reply, before)

    def _seen(self, line: str, reply: str) -> None:
        if self.echo is not None:
            self.echo(line)
        self.lines += 1
        try:
            value = read(reply)
        except Refused as refused:
            self.used += refused.name not in UNCOUNTED
            return
        self.used += 1
        command = read_line(line)
        if command is None:
            return
        if command.form.answers and not isinstance(value, command.form.answers):
            raise Unreadable(reply)
        if self.application is None:
            names = Names.all((self.names, named_in(value)))
            # (it is the same one as long as there is no new name)
            self.names = self.names if names == self.names else names
        if isinstance(value, replies.Moved) and self.is_own:
            self.journal.moved(command, value)
        if isinstance(value, replies.Moved) and command.form.word == record.TRIM:
            self._drifted(value.at)
            self.place = value.at
            self.base = max(self.base, value.at - int(command.words[1]))
        elif isinstance(value, replies.Moved):
            self._moved(command, value)
        elif isinstance(value, replies.WatchDone):
            if command.form.word == "watch":
                self.watches[value.number] = " ".join(command.condition_words())
            else:
                self.watches.pop(value.number, None)
        elif isinstance(value, replies.WheelDone):
            self.has_wheel = command.words[1] == "take"
        elif isinstance(value, replies.Moves):
            self._drifted(value.done)
            self.place, self.undone = value.done, value.undone
            self.base = value.done - value.kept

    def _drifted(self, place: int) -> None:
        """Keeps account of moves by others: a place that isn't the one that was known."""
        if not self.is_own and place != self.place:
            self.drift = (self.drift[0] if self.drift else self.place, place)

    def moved_by_others(self, place: int) -> None:
        """Others have moved the target, as a room tells."""
        self.place = place
        self.changes += 1

    def _moved(self, command: commands.Command, moved: replies.Moved) -> None:
        """Keeps account of places, edits and interrupts."""
        word, at = command.form.word, moved.at
        count = 1 if word in SINGLE else command.count()
        if count is not None and word != "until":
            self._drifted(at + count if word == record.BACK else at - count)
        self.changes += 1
        if word in (record.BACK, record.REDO):
            self.undone = max(0, self.undone + self.place - at)
        else:
            self.undone = 0
            first = at if word in SINGLE else self.place + 1
            self.by_hand = {place: it for place, it in self.by_hand.items() if place < first}
        if word in BY_HAND:
            self.by_hand[at] = ByHand(" ".join(command.words), moved.answer)
        self.place = at


def named_in(it: replies.Reply) -> Names:
    """The names that a reply says."""
    tasks: Iterable[Optional[str]] = ()
    objects = [key_of(it)] if isinstance(it, OBJECTS) else []
    if isinstance(it, replies.Cores):
        tasks = (*it.running, *it.ready)
    elif isinstance(it, replies.Task):
        place, _, name = (it.phase.place or "").partition(":")
        tasks = (it.name,)
        objects = [(kinds.OF_PLACE[place].word, name)] if place in kinds.OF_PLACE else []
    elif isinstance(it, replies.Queue):
        tasks = (*it.receivers, *it.senders)
        objects += [(kinds.QUEUE_SET.word, it.member_of)] if it.member_of else []
    elif isinstance(it, replies.QueueSet):
        tasks = it.waiters
    elif isinstance(it, (replies.Stream, replies.Messages)):
        tasks = (it.reader, it.writer)
    elif isinstance(it, replies.Group):
        tasks = [wish.task for wish in it.waiters]
    return Names(tuple(name for name in tasks if name), tuple(objects))
