"""A member of a room, as connections and pages use it."""
import collections
import time
from typing import TYPE_CHECKING, Callable, Deque, NamedTuple, Optional, Sequence

from rdbg.rooms.doings import Doing

from rdbg.rooms.seats import Refusal, Seat

if TYPE_CHECKING:
    from rdbg.rooms.room import Room

# Called with each notice, without a line end, during a turn of the room: it must not block, or ask
# the room anything.
Hear = Callable[[str], None]
# The most requests to the room that a member may send in a second.
MOST_TOLD = 20


class Notice(NamedTuple):
    """A notice to everybody, and its time in seconds since 1970."""

    when: float
    text: str

    def row(self) -> str:
        """Returns it as a line, with its time in UTC."""
        return f"{time.strftime('%H:%M:%SZ', time.gmtime(self.when))} {self.text}"


class Member:
    """A member of a room, with a session of the program."""

    def __init__(self, room: "Room", seat: Seat, hear: Hear, before: Sequence[Notice]) -> None:
        # (`before` are the notices to everybody before it joined)
        self._room, self.seat, self.hear, self.before = room, seat, hear, before
        self.is_here, self.is_told = True, False
        # The command that it is executing, if that takes several lines.
        self.doing: Optional[Doing] = None
        # (the times of its latest requests to the room, and of its last line)
        self._told_at: Deque[float] = collections.deque(maxlen=MOST_TOLD)
        self._said_at = time.monotonic()

    @property
    def name(self) -> str:
        """Returns its name."""
        return self.seat.name

    @property
    def session(self) -> int:
        """Returns the number of its session."""
        return self.seat.number

    def ask(self, line: str, answer: Hear = lambda _: None) -> str:
        """Returns the reply to a line of rdbg. Raises `Refusal` if the member has left, and `Ended`
        if the program has ended."""
        return self._room.ask(self, line, answer)

    def remark(self, line: str) -> None:
        """Executes a line that begins with `#`, which is answered by notices."""
        self._room.remark(self, line)

    def rename(self, name: str) -> None:
        """Changes its name. Raises `Refusal` if that is already here, or not valid."""
        self._room.rename(self, name)

    def announce(self) -> None:
        """Announces it to the others, once."""
        self._room.announce(self)

    def check_pace(self) -> None:
        """Raises `Refusal` if it has sent too many requests to the room within a second."""
        now = time.monotonic()
        if len(self._told_at) == MOST_TOLD and now - self._told_at[0] < 1:
            raise Refusal(f"more than {MOST_TOLD} requests to the room in a second")
        self._told_at.append(now)

    def says(self) -> None:
        """Notes that it sent a line. Views that its tool asks for by itself do not count."""
        if self.doing is None or self.doing.text:
            self._said_at = time.monotonic()

    def silence(self) -> int:
        """Returns the seconds since its last line."""
        return int(time.monotonic() - self._said_at)

    def leave(self, why: str = "") -> None:
        """Leaves the room. The session stays reserved for this name."""
        self._room.leave(self, why)
