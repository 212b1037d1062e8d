"""The sessions of a room's program and the names that have them, here or away; guests."""
import itertools
import re
from typing import Dict, Iterator, List, Optional

from rdbg.commands import is_name
from rdbg.printable import printable

GUEST = "guest"
# Words with which notices of a room begin.
NOT_NAMES = ("no", "you", "here", "away", "rdbg", "room")
NAMING = "a name has 1 to 16 of the characters a-z, 0-9 and _, and begins with a letter"


class Refusal(Exception):
    """A request that the room refuses, with the reason as a sentence."""


def all_of(count: int, what: str = "") -> str:
    """Returns the beginning of a sentence about all sessions of a kind."""
    return f"the one session{what} is" if count == 1 else f"all {count} sessions{what} are"


class Seat:
    """A session of the program, and the name that has it, or an empty name."""

    def __init__(self, number: int) -> None:
        self.number, self.name = number, ""
        self.is_here, self.is_guest = False, False
        # (its watches by number, and when its member left)
        self.watches: Dict[int, str] = {}
        self.left = 0


def check(name: str) -> None:
    """Raises `Refusal` if a name is not valid."""
    if not is_name(name):
        raise Refusal(f"'{printable(name[:16])}' is not a valid name: {NAMING}")
    if name in NOT_NAMES:
        raise Refusal(f"'{name}' is not a valid name: the room uses this word itself")


class Seats:
    """All sessions of a program. A name keeps its session while it is away. If all sessions are
    taken when a new name joins, the name that has been away longest loses its session, guests
    first. Guests get at most half of the sessions, and never that of a name that is away, so that
    names can join however many connections there are."""

    def __init__(self, count: int) -> None:
        self.all: List[Seat] = [Seat(number) for number in range(1, count + 1)]
        self._times = itertools.count(1)

    def by_name(self) -> Dict[str, Seat]:
        """Returns the sessions that have a name, by name."""
        return {it.name: it for it in self.all if it.name}

    def here(self) -> Iterator[Seat]:
        """Returns the sessions of members who are here."""
        return (it for it in self.all if it.is_here)

    def find(self, name: Optional[str]) -> Seat:
        """Returns the session for a name, or for a guest; it may belong to a name that is away.
        Raises `Refusal` if that name is already here, or no session is free."""
        names = self.by_name()
        if name is None:
            return names.get(self.guest_name()) or self._for_guest()
        check(name)
        if name in names and names[name].is_here:
            raise Refusal(f"{name} is already here")
        return names[name] if name in names else self._free(self.all)

    def _for_guest(self) -> Seat:
        """Returns a session for a new guest. Raises `Refusal` if there is none."""
        most = max(1, len(self.all) // 2)
        if sum(it.is_guest for it in self.here()) >= most:
            raise Refusal(f"{all_of(most, ' for guests')} in use")
        away = [it for it in self.all if not it.is_here]
        seats = [it for it in away if it.is_guest or not it.name]
        if away and not seats:
            raise Refusal(f"{all_of(len(self.all))} in use, or kept for a name that is away")
        return self._free(seats)

    def guest_name(self) -> str:
        """Returns the name of the next guest."""
        here = {it.name for it in self.here()}
        return next(it for it in map(f"{GUEST}{{}}".format, itertools.count(1)) if it not in here)

    def _free(self, seats: List[Seat]) -> Seat:
        """Returns an unused session, or the one left first. Raises `Refusal` if all are in use."""
        away = [it for it in seats if not it.is_here]
        if not away:
            raise Refusal(f"{all_of(len(self.all))} in use")
        return min(away, key=lambda it: (bool(it.name), not it.is_guest, it.left, it.number))

    def sit(self, seat: Seat, name: str) -> None:
        """Gives a session to a name."""
        seat.name, seat.is_here = name, True
        seat.is_guest = re.fullmatch(rf"{GUEST}\d+", name) is not None

    def leave(self, seat: Seat) -> None:
        """Marks the name of a session as away."""
        seat.is_here, seat.left = False, next(self._times)

    def clear(self, seat: Seat) -> None:
        """Takes a session from its name."""
        seat.name, seat.is_here, seat.is_guest = "", False, False
        seat.watches.clear()
