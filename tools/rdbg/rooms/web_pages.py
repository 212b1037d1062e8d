"""The pages that are open, each with a member of the room and with what it is still to be told."""
import contextlib
import itertools
import json
import secrets
import socket
import threading
import time
from typing import Callable, Dict, List, Optional, Tuple

from rdbg.rooms.room import Member, Refusal, Room
from rdbg.rooms.web_follower import Follower, Values
from rdbg.rooms.web_prompt import Prompt

# So many pages can be open.
MOST_PAGES = 16
# So many bytes of moves wait for a page: where there are more it is told all anew. So many notices
# wait for it: where there are more the oldest are dropped, and it is told how many.
MOST_WAITING, MOST_NOTICES = 2_000_000, 1_000
# So many lines of a page wait for their turn.
MOST_LINES = 16
NAME = "web"
# An event: a word on what it is, and its values as JSON.
Event = Tuple[str, str]


class Page:
    """A page in a browser, as a member of the room."""

    def __init__(self, room: Room) -> None:
        self._room = room
        self.key = secrets.token_urlsafe(18)
        self.member: Member  # (once it has joined)
        self._guard = threading.Lock()
        # (how many signs the moves have that wait, and how many notices were dropped)
        self._moves, self._waiting = [], 0  # type: List[Event], int
        self._notices, self._dropped = [], 0  # type: List[str], int
        self._needs_run, self._is_old = True, False
        self._who = ""
        self._prompt: Optional[Prompt] = None
        self._lines = threading.Semaphore(MOST_LINES)
        self._turn = threading.Lock()
        self._waking, self.woken = socket.socketpair()
        self._waking.setblocking(False)
        self.woken.setblocking(False)

    def close(self) -> None:
        """Nothing is told any more."""
        with self._guard:
            self._waking.close()
            self.woken.close()

    def wake(self) -> None:
        """Wakes who writes what waits."""
        with self._guard:
            self._wake()

    def _wake(self) -> None:
        with contextlib.suppress(OSError):  # (it is awake already, or closed)
            self._waking.send(b".")

    def hear(self, notice: str) -> None:
        """Is told a notice. Blocks nobody."""
        with self._guard:
            self._notices.append(notice)
            if len(self._notices) > MOST_NOTICES:
                del self._notices[0]
                self._dropped += 1
            self._wake()

    def tell(self, kind: str, text: str) -> None:
        """Is told what the moves did."""
        with self._guard:
            if kind == "run" or self._waiting + len(text) > MOST_WAITING:
                self._needs_run = True
                self._moves.clear()
                self._waiting = 0
            elif not self._needs_run:
                self._moves.append((kind, text))
                self._waiting += len(text)
            self._wake()

    def end(self) -> None:
        """It is told nothing any more, but that it is to be loaded anew."""
        with self._guard:
            self._is_old = True
            self._wake()

    def take(self, room: Room, follower: Follower) -> List[Event]:
        """What waits, in order, and not any more then."""
        if self._is_old:
            return [("anew", "null")]
        found = self._past()
        if self._needs_run:
            with follower.guard:
                self._needs_run = False
                found.append(("run", as_json(follower.values())))
        with self._guard:
            moves, self._moves, self._waiting = self._moves, [], 0
            notices, self._notices = self._notices, []
            dropped, self._dropped = self._dropped, 0
        if dropped:
            notices.insert(0, f"# {dropped} earlier notices were dropped")
        told = [("notice", as_json(it)) for it in notices]
        return [*found, *moves, *told, *self._who_is_here(room)]

    def _past(self) -> List[Event]:
        """What all were told before this page came, once."""
        before, self.member.before = self.member.before, ()
        told = [[int(1_000 * it.when), it.text] for it in before]
        return [("past", as_json(told))] if told else []

    def _who_is_here(self, room: Room) -> List[Event]:
        """Who this page is, and who else is here, where that isn't as it was."""
        people = [
            {
                "name": it.name,
                "session": it.number,
                "isHere": it.is_here,
                "hasWheel": it is room.holder,
                "idle": room.silence(it) // 60 if room.silence(it) >= room.idle else None,
            }
            for it in room.people()
        ]
        watches = dict(self.member.seat.watches)
        who = as_json({"name": self.member.name, "people": people, "watches": watches})
        was, self._who = self._who, who
        return [] if who == was else [("who", who)]

    def ask(self, line: str) -> str:
        """The reply to a line; empty of one with `#`, which notices answer. Raises `Refusal`."""
        if not self._lines.acquire(blocking=False):
            raise Refusal(f"{MOST_LINES} lines are already waiting for their replies")
        try:
            with self._turn:
                if line.split() == ["reload"]:
                    line = "# reload"
                if line.lstrip(" ").startswith("#"):
                    self.member.remark(line)
                    return ""
                self._prompt = self._prompt or Prompt(self._room, self.member)
                return self._prompt.said(line)
        finally:
            self._lines.release()

    def watches(self) -> str:
        """Which watches hold now, which nobody has asked for."""
        with self._turn:
            self.member.remark("# does")
            try:
                return self.member.ask("show watches")
            finally:
                self.member.remark("# did")

    def moves(self) -> str:
        """The lines that lead to where the target stands, as a file of commands."""
        return "".join(f"{line}\n" for line in self._room.lines())


class Pages:
    """All pages that are open."""

    def __init__(self, room: Room) -> None:
        self._room = room
        self._guard, self._naming = threading.Lock(), threading.Lock()
        self._open: Dict[str, Page] = {}

    def tell(self, kind: str, values: Values) -> None:
        """Tells all pages what moves did."""
        pages = self._all()
        if pages:
            text = as_json(values)
            for page in pages:
                page.tell(kind, text)

    def end_all(self) -> None:
        """All pages are to be loaded anew."""
        for page in self._all():
            page.end()

    def _all(self) -> List[Page]:
        with self._guard:
            return list(self._open.values())

    def open(self, name: Optional[str]) -> Page:
        """A page comes, by a name, or by one that nobody has. Raises `Refusal`."""
        page = Page(self._room)
        with self._guard:
            if len(self._open) >= MOST_PAGES:
                page.close()
                raise Refusal(f"{MOST_PAGES} pages are already open")
            self._open[page.key] = page
        try:
            page.member = self._join(name, page.hear)
        except BaseException:
            self._drop(page)
            raise
        return page

    def _join(self, name: Optional[str], hear: Callable[[str], None]) -> Member:
        """Joins by a name; without one as `web`, with a number where anybody has that name."""
        if name is not None:
            return self._room.join(name, hear)
        with self._naming:
            taken = {it.name for it in self._room.people()}
            names = (NAME if at == 1 else f"{NAME}{at}" for at in itertools.count(1))
            return self._room.join(next(it for it in names if it not in taken), hear)

    def of(self, key: str) -> Page:
        """The page of a key. Raises `Refusal` where it isn't open."""
        with self._guard:
            page = self._open.get(key)
        if page is None:
            raise Refusal("this page has left the room: reload it")
        return page

    def wait(self, seconds: float) -> None:
        """Wakes all who write what waits, and waits until they have ended, so long at the most."""
        until = time.monotonic() + seconds
        while self._all() and time.monotonic() < until:
            for page in self._all():
                page.wake()
            time.sleep(0.01)

    def close(self, page: Page) -> None:
        """A page has gone."""
        self._drop(page)
        page.member.leave()

    def _drop(self, page: Page) -> None:
        with self._guard:
            del self._open[page.key]
        page.close()


def as_json(value: object) -> str:
    """A value as one line."""
    return json.dumps(value, separators=(",", ":"))
