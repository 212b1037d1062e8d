"""Follows the moves of a room, so that pages show each of them as it is made."""
import collections
import queue
import threading
import time
from typing import Callable, Deque, Dict, Optional

from rdbg import record, replies
from rdbg.failure import Failure
from rdbg.replies import Refused
from rdbg.rooms.room import Room
from rdbg.rooms.web_known import Known
from rdbg.rooms.web_mirror import Differs, Mirror
from rdbg.driving.target import Unable, read
from rdbg.driving.parts import Told

# A line of at most SHORT moves is looked at as a whole, if that takes at most so many seconds. Of a
# longer one, and if more than HEAP lines wait, the LAST moves are looked at first, and earlier ones
# later: in pieces that take as long, of LEAST to MOST moves.
SHORT, SECONDS, HEAP, LAST = 64, 0.1, 32, 24
LEAST, MOST = 8, 1_024
# How many lines are executed before pages are told where the target is.
MOST_HEAP = 1_000
# How many of the moves that were taken back are looked at.
MOST_AHEAD = 1_000
# A follower whose program ends is restarted, unless that happens so often within so many seconds.
MAX_RESTARTS, RESTART_SECONDS = 5, 60.0
# What can go wrong when the moves of a room are made again.
WRONG = (Failure, Refused, Unable)
Values = Dict[str, object]
# Tells pages what to show, by a word on what it is; `run` replaces everything.
Tell = Callable[[str, Values], None]


class Follower:
    """A thread that makes each move of a room in a program of its own, and tells pages what it did.
    While there is none, it looks at earlier moves, and at those that were taken back. If its program
    ends, a new one takes over. It holds `guard` while it tells something."""

    def __init__(self, room: Room, tell: Tell) -> None:
        source = room.app_source
        assert source.application is not None
        self.guard = threading.RLock()
        self._tell = tell
        self.lost: Optional[str] = None
        self._heap: "queue.SimpleQueue[Optional[Told]]" = queue.SimpleQueue()
        # (lines taken from there that were not done yet, and how many were done and not shown yet)
        self._due: Deque[Optional[Told]] = collections.deque()
        self._count_unshown = 0
        # (whether its program has ended, and when that happened the last times)
        self._is_dead = False
        self._deaths: Deque[float] = collections.deque(maxlen=MAX_RESTARTS)
        # How many lines the room has told, and how many of them pages were shown.
        self.count_told = self.count_done = 0
        lines = room.follow(self.told)
        self._mirror = Mirror(source, lines)
        self.known = Known(source.application, self._mirror.newest(LAST))
        self._thread = threading.Thread(target=self._follow, daemon=True)
        self._thread.start()

    def told(self, line: str, reply: str) -> None:
        """Takes a line that has changed the target. Does not block."""
        value = read(reply)
        if isinstance(value, replies.Moved) and self.lost is None:
            self.count_told += 1
            self._heap.put(Told(line, value.at))

    def close(self) -> None:
        """Ends the thread and its program."""
        self._heap.put(None)
        self._thread.join()

    @property
    def _end(self) -> int:
        """The place up to which moves that were taken back are looked at."""
        return self._mirror.place + min(self._mirror.undone, MOST_AHEAD)

    def values(self) -> Values:
        """Returns what a page begins with: the moves around the target. Needs the guard."""
        place = max(self.known.first, min(self._mirror.place, self.known.last))
        return {**self.known.around(place), **self._now()}

    def _now(self) -> Values:
        """Returns where the target is, which moves are known, and how many are to come."""
        return {
            "done": self._mirror.place,
            "undone": self._mirror.undone,
            "known": [self.known.first, self.known.last],
            "toCome": 0 if self.lost else self.known.missing(self._end),
            "lost": self.lost,
        }

    def lose(self, why: Exception) -> None:
        """Gives up, and tells pages why. Needs the guard."""
        self.lost = self.lost or f"the lanes no longer follow the target: {why}"
        self._tell("now", self._now())

    def _follow(self) -> None:
        try:
            while self._go_on():
                pass
        except WRONG as wrong:
            with self.guard:
                self.lose(wrong)
        finally:
            self._mirror.close()

    def _go_on(self) -> bool:
        """Looks at moves, or does what has come; false at the end. If its program has ended, it is
        restarted, unless that happens too often."""
        try:
            if self._is_dead:
                self._restart()
            return self._look() or self._take()
        except Differs:
            raise
        except Failure:
            now = time.monotonic()
            is_often = len(self._deaths) == MAX_RESTARTS
            if self.lost or (is_often and now - self._deaths[0] < RESTART_SECONDS):
                raise
            self._deaths.append(now)
            self._is_dead = True
            return True

    def _restart(self) -> None:
        """Has a new program do what the one that ended did, and shows where the target is."""
        self._mirror.restart()
        self._is_dead = False
        with self.guard:
            self._show()

    def _look(self) -> bool:
        """Looks at some of the moves that are not known yet. Returns false if a line has come, or all
        are known."""
        if self.lost or self._due or not self._heap.empty():
            return False
        count = max(LEAST, min(self._mirror.count(SECONDS), MOST))
        piece = self.known.wanted(count, self._end)
        if piece is None:
            return False
        part = self._mirror.part(*piece)
        with self.guard:
            behind = self.known.put(part)
            self._tell("more" if behind else "now", {**behind, **self._now()})
        return True

    def _take(self) -> bool:
        """Does the lines that have come, once there are some; false at the end."""
        if not self._due:
            self._due.append(self._heap.get())
        while not self._heap.empty() and len(self._due) < MOST_HEAP:
            self._due.append(self._heap.get())
        with self.guard:
            is_heap = len(self._due) > HEAP
            while self._due and self._due[0] is not None:
                self._do(self._due[0], is_heap)
            self._show()
        return not self._due

    def _show(self) -> None:
        """Tells pages where the target is, for the holder of the guard, with the moves before it if
        those were not shown."""
        is_there = self.known.has(self._mirror.place)
        if not is_there and not self.known.find(self._mirror.place):
            count = self.known.near(self._mirror.place, LAST)
            self.known.jump(self._mirror.newest(count))
        if not is_there or self.known.forget():
            self._tell("run", {})
        else:
            self._tell("now", self._now())
        self.count_done += self._count_unshown
        self._count_unshown = 0

    def _has_done(self) -> None:
        """The program has done the first line that was due."""
        self._due.popleft()
        self._count_unshown += 1

    def _do(self, told: Told, is_heap: bool) -> None:
        """Does the first line that is due, which is not due any more once the program has done it."""
        word = told.text.split(" ")[0]
        if word == record.TRIM:
            self._has_done()
            self.known.trims = [*self.known.trims, [told.place, told.text]]
            self._tell("trims", {"trims": self.known.trims, **self._now()})
        elif word in (record.BACK, record.REDO):
            self._mirror.do(told)
            self._has_done()
        else:
            self._make(told, is_heap)

    def _make(self, told: Told, is_heap: bool) -> None:
        here = self._mirror.place
        count = told.place - here
        if count < 1:
            raise Differs(f"`{told.text}` led to place {told.place}")
        is_short = count <= max(1, min(self._mirror.count(SECONDS), SHORT))
        is_known = self.known.cut(here)
        self._mirror.do(told)
        self._has_done()
        if is_known and is_short and not is_heap:
            part = self._mirror.part(here + 1, told.place)
            self._tell("more", {**self.known.add(part), **self._now()})
