"""What a room tells between two replies: what others do is printed at once, and what was done here
says what a line did."""
import contextlib
import os
import re
import select
import threading
from typing import Callable, Iterator, List, Optional, Sequence, Tuple

from rdbg.client import Session
from rdbg.failure import Failure

# A move of a run, told in a line of its own behind the line of the run.
ROW = re.compile(r"# ([0-9]+(\.\.[0-9]+)?  |\.\. [0-9]+ moves )")
# What others did, and the place behind it.
MOVED = re.compile(r"# \w+: .* -> ok at ([0-9]{1,10})\b")
# A line that is for a room, and no comment.
REMARK = re.compile(
    r"# *(who|wheel|help|reload|name +\S+|say +\S.*|to +\w+: *\S.*|(moves|talk)( +[0-9]+)?)$"
)
# Says that a room has reloaded its file.
READ_ANEW = re.compile(r"# \w+ reloaded the file: ")
# So many moves a room tells at the most.
MOST_MOVES = 20
# Between the lines of what something came to.
BETWEEN = " | "
# So many seconds pass until who wasn't woken is woken again.
AGAIN = 0.05


class Notices:
    """The notices of a session: `show` prints one, `moved` hears where others moved the target."""

    def __init__(
        self, session: Session, show: Callable[[str], None], moved: Callable[[int], None]
    ) -> None:
        self._session, self._show, self._moved = session, show, moved
        self._own: List[str] = []
        self._is_own = False
        # (what was typed and isn't asked yet, none while nothing is done)
        self._typed: Optional[str] = None
        self._is_begun = False
        self._said: List[str] = []
        session.on_notice, session.on_ask = self.hear, self._asking

    @property
    def is_room(self) -> bool:
        """Whether this is a session of a room."""
        return self._session.name is not None

    def hear(self, notice: str) -> None:
        """Hears a notice."""
        head = f"# {self._session.name}: "
        if notice.startswith(head):
            self._own, self._is_own = [notice[len(head) :]], True
        elif self._is_own and ROW.match(notice):
            self._own.append(notice[len("# ") :])
        else:
            self._is_own = False
            found = MOVED.match(notice)
            if found:
                self._moved(int(found[1]))
            self._show(notice)

    def told(self, reply: str) -> Tuple[str, List[str]]:
        """What the line answered so did, in words, and a row for each move of a run; else empty."""
        head, *rows = self._own or [""]
        return head.partition(f" -> {reply}")[2][len(", ") :], rows

    @contextlib.contextmanager
    def doing(self, typed: str) -> Iterator[None]:
        """As long as what was typed is done. The room keeps a line that is asked as it was typed by
        itself. Of others it is told which word they are for, and what that came to; or, where
        nothing was typed or it was asked already, that they are looks of sh's own."""
        self._typed, self._is_begun = (typed if self.is_room else None), False
        self._said.clear()
        try:
            yield
        finally:
            if self._is_begun:
                self._session.note(f"# did {BETWEEN.join(self._said)}".rstrip())
            self._typed, self._is_begun = None, False

    def _asking(self, lines: Sequence[str]) -> None:
        """Lines are about to be asked."""
        if self._typed and not self._is_begun and list(lines) == [self._typed]:
            self._typed = ""
        elif self._typed is not None and not self._is_begun:
            self._is_begun = True
            self._session.note(f"# does {self._typed}".rstrip())

    def said(self, text: str) -> None:
        """A line was printed of what is done."""
        if self._typed is not None:
            self._said.append(text)

    def forget(self) -> None:
        """A new line begins."""
        self._own, self._is_own = [], False

    @contextlib.contextmanager
    def listening(self, wake: Callable[[], None]) -> Iterator[None]:
        """As long as a line is typed: `wake` is called, in another thread, once something comes."""
        there = self._session.waited_for()
        if there is None:
            yield
            return
        ended, end = os.pipe()
        thread = threading.Thread(target=listen, args=(there, ended, wake), daemon=True)
        thread.start()
        try:
            yield
        finally:
            os.write(end, b".")
            thread.join()
            os.close(ended)
            os.close(end)

    def hear_now(self) -> None:
        """Hears what has come. Raises `Failure` where nothing will come any more."""
        if not self._session.hear_now():
            raise Failure(self._session.why_ended())


def listen(there: int, ended: int, wake: Callable[[], None]) -> None:
    """Wakes somebody once something is there, until that is seen. (A signal that comes before what
    it has to interrupt has begun is lost.)"""
    ready, _, _ = select.select([there, ended], [], [])
    while ended not in ready:
        wake()
        ready, _, _ = select.select([ended], [], [], AGAIN)
