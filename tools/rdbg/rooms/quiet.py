"""A prompt without a terminal: what it says is kept, and printed nowhere. By it a room's file is
read anew."""
import time
from typing import List, Tuple

from rdbg import record
from rdbg.commands import MOST_COUNT
from rdbg.driving.interrupt import Interrupt, Interrupted
from rdbg.driving.opening import begin
from rdbg.driving.target import Limits, Target, Unable
from rdbg.failure import Failure
from rdbg.files.source import Source
from rdbg.replies import Refused
from rdbg.rooms.seats import Refusal
from rdbg.shell import replay
from rdbg.shell.shell import Shell

# So many seconds a word may take.
SECONDS = 20.0


class Patience(Interrupt):
    """Ends what takes too long."""

    def __init__(self) -> None:
        super().__init__()
        self.begin()

    def begin(self) -> None:
        """From now on."""
        self._end = time.monotonic() + SECONDS

    def check(self) -> None:
        if time.monotonic() >= self._end:
            raise Interrupted


class Quiet(Shell):
    """A prompt whose words are kept, and printed nowhere."""

    def __init__(self, target: Target, source: Source) -> None:
        self.patience = Patience()
        self.texts: List[str] = []
        super().__init__(target, source, self.patience)

    def said(self, line: str) -> str:
        """What is said to a line."""
        self.patience.begin()
        self.texts.clear()
        self.line(line)
        return "\n".join(self.texts)

    def say(self, text: str) -> None:
        self.texts.append(text)
        for line in text.split("\n"):
            self.notices.said(line.strip())

    def refuse(self, why: str) -> None:
        self.say(f"no: {why}")

    def answer(self, reply: str) -> None:
        self.say(reply)

    def hint(self, text: str) -> None:
        """Says behind a refusal what would be right."""
        if text and self.texts:
            self.texts[-1] += f": {self.in_its_names(text)}"

    def stopped(self, where: str) -> None:
        self.refuse(f"stopped after {SECONDS:.0f} seconds; {where}")

    def _notice(self, notice: str) -> None:
        """The page hears it by itself."""

    def _echo(self, line: str) -> None:
        """Lines aren't shown."""


def made_again(source: Source, lines: List[str]) -> Tuple[Source, List[str], List[str]]:
    """The file of a source as it is now, the lines that make those of these moves on it that are
    the same, and what is said of them. They are made in programs of their own. Raises `Refusal`
    where it can't be read, or that takes too long."""
    shell = Quiet(begin(source, Limits(MOST_COUNT, MOST_COUNT)), source)
    try:
        shell.target.tell_all(record.untrimmed(lines))
        replay.reload(shell, [])
        if shell.source is None or shell.source is source:
            raise Refusal("; ".join(shell.texts))
        return shell.source, replay.lines_to(shell), "\n".join(shell.texts).split("\n")
    except (Unable, Refused, Failure) as wrong:
        raise Refusal(str(wrong)) from None
    finally:
        shell.target.session.kill()
