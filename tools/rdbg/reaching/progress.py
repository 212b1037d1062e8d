"""How far a search is, as its program says it in lines, and as a terminal shows it in one."""
import os
import re
import time
from typing import IO, NamedTuple, Optional

BEGIN = "progress "
LINE = re.compile(
    r"progress within (\d+)(?: moves)?(?: and (\d+) surprises)?"
    r" states (\d+) moves (\d+) deepest (\d+) bytes (\d+)",
    re.ASCII,
)
# So many seconds are between two looks at it.
EVERY = 1.0
MEBIBYTE = 1 << 20
# How a terminal shows Ctrl-C.
TYPED = "^C"


class Progress(NamedTuple):
    """What was gone through until now: all orders of at most `within` moves, of which there may be
    a bound of `surprises`, and others, the longest of `deepest` moves. `size` is in bytes."""

    within: int
    surprises: Optional[int]
    states: int
    moves: int
    deepest: int
    size: int


def read(line: str) -> Optional[Progress]:
    """What a line of the program says; none where it is another one."""
    found = LINE.fullmatch(line)
    if found is None:
        return None
    within, surprises, *counts = found.groups()
    most = None if surprises is None else int(surprises)
    return Progress(int(within), most, *map(int, counts))


class Gauge:
    """Shows it once a second in a line of a terminal, gone at the end; elsewhere nothing."""

    def __init__(self, stream: IO[str]) -> None:
        self._stream = stream
        self._is_shown = stream.isatty()
        self._drawn = 0
        self._seen, self._at = 0, time.monotonic()
        self._due = self._at + EVERY

    def rest(self) -> Optional[float]:
        """In how many seconds it is to be shown; none: never."""
        return max(0.0, self._due - time.monotonic()) if self._is_shown else None

    def show(self, progress: Optional[Progress]) -> None:
        """Shows it, where that is due."""
        now = time.monotonic()
        if not self._is_shown or now < self._due:
            return
        self._due = now + EVERY
        if progress is None or progress.moves == self._seen:
            return
        # (where the program counts anew, all that it has counted is new)
        before = self._seen if self._seen < progress.moves else 0
        speed = (progress.moves - before) / (now - self._at)
        self._seen, self._at = progress.moves, now
        self._draw(
            f"searching: all runs of {progress.within:,} moves, longest {progress.deepest:,}:"
            f" {progress.states:,} states, {speed:,.0f} moves/s, {progress.size / MEBIBYTE:,.0f} MiB"
        )

    def clear(self) -> None:
        """Takes the line away."""
        if self._drawn:
            # (where Ctrl-C was typed, it stands behind the line)
            self._drawn += len(TYPED)
            self._draw("")
            print(end="\r", file=self._stream, flush=True)

    def _draw(self, text: str) -> None:
        """Draws a line in place of the one that is there."""
        most = max(1, self._width() - 1)
        cut = text[:most]
        print("\r" + cut.ljust(min(most, self._drawn)), end="", file=self._stream, flush=True)
        self._drawn = len(cut)

    def _width(self) -> int:
        """How many columns the terminal has."""
        try:
            return os.get_terminal_size(self._stream.fileno()).columns or 80
        except OSError:
            return 80
