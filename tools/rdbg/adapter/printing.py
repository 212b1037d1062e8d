"""Captures the output of `sh` commands per thread, because standard output carries the protocol."""
import contextlib
import io
import sys
import threading
from typing import IO, Any, Iterator, List, Optional

HERE = threading.local()
MARK = "# "


class Gathered(io.TextIOBase):
    """A stream that hands what is written to whoever gathers in this thread, or else to another."""

    def __init__(self, other: IO[str]) -> None:
        self._other = other

    def write(self, text: str) -> int:
        """Takes a text."""
        pieces: Optional[List[str]] = getattr(HERE, "pieces", None)
        if pieces is None:
            return self._other.write(text)
        pieces.append(text)
        return len(text)

    def flush(self) -> None:
        """Nothing is kept back."""
        if getattr(HERE, "pieces", None) is None:
            self._other.flush()


def install() -> None:
    """From here on, what is printed can be gathered; what isn't goes to standard error, since
    standard output may be the protocol's."""
    if not isinstance(sys.stdout, Gathered):
        streams: Any = sys
        streams.stdout, streams.stderr = Gathered(sys.stderr), Gathered(sys.stderr)


@contextlib.contextmanager
def gathered() -> Iterator[List[str]]:
    """The pieces that this thread prints."""
    before = getattr(HERE, "pieces", None)
    pieces: List[str] = []
    HERE.pieces = pieces
    try:
        yield pieces
    finally:
        HERE.pieces = before


def text_of(pieces: List[str]) -> str:
    """What was printed, without the marks of sh's own lines."""
    lines = "".join(pieces).rstrip("\n").split("\n")
    return "\n".join(it[len(MARK) :] if it.startswith(MARK) else it for it in lines)
