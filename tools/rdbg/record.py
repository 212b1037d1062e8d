"""Commands that go back and forth along the recorded moves."""
from typing import Iterable, List

from rdbg.wording import counted

BACK, REDO, TRIM = "back", "redo", "trim"
# Lines of these words make no move that is new.
WORDS = (BACK, REDO, TRIM)


def back(count: int) -> str:
    """The line that takes so many moves back."""
    return f"{BACK} {count}"


def again(count: int = 1) -> str:
    """The line that makes so many again."""
    return f"{REDO} {count}"


def trim(count: int) -> str:
    """The line that keeps the records of so many, and gives up those before."""
    return f"{TRIM} {count}"


def untrimmed(lines: Iterable[str]) -> List[str]:
    """The lines without trims: they lead to the same place, and `back` from there to all before."""
    return [it for it in lines if it.split(" ")[0] != TRIM]


def way(here: int, there: int) -> str:
    """The line that leads from one place to another one of the record."""
    return back(here - there) if there < here else again(there - here)


def at(place: int, undone: int) -> str:
    """Says where the target is, and how many undone moves `redo` can repeat."""
    moves = counted(undone, "undone move")
    return f"at {place}" + (f"; `{REDO}` can repeat {moves}" if undone else "")


def given_up(what: str) -> str:
    """Says that `trim` dropped records."""
    return f"`{TRIM}` dropped {what}"
