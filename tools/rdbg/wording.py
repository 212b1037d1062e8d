"""How things of a file are shown in a message, on one line; and tables of words."""
import contextlib
import contextvars
import difflib
import re
from typing import Dict, Iterable, Iterator, List, Mapping, Optional

MOST_SHOWN = 60
SUGGESTS = contextvars.ContextVar("SUGGESTS", default=True)


def shown(text: str) -> str:
    """A text of a file, where what can't be seen is written by its number."""
    short = text if len(text) <= MOST_SHOWN else text[: MOST_SHOWN - 2] + ".."
    return "".join(sign if sign.isprintable() else f"\\u{ord(sign):04x}" for sign in short)


def quoted(text: str) -> str:
    """The same between quotes."""
    return f'"{shown(text)}"'


def counted(count: int, noun: str) -> str:
    """`1 queue`, `2 queues`."""
    return f"{count} {noun}{'' if count == 1 else 's'}"


def by_word(table: Mapping[str, str]) -> Dict[str, str]:
    """A table of words, of what stands for several of them: `{"jump L": "goto jmp"}`."""
    return {word: meant for meant, words in table.items() for word in words.split()}


def with_article(noun: str) -> str:
    """`a queue`, `an event group`."""
    return f"an {noun}" if noun[0] in "aeiou" else f"a {noun}"


@contextlib.contextmanager
def without_suggestions() -> Iterator[None]:
    """Has `nearest` find nothing, which takes no time, as long as the block lasts."""
    before = SUGGESTS.set(False)
    try:
        yield
    finally:
        SUGGESTS.reset(before)


def suggests() -> bool:
    """Whether what is near to a word is looked for."""
    return SUGGESTS.get()


def nearest(word: str, others: Iterable[str]) -> Optional[str]:
    """The word that a slip would have made this one of, or none where nothing is near."""
    if not suggests():
        return None
    found = difflib.get_close_matches(word.lower(), list(others), n=1, cutoff=0.6)
    return found[0] if found else None


def did_you_mean(near: Optional[str]) -> str:
    """Returns ` (did you mean 'jobs'?)`, or nothing if no word is near."""
    return f" (did you mean '{near}'?)" if near else ""


def rows(table: str) -> List[List[str]]:
    """The rows of a table, a line each of cells between `|`; one that is indented goes on."""
    lines = re.sub(r"\n +", " ", table.strip()).split("\n")
    return [[cell.strip() for cell in re.split(r" \|(?= |$)", line)] for line in lines]
