"""An application file as a tree of values, each with its place in the text that was written.

The tree is that of the JSON which rdbg reads. A text in lines (`.fw`) is read into the same tree,
with the places of its own lines, so that whoever looks for faults needs to know of one form alone.
"""
import bisect
import dataclasses
import re
from typing import Iterator, List, NamedTuple, Optional, Sequence, Tuple, Union

from rdbg.digits import natural
from rdbg.failure import Failure

# A file that is longer isn't read.
MOST_BYTES = 1 << 20


class Place(NamedTuple):
    """A line and a column of a text, both counted from 1, the column in characters."""

    line: int
    column: int

    def __str__(self) -> str:
        return f"{self.line}:{self.column}"


class Lines:
    """The lines of a text, and the places of its characters in them."""

    def __init__(self, text: str) -> None:
        self._begins = [0, *(it.end() for it in re.finditer("\n", text))]

    def place(self, at: int) -> Place:
        """The place of a character."""
        line = bisect.bisect_right(self._begins, at)
        return Place(line, at - self._begins[line - 1] + 1)


class NotText(Exception):
    """A file is not UTF-8 text; `place` is the first byte that shows it."""

    def __init__(self, place: Place, message: str) -> None:
        super().__init__(message)
        self.place = place


def decoded(content: bytes) -> str:
    """The text of a file. Raises `NotText` where it isn't UTF-8, `Failure` where it is too long."""
    if len(content) > MOST_BYTES:
        raise Failure(
            f"the file has {len(content):,} bytes (at most {MOST_BYTES:,} are allowed)", 2
        )
    try:
        return content.decode("utf-8")
    except UnicodeDecodeError as error:
        good = content[: error.start].decode("utf-8")
        message = f"byte 0x{content[error.start]:02x} is not UTF-8 (save the file as UTF-8)"
        if content[:2] in (b"\xff\xfe", b"\xfe\xff"):
            message = "the file is UTF-16 (save it as UTF-8)"
        raise NotText(Lines(good).place(len(good)), message) from None


@dataclasses.dataclass(frozen=True)
class Number:
    """A number as it is written: `-3`, `1e5` and `07` are told apart from `3`."""

    text: str

    def natural(self) -> Optional[int]:
        """Its value where it is written with digits alone, and is below 2^64: what rdbg takes."""
        return natural(self.text, (1 << 64) - 1)


class Member(NamedTuple):
    """A key of an object, with its value."""

    key: str
    place: Place
    node: "Node"


@dataclasses.dataclass(frozen=True)
class Object:
    """The members of an object in the order of the text. A key may stand twice."""

    members: Tuple[Member, ...]

    def get(self, key: str) -> Optional["Node"]:
        """The value of a key, the last one where it stands twice."""
        return next((it.node for it in reversed(self.members) if it.key == key), None)


Value = Union[None, bool, Number, str, Tuple["Node", ...], Object]


@dataclasses.dataclass(frozen=True)
class Part:
    """What an instruction is of a line that says more than one does, or says it in another way:
    which of the line's instructions, counted from 0, how many there are, what is said behind the
    line's own text, and what the line costs in moves."""

    index: int = 0
    count: int = 1
    note: str = ""
    cost: str = ""


@dataclasses.dataclass(frozen=True)
class Node:
    """A value and its place. Of a text, `columns` are those at which its words begin in its line,
    if they are known. `written` is what stands there where it differs, as an instruction with a
    label, and `spelled` each of its words; `part` is given where the line isn't the instruction
    itself."""

    value: Value
    place: Place
    columns: Sequence[int] = ()
    written: Optional[str] = None
    spelled: Tuple[str, ...] = ()
    part: Optional[Part] = None

    def words(self) -> Iterator[Tuple[str, Place]]:
        """The words of a text, separated by spaces, each with its place."""
        words = [word for word in str(self.value).split(" ") if word]
        columns = self.columns or [self.place.column] * len(words)
        return ((word, Place(self.place.line, at)) for word, at in zip(words, columns))


def kind_of(value: Value) -> str:
    """What a value is called."""
    if value is None:
        return "null"
    if isinstance(value, bool):
        return "true" if value else "false"
    if isinstance(value, Number):
        return f"the number {value.text}"
    if isinstance(value, str):
        return "a string"
    return "a list" if isinstance(value, tuple) else "an object"


def objects(node: Optional[Node]) -> List[Object]:
    """The objects of a list; none where it is missing."""
    values = node.value if node is not None and isinstance(node.value, tuple) else ()
    return [each.value for each in values if isinstance(each.value, Object)]


class Fault(NamedTuple):
    """A fault: where it is, its kind as rdbg says it (`L3 Limit`), and what would be right."""

    place: Place
    kind: str
    message: str

    def __str__(self) -> str:
        return f"{self.place}: {self.message}"
