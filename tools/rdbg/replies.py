"""The replies of rdbg as values: one table of their forms, and one reader over it.

A form is written as in docs/FORMATS.md: words in small letters stand as they are, words in capitals
are fields, which are read by their types. A refusal is no value, but an exception with its name."""
import dataclasses
import re
import typing
from typing import Any, Callable, Dict, List, Literal, NamedTuple, Optional, Tuple, Union

from rdbg.digits import MOST_DIGITS, is_digits
from rdbg.failure import Failure

NOBODY = "-"
MAX = "max"
How = Literal["", "met", "limit", "start"]
IS_NAME = re.compile(r"[a-z][a-z0-9_]{0,15}")


class Refused(Exception):
    """A command that was answered `no NAME`. TooFar and Held carry a number."""

    def __init__(self, name: str, number: Optional[int] = None) -> None:
        super().__init__(name if number is None else f"{name} {number}")
        self.name, self.number = name, number


class Unreadable(Failure):
    """A reply of no form that there is."""

    def __init__(self, line: str) -> None:
        self.line = line[:200]
        super().__init__(f"rdbg answered what no reply looks like: '{self.line}'")


class Moved(NamedTuple):
    """So many moves are done. `how` is said after a run or a way back to a condition, else it is
    empty. `answer` is that of an interrupt, 0 or 1, and none behind other moves."""

    at: int
    how: How = ""
    answer: Optional[int] = None


@dataclasses.dataclass(frozen=True)
class WheelDone:
    """The wheel was taken, or given back."""


class WatchDone(NamedTuple):
    """A watch was kept, or dropped."""

    number: int


@dataclasses.dataclass(frozen=True)
class Queue:
    """A queue; who is served first stands first."""

    name: str
    count: int
    length: int
    items: Tuple[bytes, ...]
    receivers: Tuple[str, ...]
    senders: Tuple[str, ...]
    member_of: Optional[str]


@dataclasses.dataclass(frozen=True)
class QueueSet:
    """A queue set; the queues of its handles, the oldest first."""

    name: str
    count: int
    length: int
    handles: Tuple[str, ...]
    waiters: Tuple[str, ...]


class Stream(NamedTuple):
    """A stream buffer, and whom its places name."""

    name: str
    held: int
    size: int
    trigger: int
    content: bytes
    reader: Optional[str]
    writer: Optional[str]


class Messages(NamedTuple):
    """A message buffer. `held` counts four bytes more for each message."""

    name: str
    held: int
    size: int
    messages: Tuple[bytes, ...]
    reader: Optional[str]
    writer: Optional[str]


class Wish(NamedTuple):
    """A task that waits for bits: for all of them or any, which are cleared then or kept."""

    task: str
    bits: int
    wants_all: bool
    clears: bool


class Group(NamedTuple):
    """An event group, and who waits, in the order of arrival."""

    name: str
    bits: int
    waiters: Tuple[Wish, ...]


class Phase(NamedTuple):
    """A task's phase: `word` is `run`, `again`, `given`, `wait`, `ended` or `failed`; `place` is
    where it waits, as `recv:jobs`; `deadline` a tick, or none for `max`."""

    text: str
    word: str
    place: Optional[str] = None
    deadline: Optional[int] = None
    bits: Optional[int] = None
    cause: Optional[str] = None


class Note(NamedTuple):
    """A notification entry; its state is `idle`, `waiting` or `received`."""

    value: int
    state: str


class Task(NamedTuple):
    """A task; `core` is none where it is on no core."""

    name: str
    core: Optional[int]
    pc: int
    phase: Phase
    registers: Tuple[int, ...]
    data: bytes
    notes: Tuple[Note, ...]

    @property
    def doing(self) -> str:
        """What it does, in a word or two."""
        if self.core is not None:
            return f"core {self.core}"
        if self.phase.word == "wait":
            return f"waits {self.phase.place}"
        return self.phase.word if self.phase.word in ("ended", "failed") else "ready"


class Cores(NamedTuple):
    """Who is on each core, who is ready in which order, the tick, and the turn."""

    running: Tuple[Optional[str], ...]
    ready: Tuple[str, ...]
    tick: int
    turn: int


class Moves(NamedTuple):
    """How many moves are done, how many `redo` can make again, and of how many of those done a
    record is kept, by which `back` takes them back."""

    done: int
    undone: int
    kept: int


class WheelHolder(NamedTuple):
    """The number of the session that has the wheel."""

    session: Optional[int]


class Watches(NamedTuple):
    """The numbers of a session's watches, and which of them hold."""

    holds: Tuple[Tuple[int, bool], ...]


Reply = Union[
    Moved, WheelDone, WatchDone, Queue, QueueSet, Stream, Messages, Group, Task, Cores, Moves,
    WheelHolder, Watches,
]  # fmt: skip


def number(text: str) -> int:
    """A decimal number."""
    if len(text) > MOST_DIGITS or not is_digits(text):
        raise ValueError(text)
    return int(text)


def chosen(text: str, *words: str) -> str:
    """One of these words."""
    if text not in words:
        raise ValueError(text)
    return text


def name(text: str) -> str:
    """A name of the application."""
    if not IS_NAME.fullmatch(text):
        raise ValueError(text)
    return text


def or_nobody(read: Callable[[str], Any]) -> Callable[[str], Any]:
    """Reads `-` as none."""
    return lambda text: None if text == NOBODY else read(text)


def listed(read: Callable[[str], Any]) -> Callable[[str], Tuple[Any, ...]]:
    """Reads a list; `-` is the empty one."""
    return lambda text: () if text == NOBODY else tuple(map(read, text.split(",")))


def content(text: str) -> bytes:
    """Bytes; `-` is none."""
    return b"" if text == NOBODY else bytes.fromhex(text)


def running(text: str) -> Tuple[Optional[str], ...]:
    """The tasks on the cores; `-` is an idle core."""
    return tuple(or_nobody(name)(each) for each in text.split(","))


def deadline(text: str) -> Optional[int]:
    """A tick; none for `max`."""
    return None if text == MAX else number(text)


def phase(text: str) -> Phase:
    """A phase, as `wait:recv:jobs:10`."""
    word, *rest = text.split(":")
    if word in ("run", "ended") and not rest:
        return Phase(text, word)
    if word == "again" and len(rest) == 1:
        return Phase(text, word, deadline=deadline(rest[0]))
    if word == "given" and len(rest) == 1:
        return Phase(text, word, bits=number(rest[0]))
    if word == "wait" and len(rest) == 3:
        return Phase(text, word, place=f"{rest[0]}:{rest[1]}", deadline=deadline(rest[2]))
    if word == "failed" and len(rest) == 1 and rest[0].isalpha():
        return Phase(text, word, cause=rest[0])
    raise ValueError(text)


def note(text: str) -> Note:
    """An entry, as `5:received`."""
    value, state = text.split(":")
    return Note(number(value), chosen(state, "idle", "waiting", "received"))


def wish(text: str) -> Wish:
    """A waiter of a group, as `t0:3:all:clear`."""
    task, bits, which, after = text.split(":")
    is_all, clears = chosen(which, "any", "all") == "all", chosen(after, "keep", "clear") == "clear"
    return Wish(name(task), number(bits), is_all, clears)


def holds(text: str) -> Tuple[int, bool]:
    """A watch, as `0:holds`."""
    which, state = text.split(":")
    return number(which), chosen(state, "holds", "fails") == "holds"


def interrupted(at: int, answer: bool) -> Moved:
    """An interrupt was made, and answered so."""
    return Moved(at, "", int(answer))


# How a field is read, by what it is.
READERS: Dict[Any, Callable[[str], Any]] = {
    int: number,
    str: name,
    bytes: content,
    bool: lambda text: chosen(text, "0", "1") == "1",
    How: lambda text: chosen(text, "met", "limit", "start"),
    Phase: phase,
    Optional[int]: or_nobody(number),
    Optional[str]: or_nobody(name),
    Tuple[int, ...]: listed(number),
    Tuple[str, ...]: listed(name),
    Tuple[bytes, ...]: listed(bytes.fromhex),
    Tuple[Note, ...]: listed(note),
    Tuple[Wish, ...]: listed(wish),
    Tuple[Tuple[int, bool], ...]: listed(holds),
    Tuple[Optional[str], ...]: running,
}
# Each form, and what is made of its fields.
FORMS: Dict[str, Callable[..., Reply]] = {
    "ok at N": Moved,
    "ok at N HOW": Moved,
    "ok at N isr A": interrupted,
    "ok wheel": WheelDone,
    "ok watch N": WatchDone,
    "queue NAME COUNT/LENGTH items ITEMS recv TASKS send TASKS set NAME": Queue,
    "set NAME COUNT/LENGTH handles QUEUES wait TASKS": QueueSet,
    "stream NAME HELD/SIZE trigger N bytes BYTES reader TASK writer TASK": Stream,
    "message NAME HELD/SIZE messages LIST reader TASK writer TASK": Messages,
    "group NAME bits N wait LIST": Group,
    "task NAME core N pc N phase PHASE regs LIST data BYTES notes LIST": Task,
    "cores TASKS ready TASKS tick N turn N": Cores,
    "moves N undone N kept N": Moves,
    "wheel N": WheelHolder,
    "watches LIST": Watches,
}

# Each refusal, and whether a number stands behind it.
REFUSALS: Dict[str, bool] = {
    name: name in ("TooFar", "Held")
    for name in (
        "NoTask TickLimit TooFar NothingUndone MovesFull Held NoSuch BadEdit NoIsr WatchesFull"
        " NoWatch NotHolder HistoryFull NoMemory Full Syntax LineTooLong Broken"
    ).split()
}
# By the first word: what lines look like, what is made of their fields, and how each is read.
BY_WORD: Dict[str, List[Tuple["re.Pattern[str]", Callable[..., Reply], List[Any]]]] = {}
for _text, _make in FORMS.items():
    _readers = [READERS.get(it) for it in typing.get_type_hints(_make).values()]
    _pattern = re.compile(re.sub(r"[A-Z]+", r"([^ /]+)", _text))
    BY_WORD.setdefault(_text.split(" ")[0], []).append((_pattern, _make, _readers))


def refusal(line: str) -> Refused:
    """The refusal that a line `no NAME` or `no NAME N` says."""
    words = line.split(" ")[1:]
    if not words or words[0] not in REFUSALS or len(words) != 1 + REFUSALS[words[0]]:
        raise Unreadable(line)
    try:
        return Refused(words[0], number(words[1]) if words[1:] else None)
    except ValueError:
        raise Unreadable(line) from None


def read(line: str) -> Reply:
    """The value of a reply. Raises `Refused` for a refusal, `Unreadable` for what is no reply."""
    first = line.split(" ", 1)[0]
    if first == "no":
        raise refusal(line)
    for pattern, make, readers in BY_WORD.get(first, ()):
        found = pattern.fullmatch(line)
        if found:
            try:
                return make(*[it(text) for it, text in zip(readers, found.groups())])
            except ValueError:
                continue
    raise Unreadable(line)
