"""What nobody reads: registers that scripts count in, and data of tasks and items of queues that
these go on into, by the scripts and by the words of a goal."""
import re
from typing import Any, Dict, FrozenSet, Iterator, NamedTuple, Sequence, Set, Tuple

from tests.reaching.states import Views

# A register: its task by its name, and its number.
Register = Tuple[str, int]
# What holds values: a register, the data of a task, or the items of a queue.
Cell = Tuple[str, ...]
NAMED = re.compile(r"\breg (\S+) (\d+)")
NUMBER = re.compile(r"r([0-7])")
# Where the words of an instruction stand that it reads, if they are registers.
READ = {
    "jumpz": (1,),
    "send": (2,),
    "front": (2,),
    "recv": (2,),
    "peek": (2,),
    "select": (2,),
    "swrite": (2,),
    "sread": (3,),
    "strig": (2,),
    "mwrite": (2,),
    "mread": (3,),
    "gset": (2,),
    "gclear": (2,),
    "gwait": (2, 5),
    "gsync": (2, 3, 4),
    "notify": (3,),
    "query": (3,),
    "take": (3,),
    "nwait": (2, 3, 4),
    "vclear": (3,),
}


# Calls that make an item of data, or data of an item, and those of buffers.
OF_ITEMS = ("send", "front", "recv", "peek", "over")
OF_BUFFERS = ("swrite", "sread", "mwrite", "mread")


class Unread(NamedTuple):
    """Registers, tasks by the names of those whose data nobody reads, and queues likewise."""

    registers: FrozenSet[Register] = frozenset()
    data: FrozenSet[str] = frozenset()
    items: FrozenSet[str] = frozenset()


def counted_in(code: Sequence[str]) -> FrozenSet[int]:
    """The registers that a script adds to, round by round, or moves others into."""
    lines = [line.split() for line in code]
    jumps = [(int(line[-1]), at) for at, line in enumerate(lines) if line[0] in ("jump", "jumpz")]
    return frozenset(
        _number(line[1])
        for at, line in enumerate(lines)
        if line[0] == "move" or (line[0] == "add" and any(to <= at <= back for to, back in jumps))
    )


def unread(application: Dict[str, Any], words: str) -> Unread:
    """What is counted in, and what that goes on into, that nobody reads: neither the scripts nor
    the goal of these words."""
    flows = {flow for task in application["tasks"] for flow in _flows(task)}
    grown = _closed({cell for task in application["tasks"] for cell in _counted(task)}, flows)
    needed: Set[Cell] = {("reg", task, number) for task, number in NAMED.findall(words)}
    needed |= {cell for task in application["tasks"] for cell in _needed(task)}
    back = {(into, of) for of, into in flows}
    every = needed | {cell for flow in flows for cell in flow}
    seen = _closed(needed | (every - grown), back)
    left = grown - seen
    return Unread(
        frozenset((cell[1], int(cell[2])) for cell in left if cell[0] == "reg"),
        frozenset(cell[1] for cell in left if cell[0] == "data"),
        frozenset(cell[1] for cell in left if cell[0] == "items"),
    )


def without(hidden: Unread, views: Views) -> Views:
    """What is shown without this."""
    return tuple(_without(hidden, view) for view in views)


def _without(hidden: Unread, view: str) -> str:
    words = view.split(" ")
    if words[0] == "task":
        at = words.index("regs") + 1
        values = enumerate(words[at].split(","))
        words[at] = ",".join("-" if (words[1], it) in hidden.registers else of for it, of in values)
        if words[1] in hidden.data:
            at = words.index("data") + 1
            words[at] = str(len(words[at]))
    elif words[0] == "queue" and words[1] in hidden.items:
        words[words.index("items") + 1 : words.index("recv")] = ["-"]
    return " ".join(words)


def _closed(cells: Set[Cell], flows: Set[Tuple[Cell, Cell]]) -> Set[Cell]:
    """These, and all that they go on into."""
    found, left = set(cells), list(cells)
    while left:
        last = left.pop()
        for of, into in flows:
            if of == last and into not in found:
                found.add(into)
                left.append(into)
    return found


def _counted(task: Dict[str, Any]) -> Iterator[Cell]:
    for number in counted_in(task["code"]):
        yield ("reg", task["name"], str(number))


def _flows(task: Dict[str, Any]) -> Iterator[Tuple[Cell, Cell]]:
    """What goes on into what, by the instructions of a task: data into items, and items into data,
    are one."""
    name = task["name"]
    data = ("data", name)
    for line in map(str.split, task["code"]):
        if line[0] == "move":
            yield _register(name, line[2]), _register(name, line[1])
        elif line[0] == "pack":
            yield _register(name, line[1]), data
        elif line[0] == "unpack":
            yield data, _register(name, line[1])
        elif line[0] in OF_ITEMS:
            items = ("items", line[1])
            yield data, items
            yield items, data


def _needed(task: Dict[str, Any]) -> Iterator[Cell]:
    """What an instruction of a task needs: the registers that it tests or takes as operands, and
    data that go into a buffer, or come from one."""
    for line in map(str.split, task["code"]):
        if line[0] in OF_BUFFERS:
            yield ("data", task["name"])
        for at in READ.get(line[0], ()):
            if NUMBER.fullmatch(line[at]):
                yield _register(task["name"], line[at])


def _register(task: str, word: str) -> Cell:
    return ("reg", task, str(_number(word)))


def _number(word: str) -> int:
    return int(word[1:])
