"""An application as data: what an accepted file says, each thing with its place in the text."""
from typing import Any, Dict, List, Mapping, NamedTuple, Optional, Sequence, Tuple, Union

from rdbg import kinds
from rdbg.shapes import DEFAULTS, FILE, TASK, Key, Shape
from rdbg.tree import Fault, Node, Number, Object, Part, Place, objects
from rdbg.wording import counted


class Instruction(NamedTuple):
    """An instruction: `text` is what rdbg reads, `written` what stands in the text; `part` is given
    where that is a line of several instructions, or one that says it in another way. `beside` is
    the comment of its line, and `above` those of the lines above it."""

    text: str
    written: str
    place: Place
    part: Optional[Part] = None
    above: Tuple[str, ...] = ()
    beside: str = ""

    @property
    def told(self) -> str:
        """The line as it is written, and which of its instructions it is behind the first."""
        if self.part is None:
            return self.written
        note = self.part.note
        if self.part.index:
            note = f"{self.part.index + 1} of {self.part.count}"
        return f"{self.written} ({note})" if note else self.written

    @property
    def begins(self) -> bool:
        """Whether it is the first instruction of its line."""
        return self.part is None or not self.part.index

    def words(self) -> List[str]:
        """Its words, the first of them the instruction's own."""
        return self.text.split()


class Task(NamedTuple):
    """A task, its priority (0 to 31, a higher number first) and its script."""

    name: str
    priority: int
    code: Tuple[Instruction, ...]
    place: Place


class Thing(NamedTuple):
    """An object: its name, its numbers by their keys, where it is named, and of a queue set its
    members at boot."""

    name: str
    numbers: Tuple[Tuple[str, int], ...]
    place: Place
    members: Tuple[str, ...] = ()


# The word that leaves out all interrupts of a text, of which none has this name.
NO_INTERRUPT = "none"
# How often an interrupt comes that comes any number of times, and how often others may.
ANY, MOST_TIMES, MOST_APART = 0, 255, 255


class Interrupt(NamedTuple):
    """An interrupt that may come: its name, the calls of its handler as rdbg's lines without `isr`,
    how often it comes at the most (`ANY`: any number of times), that each time answers one of
    another (`after`), how many ticks pass at the least before it comes again, and whether it ends a
    wait, so that searches let it come without being asked."""

    name: str
    calls: Tuple[str, ...]
    times: int = 1
    after: Optional[str] = None
    apart: int = 0
    is_of_wait: bool = False

    def lines(self) -> Tuple[str, ...]:
        """The lines of rdbg's that make it."""
        return tuple(f"isr {call}" for call in self.calls)


class Text(NamedTuple):
    """What a file says; of one in lines `made` is what lines of objects become, by number. There
    are `more` faults than `faults` has."""

    root: Optional[Node]
    faults: Sequence[Fault]
    remarks: Sequence[Fault] = ()
    made: Sequence[Tuple[int, str]] = ()
    comments: Mapping[int, str] = {}
    interrupts: Tuple[Interrupt, ...] = ()
    more: int = 0


class Beside(NamedTuple):
    """What a text names besides tasks and objects: numbers, and of each task instructions."""

    constants: Mapping[str, int]
    labels: Mapping[str, Mapping[str, int]]


# Whatever an application has that has a name.
Named = Union[Task, Thing]


class Application(NamedTuple):
    """What runs. A thing's number is its index in its list. A JSON names no interrupts."""

    profile: int
    cores: int
    notes: int
    tick: int
    queues: Tuple[Thing, ...]
    sets: Tuple[Thing, ...]
    streams: Tuple[Thing, ...]
    messages: Tuple[Thing, ...]
    groups: Tuple[Thing, ...]
    tasks: Tuple[Task, ...]
    interrupts: Tuple[Interrupt, ...] = ()

    def interrupt(self, name: str) -> Optional[Interrupt]:
        """The interrupt of this name."""
        return next((it for it in self.interrupts if it.name == name), None)

    def declared(self) -> List[str]:
        """The names of the interrupts that a text has lines for."""
        return [it.name for it in self.interrupts if not it.is_of_wait]

    def task(self, name: str) -> Optional[Task]:
        """The task of this name."""
        return next((task for task in self.tasks if task.name == name), None)

    def of(self, kind: kinds.Kind) -> Sequence[Named]:
        """All that there are of a kind."""
        found: Sequence[Named] = getattr(self, kind.key)
        return found

    def instruction(self, task: str, pc: int) -> Optional[Instruction]:
        """An instruction of a task, where both are there."""
        found = self.task(task)
        return found.code[pc] if found is not None and pc < len(found.code) else None

    def counts(self) -> List[str]:
        """How much there is of each kind, where there is any: `3 tasks`, `2 queues`."""
        found = ((len(self.of(it)), it.noun) for it in (kinds.TASK, *kinds.OBJECTS))
        return [counted(count, noun) for count, noun in found if count]

    def objects(self) -> List[Tuple[str, str]]:
        """Each object's kind, as `show` names it, and its name, in the order of the file."""
        return [(kind.word, it.name) for kind in kinds.OBJECTS for it in self.of(kind)]


def instruction(node: Node) -> Instruction:
    """An instruction of a file without faults."""
    value = str(node.value)
    written = value if node.written is None else node.written
    return Instruction(value, written, node.place, node.part)


def value_of(key: Key, node: Optional[Node]) -> Any:
    """What is under a key of a file without faults, and where nothing is, what that stands for."""
    if key.of is not None:
        return tuple(named(it, key.of) for it in objects(node))
    if node is None:
        return DEFAULTS[key.name]
    if isinstance(node.value, tuple):
        return tuple(instruction(it) if key.holds == "code" else it.value for it in node.value)
    return int(node.value.text) if isinstance(node.value, Number) else node.value


def values_of(it: Object, shape: Shape) -> Dict[str, Any]:
    """The values of an object by its keys."""
    return {key.name: value_of(key, it.get(key.name)) for key in shape.keys}


def named(it: Object, shape: Shape) -> Named:
    """A task or an object."""
    node, found = it.get("name"), values_of(it, shape)
    place = node.place if node else Place(1, 1)
    if shape is TASK:
        return Task(**found, place=place)
    name, members = found.pop("name"), found.pop("members", ())
    return Thing(name, tuple(found.items()), place, members)


def application(root: Object) -> Application:
    """The application of a file without faults."""
    return Application(**values_of(root, FILE))
