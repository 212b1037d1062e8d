"""The cases of a folder, as `goals.json` lists them: what is asked of which application."""
import argparse
import dataclasses
import os
import re
from typing import Any, Callable, Dict, List, NamedTuple, Optional, Tuple

from rdbg import json_text
from rdbg.digits import seconds
from rdbg.driving.pacing import IS, pace
from rdbg.failure import Failure, trying, turned
from rdbg.files.definitions import definition
from rdbg.input_file import read_bounded
from rdbg.reaching.asking import QUESTIONS, REACH
from rdbg.tree import Fault, Node, Number, Object, Place, kind_of
from rdbg.wording import nearest, quoted, shown

# The file that lists the cases of a folder, and its one key.
FILE, CASES = "goals.json", "cases"
# So many seconds a case may take where it says no number.
WITHIN = 60.0
KIND = "goals"
# What may be expected: the first line of an answer, or its beginning.
HEADS = ("found", "never", "not within", "still", "lost at", "full")
EXPECTED = re.compile(
    r"found|never|still|full|lost at( \d+)?"
    r"|(full: )?not within( \d+ moves)?(( and)? \d+ surprises)?",
    re.ASCII,
)


class Wrong(Exception):
    """A value isn't one of its key: what it is to be."""


class Case(NamedTuple):
    """A case: its place in the file, the application, the goal, the question, with the options of
    `reach`, the expected answer, how many seconds that may take, and whether the answer is expected
    to be vacuous."""

    place: Place
    file: str
    goal: str
    expect: str
    question: str = REACH.word
    isr: Tuple[str, ...] = ()
    consts: Tuple[str, ...] = ()
    pace: str = ""
    begin: str = ""
    surprises: Optional[int] = None
    moves: Optional[int] = None
    states: Optional[int] = None
    memory: Optional[int] = None
    within: float = WITHIN
    vacuous: bool = False

    def options(self, folder: str) -> Tuple[str, ...]:
        """The words of the search that say where it begins, at which pace, and what it may keep."""
        begin = os.path.join(folder, self.begin) if self.begin else ""
        said = {"from": begin, "pace": self.pace, "states": self.states, "memory": self.memory}
        given = ((f"--{name}", str(it)) for name, it in said.items() if it not in (None, ""))
        return tuple(word for pair in given for word in pair)

    def is_met(self, head: str) -> bool:
        """Whether the first line of an answer is what is expected, or begins with it."""
        return re.match(rf"{re.escape(self.expect)}\b", head) is not None


def text(node: Node) -> str:
    """A text that isn't empty, on one line."""
    if not isinstance(node.value, str) or not node.value.strip() or not node.value.isprintable():
        raise Wrong("a string")
    return node.value.strip()


def texts(node: Node) -> Tuple[str, ...]:
    """A list of texts."""
    if not isinstance(node.value, tuple):
        raise Wrong("a list of strings")
    return tuple(text(it) for it in node.value)


def a_text(fits: Callable[[str], object], what: str) -> Callable[[Node], str]:
    """What reads a text that fits."""

    def read(node: Node) -> str:
        if not isinstance(node.value, str) or not fits(node.value):
            raise Wrong(what)
        return node.value

    return read


question = a_text(QUESTIONS.__contains__, f"one of {', '.join(QUESTIONS)}")
FIRST_LINE = f"the first line of an answer or its beginning ({', '.join(HEADS)})"
expected = a_text(EXPECTED.fullmatch, FIRST_LINE)
a_pace = a_text(pace, f"a string: {IS}")


def consts(node: Node) -> Tuple[str, ...]:
    """A list of consts with their numbers."""
    found = texts(node)
    with turned(Wrong, argparse.ArgumentTypeError, of="a list of consts"):
        for it in found:
            definition(it)
    return found


def limit(node: Node) -> float:
    """A number of seconds."""
    found = seconds(node.value.text) if isinstance(node.value, Number) else None
    if found is None:
        raise Wrong("a number of seconds above 0")
    return found


def true_or_false(node: Node) -> bool:
    """Reads `true` or `false`."""
    if not isinstance(node.value, bool):
        raise Wrong("true or false")
    return node.value


@dataclasses.dataclass(frozen=True)
class Between:
    """Reads a number within limits."""

    least: int
    most: int

    def __call__(self, node: Node) -> int:
        found = node.value.natural() if isinstance(node.value, Number) else None
        if found is None or not self.least <= found <= self.most:
            raise Wrong(f"a number from {self.least} to {self.most:,}")
        return found


class Key(NamedTuple):
    """A key of a case: what it says, how it is read, its field, and whether each case has it."""

    name: str
    says: str
    read: Callable[[Node], Any]
    field: str = ""
    is_needed: bool = False


BILLION = 1_000_000_000
VACUOUS = "whether the goal is expected to be vacuous: some task never waits without a deadline"
ISR = "the interrupts that may occur, by name or by their calls; all of the model's if omitted"
# Each is one row.
KEYS = (
    Key("file", "the model (.fw, .json or .c), in the folder of this file", text, is_needed=True),
    Key("goal", "the goal (docs/REACHING.md)", text, is_needed=True),
    Key("expect", "the first line of the answer or its beginning", expected, is_needed=True),
    Key("question", "the question about the goal; reach if omitted", question),
    Key("isr", ISR, texts),
    Key("consts", "values of consts of a .fw model, NAME=N", consts),
    Key("pace", "the number of moves that each busy core makes between two ticks", a_pace),
    Key("from", "the file of command lines after which the search begins", text, "begin"),
    Key("surprises", "search runs of at most this many surprises", Between(0, 255)),
    Key("moves", "search runs of at most this many moves", Between(0, BILLION)),
    Key("states", "the maximum number of stored states", Between(1, BILLION)),
    Key("memory", "the maximum memory for stored states in MiB", Between(1, 1_048_576)),
    Key("within", f"the time limit in seconds; {WITHIN:.0f} if omitted", limit),
    Key("vacuous", VACUOUS, true_or_false),
)
NAMES = tuple(key.name for key in KEYS)


class Cases:
    """The cases of a text, and what is wrong with it."""

    def __init__(self) -> None:
        self.cases: List[Case] = []
        self.faults: List[Fault] = []

    def fault(self, place: Place, message: str) -> None:
        """Keeps a fault."""
        self.faults.append(Fault(place, KIND, message))

    def file(self, root: Node) -> None:
        """The whole file: one object with the list of cases."""
        node = self._members(root, "the file", (CASES,)).get(CASES)
        if node is None:
            if isinstance(root.value, Object) and not self.faults:
                self.fault(root.place, f'the file: missing key "{CASES}" (the list of cases)')
            return
        if not isinstance(node.value, tuple) or not node.value:
            what = "an empty list" if node.value == () else shown(kind_of(node.value))
            self.fault(node.place, f"{CASES} must be a list of cases, found {what}")
            return
        for at, it in enumerate(node.value, 1):
            self._case(it, f"case {at}")

    def _members(self, node: Node, label: str, names: Tuple[str, ...]) -> Dict[str, Node]:
        """The values of an object by their keys, which are among these, each there once."""
        found: Dict[str, Node] = {}
        if not isinstance(node.value, Object):
            what = shown(kind_of(node.value))
            self.fault(node.place, f"{label} must be an object, found {what}")
            return found
        for it in node.value.members:
            if it.key not in names:
                near = nearest(it.key, names)
                hint = (
                    f"did you mean {quoted(near)}?" if near else f"known keys: {', '.join(names)}"
                )
                self.fault(it.place, f"{label}: unknown key {quoted(it.key)} ({hint})")
            elif it.key in found:
                self.fault(it.place, f"{label}: duplicate key {quoted(it.key)}")
            else:
                found[it.key] = it.node
        return found

    def _case(self, node: Node, label: str) -> None:
        before = len(self.faults)
        found = self._members(node, label, NAMES)
        if not isinstance(node.value, Object):
            return
        values: Dict[str, Any] = {}
        for key in KEYS:
            if key.name in found:
                try:
                    values[key.field or key.name] = key.read(found[key.name])
                except Wrong as wrong:
                    self.fault(found[key.name].place, f"{label}: {key.name} must be {wrong}")
            elif key.is_needed:
                self.fault(node.place, f"{label}: missing key {quoted(key.name)} ({key.says})")
        if len(self.faults) == before:
            self.cases.append(Case(node.place, **values))


def file_of(path: str) -> str:
    """The file that lists the cases, given by itself or its folder. Raises `Failure` for none."""
    if not os.path.isdir(path):
        return path
    found = os.path.join(path, FILE)
    if not os.path.exists(found):
        raise Failure(f"{path} has no {FILE} (the file that lists the models and their goals)", 2)
    return found


def load(path: str) -> Tuple[List[Case], List[Fault]]:
    """The cases of a file, and what is wrong with it. Raises `Failure` where it can't be read."""
    with trying(f"read {path}"):
        content = read_bounded(path)
    root, faults = json_text.read(content)
    if root is None:
        return [], faults
    found = Cases()
    found.file(root)
    return found.cases, found.faults
