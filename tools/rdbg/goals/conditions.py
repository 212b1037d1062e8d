"""Conditions of rdbg's language as values: which line looks at them, and whether they hold."""
import dataclasses
import operator
from typing import Callable, Dict, List, Optional, Sequence, Tuple, cast

from rdbg import commands, kinds, replies

Compare = Callable[[int, int], bool]
# The phases from which a task can have come into a phase, and those into which it can go. An edit
# changes none.
BEFORE: Dict[str, Tuple[str, ...]] = {
    "run": ("again", "given"),
    "wait": ("run", "again"),
    "again": ("wait",),
    "given": ("wait",),
    "ended": ("run",),
    "failed": ("run", "again"),
}
AFTER: Dict[str, Tuple[str, ...]] = {
    phase: tuple(later for later, earlier in BEFORE.items() if phase in earlier) for phase in BEFORE
}


@dataclasses.dataclass(frozen=True)
class Condition:
    """A condition: its kind (`count`, `reg`, ..), the name of what is looked at, the index of a
    register or an entry, the operator and the number; or, of kind `phase`, the word of a phase."""

    kind: str
    name: str = ""
    index: int = 0
    operator: str = "="
    number: int = 0
    phase: str = ""

    @property
    def subject(self) -> str:
        """What is looked at, as a line has it."""
        words = [self.kind, self.name] if self.name else [self.kind]
        return " ".join([*words, str(self.index)] if self.kind in INDEXED else words)

    @property
    def text(self) -> str:
        """It as a line has it."""
        if self.kind == "phase":
            return f"phase {self.name} {self.phase}"
        return f"{self.subject} {self.operator} {self.number}"

    def amount(self, reply: replies.Reply) -> int:
        """The number that is looked at, by the reply to `view`. Raises `IndexError` without one."""
        return AMOUNTS[self.kind](reply, self.index)

    @property
    def view(self) -> str:
        """The line whose reply says whether it holds."""
        return VIEWS[self.kind].format(self.name)

    def holds(self, reply: replies.Reply) -> bool:
        """Whether it holds, by the reply to `view`. Raises `IndexError` as `amount` does."""
        if self.kind == "phase":
            return cast(replies.Task, reply).phase.word == self.phase
        return OPERATORS[self.operator](self.amount(reply), self.number)

    def others(self, earlier: bool) -> List["Condition"]:
        """Conditions of which one holds wherever this one doesn't: of a phase, those from which
        a task has come into it (`earlier`), or into which it goes."""
        if self.kind == "phase":
            phases = (BEFORE if earlier else AFTER)[self.phase]
            return [dataclasses.replace(self, phase=phase) for phase in phases]
        bounds = {
            "=": (("<", self.number), (">", self.number)),
            "<": ((">", self.number - 1),),
            ">": (("<", self.number + 1),),
        }[self.operator]
        return [
            dataclasses.replace(self, operator=sign, number=number)
            for sign, number in bounds
            if (sign, number) != ("<", 0) and 0 <= number <= commands.MOST_NUMBER
        ]


# Of these a number says which one of a task's is looked at.
INDEXED = ("reg", "note")
VIEWS: Dict[str, str] = {
    **{word: f"show {kind.word} {{}}" for word, kind in kinds.OF_AMOUNT.items()},
    **dict.fromkeys(("reg", "pc", "note", "phase"), "show task {}"),
    "tick": "show cores",
}
OPERATORS: Dict[str, Compare] = {"=": operator.eq, "<": operator.lt, ">": operator.gt}
AMOUNTS: Dict[str, Callable[[replies.Reply, int], int]] = {
    "count": lambda it, _: cast(replies.Queue, it).count,
    "bytes": lambda it, _: cast(replies.Stream, it).held,
    "msgs": lambda it, _: len(cast(replies.Messages, it).messages),
    "bits": lambda it, _: cast(replies.Group, it).bits,
    "reg": lambda it, index: cast(replies.Task, it).registers[index],
    "pc": lambda it, _: cast(replies.Task, it).pc,
    "note": lambda it, index: cast(replies.Task, it).notes[index].value,
    "tick": lambda it, _: cast(replies.Cores, it).tick,
}


def read(words: Sequence[str]) -> Optional[Condition]:
    """The condition that these words are, or none."""
    if commands.read(f"watch {' '.join(words)}") is None:
        return None
    if words[0] == "phase":
        return Condition("phase", words[1], phase=words[2])
    name = "" if words[0] == "tick" else words[1]
    index = int(words[2]) if words[0] in INDEXED else 0
    return Condition(words[0], name, index, words[-2], int(words[-1]))
