"""How much each has done in a room: what is said of a whole session at its end."""
import collections
from typing import Counter, DefaultDict, List, Optional

from rdbg.by_hand import INTERRUPT
from rdbg.commands import Command
from rdbg.driving.target import BY_HAND
from rdbg.wording import counted

# What is counted, in the order in which it is said.
MOVES, WAYS, EDITS, INTERRUPTS, REFUSALS = "move", "way", "edit", "interrupt", "refusal"
ORDER = (MOVES, WAYS, EDITS, INTERRUPTS, REFUSALS)


class Counts:
    """What those who were here did, by their names."""

    def __init__(self) -> None:
        self.of: DefaultDict[str, Counter[str]] = collections.defaultdict(collections.Counter)

    def line(self, name: str, command: Optional[Command], reply: str, moved: int) -> None:
        """Somebody has said a line, which moved the target by so much."""
        word = command.form.word if command else ""
        if reply.startswith("no "):
            self.of[name][REFUSALS] += 1
        elif word in BY_HAND:
            self.of[name][INTERRUPTS if word == INTERRUPT else EDITS] += 1
        else:
            self.way(name, moved)

    def way(self, name: str, moved: int) -> None:
        """Somebody has come to another place, by one line or by several."""
        if moved:
            self.of[name][MOVES if moved > 0 else WAYS] += max(moved, 1)

    def rename(self, old: str, new: str) -> None:
        """Somebody goes on by another name."""
        if old in self.of:
            self.of[new].update(self.of.pop(old))

    def rows(self) -> List[str]:
        """What each has done, a row each."""
        found = []
        for name, its in sorted(self.of.items()):
            told = [counted(its[it], it) + " back" * (it == WAYS) for it in ORDER if its[it]]
            found.append(f"{name}: {', '.join(told)}")
        return found
