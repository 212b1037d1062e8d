"""The source with the tasks' scripts, as the editor sees it: which line has which instruction."""
import dataclasses
import os
from typing import Any, Dict, Iterator, List, Optional, Sequence

from rdbg.adapter.messages import Arguments, Values, Wrong
from rdbg.adapter.opening import BUILTIN
from rdbg.application import Instruction
from rdbg.files.source import Source
from rdbg.from_c.lines import below

# The text of the built-in application is in no file; the editor asks for it by this number.
REFERENCE = 1


@dataclasses.dataclass(frozen=True)
class Spot:
    """An instruction and where its first character stands: line and column counted from 1."""

    task: str
    pc: int
    instruction: Instruction
    line: int
    column: int

    def __str__(self) -> str:
        return f"{self.task} {self.pc} {self.instruction.told}"


def spot(lines: Sequence[str], task: str, pc: int, code: Instruction) -> Spot:
    """An instruction with its place in these lines; of JSON, behind its quote."""
    line, column = code.place.line, code.place.column
    is_quoted = line <= len(lines) and lines[line - 1][column - 1 : column] == '"'
    return Spot(task, pc, code, line, column + is_quoted)


class Text:
    """The text of an application, where known. An editor may count lines and columns from 0."""

    def __init__(self, source: Optional[Source], line: int = 1, column: int = 1) -> None:
        # (from where the editor counts)
        self.source, self.first_line, self.first_column = source, line, column
        application = source.application if source else None
        lines = source.text.split("\n") if source else []
        tasks = application.tasks if application else ()
        self.spots = [
            spot(lines, it.name, pc, code) for it in tasks for pc, code in enumerate(it.code)
        ]
        self._at = {(spot.task, spot.pc): spot for spot in self.spots}
        # (where an instruction stands above the C that it is of)
        self._below = below(source.text) if source is not None and source.is_c else {}

    @property
    def is_generated(self) -> bool:
        """Whether it is in no file."""
        return self.source is not None and self.source.path == BUILTIN

    def of(self, task: str, pc: int) -> Optional[Spot]:
        """The instruction of a task."""
        return self._at.get((task, pc))

    def value(self) -> Optional[Values]:
        """It as the protocol has it."""
        if self.source is None:
            return None
        if self.is_generated:
            return {"name": BUILTIN, "sourceReference": REFERENCE, "origin": "made by rdbg"}
        return {"name": os.path.basename(self.source.path), "path": self.source.path}

    def is_named(self, source: Arguments) -> bool:
        """Whether a source that the editor names is this one."""
        if self.source is None:
            return False
        if self.is_generated:
            is_it = source.number("sourceReference", 0) == REFERENCE
            return is_it or os.path.basename(source.text("path", "")) == BUILTIN
        path = source.text("path", "")
        try:
            return bool(path) and os.path.realpath(path) == os.path.realpath(self.source.path)
        except (OSError, ValueError):
            return False

    def place(self, spot: Spot) -> Dict[str, Any]:
        """Where an instruction stands, as the editor counts."""
        down, right = self.first_line - 1, self.first_column - 1
        return {
            "line": spot.line + down,
            "column": spot.column + right,
            "endLine": spot.line + down,
            "endColumn": spot.column + len(spot.instruction.written) + right,
        }

    def line_in(self, given: Arguments, key: str = "line", absent: Optional[int] = None) -> int:
        """A line that the editor gives, counted from 1."""
        if absent is not None and not given.has(key):
            return absent
        return given.number(key) + 1 - self.first_line

    def at(self, line: int) -> List[Spot]:
        """The instructions at a line, of one that is several the first."""
        return [it for it in self.spots if it.line == line and it.instruction.begins]

    def found(self, line: int, column: Optional[int]) -> Spot:
        """The instruction at a line and a column, the nearest one before it; the first at the next
        line that has one. Raises `Wrong` where there is none behind it."""
        there = self.at(line) or self.at(self._below.get(line, line))
        if not there:
            later = [spot.line for spot in self.spots if spot.line > line]
            if not later:
                raise Wrong("there is no instruction at or after this line")
            return self.at(min(later))[0]
        before = [spot for spot in there if column is not None and spot.column <= column]
        return before[-1] if before else there[0]

    def same(self, spot: Spot) -> List[Spot]:
        """An instruction of a script, for each task whose script that is."""
        return [it for it in self.at(spot.line) if it.instruction.place == spot.instruction.place]

    def between(self, first: int, last: int) -> Iterator[Spot]:
        """The instructions at some lines."""
        return (it for it in self.spots if first <= it.line <= last and it.instruction.begins)
