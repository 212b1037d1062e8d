"""What a goal can name: tasks and objects, entries and instructions, and of a text in lines its
labels and constants."""
import dataclasses
import functools
import operator
from typing import Dict, Mapping, Optional

from rdbg.application import Application
from rdbg.commands import MOST_NUMBER
from rdbg.digits import number
from rdbg.files.source import Source
from rdbg.looks import Names

REGISTERS = 8


@dataclasses.dataclass(frozen=True)
class Scope:
    """What there is. Where the application isn't known, whatever has the form of a name may be
    there. `constants` are none but of a text in lines; `watches` are conditions by their
    numbers."""

    names: Names
    application: Optional[Application] = None
    constants: Optional[Mapping[str, int]] = None
    labels: Mapping[str, Mapping[str, int]] = dataclasses.field(default_factory=dict)
    watches: Mapping[int, str] = dataclasses.field(default_factory=dict)

    @classmethod
    def of(cls, source: Optional[Source], application: Optional[Application] = None) -> "Scope":
        """What a file has; the application is another where there is no file."""
        found = application if source is None else source.application
        names = Names() if found is None else Names.of(found)
        named = None if source is None else source.named()
        return cls(names, found, named.constants, named.labels) if named else cls(names, found)

    @property
    def entries(self) -> int:
        """How many notification entries each task has, or may have."""
        return 4 if self.application is None else self.application.notes

    def number(self, word: str, named: Optional[Mapping[str, int]] = None) -> Optional[int]:
        """The number that a word is: digits, or, of a text in lines, a const or one of `named`."""
        if self.constants is None:
            return number(word, MOST_NUMBER)
        known: Dict[str, int] = {**self.constants, **(named or {})}
        parts = [part_of(part, known) for part in word.split("|")]
        found = [it for it in parts if it is not None]
        return functools.reduce(operator.or_, found) if len(found) == len(parts) else None


def part_of(word: str, known: Mapping[str, int]) -> Optional[int]:
    """A number of a text in lines: decimal, hexadecimal, or by name."""
    if word in known:
        return known[word]
    digits = word[2:] if word[:2] in ("0x", "0X") else ""
    if 0 < len(digits) <= 8 and all(sign in "0123456789abcdefABCDEF" for sign in digits):
        return int(digits, 16)
    return number(word, MOST_NUMBER)
