"""The operands of instructions: what each kind is, and whether a word has its form."""
import re
from typing import Dict, Mapping, NamedTuple, Optional, Sequence, Tuple

from rdbg import kinds
from rdbg.digits import is_digits
from rdbg.wording import did_you_mean, nearest, shown, with_article

MOST_NUMBER = 4_294_967_295
NAME = r"[a-z][a-z0-9_]{0,15}"
DIGITS = r"[0-9]{1,10}"
REGISTER = r"r[0-7]"
BYTES = r"-|([0-9A-Fa-f]{2}){1,256}"
# A message lists at most this many names.
MOST_NAMED = 3


class OperandKind(NamedTuple):
    """What an operand is, and the pattern of each word that can stand there."""

    symbol: str
    noun: str
    choices: str
    pattern: str

    def words(self) -> Tuple[str, ...]:
        """The words that can stand there, where they are few: `any` and `all`."""
        plain = re.fullmatch(r"[a-z|]+", self.pattern)
        return tuple(self.pattern.split("|")) if plain else ()


KINDS: Tuple[OperandKind, ...] = (
    OperandKind("R", "register", "r0 to r7", REGISTER),
    OperandKind("N", "number", f"0 to {MOST_NUMBER}", DIGITS),
    OperandKind("V", "value", "a number or r0 to r7", f"{REGISTER}|{DIGITS}"),
    OperandKind("T", "block time", "max, a number, or r0 to r7", f"max|{REGISTER}|{DIGITS}"),
    OperandKind("L", "target", "an instruction number", DIGITS),
    OperandKind("I", "index of a notification entry", "a number below notes", DIGITS),
    OperandKind("ROOM", "room", "1 to 256, the most bytes to read", DIGITS),
    OperandKind("HEX", "bytes", "1 to 256 pairs of hexadecimal digits, or -", BYTES),
    OperandKind("ACTION", "action", "none, bits, inc, set or setif", "none|bits|inc|set|setif"),
    OperandKind("WISH", "wish", "any or all", "any|all"),
    OperandKind("CLR", "word for clearing", "keep or clear", "keep|clear"),
    OperandKind("clear|dec", "word for clearing", "clear or dec", "clear|dec"),
    *(OperandKind(it.symbol, it.noun, "a name", NAME) for it in kinds.ALL),
)
KIND_OF: Dict[str, OperandKind] = {kind.symbol: kind for kind in KINDS}
# The kinds that are names, in the order of a file's keys.
NAMED = tuple(it.symbol for it in kinds.ALL)
PATTERN_OF = {kind.symbol: re.compile(kind.pattern) for kind in KINDS}
# What C calls the actions of a notification.
OF_C = "eNoAction eSetBits eIncrement eSetValueWithOverwrite eSetValueWithoutOverwrite"
ACTIONS: Dict[str, str] = dict(zip(OF_C.split(), KIND_OF["ACTION"].words()))


class Scope(NamedTuple):
    """What an instruction can name: the names by symbols, and how many entries and instructions."""

    names: Mapping[str, Sequence[str]]
    entries: int = 1
    length: int = 256
    in_lines: bool = False

    def limits(self, symbol: str) -> Optional[Tuple[int, int]]:
        """The least and the largest number of such an operand; none where it isn't one."""
        if symbol in ("N", "V", "T"):
            return 0, MOST_NUMBER
        if symbol == "ROOM":
            return 1, 256
        if symbol == "L":
            return 0, self.length - 1
        return (0, self.entries - 1) if symbol == "I" else None

    def choices(self, symbol: str) -> str:
        """What can stand there, in words: `an instruction number, 0 to 4`."""
        if symbol == "L" and self.in_lines:
            return f"a label or an instruction number, {to_text(0, self.length - 1)}"
        if symbol == "L":
            return f"an instruction number, {to_text(0, self.length - 1)}"
        if symbol == "I":
            return to_text(0, self.entries - 1)
        return KIND_OF[symbol].choices

    def fits(self, symbol: str, word: str) -> bool:
        """Whether a word has the form of such an operand, whatever it names."""
        if not PATTERN_OF[symbol].fullmatch(word):
            return False
        limits = self.limits(symbol)
        if limits is None or not is_digits(word):
            return True
        return limits[0] <= int(word) <= limits[1]

    def missing(self, symbol: str, word: str) -> str:
        """Returns that a word names an object, a task or an entry that is not defined, with a
        suggestion; an empty text if it is defined, or if the word names none of these."""
        if symbol == "I" and not self.fits(symbol, word):
            has = so_many(self.entries)
            return f"there is no notification entry {word} (each task has {has}, counted from 0)"
        names = self.names.get(symbol, ())
        if symbol not in NAMED or word in names:
            return ""
        noun = KIND_OF[symbol].noun
        said = f"{noun} '{shown(word)}' is not defined"
        near = nearest(word, names)
        if near:
            return f"{said}{did_you_mean(near)}"
        for other in NAMED:
            if word in self.names.get(other, ()):
                return f"{said} ('{word}' is {with_article(KIND_OF[other].noun)})"
        if not names:
            return f"{said} (the model has no {noun}s)"
        few = ", ".join(names[:MOST_NAMED]) + (", .." if len(names) > MOST_NAMED else "")
        return f"{said} (defined: {few})"


def to_text(least: int, most: int) -> str:
    """`0 to 4`, or `0` where there is no other."""
    return str(least) if least == most else f"{least} to {most}"


def so_many(entries: int) -> str:
    """`1 entry`, `2 entries`."""
    return "1 entry" if entries == 1 else f"{entries} entries"


def is_name(text: str) -> bool:
    """Whether a text is a name."""
    return re.fullmatch(NAME, text) is not None


def is_bytes(text: str) -> bool:
    """Whether a text is 1 to 256 bytes, or none."""
    return re.fullmatch(BYTES, text) is not None
