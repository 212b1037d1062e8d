"""The operands of instructions in a text in lines, as rdbg reads them, from what is written."""
import re
from typing import Callable, Dict, List, NamedTuple

from rdbg.firmware.numbers import FOREVER, NAME, NOTHING_NAMED, NUMBER, Numbers
from rdbg.firmware.tokens import Refusal, Token, shown, written
from rdbg.operands import NAMED, REGISTER
from rdbg.checking.slips import CONSTANTS, as_bytes, is_binary, slip
from rdbg.tree import Place

BYTES = re.compile(r"(?:0[xX])?((?:[0-9a-fA-F]{2})+)")
ODD = re.compile(r"(?:0[xX])?[0-9a-fA-F]+")
CHARACTER = re.compile(r"\\x([0-9a-fA-F]{2})|\\([nrt0\\\"])|[^\\]", re.DOTALL)
BYTES_ARE = "use hexadecimal digits, two per byte, a string in double quotes, or consts"
ESCAPES = {"n": "\n", "r": "\r", "t": "\t", "0": "\0", "\\": "\\", '"': '"'}
ONE_OF_SEVERAL = re.compile(r"([a-z][a-z0-9_]*)\[([A-Za-z0-9_]+)\]")
# The kinds of operands that are numbers, or can be.
NUMBERS = ("N", "V", "T", "I", "ROOM")
JOINING = ("|", "<<")


class Operand(NamedTuple):
    """An operand as rdbg reads it, where it stands, whether it is a label, and as `spelled`."""

    text: str
    place: Place
    is_label: bool = False
    spelled: str = ""


def as_written(token: Token) -> Operand:
    """An operand that stands there as rdbg reads it."""
    return Operand(token.text, token.place)


def bytes_of(token: Token) -> str:
    """The bytes of a text in quotes. Raises `Refusal` for an escape that there isn't."""
    parts: List[str] = []
    at = 1
    while at < len(token.text) - 1:
        found = CHARACTER.match(token.text, at)
        if found is None:
            message = r"unknown escape (use \n, \r, \t, \0, \\, \" or \x with two digits)"
            raise Refusal(token.place_of(at), message)
        parts.append(found[1] or ESCAPES.get(found[2], found[0]).encode().hex())
        at = found.end()
    return "".join(parts)


def byte_of(token: Token, value: int) -> str:
    """The byte that a const is. Raises `Refusal` where it is none, or its name could be bytes."""
    name = shown(token.text)
    if BYTES.fullmatch(token.text):
        either = f"write 0x{name} for the bytes, or 0x{value:02x} for the const"
        raise Refusal(token.place, f"'{name}' is both a const and valid bytes ({either})")
    if value > 0xFF:
        raise Refusal(token.place, f"a byte must be 0 to 255, found '{name}', which is {value}")
    return f"{value:02x}"


class Operands(Numbers):
    """Reads the operands of an instruction from the tokens behind its word."""

    def operand(self, symbol: str) -> Operand:
        """The next operand, which is there and is of the kind with this symbol."""
        if self.tokens[self.at].is_word() and self._is_left(symbol):
            return self.word()
        if symbol in READERS:
            return READERS[symbol](self)
        is_const = self.tokens[self.at].text in self.constants.values
        return self.word() if symbol in NAMED and not is_const else self.whatever()

    def whatever(self) -> Operand:
        """The next word, of which nothing is known: it may be a number, where one was left out."""
        token = self.tokens[self.at]
        is_number = NUMBER.fullmatch(token.text) or token.text in self.constants.values
        return self.time() if is_number else self.word()

    def _is_left(self, symbol: str) -> bool:
        """Whether a word where a number can stand is none, and isn't meant to be a const. It is
        left as it is: what looks at the form of instructions knows better what is wrong."""
        word, behind = self.tokens[self.at].text, self.tokens[self.at + 1 : self.at + 2]
        if symbol not in NUMBERS or behind and behind[0].text in JOINING:
            return False
        if NUMBER.fullmatch(word) or word in self.constants.values:
            return False
        if not NAME.fullmatch(word):
            return not (symbol == "N" and word.startswith("-"))
        if any(word.lower() in constants for constants in CONSTANTS.values()):
            return True
        is_meant = word != word.lower() or self.constants.near(word) != ""
        return not is_meant or slip(symbol, word, NOTHING_NAMED) != ""

    def task(self) -> Operand:
        """The next name of a task; that of one of several is `worker[1]`."""
        token = self.tokens[self.at]
        found = ONE_OF_SEVERAL.fullmatch(token.text)
        if not found:
            return self.whatever() if token.text in self.constants.values else self.word()
        at = token.place_of(found.start(2))
        number = Numbers([Token(found[2], at)], self.kept).number()
        self.at += 1
        return Operand(f"{found[1]}{number}", token.place)

    def word(self) -> Operand:
        """The next word, as it is written."""
        token = self.tokens[self.at]
        if not token.is_word():
            raise Refusal(token.place, f"unexpected '{shown(token.text)}'")
        self.at += 1
        return as_written(token)

    def value(self) -> Operand:
        """The next number, in decimal digits."""
        first = self.tokens[self.at]
        text = str(self.number())
        return Operand(text, first.place)

    def signed(self) -> Operand:
        """The next number; one below 0 as the number that 32 bits make of it."""
        place, number = self.tokens[self.at].place, self.below_0()
        return self.value() if number is None else Operand(str(number), place)

    def register_or_value(self) -> Operand:
        """The next register or number."""
        return self.word() if re.fullmatch(REGISTER, self.tokens[self.at].text) else self.value()

    def time(self) -> Operand:
        """The next block time."""
        token = self.tokens[self.at]
        if token.text == "max":
            return self.word()
        behind = self.tokens[self.at + 1 : self.at + 2]
        if token.text == FOREVER and not (behind and behind[0].text in JOINING):
            self.at += 1
            return Operand("max", token.place)
        return self.register_or_value()

    def target(self) -> Operand:
        """The next label, or number of an instruction."""
        operand = self.word()
        return operand._replace(is_label=NAME.fullmatch(operand.text) is not None)

    def data(self) -> Operand:
        """All bytes that come: digits, a text in quotes, or consts of a byte each."""
        place = self.tokens[self.at].place
        text = "".join(map(self._piece, self.each()))
        return Operand(text or "-", place)

    def _piece(self, token: Token) -> str:
        if token.is_quoted():
            return bytes_of(token)
        value = self.constants.value(token)
        if value is not None:
            return byte_of(token, value)
        found = None if is_binary(token.text) else BYTES.fullmatch(token.text)
        if found:
            return found[1]
        if token.text == "-" and len(self.tokens) == 1:
            return token.text
        near = self.constants.near(token.text)
        remedy = near.strip(" ()") or BYTES_ARE
        why = "each byte needs two digits" if ODD.fullmatch(token.text) else remedy
        if is_binary(token.text):
            why = f"write data {shown(as_bytes(token.text))} for this number"
            if BYTES.fullmatch(token.text):
                why += f", or data 0x{shown(token.text)} for these digits"
        if token.text.startswith("'"):
            text = written(self.tokens[self.at - 1 :]).replace("'", '"')
            why = f"strings need double quotes: {shown(text)}"
        raise Refusal(
            token.place, f"'{shown(token.text)}' is not a byte sequence ({why})", "L5 Instr"
        )


# How the operands are read that can be written in other ways than in the JSON, by their symbols.
READERS: Dict[str, Callable[[Operands], Operand]] = {
    "N": Operands.signed,
    "V": Operands.register_or_value,
    "T": Operands.time,
    "I": Operands.value,
    "ROOM": Operands.value,
    "L": Operands.target,
    "HEX": Operands.data,
    "K": Operands.task,
}
