"""Numbers of a text in lines: decimal or hexadecimal, by name, shifted by `<<`, joined by `|`."""
import contextlib
import re
from typing import Dict, Iterable, Iterator, List, Mapping, NamedTuple, Optional, Sequence, Set

from rdbg.checking.slips import slip
from rdbg.firmware.tokens import Refusal, Stop, Token, shown
from rdbg.operands import Scope
from rdbg.tree import Place
from rdbg.wording import did_you_mean, nearest, suggests

LARGEST = 0xFFFF_FFFF
# (parentheses within parentheses)
DEEPEST = 20
# (a longer word is near to none)
LONGEST = 64
NUMBER = re.compile(r"(0[xX][0-9a-fA-F]+|[0-9]+)[uUlL]*")
NAME = re.compile(r"[A-Za-z_][A-Za-z0-9_]*")
FOREVER = "portMAX_DELAY"
# What C calls to have a number, and why there is none.
CALLED = {
    "pdMS_TO_TICKS": "write the time in ticks",
    "sizeof": "write the number of bytes",
}
NOTHING_NAMED = Scope({})
RESERVED = re.compile(r"max|r[0-7]")


def near_to(word: str, others: Iterable[str]) -> str:
    """Returns ` (did you mean 'jobs'?)` for a word that is not among others; empty if none is near."""
    small = {other.lower(): other for other in others}
    near = nearest(word, small) if len(word) <= LONGEST else None
    return did_you_mean(small[near]) if near else ""


def too_large(place: Place, text: str) -> Refusal:
    """What a number is refused with that has no room in 32 bits."""
    message = f"{shown(text)} is too large (the largest number is {LARGEST}, 0xffffffff)"
    return Refusal(place, message, "L3 Limit")


def value_of(place: Place, text: str) -> Optional[int]:
    """The value of a text, if it is a number. Raises `Refusal` where C has another."""
    found = NUMBER.fullmatch(text)
    if not found:
        return None
    digits, base = found[1], 10
    if digits[:2] in ("0x", "0X"):
        digits, base = digits[2:].lstrip("0") or "0", 16
    elif digits.startswith("0") and digits != "0":
        raise Refusal(place, f"{shown(text)} would be octal in C (remove the leading 0)")
    if len(digits) > 10 or int(digits, base) > LARGEST:
        raise too_large(place, text)
    return int(digits, base)


class Constants:
    """The numbers that have a name. Where a number is refused, what is wrong with it as its name
    stands for it in other lines (`doubtful`) only stems from that. Those that are `given` stand for
    consts of the text with the same names, or for ones that it doesn't have."""

    def __init__(self, given: Optional[Mapping[str, int]] = None) -> None:
        self.given = dict(given or {})
        self.values: Dict[str, int] = {FOREVER: LARGEST, **self.given}
        # (those that were given of which no line has anything)
        self.idle: Set[str] = {*self.given}
        self.named: Dict[str, Token] = {}
        self.doubtful: Set[int] = set()
        self._refused: Set[str] = set()

    def define(self, name: Token, value: int, is_refused: bool = False) -> None:
        """Names a number. Raises `Refusal` where this can't be its name."""
        if is_refused and name.text not in self.values:
            self._refused.add(name.text)
        if not NAME.fullmatch(name.text):
            if name.is_word():
                self.values.setdefault(name.text, value)
            message = f"'{shown(name.text)}' is not a valid const name (use letters, digits and _)"
            raise Refusal(name.place, message)
        if name.text in self.named:
            line = self.named[name.text].place.line
            raise Refusal(
                name.place, f"const '{shown(name.text)}' is already defined in line {line}"
            )
        is_given = name.text in self.given
        if (name.text in self.values and not is_given) or RESERVED.fullmatch(name.text):
            raise Refusal(name.place, f"'{name.text}' is reserved")
        self.idle.discard(name.text)
        self.values[name.text] = self.given.get(name.text, value)
        self.named[name.text] = name

    def value(self, token: Token) -> Optional[int]:
        """The number that a word stands for; none where it names none."""
        if token.text in self._refused:
            self.doubtful.add(token.place.line)
        self.idle.discard(token.text)
        return self.values.get(token.text)

    def near(self, word: str) -> str:
        """The end of a message on a word that is no const: which one is near."""
        return near_to(word, self.values) if suggests() else ""


class Kept(NamedTuple):
    """With what lines are read: the numbers that have a name, and where is kept what is refused."""

    constants: Constants
    refusals: List[Refusal]

    def refuse(self, place: Place, message: str) -> None:
        """Keeps what is refused, where the reading goes on."""
        self.refusals.append(Refusal(place, message))

    @contextlib.contextmanager
    def keeping(self) -> Iterator[None]:
        """Keeps what a block refuses. A `Stop` is raised all the same."""
        try:
            yield
        except Stop:
            raise
        except Refusal as refusal:
            self.refusals.append(refusal)


class Numbers:
    """Reads numbers from the tokens of a line, the next from `at` on. What isn't right is kept in
    `refusals` where it leaves no doubt where the number ends; else it is raised."""

    def __init__(self, tokens: Sequence[Token], kept: Kept, at: int = 0) -> None:
        self.tokens, self.kept, self.at = tokens, kept, at
        self.constants, self.refusals = kept

    def next(self) -> Optional[Token]:
        """The token at `at`, which isn't passed; none at the end of the line."""
        return self.tokens[self.at] if self.at < len(self.tokens) else None

    def each(self) -> Iterator[Token]:
        """The tokens that come, each of which is passed."""
        while self.at < len(self.tokens):
            self.at += 1
            yield self.tokens[self.at - 1]

    def is_next(self, *signs: str) -> bool:
        """Whether one of these signs comes next; then it is passed."""
        token = self.next()
        is_there = token is not None and token.text in signs
        self.at += is_there
        return is_there

    def end(self, form: str = "") -> None:
        """Refuses what stands behind the end of a line, which is written so."""
        token = self.next()
        if token is not None:
            said = f"unexpected '{shown(token.text)}'"
            raise Refusal(token.place, f"{form}: {said}" if form else said)

    def number(self, depth: int = 0) -> int:
        """The next number."""
        value = self.shifted(depth)
        while self.is_next("|"):
            value |= self.shifted(depth)
        return value

    def shifted(self, depth: int = 0) -> int:
        """The next number up to a `|`."""
        first = self.next()
        value = self._single(depth)
        while self.is_next("<<"):
            by = self._single(depth)
            value = value << by if by < 32 else value and LARGEST + 1
            if first is not None and value > LARGEST:
                self.refusals.append(too_large(first.place, f"{first.text} << {by}"))
                value = 0
        return value

    def below_0(self) -> Optional[int]:
        """The next number, if it is one with a `-`, as the number that 32 bits make of it."""
        token = self.next()
        if token is None or not token.text.startswith("-") or token.text == "-":
            return None
        self.at += 1
        behind = Token(token.text[1:], token.place_of(1))
        return -Numbers([behind], self.kept).number() & LARGEST

    def _single(self, depth: int) -> int:
        token = self.next()
        if token is None:
            last = self.tokens[-1]
            raise Refusal(last.place, f"missing number after '{shown(last.text)}'")
        if token.text == "(" and depth < DEEPEST:
            self.at += 1
            value = self.number(depth + 1)
            if not self.is_next(")"):
                raise Refusal(token.place, "this ( is not closed")
            return value
        if not token.is_word():
            raise Refusal(token.place, f"expected a number, found '{shown(token.text)}'")
        self.at += 1
        return self._value(token)

    def _value(self, token: Token) -> int:
        value: Optional[int] = 0
        with self.kept.keeping():
            value = value_of(token.place, token.text)
            value = self.constants.value(token) if value is None else value
        if value is None:
            self._refuse_unknown(token)
        return value or 0

    def _refuse_unknown(self, token: Token) -> None:
        """Refuses a word that is no number. Raises it where the word begins more than one."""
        if token.text in CALLED:
            raise Refusal(token.place, f"'{token.text}' is not available ({CALLED[token.text]})")
        meant = slip("V", token.text, NOTHING_NAMED) if NAME.fullmatch(token.text) else ""
        hint = self.constants.near(token.text) or (f" ({meant})" if meant else "")
        message = f"'{shown(token.text)}' is neither a number nor a const{hint}"
        self.kept.refuse(token.place, message)
