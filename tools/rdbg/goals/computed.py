"""Numbers and truths that are computed of what there is: amounts in the words of conditions, `count
jobs + 1`, and short, `jobs.count`, `worker.r0`, joined by the operators of C, of which those that
compare bind least. Numbers are whole, of any size."""
import operator
import re
from typing import Callable, Dict, List, NamedTuple, Sequence, Tuple

from rdbg import kinds
from rdbg.goals import claims, reading
from rdbg.goals.claims import Goal, Holds
from rdbg.goals.conditions import OPERATORS, Compare
from rdbg.goals.meant import with_meant
from rdbg.goals.reading import CLOSE, OPEN, NoGoal, Reader
from rdbg.goals.scope import Scope, part_of
from rdbg.goals.words import read
from rdbg.looks import Look, Names

Number = Callable[[Look], int]
SIGNS = re.compile(r"<<|>>|[=!<>]=|[-+*/%&|^~()<>=]|[^-+*/%&|^~()<>=!\s]+|\S")
AMOUNTS = (*kinds.OF_AMOUNT, "reg", "pc", reading.NOTE, "tick")
OF_TASK = re.compile(r"(\w+)\.(?:r([0-7])|pc)")
WANTED = "expected a number: 41, 0x29, `count QUEUE`, `TASK.r0`, `reg TASK 0`, `tick`, .."
BEHIND = "expected an operator or the end: + - * / % & | ^ << >> = != < <= > >="
TRUTHS = ("fails", "holds")
MOST_SHIFT = 32
MOST_WORDS, MOST_DEEP = 256, 32


class Undefined(Exception):
    """Why an expression has no number here, in a sentence."""


def divided(one: int, other: int) -> int:
    """A number by another, towards 0 as in C."""
    if not other:
        raise Undefined("division by 0")
    found = abs(one) // abs(other)
    return found if (one < 0) == (other < 0) else -found


def shifted(one: int, other: int) -> int:
    """A number shifted to the left, or below 0 to the right."""
    if abs(other) > MOST_SHIFT:
        raise Undefined(f"shift by {abs(other)} (at most {MOST_SHIFT} is allowed)")
    return one << other if other > 0 else one >> -other


# From those that bind least on.
COMPARING: Dict[str, Compare] = {
    **OPERATORS,
    "==": operator.eq,
    "!=": operator.ne,
    "<=": operator.le,
    ">=": operator.ge,
}
LEVELS: Tuple[Dict[str, Callable[[int, int], int]], ...] = (
    {"|": operator.or_},
    {"^": operator.xor},
    {"&": operator.and_},
    {"<<": shifted, ">>": lambda one, other: shifted(one, -other)},
    {"+": operator.add, "-": operator.sub},
    {"*": operator.mul, "/": divided, "%": lambda one, other: one - other * divided(one, other)},
)
BEFORE: Dict[str, Callable[[int], int]] = {"-": operator.neg, "~": operator.invert}
JOINING = (*COMPARING, *(sign for level in LEVELS for sign in level))
# Words that stand in goals alone.
OF_GOALS = (*reading.OF_TASKS, *reading.ALONE, reading.NOT, reading.AND, reading.OR, "phase")


def joined(join: Callable[[int, int], int], one: Number, other: Number) -> Number:
    """Two numbers joined."""
    return lambda look: join(one(look), other(look))


class Expression(NamedTuple):
    """An expression: what it is about, and what it says at a look: a number, or whether a goal or a
    comparison holds. That raises `Undefined` where it has none there."""

    about: Sequence[Goal]
    said: Callable[[Look], str]

    def names(self, there: Names) -> Names:
        """What has to be looked at, of what is there."""
        return Names.all(it.names(there) for it in self.about)


class Computer(Reader):
    """Reads the words of an expression, and keeps what it is about."""

    what = "expression"

    def __init__(self, words: Sequence[str], scope: Scope) -> None:
        super().__init__(words, scope)
        self.about: List[Goal] = []

    def whole(self) -> Number:
        """The number that all the words are. Raises `NoGoal`."""
        if len(self.words) > MOST_WORDS:
            raise self._too_long()
        found = self._compared(0)
        if self.at < len(self.words):
            raise NoGoal(self.words, self.at, BEHIND)
        return found

    def _sign(self, signs: Sequence[str]) -> str:
        """The one of some signs that comes next, which is read then; or none."""
        return next((sign for sign in signs if self._takes(sign)), "")

    def _compared(self, depth: int) -> Number:
        found = self._level(0, depth)
        sign = self._sign(tuple(COMPARING))
        return joined(COMPARING[sign], found, self._level(0, depth)) if sign else found

    def _level(self, level: int, depth: int) -> Number:
        if level == len(LEVELS):
            return self._atom(depth)
        found = self._level(level + 1, depth)
        for sign in iter(lambda: self._sign(tuple(LEVELS[level])), ""):
            found = joined(LEVELS[level][sign], found, self._level(level + 1, depth))
        return found

    def _atom(self, depth: int) -> Number:
        if depth >= MOST_DEEP:
            raise self._too_long()
        sign = self._sign(tuple(BEFORE))
        if sign:
            behind = self._atom(depth + 1)
            return lambda look: BEFORE[sign](behind(look))
        if not self._takes(OPEN):
            return self._named(self._next(WANTED))
        found = self._compared(depth + 1)
        if not self._takes(CLOSE):
            raise NoGoal(self.words, -1, "missing ')'")
        return found

    def _named(self, word: str) -> Number:
        if word in AMOUNTS:
            amount = self._amount(word)
            self.about.append(Holds(amount))
            return lambda look: amount.amount(claims.reply_of(amount, look))
        value = part_of(word, self.scope.constants or {})
        if value is None:
            raise self._wanted(WANTED)
        number = value
        return lambda look: number


def words_of(text: str, task: str = "") -> List[str]:
    """The words and signs of an expression, in full; `r0` is of the task at hand."""
    found: List[str] = []
    for word in SIGNS.findall(text.replace("$", "")):
        dotted = f"{task}.{word}" if task and re.fullmatch("r[0-7]", word) else word
        of_task = OF_TASK.fullmatch(dotted)
        name, _, amount = dotted.partition(".")
        if of_task is not None:
            found += ["reg", of_task[1], of_task[2]] if of_task[2] else ["pc", of_task[1]]
        else:
            found += [amount, name] if amount in kinds.OF_AMOUNT else [dotted]
    return found


def is_meant(text: str, scope: Scope) -> bool:
    """Whether a text is meant to be an expression, or a goal."""
    words = words_of(text)
    first = words[0] if words else ""
    begins = (*reading.CLAIMS, *AMOUNTS, *BEFORE, reading.NOT, OPEN)
    is_number = part_of(first, scope.constants or {}) is not None or first[:1].isdigit()
    return first in begins or is_number or any(it in JOINING for it in words)


def expression(text: str, scope: Scope, task: str = "") -> Expression:
    """The expression that a text is. Raises `NoGoal` where it is none, with what would be right."""
    words = reading.words_of(text)
    if any(it in OF_GOALS for it in words):
        goal = read(words, scope)
        return Expression([goal], lambda look: in_words(goal.is_so(look)))
    computer = Computer(words_of(text, task), scope)
    try:
        number = computer.whole()
    except NoGoal as wrong:
        raise with_meant(wrong, scope) from None
    return Expression(computer.about, lambda look: in_words(number(look)))


def in_words(value: int) -> str:
    """A number, or whether something holds."""
    return TRUTHS[value] if isinstance(value, bool) else str(value)
