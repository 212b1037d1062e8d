"""The parser of goals: atoms joined by `not`, `and` and `or`, in order of decreasing precedence, and
parentheses. Each parenthesis is a word of its own."""
import re
from typing import Callable, Dict, List, Optional, Sequence, Tuple

from rdbg import commands, kinds
from rdbg.failure import Failure
from rdbg.goals import claims
from rdbg.goals.claims import Goal
from rdbg.goals.conditions import Condition, read as read_condition
from rdbg.goals.scope import REGISTERS, Scope
from rdbg.wording import with_article

# What was expected in place of another word, or of none.
CLAIM = "expected an atom, 'not' or '(', for example 'count QUEUE = 2' or 'asleep'"
NUMBER = f"expected a number from 0 to {commands.MOST_NUMBER}"
REGISTER = "expected a register number, 0 to 7"
INDEX = "expected the index of a notification entry"
INSTRUCTION = "expected the number of an instruction of the task"
COMPARISON = "expected '=', '<' or '>'"
PHASE = "expected a phase: run, wait, again, given, ended or failed"
PLACE = (
    "expected a place where a task can wait: recv QUEUE, send QUEUE, select SET, read BUFFER,"
    " write BUFFER, note INDEX or group GROUP"
)
JOIN = "expected 'and', 'or', ')' or the end of the goal"
NAME: Dict[str, str] = {
    it.word: f"expected the name of {with_article(it.noun)}" for it in kinds.ALL
}
KIND_OF: Dict[str, str] = {wanted: kind for kind, wanted in NAME.items()}
OF_A_MOVE = "this condition is about a move and must stand alone, after until! or rc!"
EITHER = "this names both a stream and a message buffer (use sread, swrite, mread or mwrite)"
# A goal has at most this many atoms and operators.
MOST = 64
NOT, AND, OR, OPEN, CLOSE = JOINING = ("not", "and", "or", "(", ")")
# The claims that are no conditions; those of a move, and where one of a place stands by itself.
OF_MOVES = ("wakes", "changes")
ALONE: Dict[str, Goal] = {it.text: it for it in (claims.Finished(), claims.ASLEEP, claims.Stuck())}
CONDITIONS = tuple(form.word for form in commands.CONDITIONS)
# The places where a task waits: the kind of object, and how its phase names the place.
PLACES: Dict[str, Tuple[kinds.Kind, str]] = {
    "recv": (kinds.QUEUE, "recv"),
    "send": (kinds.QUEUE, "send"),
    "select": (kinds.QUEUE_SET, "set"),
    "sread": (kinds.STREAM, "sread"),
    "swrite": (kinds.STREAM, "swrite"),
    "mread": (kinds.MESSAGE, "mread"),
    "mwrite": (kinds.MESSAGE, "mwrite"),
    "group": (kinds.GROUP, "group"),
}
# The sides of a buffer of whichever kind.
SIDES = {"read": ("sread", "mread"), "write": ("swrite", "mwrite")}
NOTE = "note"


class NoGoal(Failure):
    """Words that are not a goal: the index of the wrong one (`None` at the end, below 0 for all of
    them), what was expected there, and a suggestion."""

    def __init__(
        self, words: Sequence[str], at: Optional[int], wanted: str, more: str = ""
    ) -> None:
        self.words, self.at, self.wanted = words, at, wanted
        word = f"word {at + 1}, '{words[at]}': " if at is not None and at >= 0 else ""
        where = "it ends too early: " if at is None else word
        super().__init__(f"{where}{wanted}{more}", 2)


def words_of(text: str) -> List[str]:
    """The words of a text."""
    return re.findall(r"[()]|[^\s()]+", text)


class Reader:
    """Reads the words of a goal one after another."""

    what = "goal"

    def __init__(self, words: Sequence[str], scope: Scope) -> None:
        self.words, self.scope, self.at = words, scope, 0
        self._count = 0

    def goal(self) -> Goal:
        """The goal that all the words are. Raises `NoGoal`."""
        found = self._formula()
        if self.at < len(self.words):
            if self.words[self.at] == CLOSE:
                raise NoGoal(self.words, self.at, "unmatched ')'")
            self.at += 1
            raise self._wanted(JOIN)
        return found

    def _formula(self, depth: int = 0, word: str = OR) -> Goal:
        found = self._joined(depth, word)
        while self._takes(word):
            found = self._counted(claims.Joined(word, found, self._joined(depth, word)))
        return found

    def _joined(self, depth: int, word: str) -> Goal:
        """What stands on a side of this word."""
        return self._formula(depth, AND) if word == OR else self._single(depth)

    def _single(self, depth: int) -> Goal:
        if depth >= MOST:
            raise self._too_long()
        if self._takes(NOT):
            return self._counted(claims.Not(self._single(depth + 1)))
        if not self._takes(OPEN):
            return self._counted(self._claim())
        found = self._formula(depth + 1)
        if self.at == len(self.words):
            raise NoGoal(self.words, -1, "missing ')'")
        if not self._takes(CLOSE):
            self.at += 1
            raise self._wanted(JOIN)
        return found

    def _counted(self, goal: Goal) -> Goal:
        self._count += 1
        if self._count > MOST:
            raise self._too_long()
        return goal

    def _too_long(self) -> NoGoal:
        return NoGoal(self.words, -1, f"the {self.what} is too long")

    def _takes(self, word: str) -> bool:
        """Whether this word comes next; it is read then."""
        if self.words[self.at : self.at + 1] != [word]:
            return False
        self.at += 1
        return True

    def _wanted(self, what: str) -> NoGoal:
        """That something else is wanted than the word that was read last."""
        return NoGoal(self.words, self.at - 1, what)

    def _next(self, what: str) -> str:
        if self.at == len(self.words):
            raise NoGoal(self.words, None, what)
        self.at += 1
        return self.words[self.at - 1]

    def _is_at_operand(self) -> bool:
        """Whether the next word belongs to the claim that is being read."""
        return self.at < len(self.words) and self.words[self.at] not in (AND, OR, CLOSE)

    def _number(self, what: str = NUMBER, most: Optional[int] = None, task: str = "") -> int:
        """A number, or a label of a task, below a bound."""
        value = self.scope.number(self._next(what), self.scope.labels.get(task))
        if value is None or (most is not None and value >= most):
            raise self._wanted(what)
        return value

    def named(self, kind: kinds.Kind) -> str:
        """A name of a kind; whatever has the form of one where the application isn't known."""
        word = self._next(NAME[kind.word])
        is_there = word in self.scope.names.of_kind(kind.word)
        if not is_there and (self.scope.application is not None or not commands.is_name(word)):
            raise self._wanted(NAME[kind.word])
        return word

    def _among(self, words: Sequence[str], what: str) -> str:
        """One of these words."""
        if self._next(what) not in words:
            raise self._wanted(what)
        return self.words[self.at - 1]

    def _claim(self) -> Goal:
        word = self._next(CLAIM)
        if word in ALONE:
            return ALONE[word]
        if word in OF_TASKS:
            return OF_TASKS[word](self)
        if word in CONDITIONS:
            return self._condition(word)
        if word in OF_MOVES:
            raise self._wanted(OF_A_MOVE)
        text = self.scope.watches.get(int(word[1:]), "") if commands.is_watch(word) else ""
        condition = read_condition(text.split())
        if condition is None:
            raise self._wanted(CLAIM)
        return claims.Holds(condition)

    def _amount(self, word: str) -> Condition:
        """What stands before an operator."""
        kind = kinds.OF_AMOUNT.get(word)
        if kind is not None:
            return Condition(word, self.named(kind))
        if word == "tick":
            return Condition(word)
        task = self.named(kinds.TASK)
        bounds = {"reg": (REGISTER, REGISTERS), NOTE: (INDEX, self.scope.entries)}
        return Condition(word, task, self._number(*bounds[word]) if word in bounds else 0)

    def _condition(self, word: str) -> Goal:
        if word == "phase":
            task = self.named(kinds.TASK)
            return claims.Holds(Condition(word, task, phase=self._among(commands.PHASES, PHASE)))
        amount, mask = self._amount(word), -1
        if word in ("bits", "reg", NOTE) and self._takes("&"):
            mask = self._number()
        operator = self._among(commands.OPERATORS, COMPARISON)
        if mask >= 0:
            return claims.Masked(amount, mask, operator, self._number())
        if word == "reg" and self._takes(word):
            return claims.Among(amount, operator, self._amount(word))
        number = self._number(task=amount.name if word == "pc" else "")
        return claims.Holds(Condition(word, amount.name, amount.index, operator, number))

    def in_phase(self, word: str) -> Goal:
        """That a task is in a phase."""
        return claims.Holds(Condition("phase", self.named(kinds.TASK), phase=word))

    def failed(self) -> Goal:
        """That this task has failed, or some task."""
        return self.in_phase("failed") if self._is_at_operand() else claims.SomeFailed()

    def stands(self) -> Goal:
        """That a task is at an instruction."""
        task = self.named(kinds.TASK)
        found = self.scope.application.task(task) if self.scope.application else None
        most = None if found is None else len(found.code)
        return claims.At(task, self._number(INSTRUCTION, most, task))

    def waits(self) -> Goal:
        """That a task waits, wherever or at one place."""
        task = self.named(kinds.TASK)
        if not self._is_at_operand():
            return claims.Waits(task)
        first = self.at
        place = self._place(self._next(PLACE))
        return claims.Waits(task, " ".join(self.words[first : self.at]), place)

    def _place(self, word: str) -> str:
        """The place that begins with this word, as a phase has it."""
        if word == NOTE:
            return f"{NOTE}:{self._number(INDEX, self.scope.entries)}"
        if word in SIDES:
            word = SIDES[word][self._is_message()]
        if word not in PLACES:
            raise self._wanted(PLACE)
        kind, place = PLACES[word]
        return f"{place}:{self.named(kind)}"

    def _is_message(self) -> bool:
        """Whether the next word is the name of a message buffer, and of no stream buffer."""
        there = self.scope.names.kinds_of("".join(self.words[self.at : self.at + 1]))
        if {kinds.STREAM.word, kinds.MESSAGE.word} <= {*there}:
            self.at += 1
            raise self._wanted(EITHER)
        return kinds.MESSAGE.word in there


# The claims of tasks that are no conditions, by their first word.
OF_TASKS: Dict[str, Callable[[Reader], Goal]] = {
    "at": Reader.stands,
    "waits": Reader.waits,
    "sleeps": lambda reader: claims.Waits(reader.named(kinds.TASK), is_endless=True),
    "runs": lambda reader: claims.Runs(reader.named(kinds.TASK)),
    "ended": lambda reader: reader.in_phase("ended"),
    "failed": Reader.failed,
}
CLAIMS = (*CONDITIONS, *OF_TASKS, *ALONE)


def plain(words: Sequence[str], scope: Scope) -> Goal:
    """The goal that these words are. Raises `NoGoal`."""
    return Reader(words_of(" ".join(words)), scope).goal()
