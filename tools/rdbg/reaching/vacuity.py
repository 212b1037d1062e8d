"""Finds goals that say nothing: `asleep` and `stuck` can never hold beside a task that never rests.

A task rests once it has ended, has failed, or waits without a deadline. A search for such a goal
answers `never` whatever the other tasks do, so that the answer must not pass for a result.
"""
from typing import Container, Iterator, List, NamedTuple, Optional, Set

from rdbg.application import Application, Instruction, Task
from rdbg.digits import is_digits
from rdbg.goals import claims
from rdbg.goals.claims import Goal
from rdbg.goals.reading import NoGoal, plain
from rdbg.goals.scope import Scope
from rdbg.instructions import FORM_OF, OWN, STAYS, WRITES_R1
from rdbg.operands import MOST_NUMBER
from rdbg.reaching.asking import DOOMED, Question
from rdbg.reaching.said import Answer, Kind

MAX = "max"
# These change the register that is their first operand, to a value that the script does not show.
COMPUTES = ("add", "move", "unpack")
ANSWERS_IN, ANSWERS_BESIDE = "r0", "r1"


class Vacuous(NamedTuple):
    """Why a goal is vacuous: a task that never rests."""

    task: Task

    @property
    def text(self) -> str:
        """The reason in words."""
        return f"vacuous: task {self.task.name} never waits without a deadline"

    @property
    def note(self) -> str:
        """The line that every tool reports."""
        return f"note: {self.text}"


def find(scope: Scope, goal: str, question: Question, answer: Answer) -> Optional[Vacuous]:
    """Returns why the answer to a question about a goal, as it was typed, is vacuous, if it is.

    An answer by which the goal was reached is not: a task can also rest because it has failed.
    """
    if answer.kind is Kind.REACHED and question is not DOOMED:
        return None
    try:
        found = plain(goal.split(), scope)
    except NoGoal:
        return None
    return vacuous(found, scope.application)


def vacuous(goal: Goal, application: Optional[Application]) -> Optional[Vacuous]:
    """Returns why a goal is vacuous in an application, if it is."""
    tasks = [it for it in application.tasks if never_rests(it)] if application else []
    if not tasks or not any(isinstance(it, claims.Stuck) for it in goal.claims()):
        return None
    return Vacuous(tasks[0]) if value(goal, [it.name for it in tasks]) is False else None


def value(goal: Goal, busy: Container[str]) -> Optional[bool]:
    """Returns whether a goal holds in every state or in none, if these tasks never rest; `None` if
    that depends on the state, as far as can be told from how the goal is joined."""
    if isinstance(goal, (claims.Stuck, claims.Finished)):
        return False
    if isinstance(goal, claims.Holds):
        is_end = goal.condition.phase == "ended" and goal.condition.name in busy
        return False if is_end else None
    if isinstance(goal, claims.Not):
        inner = value(goal.goal, busy)
        return None if inner is None else not inner
    if isinstance(goal, claims.Joined):
        both, decides = (value(goal.one, busy), value(goal.other, busy)), goal.word == "or"
        if decides in both:
            return decides
        return None if None in both else not decides
    return None


def never_rests(task: Task) -> bool:
    """Whether no instruction that the script can come to ends the task, or can wait without a
    deadline."""
    code = [*reachable(task)]
    return not any(it.words()[0] == "end" or can_wait_forever(it, code) for it in code)


def reachable(task: Task) -> Iterator[Instruction]:
    """Yields the instructions that the script can come to, whichever way its branches go."""
    left: List[int] = [0]
    seen: Set[int] = {-1}
    while left:
        at = left.pop()
        if at in seen:
            continue
        seen.add(at)
        yield task.code[at]
        word, *operands = task.code[at].words()
        left += [] if word in ("jump", "end") else [at + 1]
        left += [int(operands[-1])] if word in ("jump", "jumpz") else []


def can_wait_forever(instruction: Instruction, code: List[Instruction]) -> bool:
    """Whether an instruction of a script can wait without a deadline."""
    word, *operands = instruction.words()
    if FORM_OF[word].symbols[-1:] != ("T",):
        return False
    time = operands[-1]
    if time == MAX or is_digits(time):
        return time == MAX or int(time) == MOST_NUMBER
    return any(can_set_to_max(it, time) for it in code)


def can_set_to_max(instruction: Instruction, register: str) -> bool:
    """Whether an instruction can make `portMAX_DELAY` the value of a register, which is 0 at
    boot."""
    word, *operands = instruction.words()
    if word == "set":
        return operands[0] == register and int(operands[1]) == MOST_NUMBER
    if word in COMPUTES:
        return operands[0] == register
    answers = register == ANSWERS_IN and FORM_OF[word].answer not in (STAYS, OWN)
    return answers or (register == ANSWERS_BESIDE and word in WRITES_R1)
