"""A case that is tried: what the program that searches answers, and the order in it."""
import contextlib
import enum
import io
import os
import time
from typing import Iterator, NamedTuple, Optional, Tuple

from rdbg.driving.target import Unable
from rdbg.failure import Failure
from rdbg.files.definitions import definition
from rdbg.files.source import load
from rdbg.goals.scope import Scope
from rdbg.hunting import report
from rdbg.hunting.goals import DIFFERS, Goal, read as read_goal
from rdbg.hunting.interrupts import handlers
from rdbg.hunting.stage import Stage
from rdbg.reaching import vacuity
from rdbg.reaching.asking import LOST, QUESTIONS, Asker
from rdbg.reaching.handlers import told as told_of_interrupts
from rdbg.reaching.said import Answer, Bound
from rdbg.reaching.vacuity import Vacuous
from rdbg.replies import Refused
from rdbg.testing.cases import Case


class Verdict(enum.Enum):
    """What became of a case."""

    OK = "ok"
    WRONG = "wrong"
    REFUSED = "refused"


class Result(NamedTuple):
    """A case that was tried: what became of it, the first line of the answer or why there is none,
    how long it took, what is told of it: the order, or what was gone through; which interrupts of
    the text came without being named, or were left out; and why the answer is vacuous, if it is."""

    verdict: Verdict
    came: str
    seconds: float
    told: Tuple[str, ...] = ()
    beside: str = ""
    vacuous: Optional[Vacuous] = None

    def is_as_expected(self, case: Case, is_strict: bool) -> bool:
        """Whether the answer is vacuous if that is expected, and only then if `is_strict`."""
        is_vacuous = self.vacuous is not None
        return is_vacuous if case.vacuous else not (is_strict and is_vacuous)


def prepared(case: Case, folder: str) -> Tuple[Stage, Goal]:
    """Where orders of a case are made, and its goal. Raises `Failure` where its file, its goal or
    an interrupt is none."""
    path = os.path.join(folder, case.file)
    source = load(path, dict(map(definition, case.consts)))
    if source.application is None:
        raise Failure(f"{path}:{source.faults[0]}", 2)
    words = case.goal.split()
    if words == [DIFFERS]:
        raise Failure(f"{DIFFERS} is a goal of hunt only (a case needs a goal about states)", 2)
    goal = read_goal(words, source, QUESTIONS[case.question])
    return Stage(source, handlers(case.isr, source.application)), goal


def wrong_with(case: Case, folder: str) -> str:
    """Why a case can't be asked, as one line; empty where it can."""
    try:
        prepared(case, folder)
    except Failure as failure:
        said = str(failure)
        return said if case.file in said else f"{case.file}: {said}"
    return ""


def asked(case: Case, folder: str, stage: Stage, goal: Goal) -> Answer:
    """What is answered. Raises `Failure` where it is refused."""
    with stage.source.as_json() as path:
        end = time.monotonic() + case.within
        asker = Asker(path, case.options(folder), end)
        bound = Bound(case.moves, case.surprises)
        lines = [it.line() for it in stage.handlers]
        return asker.ask(goal.asked, bound, (), lines, QUESTIONS[case.question])


def order_of(case: Case, stage: Stage, goal: Goal, answer: Answer) -> Iterator[str]:
    """The order of an answer: who did what, where it begins at boot; else its lines."""
    if case.begin or case.question == LOST.word:
        yield from answer.order
        return
    with contextlib.closing(stage):
        find = stage.find(answer.order)
        yield from report.found(goal, stage, [find], False)
        yield from ("lines:", *report.lines_of(goal, [find]))


def tried(folder: str, is_strict: bool, case: Case) -> Result:
    """What becomes of a case. What the program says besides is why it has refused one. If
    `is_strict`, an answer that is vacuous and isn't expected to be is wrong."""
    began = time.monotonic()
    said = io.StringIO()
    try:
        with contextlib.redirect_stderr(said):
            stage, goal = prepared(case, folder)
            answer = asked(case, folder, stage, goal)
            took = time.monotonic() - began
            has_order = answer.has_order
            told = [*(order_of(case, stage, goal, answer) if has_order else report.ended(answer))]
            told.append(report.gone_through(answer.counts))
    except (Failure, Refused, Unable) as failure:
        why = str(failure) or " ".join(said.getvalue().split())
        return Result(Verdict.REFUSED, why, time.monotonic() - began)
    beside = told_of_interrupts(case.isr, stage.application)
    scope = Scope.of(stage.source)
    vacuous = vacuity.find(scope, case.goal, QUESTIONS[case.question], answer)
    result = Result(Verdict.OK, answer.head(), took, tuple(told), beside, vacuous)
    is_ok = case.is_met(answer.head()) and result.is_as_expected(case, is_strict)
    return result if is_ok else result._replace(verdict=Verdict.WRONG)
