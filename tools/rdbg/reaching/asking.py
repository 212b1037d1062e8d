"""Questions to the program that searches, each answered by one that is started for it."""
import contextlib
import dataclasses
import os
import tempfile
import time
from typing import Dict, Iterator, NamedTuple, Optional, Sequence, Tuple


from rdbg.client import built_by_wrapper
from rdbg.driving.opening import as_read
from rdbg.failure import Failure
from rdbg.files.source import Source
from rdbg.reaching import running, said
from rdbg.reaching.handlers import handlers, left
from rdbg.reaching.said import UNTOLD, Answer, Bound
from rdbg.reaching.words import ENGINE, PROGRESS
from rdbg.temporary import temporary_file

# What names the program.
PROGRAM, NAME = "RDBG_REACH", "rdreach"
# What it answers to a line that changes something, and before why it refuses one.
DONE, REFUSED = "ok", "no: "
TIME, CTRL_C, STOPPED = "the time limit was reached", "stopped by Ctrl-C", "stopped"


class Question(NamedTuple):
    """A question that the program has: the word that stands before the goal, whether the goal holds
    behind the order that is its answer, what it asks, with more on it, and what an answer says
    whose order is empty."""

    word: str
    is_met: bool
    asks: str = ""
    more: str = ""
    here: str = "the goal holds here"

    def lacks_goal(self, task: str) -> str:
        """What is said where no goal stands behind it, with a task that there is."""
        instances = ("asleep", "failed") if self.is_met else ("finished", f"at {task} 1")
        texts = ", ".join(f"`{self.word} {it}`" for it in instances)
        return f"{self.word} needs a goal, for example {texts}"


REACH = Question(
    "reach",
    True,
    "can any run from here reach GOAL?",
    "It searches every interleaving from this place, for runs of any length. `found` comes with\n"
    "a run that `play` makes. `never` is a theorem. `full` means that the memory or state limit\n"
    "was reached.",
)
LOST = Question(
    "lost",
    False,
    "which move made GOAL unreachable?",
    "It examines the moves made so far. `lost at N`: no run from place N on reaches GOAL; the\n"
    "answer names the move that led to N, with a run to GOAL from before it. `still`: a run from\n"
    "here reaches GOAL, and comes with the answer.",
)
DOOMED = Question(
    "doomed",
    False,
    "can any run make GOAL unreachable?",
    "`found` comes with a run to a place from which no run of any length reaches GOAL. `never`:\n"
    "GOAL can be reached from every place that a run from here reaches.",
    "no run from here reaches the goal",
)
# Each is one row; what its answer begins with is a row of `said.HEADS`.
QUESTIONS: Dict[str, Question] = {it.word: it for it in (REACH, LOST, DOOMED)}


class NoQuestion(Failure):
    """The program refuses what it is asked."""


def program() -> str:
    """The program that searches: the one that the environment names, or that of `./rdbg`."""
    return os.environ.get(PROGRAM) or built_by_wrapper(NAME)


@contextlib.contextmanager
def commands_file(lines: Sequence[str]) -> Iterator[str]:
    """Yields the path of a temporary file with these command lines, or `""` if there are none.

    The program takes all of them by one `from PATH`. After each `line COMMAND` it would make all
    moves again.
    """
    if not lines:
        yield ""
        return
    text = "".join(f"{line}\n" for line in lines)
    with temporary_file("run.commands", text, "the moves that were made") as path:
        yield path


class Asker(NamedTuple):
    """An application's file, options of the program that is asked, and when the time is up."""

    file: str
    options: Tuple[str, ...] = ()
    end: Optional[float] = None

    def ask(
        self,
        goal: str,
        bound: Bound = Bound(),
        begin: Sequence[str] = (),
        more: Sequence[str] = (),
        question: Question = REACH,
    ) -> Answer:
        """Returns the answer to a question about a goal, asked after the command lines `begin`, of
        runs within a bound; `more` are further lines of the program, before the question.

        Raises `NoQuestion` if the program refuses the question, and `Failure` if it ends without an
        answer.
        """
        bounds = (f"{word} {count}" for word, count in vars(bound).items() if count is not None)
        words = [program(), ENGINE, PROGRESS, *self.options, "--", self.file]
        with tempfile.TemporaryFile() as file, commands_file(begin) as path:
            origin = [f"from {path}"] if path else []
            lines = [*more, *origin, *bounds, f"{question.word} {goal}"]
            file.write("".join(f"{line}\n" for line in lines).encode())
            file.seek(0)
            left = None if self.end is None else max(0.001, self.end - time.monotonic())
            outcome = running.run(words, left, file)
        is_time = self.end is not None and time.monotonic() >= self.end
        why = TIME if is_time else CTRL_C
        known = said.stopped(outcome.last, bound.surprises, why, question is REACH)
        if path:
            # (the file is gone; what is wrong with one of its lines is of the run)
            outcome = outcome._replace(output=outcome.output.replace(f"no: {path}: ", REFUSED))
        return known if outcome.is_stopped else answered(outcome, known)


def answered(outcome: running.Outcome, known: Answer) -> Answer:
    """The answer that a program has given to a question, of which so much was known before."""
    if outcome.status == UNTOLD and not outcome.output:
        raise NoQuestion("", UNTOLD)  # (which has said why)
    replies = [it.splitlines() for it in outcome.output.split("\n\n") if it]
    for reply in replies:
        if reply[0].startswith(REFUSED):
            raise NoQuestion(reply[0][len(REFUSED) :], UNTOLD)
    if outcome.status != 0:
        said.check("", outcome.status, known)
    if not replies or replies[-1] == [DONE]:
        raise Failure("the search program ended before it answered", UNTOLD)
    return said.read(replies[-1])


def ask_behind(
    source: Source,
    lines: Sequence[str],
    question: Question,
    asked: str,
    names: Sequence[str] = (),
    more: Sequence[str] = (),
    asker: Optional[Asker] = None,
    counts: bool = True,
) -> Answer:
    """The answer about a goal, as the program has it, behind these lines of a run of a file as it
    was read, and the order behind them alone. The interrupts of these names may come, all that are
    declared where there is none, and those that end waits: as often as is left, or as if none had
    come yet, where `counts` isn't so, or where a run lost the goal is asked. `more` are further
    lines of the program, and `asker` has its options. Raises `Failure`."""
    named = handlers(names, source.application)
    found = left(named, lines) if counts and question is not LOST else named
    coming = [it.line() for it in found]
    with as_read(source) as path:
        asked_of = (asker or Asker(path))._replace(file=path)
        answer = asked_of.ask(asked, begin=lines, more=[*coming, *more], question=question)
    return dataclasses.replace(answer, order=answer.order[len(lines) :])
