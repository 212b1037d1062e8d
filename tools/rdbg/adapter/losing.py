"""A stop where a goal is lost: no run can reach it any more. The search program decides this at few
places, because a lost goal stays lost."""
import time
from typing import Dict, Hashable, List, Optional, Sequence, Tuple

from rdbg.adapter.messages import Wrong
from rdbg.adapter.stops import Begins
from rdbg.driving.target import Target
from rdbg.driving.walk import Walk
from rdbg.failure import Failure, turned
from rdbg.goals.claims import Goal
from rdbg.goals.words import NOT_ASKED
from rdbg.reaching import losing, vacuity
from rdbg.reaching.asking import LOST, REACH, Asker, Question, ask_behind
from rdbg.reaching.said import Answer, Kind
from rdbg.shell.shell import Shell

# The time limit of a search, in seconds.
SECONDS = 20.0
AT_A_PORT = (
    "a `lost` breakpoint needs a launched target; at a port, type `lost GOAL` in the debug console"
)


def lines_to(target: Target) -> Tuple[str, ...]:
    """Returns the lines that lead from boot to where a target of our own stands."""
    return tuple(run.text for run in target.journal.done())


class Loses(Begins):
    """The move that loses a goal: a run from the place before it can reach the goal, and none from
    the place after it. `way` says how to go back before that move, once it was hit."""

    def __init__(self, shell: Shell, goal: Goal) -> None:
        super().__init__(goal, f"{LOST.word} {goal.text}")
        asked = goal.asked(shell.target.names.tasks)
        if not shell.target.is_own:
            raise Wrong(AT_A_PORT)
        if asked is None:
            raise Wrong(NOT_ASKED)
        empty = vacuity.vacuous(goal, shell.target.application)
        if empty:
            raise Wrong(f"{self.text} can never be hit: {empty.note}")
        self._shell, self._asked = shell, asked
        self._known: Dict[Tuple[str, ...], bool] = {}
        self.way = ""

    @property
    def key(self) -> Hashable:
        return "lost", self.goal

    def views(self, target: Target) -> List[str]:
        raise AssertionError("no view shows it")

    def look(self, target: Target) -> bool:
        lines = lines_to(target)
        if lines not in self._known:
            self._known[lines] = self._answer(REACH, lines).kind is not Kind.REACHED
        return self._known[lines]

    def began(self, walk: Walk, low: int) -> Optional[int]:
        answer = self._answer(LOST, lines_to(walk.target))
        loss = losing.loss_of(answer)
        if loss is None or not low < loss.place <= walk.place:
            return None
        way = "; ".join(losing.told(loss, self.text, f"goto {loss.before}"))
        self.way = f"{way} {'; '.join(losing.behind(LOST, answer, loss.order))}"
        return loss.place

    def _answer(self, question: Question, lines: Sequence[str]) -> Answer:
        """Returns the answer after these lines. Raises `Wrong` if the question is undecided."""
        shell, source = self._shell, self._shell.source
        assert source is not None
        pace = [f"pace {shell.pace.text}"] if shell.pace is not None else []
        asker = Asker(source.path, (), time.monotonic() + SECONDS)
        with turned(Wrong, Failure, of=self.text):
            found = ask_behind(
                source, lines, question, self._asked, shell.may_come(), pace, asker, counts=False
            )
        if found.kind is Kind.UNTOLD:
            raise Wrong(f"{self.text} is undecided here: {found.head()}, {found.why}")
        return found
