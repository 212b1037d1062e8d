"""Goals of a hunt: how the search is asked for one, and what shows that it is met."""
from typing import NamedTuple, Optional, Sequence, Tuple

from rdbg.failure import of_words, turned
from rdbg.files.source import Source
from rdbg.goals import claims, reading, words as goal_words
from rdbg.goals.scope import Scope
from rdbg.looks import Look, Names
from rdbg.reaching.asking import REACH, Question

# The goal that is said of two orders, and that only ticks are left.
DIFFERS = "differs"
STUCK = claims.Stuck()


class Goal(NamedTuple):
    """A goal, as it is told, and as the program that searches is asked for it; the lines that stand
    before the orders that are found, and those behind each, which show it; what holds at the end of
    each, if that is known; and whether an order is held against another one."""

    text: str
    asked: str
    first: Tuple[str, ...] = ()
    last: Tuple[str, ...] = ()
    holds: Optional[claims.Goal] = None
    compares: bool = False

    def is_so(self, look: Look) -> bool:
        """Whether it is so where this is seen, or needn't be."""
        return self.holds is None or self.holds.is_so(look)


def read(parts: Sequence[str], source: Source, question: Question = REACH) -> Goal:
    """The goal that these words are, of which this is asked. Raises `Failure` without one."""
    scope = Scope.of(source)
    names = scope.names
    if list(parts) == [DIFFERS]:
        # (all that come to a rest end so)
        return Goal(DIFFERS, STUCK.asked(names.tasks), last=(*names.lines(),), compares=True)
    with turned(of_words, reading.NoGoal, of="goal"):
        goal, asked = goal_words.for_search(parts, scope)
    told = goal.text if question == REACH else f"{question.word} {goal.text}"
    if isinstance(goal, claims.Holds) and question.is_met:
        last = ("show watches", goal.condition.view)
        return Goal(told, asked, (f"watch {asked}",), last, goal)
    views = Names(names.tasks, goal.names(names).objects).lines()
    return Goal(told, asked, last=(*views,), holds=goal if question.is_met else None)
