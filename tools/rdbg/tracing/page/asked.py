"""The question that a page answers, the answer in sentences, and the place that shows it."""
import dataclasses
from typing import Optional, Sequence, Tuple

from rdbg.reaching.asking import DOOMED, LOST, Question
from rdbg.reaching.losing import loss_of
from rdbg.reaching.said import Answer, Kind


@dataclasses.dataclass(frozen=True)
class Asked:
    """A question with its answer: the words of a command line, the answer in sentences, the place at
    which the page opens, the first place from which the goal is unreachable, and a run that shows
    the answer if the run of the page does not."""

    words: str
    said: Tuple[str, ...]
    at: Optional[int] = None
    lost: Optional[int] = None
    order: Tuple[str, ...] = ()


def of_loss(answer: Answer) -> str:
    """Returns the sentence about a goal that the run may have lost."""
    loss = loss_of(answer)
    if loss is None:
        return "Still: the goal can be reached from the last place of the run."
    if not answer.order:
        return (
            f"Lost at {loss.place}: no run of any length reaches the goal from any place of this run,"
            f" which begins at place {loss.place}."
        )
    return (
        f"Lost at {loss.place}: from place {loss.place} on, no run of any length reaches the goal;"
        f" from place {loss.before} one does."
    )


def of_doom(answer: Answer, shown: str) -> str:
    """Returns the sentence about whether a goal can be lost."""
    if answer.kind is Kind.REACHED:
        return f"Found: {shown} leads to a place from which no run of any length reaches the goal."
    more = f" ({answer.why})" if answer.why else ""
    return f"Never: the goal can be reached from every reachable place{more}."


def of_reach(answer: Answer, place: int, shown: str) -> str:
    """Returns the sentence about whether a run from a place reaches a goal."""
    where = f"from place {place}" if place else "from boot"
    if answer.kind is Kind.REACHED:
        return f"Found: {shown} reaches the goal."
    if answer.head() == "never":
        return f"Never: no run of any length {where} reaches the goal."
    return f"{answer.head().capitalize()}: within that limit, no run {where} reaches the goal."


def asked(
    question: Question,
    goal: str,
    answer: Answer,
    place: int,
    order: Sequence[str] = (),
    beside: Sequence[str] = (),
) -> Asked:
    """Returns a question about a goal, asked at a place or about the run up to there, with its
    answer and the remarks `beside` it. The run of the answer is shown unless it is the page's."""
    loss = loss_of(answer) if question is LOST else None
    lost = loss.place if loss else None
    own = f"the run of this page, up to place {place},"
    shown = f"a run from place {place}" if order else own
    if answer.kind is Kind.UNTOLD:
        why = f": {answer.why}" if answer.why else ""
        said = f"Undecided: {answer.head()}{why}."
    elif question is LOST:
        said = of_loss(answer)
    elif question is DOOMED:
        said = of_doom(answer, shown)
    else:
        said = of_reach(answer, place, shown)
    at = lost if question is LOST else place
    more = (f"({it})" for it in beside if it)
    return Asked(f"{question.word} {goal}", (said, *more), at, lost, tuple(order))
