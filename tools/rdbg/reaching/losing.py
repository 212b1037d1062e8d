"""Where a run lost a goal for good, as an answer to `lost` says it, and how that is told."""
import re
from typing import Iterator, List, NamedTuple, Optional, Sequence, Tuple

from rdbg.driving.parts import move_to
from rdbg.files.source import Source
from rdbg.reaching.asking import Question
from rdbg.reaching.said import Answer, Kind

LOST_AT = re.compile(r"lost at (\d+)", re.ASCII)
# So many lines of an order are told at the most.
MOST_LINES = 40
NOWHERE = "no run from boot reaches the goal"


class Loss(NamedTuple):
    """From `place` on no order leads to the goal, and from the place before this one does; `back`
    is the line that goes there from the end of the run. Where the place is the first that there is,
    it came from nowhere, and there is neither."""

    place: int
    back: str
    order: Tuple[str, ...]

    @property
    def before(self) -> int:
        """The last place from which it could still come."""
        return self.place - 1


def loss_of(answer: Answer) -> Optional[Loss]:
    """The loss that an answer tells, if any; its order begins where the run ends."""
    found = LOST_AT.fullmatch(answer.title)
    if found is None:
        return None
    back, *order = answer.order or [""]
    return Loss(int(found[1]), back, tuple(order))


def told(loss: Loss, move: str, way: str) -> Iterator[str]:
    """What there is to say of a loss: the move that made it, in words, and the line by which one
    goes before it; the order is said behind that."""
    if not loss.place:
        yield NOWHERE
        return
    yield move
    yield f"`{way}` returns to before this move, and this run from there reaches the goal:"


def in_one(question: Question, answer: Answer, source: Source, lines: Sequence[str]) -> str:
    """An answer to a question that was asked behind these lines, in one line."""
    loss = loss_of(answer)
    more = "; ".join(behind(question, answer, loss.order if loss else answer.order))
    if loss is not None:
        move = move_to(source, lines, loss.place).row() if loss.place else ""
        way = "; ".join(told(loss, move, loss.back))
        more = f"{way} {more or question.here}" if loss.place else way
    return f"{answer.head()}: {more}" if more else answer.head()


def behind(question: Question, answer: Answer, order: Sequence[str]) -> List[str]:
    """What stands behind the first line of an answer, and the move that lost a goal: an order, the
    first lines of a long one; that the goal holds here; or why that can't be told."""
    if answer.kind is Kind.REACHED and not order:
        return [question.here]
    more = [f"and {len(order) - MOST_LINES} more"] if len(order) > MOST_LINES else []
    return [*order[:MOST_LINES], *more, *filter(None, [answer.why])]
