"""What an answer of the program that searches says, as a value; and what several say together."""
import dataclasses
import enum
import functools
import re
import signal
from typing import Iterable, Iterator, Optional, Sequence, Tuple

from rdbg.failure import Failure
from rdbg.reaching.progress import Progress

# How a program ends that has answered: where the goal comes behind no order, behind one, and where
# that can't be told.
NONE, REACHED, UNTOLD = STATUSES = 0, 1, 2
# What stands behind the order: what was gone through.
COUNTS = re.compile(r"states \d+ moves \d+ deepest \d+", re.ASCII)


class Kind(enum.Enum):
    """What comes of a question: the value is the exit status."""

    NONE = NONE
    REACHED = REACHED
    UNTOLD = UNTOLD


# How the first line of an answer begins, and what is said by it.
HEADS: Tuple[Tuple[str, Kind], ...] = (
    ("found", Kind.REACHED),
    ("still", Kind.REACHED),
    ("lost at", Kind.NONE),
    ("never", Kind.NONE),
    ("not within", Kind.NONE),
    ("full", Kind.UNTOLD),
)
# What else is told of what was lost: an order stands behind it.
TITLE = re.compile(r"still|lost at \d+", re.ASCII)
# What may stand in the first line of an answer, and how often: of which orders it is said, and of
# which part of a search.
WITHIN = re.compile(r"not within(?: (\d+) moves)?(?:(?: and)? (\d+) surprises)?", re.ASCII)
PART = re.compile(r", part (\d+) of (\d+)$", re.ASCII)
# (behind it may stand where that is in a text)
MISSED = re.compile(r"no order came to (\S+)((?: \d+)+)(?: \(.*\))?", re.ASCII)


@dataclasses.dataclass(frozen=True)
class Bound:
    """Of which orders something is said: of how many moves and surprises; none: any number."""

    moves: Optional[int] = None
    surprises: Optional[int] = None

    def text(self) -> str:
        """It in the words of an answer."""
        bounds = [f"{count} {what}" for what, count in vars(self).items() if count is not None]
        return f"not within {' and '.join(bounds)}" if bounds else "never"

    def least(self, other: "Bound") -> "Bound":
        """What is said of these orders and of those of another bound, is said of those of both."""

        def fewer(*counts: Optional[int]) -> Optional[int]:
            return min((it for it in counts if it is not None), default=None)

        return Bound(fewer(self.moves, other.moves), fewer(self.surprises, other.surprises))


@dataclasses.dataclass(frozen=True)
class Answer:
    """An answer: the order where there is one, else of which orders it is said that the goal comes
    behind none; why it isn't said of all that were asked for; what was gone through, and to which
    instructions of which tasks no order came; which part of how many it is of a search; and the
    first line of it, where that says of a goal whether it was lost."""

    kind: Kind
    bound: Bound = Bound()
    order: Tuple[str, ...] = ()
    why: str = ""
    counts: Tuple[int, int, int] = (0, 0, 0)
    missed: Tuple[Tuple[str, Tuple[int, ...]], ...] = ()
    part: Optional[Tuple[int, int]] = None
    title: str = ""

    @property
    def has_order(self) -> bool:
        """Whether an order is told, which may have no moves. (Where a goal could come from no place
        of a run, none is.)"""
        return self.kind is Kind.REACHED or (self.title != "" and self.order != ())

    def head(self) -> str:
        """The first line of it."""
        if self.title:
            return self.title
        if self.kind is Kind.REACHED:
            return "found"
        if self.kind is Kind.NONE:
            return self.bound.text()
        return "full" if self.bound == Bound() else f"full: {self.bound.text()}"


def read(lines: Sequence[str]) -> Answer:
    """The answer in these lines. Raises `Failure` where there is none in them."""
    first, *rest = lines or [""]
    kind = next((kind for word, kind in HEADS if re.match(rf"{word}\b", first)), None)
    if kind is None:
        raise Failure(f"unexpected answer of the search program: '{first}'", UNTOLD)
    within, part = WITHIN.search(first), PART.search(first)
    limits = [None if it is None else int(it) for it in within.groups()] if within else []
    at = next((at for at, line in enumerate(rest) if COUNTS.fullmatch(line)), None)
    if at is None:
        raise Failure("the answer of the search program is incomplete", UNTOLD)
    states, moves, deepest = map(int, rest[at].split()[1::2])
    title = TITLE.fullmatch(first)
    has_order = kind is Kind.REACHED or title is not None
    missed = [it for it in map(MISSED.fullmatch, rest[at + 1 :]) if it]
    return Answer(
        kind,
        Bound(*limits),
        tuple(rest[:at]) if has_order else (),
        "" if has_order else " ".join(rest[:at]),
        (states, moves, deepest),
        tuple((it[1], tuple(map(int, it[2].split()))) for it in missed),
        (int(part[1]), int(part[2])) if part else None,
        title[0] if title else "",
    )


def check(output: str, status: int, known: Answer) -> None:
    """Raises `Failure`, with what was `known`, where a program ended by no answer or refusal."""
    if status < 0:
        why = f"was killed by {signal.Signals(-status).name}"
    elif status not in STATUSES:
        why = f"ended with status {status}"
    elif status != UNTOLD and not any(map(COUNTS.fullmatch, output.splitlines())):
        why = "ended before it answered"
    else:
        return
    until = "" if known.bound == Bound() else f" (known so far: {known.bound.text()})"
    raise Failure(f"the search program {why}{until}", UNTOLD)


def stopped(last: Optional[Progress], surprises: Optional[int], why: str, is_reach: bool) -> Answer:
    """What is known where a search ended in the midst of it, by how far it had said to be, and how
    many surprises an order was to have at the most. Where another question than `reach` was asked,
    how far it was says nothing of the answer."""
    if last is None:
        return Answer(Kind.UNTOLD, why=why)
    most = surprises if last.surprises is None else last.surprises
    bound = Bound(last.within, most) if is_reach else Bound()
    return Answer(Kind.UNTOLD, bound, why=why, counts=(last.states, last.moves, last.deepest))


def both(one: Answer, other: Answer) -> Answer:
    """What two answers say together of which none has an order: what both say, of their orders."""
    kinds, others = {one.kind, other.kind}, dict(other.missed)
    missed = (
        (task, tuple(it for it in instructions if it in others.get(task, ())))
        for task, instructions in one.missed
    )
    unknown = [it for it in (one, other) if it.kind is Kind.UNTOLD and it.bound == Bound()]
    return Answer(
        Kind.UNTOLD if Kind.UNTOLD in kinds else Kind.NONE,
        Bound() if unknown else one.bound.least(other.bound),
        why=one.why or other.why,
        counts=summed(one.counts, other.counts),
        missed=tuple(it for it in missed if it[1]),
    )


def summed(one: Tuple[int, int, int], other: Tuple[int, int, int]) -> Tuple[int, int, int]:
    """What was gone through in two searches: states and moves, and the longest order."""
    return one[0] + other[0], one[1] + other[1], max(one[2], other[2])


def together(answers: Iterable[Answer]) -> Answer:
    """What answers say together, of which there is one at the least, and none has an order."""
    return functools.reduce(both, answers)


def lines(answer: Answer) -> Iterator[str]:
    """An answer as the program gives it."""
    yield answer.head()
    yield from answer.order
    yield from [answer.why] if answer.why else []
    states, moves, deepest = answer.counts
    yield f"states {states} moves {moves} deepest {deepest}"
    for task, instructions in answer.missed:
        yield f"no order came to {task} {' '.join(map(str, instructions))}"
