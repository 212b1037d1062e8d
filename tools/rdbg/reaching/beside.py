"""Remarks on an answer about a `.fw` file: which interrupts can come, where the instructions are
that no order came to, and that an order has many ticks."""
import itertools
from typing import Iterator, Sequence

from rdbg.files.source import LINES, Source
from rdbg.reaching import handlers
from rdbg.reaching.said import Answer

# Of an order of more lines than these it is said that many are ticks, and what makes them rare.
LONG, TICK, PACE = 20, "tick", "20.."


def missed(answer: Answer, source: Source) -> Iterator[str]:
    """The instructions that no order came to, a line for each task that has some."""
    assert source.application is not None
    for name, numbers in answer.missed:
        task = source.application.task(name)
        told = f"no order came to {name} {' '.join(map(str, numbers))}"
        if task is not None and source.path.endswith(LINES):
            lines = sorted({task.code[pc].place.line for pc in numbers})
            told += f" ({source.name}:{in_ranges(lines)})"
        yield told


def in_ranges(numbers: Sequence[int]) -> str:
    """Numbers, of which those in a row are one: `3, 7-9`."""
    runs = itertools.groupby(enumerate(numbers), lambda it: it[1] - it[0])
    rows = [[number for _, number in run] for _, run in runs]
    return ", ".join(f"{row[0]}-{row[-1]}" if row[1:] else str(row[0]) for row in rows)


def remarks(
    answer: Answer, source: Source, texts: Sequence[str], has_pace: bool, way: str
) -> Iterator[str]:
    """Yields remarks on an answer: which interrupts could come, by the texts that name them, and
    that an order has many ticks; `way` is the word that sets a pace."""
    application = source.application
    assert application is not None
    told = handlers.told(texts, application)
    if told:
        yield told
    ticks = answer.order.count(TICK)
    if LONG < len(answer.order) <= 4 * ticks and not has_pace:
        count = len(answer.order)
        yield f"note: {ticks} of the {count} lines are ticks (`{way} {PACE}` makes ticks rarer)"
