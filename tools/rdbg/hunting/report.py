"""What is said of a hunt: what was found, and exactly what was gone through."""
from typing import Iterator, List, Optional, Sequence, Tuple

from rdbg.application import Application
from rdbg.hunting.goals import Goal
from rdbg.hunting.stage import Find, Stage
from rdbg.reaching.said import Answer, Kind

# So many instructions are named, and so many of them in a line.
MOST_NAMED, IN_A_LINE = 12, 3


def counted(count: int, noun: str) -> str:
    """So many of something."""
    return f"{count:,} {noun}{'' if count == 1 else 's'}"


def place_of(find: Find, is_exhaustive: bool) -> str:
    """Where an order ends, and with how many surprises, where these are counted."""
    count = len(find.told)
    how = f"with {counted(count, 'surprise')}" if count else "without surprises"
    return f"at {find.place}" if is_exhaustive else f"at {find.place}, {how}"


def lines_of(goal: Goal, finds: Sequence[Find]) -> List[str]:
    """The lines that make each order and show its end, going back to boot between two."""
    lines = [*goal.first]
    for at, find in enumerate(finds):
        lines += [*find.lines, *goal.last]
        if at + 1 < len(finds) and find.place:
            lines.append(f"back {find.place}")
    return lines


def found(
    goal: Goal, stage: Stage, finds: Sequence[Find], is_exhaustive: bool, own: Optional[Find] = None
) -> Iterator[str]:
    """What is said of what was found, and of how that ends otherwise than `forward`'s own order,
    where it is held against that."""
    if own is not None:
        yield f"the run without surprises, which ends at {own.place}:"
        yield from stage.table(own, goal)
    for at, find in enumerate(finds, 1):
        which = f" {at}" if len(finds) > 1 else ""
        yield f"found{which}: {goal.text}, {place_of(find, is_exhaustive)}"
        if not is_exhaustive:
            yield from (f"  {told}" for told in find.told)
        yield from stage.table(find, goal)
        yield from () if own is None else differing(own, find)


def differing(own: Find, find: Find) -> Iterator[str]:
    """How an order ends otherwise than another one, thing by thing, as the program shows it."""
    yield "end states of the first run (<) and of this one (>):"
    for one, other in zip(own.views, find.views):
        if one != other and (not find.tasks or one.split()[1] in find.tasks):
            yield from (f"< {one}", f"> {other}")
    for task in find.tasks:
        yield f"from here, {task} can no longer end as in the first run"


def gone_through(counts: Tuple[int, int, int]) -> str:
    """What was gone through."""
    states, moves, deepest = counts
    longest = f"longest run {counted(deepest, 'move')}"
    return f"searched: {counted(states, 'state')}, {counted(moves, 'move')}, {longest}"


def not_come_to(answer: Answer, application: Application) -> Iterator[str]:
    """The instructions that no order came to, if there are any."""
    missed = [(application.task(name), numbers) for name, numbers in answer.missed]
    left = [f"{it.name} {pc}: {it.code[pc].told}" for it, numbers in missed if it for pc in numbers]
    if left:
        yield f"never executed ({counted(len(left), 'instruction')}):"
    for at in range(0, min(len(left), MOST_NAMED), IN_A_LINE):
        yield f"  {'; '.join(left[at : at + IN_A_LINE])}"
    if len(left) > MOST_NAMED:
        yield f"  and {len(left) - MOST_NAMED:,} more"


def ended(answer: Answer) -> Iterator[str]:
    """Why not all was gone through, if it wasn't; of what was, what else is said of it."""
    if answer.why:
        yield answer.why if answer.kind is Kind.NONE else f"incomplete: {answer.why}"


def others(answer: Answer) -> Iterator[str]:
    """What is said of ends that weren't found, where all were asked for."""
    if answer.kind is Kind.NONE:
        yield f"no other end state that goals can tell apart: {answer.head()}"
    yield from ended(answer)


def smaller(answers: Sequence[Answer]) -> Iterator[str]:
    """What is said of finds that would be smaller than the one that was found."""
    heads = [it.head() for it in answers if it.kind is Kind.NONE]
    if heads:
        yield f"no shorter run: {'; '.join(heads)}"
    for it in answers:
        yield from ended(it)


def none(goal: Goal, answer: Answer, application: Application) -> Iterator[str]:
    """What is said where nothing was found."""
    part = "" if answer.part is None else f", part {answer.part[0]} of {answer.part[1]}"
    yield f"none found: {goal.text}"
    yield f"{answer.head()}{part}"
    yield from not_come_to(answer, application)
    yield gone_through(answer.counts)
    yield from ended(answer)
