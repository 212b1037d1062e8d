"""The moves that were made, as values: found by going back and making them again, with looks."""
import dataclasses
from itertools import groupby
from typing import Callable, Iterator, List, Optional, Sequence, Tuple

from rdbg import record, replies
from rdbg.application import Application, Instruction
from rdbg.by_hand import could_be
from rdbg.driving.target import Target, read
from rdbg.driving.walk import Walk
from rdbg.effects import Move, move_between
from rdbg.looks import Look, Names

CHUNK = 64
# Is told how many of how many were done, and what was done with them.
Progress = Callable[[int, int, str], None]


def between(target: Target, before: Look, after: Look) -> Move:
    """The move from one look to the next."""
    known = target.by_hand.get(after.place)
    if known is not None and not target.is_own and not could_be(before, after, known):
        known = None  # (others have made another move there since)
    return written(target.application, move_between(before, after, target.instruction, known))


def instruction_of(application: Optional[Application], move: Move) -> Optional[Instruction]:
    """The instruction of a move, where a task made it and its script is known."""
    if application is None or move.task is None or move.pc is None:
        return None
    return application.instruction(move.task, move.pc)


def written(application: Optional[Application], move: Move) -> Move:
    """A move whose instruction is as it is written in the file."""
    found = instruction_of(application, move)
    return dataclasses.replace(move, written=found.told) if found else move


def lines_for(count: int, names: Names) -> int:
    """How many lines it takes to find so many moves."""
    return (count + 1) * (1 + len(names.lines())) + count // CHUNK


def moves(
    walk: Walk,
    first: int,
    last: int,
    names: Optional[Names] = None,
    progress: Optional[Progress] = None,
) -> Tuple[List[Move], Look]:
    """The moves to the places `first` to `last`, and the look at the last, which there must be.
    Stays where it is. Raises `Unable` where the history has too little room, `Interrupted` after
    Ctrl-C."""
    target = walk.target
    looked = target.names if names is None else names
    target.afford(lines_for(last - first + 1, looked))
    with walk.staying():
        walk.goto(first - 1)
        found: List[Move] = []
        before = target.look(looked)
        while walk.place < last:
            walk.interrupt.check()
            for after in again(target, min(CHUNK, last - walk.place), looked):
                found.append(between(target, before, after))
                before = after
            if progress is not None:
                progress(len(found), last - first + 1, "looked at")
    return found, before


def rows(found: Sequence[Move]) -> List[str]:
    """Moves in a line each; ticks in a row that did nothing else stand in one."""
    width = max((len(str(move.place)) for move in found), default=0)
    shown: List[str] = []
    for is_plain, several in groupby(found, lambda it: it.kind == "tick" and not it.effects):
        first, *others = several
        if is_plain and others:
            ticks = f"{1 + len(others)} ticks, up to tick {others[-1].tick}"
            shown.append(f"{first.place}..{others[-1].place}  {ticks}")
        else:
            shown += [it.row(width) for it in (first, *others)]
    return shown


def made(target: Target, moves: Sequence[Move], names: Names) -> Iterator[Tuple[Move, str, Look]]:
    """Makes these moves anew, and yields each with its reply and the look behind it. A move behind
    one that is refused, or that does something else, is made too."""
    views = names.lines()
    answers = target.tell_all(line for move in moves for line in (move.line, *views))
    width = len(views) + 1
    for at, move in enumerate(moves):
        answer, *seen = answers[at * width : (at + 1) * width]
        yield move, answer, Look.of(move.place, [read(each) for each in seen])


def again(target: Target, count: int, names: Names) -> List[Look]:
    """The looks at the next places, after each move that is made again."""
    lines = [record.again(), *names.lines()]
    seen = list(map(read, target.tell_all(lines * count)))
    looks = []
    for at in range(0, len(seen), len(lines)):
        moved = seen[at]
        assert isinstance(moved, replies.Moved)
        looks.append(Look.of(moved.at, seen[at + 1 : at + len(lines)]))
    return looks
