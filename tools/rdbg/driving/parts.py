"""Moves that were made, with the look behind each."""
from typing import NamedTuple, Optional, Sequence, Tuple

from rdbg import commands
from rdbg.driving import trail
from rdbg.driving.interrupt import Interrupt
from rdbg.driving.opening import begin
from rdbg.driving.target import Limits, Target
from rdbg.driving.walk import Walk
from rdbg.effects import Move
from rdbg.files.source import Source
from rdbg.looks import Look

# So many of the moves at a port are looked at where nothing is said: the history there is of all.
AT_A_PORT = 1_000


class Told(NamedTuple):
    """A line that was accepted and is no view, and how many moves were done behind it."""

    text: str
    place: int


class Trim(NamedTuple):
    """A trim that was made, and how many moves were done then."""

    place: int
    line: str


class Part(NamedTuple):
    """Moves in order, the look before the first of them, and the look behind each."""

    before: Look
    moves: Tuple[Move, ...]
    looks: Tuple[Look, ...]


def look_through(target: Target, first: int, last: int) -> Part:
    """The moves to these places, all of which have been made, with the looks. Stays where it is."""
    walk = Walk(target, Interrupt())
    with walk.staying():
        return walk_through(walk, first, last)


def walk_through(walk: Walk, first: int, last: int) -> Part:
    """The same; it ends at the last place."""
    target = walk.target
    walk.goto(first - 1)
    before, looks = target.look(), []
    while walk.place < last:
        looks += trail.again(target, min(trail.CHUNK, last - walk.place), target.names)
    pairs = zip([before, *looks], looks)
    return Part(before, tuple(trail.between(target, *it) for it in pairs), tuple(looks))


def move_to(source: Optional[Source], lines: Sequence[str], place: int) -> Move:
    """The move to a place of the run that these lines make, in a program of its own."""
    target = begin(source, Limits(Limits.moves, commands.MOST_COUNT))
    with target.session:
        target.tell_all(lines)
        return look_through(target, place, place).moves[0]


def part_at(target: Target, first: Optional[int], last: Optional[int]) -> Tuple[Part, int]:
    """The moves that a target has done which others move too, the last of them where nothing says
    from where on, and the first place from which one could look. Nobody else moves it meanwhile.
    Raises `Refused` where another has the wheel."""
    with target.wheel():
        places = target.places()
        base = places.done - places.kept
        least = max(base + 1, places.done - AT_A_PORT + 1 if first is None else first)
        most = places.done if last is None else min(last, places.done)
        if least > most:
            return Part(target.look(), (), ()), base + 1
        part = look_through(target, least, most)
        seen = part.before
        if {*target.names.tasks, *target.names.objects} > {*seen.tasks, *seen.objects}:
            part = look_through(target, least, most)  # (it told of more than was looked at)
        return part, base + 1
