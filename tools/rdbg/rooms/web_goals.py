"""Goals that are typed at a page. `reach GOAL`, `lost GOAL` and `doomed GOAL` are asked of the
program that searches, while the room goes on. To a goal lead runs and ways back: `until! GOAL`,
`rc GOAL`, `rc! GOAL`, and those of `until` and `back until` for which rdbg has no line: the place
is found in a program of the page's own, and gone to by one line of rdbg's."""
import dataclasses
import time
from typing import NamedTuple, Optional, Sequence

from rdbg import commands, record
from rdbg.driving.interrupt import Interrupted
from rdbg.driving.opening import begin
from rdbg.driving.target import Limits, Unable
from rdbg.driving.walk import Walk
from rdbg.failure import Failure
from rdbg.goals.reading import NoGoal
from rdbg.goals.scope import Scope
from rdbg.goals.words import for_search, sought
from rdbg.reaching import handlers, losing, vacuity
from rdbg.reaching.asking import Asker, Question, ask_behind
from rdbg.replies import Refused
from rdbg.rooms.quiet import SECONDS, Patience
from rdbg.rooms.room import Member, Room
from rdbg.shell import seek
from rdbg.shell.shell import Shell

# A search ends with so many mebibytes, and as what is typed does, after so many seconds.
MEBIBYTES = 256
# So many moves a run makes at the most, where no COUNT is said.
MOST = 10_000
SYNTAX = "no Syntax"


def answered(room: Room, question: Question, goal: Sequence[str]) -> str:
    """What is answered to a question about a goal, in one line."""
    source = room.app_source
    if not goal:
        assert source.application is not None
        return f"no: {question.lacks_goal(source.application.tasks[0].name)}"
    lines = record.untrimmed(room.lines())
    options = ("--memory", str(MEBIBYTES))
    asker = Asker(source.path, options, time.monotonic() + SECONDS)
    try:
        scope = Scope.of(source)
        _, asked = for_search(goal, scope)
        answer = ask_behind(source, lines, question, asked, asker=asker)
        said = losing.in_one(question, answer, source, lines)
    except Failure as failure:
        return f"no: {failure}"
    empty = vacuity.find(scope, " ".join(goal), question, answer)
    more = (handlers.told((), source.application), empty.note if empty else "")
    return "; ".join(filter(None, [said, *more]))


class Typed(NamedTuple):
    """What was typed: whether it goes forwards, and to where a goal becomes so; and its words."""

    is_forwards: bool
    becoming: bool
    goal: Sequence[str]


def typed(line: str) -> Optional[Typed]:
    """The run or the way back that a line asks for, where rdbg has no line for it."""
    words = line.split()
    head, behind = words[:1], words[1:]
    if head == [record.BACK] and behind[:1] in (["until"], ["until!"]):
        head, behind = ["rc!" if behind[0].endswith("!") else "rc"], behind[1:]
    if commands.read(line) is not None or head not in (["until"], ["until!"], ["rc"], ["rc!"]):
        return None
    return Typed(head[0].startswith("until"), head[0].endswith("!"), behind)


def to_place(shell: Shell, room: Room, member: Member, it: Typed) -> str:
    """Goes to a goal, and answers where that is: the place is found, and gone to by one line. A
    prompt takes note of the goal."""
    target = begin(room.app_source, Limits(Limits.moves, commands.MOST_COUNT))
    with target.session:
        target.tell_all(room.lines())
        start = target.place
        try:
            scope = dataclasses.replace(
                Scope.of(room.app_source), watches=dict(member.seat.watches)
            )
            way, count = sought(it.goal, target, scope, it.becoming)
            walk, most = Walk(target, Patience()), MOST if count is None else count
            place = way.next(walk, most) if it.is_forwards else way.last(walk)
        except NoGoal as wrong:
            return f"{SYNTAX}: {wrong}"
        except (Interrupted, Unable, Refused, Failure) as ended:
            return f"no: {ended or f'stopped after {SECONDS:.0f} seconds'}; still at {start}"
    if place is None or place == start:
        where = f"in {most} moves" if it.is_forwards else "before"
        return f"no: '{way.text}' was not met {where}; still at {start}"
    line = f"forward {place - start}" if it.is_forwards else record.way(start, place)
    reply = member.ask(line)
    if reply.startswith("no "):
        return reply
    seek.keep_goal(shell, way)
    return f"at {place} met: {way.text}"
