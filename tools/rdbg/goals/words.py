"""Goals as companions are given them, by words: of places, or of moves, as `wakes K`."""
import contextlib
from typing import Optional, Sequence, Tuple

from rdbg import commands, kinds
from rdbg.driving.target import Target
from rdbg.goals import reading
from rdbg.goals.changes import Changes
from rdbg.goals.claims import Goal
from rdbg.goals.meant import with_meant
from rdbg.goals.reading import NoGoal, plain, words_of
from rdbg.goals.scope import Scope
from rdbg.goals.ways import To, Wakes, Way

WAKES, CHANGES = reading.OF_MOVES
OBJECTS = tuple(kind.word for kind in kinds.OBJECTS)
NOT_ASKED = "the search does not support `sleeps` (use `waits TASK` or `asleep`)"


def read(words: Sequence[str], scope: Scope) -> Goal:
    """The goal that these words are. Raises `NoGoal`, which says what would be right."""
    try:
        return plain(words, scope)
    except NoGoal as wrong:
        raise with_meant(wrong, scope) from None


def for_search(words: Sequence[str], scope: Scope) -> Tuple[Goal, str]:
    """A goal, and how the program that searches has it. Raises `NoGoal` also without words."""
    goal = read(words, scope)
    asked = goal.asked(scope.names.tasks)
    if asked is None:
        raise NoGoal(words_of(" ".join(words)), -1, NOT_ASKED)
    return goal, asked


def is_goal(words: Sequence[str], scope: Scope) -> bool:
    """Whether these words are a goal."""
    try:
        plain(words, scope)
    except NoGoal:
        return False
    return True


def counted(words: Sequence[str], scope: Scope) -> Tuple[Goal, Optional[int]]:
    """A goal, and the COUNT that stands behind it, if one does. Raises `NoGoal`."""
    try:
        return plain(words, scope), None
    except NoGoal as wrong:
        if wrong.at == len(wrong.words) - 1 and words[1:] and commands.is_count(words[-1]):
            with contextlib.suppress(NoGoal):
                return plain(words[:-1], scope), int(words[-1])
        is_count = wrong.at == len(wrong.words) - 1 and commands.out_of_range(words[-1:])
        if is_count and is_goal(words[:-1], scope):
            wanted = f"COUNT must be 1 to {commands.MOST_COUNT}"
            raise NoGoal(wrong.words, wrong.at, wanted) from None
    return read(words, scope), None


def sought(
    words: Sequence[str], target: Target, scope: Scope, becoming: bool
) -> Tuple[Way, Optional[int]]:
    """The way to what these words name, and the COUNT behind them, if any. Raises `NoGoal`."""
    if not words or words[0] not in reading.OF_MOVES:
        goal, count = counted(words, scope)
        return To(goal, becoming), count
    found, at = of_move(words, target, scope)
    if words[at + 1 :] or not all(map(commands.is_count, words[at:])):
        raise NoGoal(words, at, "expected COUNT or the end")
    return found, int(words[at]) if words[at:] else None


def of_move(words: Sequence[str], target: Target, scope: Scope) -> Tuple[Way, int]:
    """What is said of a move, and where it ends. Raises `NoGoal`."""
    has_kind = words[2:] and words[1] in OBJECTS and not commands.is_count(words[2])
    reader = reading.Reader(words, scope)
    reader.at = 2 if has_kind and words[0] == CHANGES else 1
    try:
        if words[0] == WAKES:
            return Wakes(reader.named(kinds.TASK)), reader.at
        if has_kind:
            return Changes(target, words[1], reader.named(kinds.OF_WORD[words[1]])), reader.at
    except NoGoal as wrong:
        raise (wrong if wrong.at is None else with_meant(wrong, scope)) from None
    name = words[1] if words[1:] else ""
    there = [kind for kind in scope.names.kinds_of(name) if kind != kinds.TASK.word]
    if not there:
        raise NoGoal(words, 1 if words[1:] else None, "expected the name of an object")
    return Changes(target, there[0], name), 2
