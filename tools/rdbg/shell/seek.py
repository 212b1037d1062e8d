"""Commands that go to a goal: `until`, `until!`, `rc`, `rc!` and `continue`."""
import contextlib
import textwrap
from typing import Iterator, Optional, Sequence, Tuple

from rdbg import commands, record
from rdbg.driving.interrupt import Interrupted
from rdbg.driving.target import Unable
from rdbg.failure import turned
from rdbg.goals import claims, conditions, reading, words as goal_words
from rdbg.goals.claims import Goal, Holds, SomeFailed, Stuck
from rdbg.goals.reading import NoGoal
from rdbg.goals.scope import Scope
from rdbg.goals.ways import AnyOf, To, Wakes, Way, is_so, is_stuck
from rdbg.reaching.vacuity import never_rests
from rdbg.replies import Refused
from rdbg.shell.shell import Shell
from rdbg.shell.views import check_instruction, phase_text
from rdbg.wording import counted

DEFAULT_COUNT = 10_000
WIDTH = 96
# A goal that is not a condition begins with one of these.
FIRST = (*reading.OF_TASKS, *reading.ALONE, *reading.OF_MOVES, reading.NOT, reading.OPEN)


def is_goal(words: Sequence[str], scope: Scope) -> bool:
    """Whether these words are, or are meant to be, a goal that is not a condition of rdbg. Words of
    a condition that rdbg refuses are passed to rdbg."""
    if not words or words[0].partition("(")[0] in FIRST or words[0].startswith("("):
        return bool(words)
    with contextlib.suppress(NoGoal):
        return bool(goal_words.counted(words, scope))
    return False


def goal_of(shell: Shell, words: Sequence[str], becoming: bool) -> Tuple[Way, Optional[int]]:
    """Parses a goal and its COUNT. Raises `Unable` and `Refused`."""
    with turned(Unable, NoGoal):
        way, count = goal_words.sought(words, shell.target, shell.scope(), becoming)
    if isinstance(way, To):
        check_goal(shell, way.goal)
    return way, count


def keep_goal(shell: Shell, way: Way) -> None:
    """Remembers a goal about places as the default of the next question."""
    if isinstance(way, To) and not isinstance(way, Wakes):
        shell.goal = way.text


def check_goal(shell: Shell, goal: Goal) -> None:
    """Raises `Refused` if a name in a goal does not exist, `Unable` if an instruction does not."""
    for claim in goal.claims():
        condition = claim.condition if isinstance(claim, Holds) else None
        shell.asked = f"watch {condition.text}" if condition else f"until! {claim.text}"
        try:
            is_so(shell.target, claim)
        except (IndexError, KeyError):
            raise Refused("NoSuch") from None
        check_instructions(shell, condition)


def check_instructions(shell: Shell, condition: Optional[conditions.Condition]) -> None:
    """Raises `Unable` if a condition names an instruction that its task does not have."""
    if condition is not None and condition.kind == "pc" and condition.operator != "<":
        least = condition.number + (condition.operator == ">")
        check_instruction(shell, condition.name, least)


def run_to(shell: Shell, words: Sequence[str], becoming: bool = True) -> None:
    """Executes `until!`: runs to a goal."""
    if not words:
        raise Unable("`until!` needs a goal, such as `until! asleep`; see `help until!`")
    goal, count = goal_of(shell, words, becoming)
    keep_goal(shell, goal)
    forwards(shell, goal, count or DEFAULT_COUNT)


def forwards(shell: Shell, goal: Way, count: int) -> None:
    """Runs to the first place where a goal is met, or makes `count` moves."""
    walk, lines = shell.walk, shell.target.lines
    with from_here(shell) as start:
        lasts = isinstance(goal, To) and goal.becoming and goal.goal.is_lasting
        already = lasts and goal.is_so(shell.target)
        if already or not can_change(shell, goal):
            text = goal.text if already else ending(shell)
            shell.say(f"already {text}; `rc! {text}` goes back to where that began")
            return
        walk.wall = ""
        try:
            place = goal.next(walk, count)
            walk.settle(start, start + count if place is None else place)
        except (Interrupted, Unable) as ended:
            give_up(shell, ended, start)
            return
        report(shell, goal, "limit" if place is None else "met", start, lines)
        if place is not None:
            shell.tell_last()
            tell_why(shell, goal)
            drop_met(shell, goal)
        elif ending(shell):
            text = ending(shell)
            shell.say(f"the target is {text}; `rc! {text}` goes back to where that began")
        elif isinstance(goal, To) and isinstance(goal.goal, Stuck):
            tell_who_goes_on(shell, goal.text)
        if place is None and shell.target.place != start:
            shell.say(f"`goto {start}` goes back to the start of this run")


def backwards(shell: Shell, goal: Way) -> None:
    """Goes back to the last earlier place where a goal is met, or stays."""
    walk, lines = shell.walk, shell.target.lines
    with from_here(shell) as start:
        try:
            place = goal.last(walk)
            walk.goto(start if place is None else place)
            here = place is None and turned_true(shell, goal)
        except (Interrupted, Unable) as ended:
            give_up(shell, ended, start)
            return
        if here:
            shell.say(f"still at {start}: '{goal.text}' turned true here, and never before")
        else:
            report(shell, goal, "none" if place is None else "met", start, lines)
        if place:
            shell.tell_last()
        if place is not None:
            drop_met(shell, goal)


def drop_met(shell: Shell, goal: Way) -> None:
    """Removes the temporary watches that were hit, after a run to any watch."""
    if isinstance(goal, AnyOf):
        there = shell.target.watches.items()
        once = [number for number, text in shell.temporary.items() if (number, text) in there]
        watches = {number: goal_of(shell, [f"w{number}"], True)[0] for number in once}
        shell.drop_temporary(number for number, it in watches.items() if turned_true(shell, it))


def turned_true(shell: Shell, goal: Way) -> bool:
    """Whether the last move made a goal true."""
    place = shell.walk.place
    if not place or not goal.is_so(shell.target):
        return False
    shell.walk.goto(place - 1)
    was = goal.is_so(shell.target)
    shell.walk.goto(place)
    return was is False


def give_up(shell: Shell, ended: Exception, start: int) -> None:
    """Goes back to where a run began, and says so."""
    shell.walk.goto(start)
    if isinstance(ended, Interrupted):
        shell.stopped(f"back at {start}")
    else:
        shell.say(f"{ended}; back at {start}")


def report(shell: Shell, goal: Way, how: str, start: int, lines: int) -> None:
    """Says where a goal was met, or that it was not, and how many lines that took."""
    by = f"({counted(shell.target.lines - lines, 'line')} asked)"
    here = shell.target.place
    none = f"'{goal.text}' was not met" if goal.text else "no watch was hit, and nothing failed"
    if how == "met":
        met = goal.met if isinstance(goal, AnyOf) and not goal.text else goal
        text = met.text if met else ""
        is_ending = isinstance(goal, AnyOf) and text == Stuck().text
        shell.say(f"at {here} met: {ending(shell) if is_ending else text} {by}")
    elif how == "none":
        shell.say(f"still at {start}: {none} before {by}")
    else:
        wall = f", and rdbg refuses more: {shell.walk.wall}" if shell.walk.wall else ""
        moves = counted(here - start, "move")
        shell.say(f"at {here} limit: {none} in {moves}{wall} {by}")


def ending(shell: Shell) -> str:
    """`finished`, `asleep` or `stuck` if only ticks are left; otherwise empty."""
    if not is_stuck(shell.target):
        return ""
    look = shell.target.look(Stuck().names(shell.target.names))
    return next(it.text for it in reading.ALONE.values() if it.is_so(look))


def tell_why(shell: Shell, goal: Way) -> None:
    """Says where each task is, if the goal that was met is about all tasks."""
    met = goal.met if isinstance(goal, AnyOf) else goal
    if isinstance(met, To) and any(isinstance(it, claims.OfAll) for it in met.goal.claims()):
        text = "; ".join(f"{it.name} {phase_text(it)}" for it in shell.look().tasks.values())
        shell.say("\n".join(textwrap.wrap(text, WIDTH)))


def tell_who_goes_on(shell: Shell, goal: str) -> None:
    """Says which tasks keep a target from being `asleep` or `stuck`."""
    found = []
    for name, it in shell.look().tasks.items():
        why = ", and never waits without a time limit" if goes_on(shell, name) else ""
        if it.core is not None:
            found.append(f"{name} is busy on core {it.core}{why}")
        elif it.phase.deadline is not None:
            found.append(f"{name} {phase_text(it)}")
    shell.say("\n".join(textwrap.wrap(f"not {goal}: {'; '.join(found)}", WIDTH)))
    if any(goes_on(shell, name) for name in shell.target.names.tasks):
        onwards = "`until sleeps TASK` runs until one task waits without a time limit"
        shell.say(f"so `{goal}` never holds; {onwards}")


def goes_on(shell: Shell, name: str) -> bool:
    """Whether a task is known to run for ever, by its script."""
    application = shell.target.application
    task = application.task(name) if application else None
    return task is not None and never_rests(task)


@contextlib.contextmanager
def from_here(shell: Shell) -> Iterator[int]:
    """Holds the wheel and yields the current place, with the names of all tasks known: at boot each
    task is on a core or ready."""
    with shell.wheel():
        if shell.target.application is None and not shell.knows_tasks:
            here = shell.target.places().done
            shell.walk.goto(shell.target.base)
            shell.target.tell("show cores")
            shell.walk.goto(here)
            shell.knows_tasks = True
        yield shell.target.places().done


def until(shell: Shell, words: Sequence[str]) -> None:
    """Executes `until` with a goal that rdbg does not know, or with a condition without COUNT."""
    if not is_rdbgs(words):
        run_to(shell, words, False)
        return
    check_instructions(shell, conditions.read(words))
    start = shell.target.place
    shell.command(f"until {' '.join(words)} {DEFAULT_COUNT}")
    if shell.is_terminal and shell.target.place == start + DEFAULT_COUNT:
        shell.say(f"`goto {start}` goes back to the start of this run")


def is_rdbgs(words: Sequence[str]) -> bool:
    """Whether these words are exactly a condition of rdbg, or a watch."""
    is_watch = len(words) == 1 and commands.is_watch(words[0])
    return is_watch or conditions.read(words) is not None


def back(shell: Shell, words: Sequence[str]) -> None:
    """Executes `rc`: goes back to a goal, or without one to the last watchpoint hit."""
    if not words:
        backwards(shell, events(shell))
    elif is_rdbgs(words) or not is_goal(words, shell.scope()):
        shell.command(f"{record.BACK} until {' '.join(words)}")
    else:
        back_to(shell, words, False)


def back_until(shell: Shell, words: Sequence[str]) -> None:
    """Executes `back until GOAL` and `back until! GOAL`."""
    if words[0] == "until!":
        back_to(shell, words[1:])
    else:
        back(shell, words[1:])


def back_to(shell: Shell, words: Sequence[str], becoming: bool = True) -> None:
    """Executes `rc!`: goes back to where a goal turned true."""
    if not words:
        raise Unable("`rc!` needs a goal, such as `rc! asleep`")
    goal, count = goal_of(shell, words, becoming)
    if count is not None:
        raise Unable(f"unexpected '{count}': `rc` takes no COUNT")
    keep_goal(shell, goal)
    backwards(shell, goal)


def events(shell: Shell) -> Way:
    """What stops a run without a goal: a watchpoint hit, a failed task, or a standstill."""
    names = [f"w{number}" for number in sorted(shell.target.watches)]
    goals = [goal_of(shell, [name], True)[0] for name in names]
    for name, goal in zip(names, goals):
        goal.text = f"{name}, {goal.text}"
    return AnyOf("", [*goals, To(SomeFailed(), True), To(Stuck(), True)])


def can_change(shell: Shell, goal: Way) -> bool:
    """Whether a run can meet a goal: if the target is stuck, only the tick changes."""
    ways = goal.ways if isinstance(goal, AnyOf) else [goal]
    asked = [it for it in ways if isinstance(it, To)]
    is_of_tick = any(it.text.startswith("tick ") for way in asked for it in way.goal.claims())
    is_met = any(not it.becoming and it.is_so(shell.target) for it in asked)
    return is_of_tick or is_met or not is_stuck(shell.target)


def carry_on(shell: Shell, words: Sequence[str]) -> None:
    """Executes `continue`."""
    if words[1:] or not all(map(commands.is_count, words)):
        raise Unable("the form is `continue [COUNT]`, with at most COUNT moves, 1 to 1000000")
    forwards(shell, events(shell), int(words[0]) if words else DEFAULT_COUNT)
