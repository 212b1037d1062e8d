"""Commands that move the target, and breakpoints: `step worker`, `s`, `rs`, `goto`, `break`."""
import pathlib
import re
from typing import List, Optional, Sequence

from rdbg import commands, record, replies
from rdbg.driving import trail
from rdbg.driving.target import Unable
from rdbg.failure import turned
from rdbg.from_c.lines import below
from rdbg.goals import conditions, reading, words as goal_words
from rdbg.goals.reading import NoGoal
from rdbg.looks import Names
from rdbg.shell import seek
from rdbg.shell.shell import Shell
from rdbg.shell.views import check_instruction, check_name, phase_text
from rdbg.wording import counted

# Ticks are sent in batches of TICKS; at most ROWS ticks with an effect are shown.
TICKS, ROWS = 512, 20


def step(shell: Shell, words: Sequence[str]) -> None:
    """Executes `step TASK [COUNT]` and `step CORE COUNT`."""
    name = words[0]
    if words[2:] or not all(map(commands.is_count, words[1:])):
        forms = "the form is `step TASK [COUNT]` or `step CORE`"
        raise Unable(f"{commands.out_of_range(words[1:])}{forms}")
    count = int(words[1]) if words[1:] else 1
    is_core = commands.is_number(name)
    if name not in shell.target.names.tasks and re.fullmatch(r"core_?[0-9]", name):
        raise Unable(f"write the core as a number: `step {name[-1]}`")
    if name not in shell.target.names.tasks and not is_core:
        shell.look()  # (which may show the task if the file is not known)
        check_name(shell, name, "task")
    for made in range(count):
        shell.interrupt.check()
        it = None if is_core else shell.target.ask(f"show task {name}", replies.Task)
        if it is not None and it.core is None:
            after = f" after {made} of {count} instructions" if made else ""
            raise Unable(f"cannot step {name}{after}: {why_not_running(shell, it)}")
        if not shell.command(f"step {it.core if it else name}"):
            return


def tick(shell: Shell, words: Sequence[str]) -> None:
    """Executes `tick COUNT`."""
    if len(words) != 1 or not commands.is_count(words[0]):
        raise Unable(f"{commands.out_of_range(words)}the form is `tick` or `tick COUNT`")
    with shell.wheel():
        start = shell.target.places().done
        reply, left = "", int(words[0])
        while left and not reply.startswith("no "):
            shell.interrupt.check()
            *others, reply = shell.target.tell_all(["tick"] * min(left, TICKS))
            left -= len(others) + 1
        here = shell.target.place
        shell.answer(reply)
        shell.hint_on("tick", reply)
        if reply.startswith("no ") and here > start:
            shell.say(f"stopped at {here}; the moves up to there are done")
        if shell.shows_moves and here > start:
            tell_ticks(shell, start + 1, here)


def tell_ticks(shell: Shell, first: int, last: int) -> None:
    """Shows the ticks that woke a task or rotated tasks of equal priority."""
    found = trail.moves(shell.walk, first, last, Names(shell.target.names.tasks), shell.progress)[0]
    told = [move for move in found if move.effects]
    if len(told) > ROWS:
        shell.say(f".. {len(told) - ROWS} earlier ticks with an effect")
    for move in told[-ROWS:]:
        shell.say(move.row(len(str(last))))
    if len(found) > len(told):
        shell.say(f"{counted(len(found) - len(told), 'tick')} without effect on any task")


def interrupt(shell: Shell, words: Sequence[str]) -> None:
    """Executes `isr NAME`: makes all calls of the handler of an interrupt of the model."""
    application = shell.target.application
    found = application.interrupt(words[0]) if application else None
    if found is None:
        raise Unable(f"interrupt '{words[0]}' is not defined in the model")
    for line in found.lines():
        shell.interrupt.check()
        if not shell.command(line):
            return


def why_not_running(shell: Shell, it: replies.Task) -> str:
    """Why a task is not running, and which tasks are."""
    pairs = enumerate(shell.target.ask("show cores", replies.Cores).running)
    busy = [f"{name} on core {core}" for core, name in pairs if name]
    if it.phase.word in ("ended", "failed"):
        return f"it has {phase_text(it)}"
    why = phase_text(it) if it.phase.word == "wait" else "is ready but not on a core"
    running = f"running: {', '.join(busy)}" if busy else "no core is busy"
    return f"it {why} ({running})"


def forward(shell: Shell, words: Sequence[str]) -> None:
    """Executes `s [COUNT]`: makes default moves; `s TASK` is `step TASK`."""
    if words and words[0] in shell.target.names.tasks:
        step(shell, words)
    elif words[1:] or not all(map(commands.is_count, words)):
        forms = "`s` makes the next default move, `s 5` five; `step worker` steps a task"
        raise Unable(f"{commands.out_of_range(words)}{forms}")
    else:
        shell.command(" ".join(["forward", *(words or ["1"])]))


def back(shell: Shell, words: Sequence[str]) -> None:
    """Executes `rs [COUNT]`: undoes moves."""
    if len(words) > 1 or not all(commands.is_count(word) for word in words):
        forms = "`rs` undoes the last move, `rs 5` the last five, of any task"
        raise Unable(f"{commands.out_of_range(words)}{forms}")
    shell.command(" ".join([record.BACK, *(words or ["1"])]))


def goto(shell: Shell, words: Sequence[str]) -> None:
    """Executes `goto PLACE`."""
    there = shell.target.places()
    last = there.done + there.undone
    if len(words) != 1 or not commands.is_number(words[0]):
        where = f"0 is boot, {there.done} is here, {last} is the last place"
        raise Unable(f"`goto` needs the number of a place: {where}")
    place = int(words[0])
    if place > last:
        redo = f", and {there.undone} more can be redone" if there.undone else ""
        raise Unable(f"there is no place {place}: {counted(there.done, 'move')} done{redo}")
    if place < there.done - there.kept:
        raise Unable(shell.target.trimmed(place))
    if place == there.done:
        shell.say(f"already at {place}")
    else:
        shell.command(record.way(there.done, place))


def break_at(shell: Shell, words: Sequence[str]) -> None:
    """Executes `break TASK PC`, `break FILE:LINE` and `break COND`: sets a watch."""
    if not seek.is_rdbgs(words) and seek.is_goal(words, shell.scope()):
        check_goal(shell, words)
        goal = " ".join(words)
        forms = f"`until {goal}` runs to this goal, `rc {goal}` goes back to it"
        raise Unable(f"a watch takes a condition; {forms}")
    line = re.fullmatch(r"(?:(.+):)?([0-9]{1,9})", " ".join(words))
    if line and line[1] not in shell.target.names.tasks and len(words) == 1:
        for place in at_line(shell, line[1], int(line[2])):
            put_break(shell, place)
    else:
        put_break(shell, words)


def break_once(shell: Shell, words: Sequence[str]) -> None:
    """Executes `tbreak`: as `break`, but `continue` or `rc` removes the watch at its hit."""
    before = dict(shell.target.watches)
    break_at(shell, words)
    there = shell.target.watches.items()
    shell.temporary.update({number: text for number, text in there if number not in before})


def check_goal(shell: Shell, words: Sequence[str]) -> None:
    """Raises `Unable` with a suggestion if words are not a goal."""
    if words[0] not in reading.OF_MOVES:
        with turned(Unable, NoGoal):
            goal_words.read(words, shell.scope())


def put_break(shell: Shell, words: Sequence[str]) -> None:
    """Sets a watch at `TASK PC`, or on a condition."""
    if not words:
        raise Unable(
            "`break` needs a place or a condition: `break worker 2`, `break count jobs > 0`"
        )
    parts, condition = [part for word in words for part in word.split(":") if part], " ".join(words)
    if len(parts) == 2 and commands.is_name(parts[0]) and commands.is_number(parts[1]):
        check_instruction(shell, parts[0], int(parts[1]))
        condition = f"pc {parts[0]} = {parts[1]}"
    elif len(parts) == 1 and parts[0] in shell.target.names.tasks:
        task = parts[0]
        numbers = f"`list {task}` shows the numbers"
        raise Unable(f"`break {task}` needs an instruction, as in `break {task} 2`; {numbers}")
    else:
        if not seek.is_rdbgs(words):
            check_goal(shell, words)
        seek.check_instructions(shell, conditions.read(words))
    if shell.command(f"watch {condition}") and not shell.told_of_breaks:
        shell.told_of_breaks = True
        shell.say("`continue` runs to the next watchpoint hit, `rc` goes back to the last one")


def at_line(shell: Shell, file: Optional[str], line: int) -> List[Sequence[str]]:
    """The tasks with an instruction at or after a line, each with the number of that one."""
    source, application = shell.source, shell.target.application
    if source is None or application is None:
        raise Unable("sh does not know the model's file; use `break TASK PC`")
    if file is not None and pathlib.Path(file).name != pathlib.Path(source.path).name:
        raise Unable(f"the file is {source.name}; use `break {line}` or `break TASK PC`")
    lines = {it.place.line for task in application.tasks for it in task.code}
    if source.is_c and line not in lines:
        line = below(source.text).get(line, line)
    found = [
        (f"{task.name} {number}", it)
        for task in application.tasks
        for number, it in enumerate(task.code)
        if it.place.line >= line and it.begins
    ]
    if not found:
        raise Unable(f"{source.name} has no instruction at or after line {line}")
    first = min(it.place.line for _, it in found)
    there = [(at, it) for at, it in found if it.place.line == first]
    if len({it.place for _, it in there}) > 1:
        texts = [f"`break {at}` ({it.written})" for at, it in there]
        raise Unable(f"line {first} has {len(there)} instructions; use {' or '.join(texts)}")
    for at, it in there:
        shell.say(f"{source.name}:{first}  {at} {it.written}")
    return [at.split() for at, _ in there]


def delete(shell: Shell, words: Sequence[str]) -> None:
    """Executes `delete N`: removes a watch."""
    if len(words) != 1:
        raise Unable(
            "`delete` needs the number of a watch, as in `delete 0`; `info watches` lists them"
        )
    number = words[0].lstrip("w")
    text = shell.target.watches.get(int(number), "") if commands.is_number(number) else ""
    if shell.command(f"unwatch {number}"):
        shell.say(f"removed watch {number}: {text}")
