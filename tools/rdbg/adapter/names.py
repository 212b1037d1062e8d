"""Expressions: registers, parts of tasks, objects, goals and computed values."""
import re
from typing import Callable, Iterator, List, Optional

from rdbg import commands, kinds
from rdbg.adapter import variables
from rdbg.adapter.messages import Values, Wrong
from rdbg.adapter.variables import Shown, Variable
from rdbg.failure import turned
from rdbg.goals.computed import Expression, Undefined, expression, is_meant
from rdbg.goals.reading import NoGoal
from rdbg.replies import Refused
from rdbg.shell.completion import candidates
from rdbg.shell.shell import Shell

# What is computed within a text.
BRACES = re.compile(r"\{([^{}]*)\}")
# What names a variable by itself, and behind the name of a task or an object.
ALONE = re.compile("r[0-7]|pc|phase|data|place|tick|turn|ready|core [0-9]+")
PART = re.compile(f"r[0-7]|pc|phase|data|{'|'.join(kinds.OF_AMOUNT)}")


def all_of(shown: Shown) -> Iterator[Variable]:
    """Each variable that has an expression."""
    for name, task in shown.look.tasks.items():
        text = f"{task.doing}, at {task.pc}"
        yield Variable(name, text, within=("task", name), expression=name)
        yield from variables.registers(shown, name)
        yield from variables.parts(shown, name)
    for key, it in shown.look.objects.items():
        yield variables.of_object(key, it)
        yield from variables.within_object(shown, *key)
    yield from variables.of_time(shown)


def found(shown: Shown, task: Optional[str], text: str) -> Optional[Variable]:
    """The variable that an expression names: `worker.r0`, or `r0` of the task at hand."""
    named = [it for it in all_of(shown) if it.expression]
    wanted = (f"{task}.{text}", text)
    return next((it for each in wanted for it in named if it.expression == each), None)


def computed(shell: Shell, task: Optional[str], text: str) -> Optional[Expression]:
    """The goal or the expression that a text is; none where it names a thing. Raises `Wrong`."""
    scope = shell.scope()
    with turned(Wrong, NoGoal):
        return expression(text, scope, task or "") if is_meant(text, scope) else None


def value(shell: Shell, shown: Callable[[], Shown], task: Optional[str], text: str) -> Variable:
    """What a text says: a variable, whether a goal holds, or what is computed. Raises `Wrong`."""
    variable = found(shown(), task, text)
    if variable is not None:
        return variable
    made = computed(shell, task, text)
    if made is None:
        raise Wrong(f"'{text[:100]}' is not a register, a part of a task, an object or a condition")
    try:
        target = shell.target
        look = shown().look if target.is_own else target.look(made.names(target.names))
        with turned(Wrong, Undefined):
            return Variable(text, made.said(look))
    except (Refused, IndexError):
        raise Wrong(f"'{text}' names something that does not exist") from None


def check(shell: Shell, text: str, task: str) -> None:
    """Raises `Wrong` where what stands in braces in a text says nothing."""
    for part in map(str.strip, BRACES.findall(text)):
        name, _, last = part.rpartition(".")
        is_there = bool(shell.target.names.kinds_of(name or part))
        if ALONE.fullmatch(part) or (is_there and (not name or PART.fullmatch(last))):
            continue
        if computed(shell, task, part) is None:
            raise Wrong(f"{{{part}}} is not a register, a part of a task, an object or a condition")


def view(shell: Shell, text: str) -> Optional[str]:
    """The reply to a line that shows something; none where the text is no such line."""
    command = commands.read(text)
    return shell.target.tell(text) if command and command.form.word == "show" else None


def completions(shell: Shell, text: str, column: int) -> List[Values]:
    """What can stand where the cursor is; `column` is the number of characters before it."""
    before = text[:column]
    begun = re.split(r"\s", before)[-1]
    words = before[: len(before) - len(begun)].split()
    place = {"start": column - len(begun), "length": len(begun)}
    return [{"label": word.strip(), **place} for word in candidates(shell, words, begun)]
