"""Commands that show the target: `info`, `where`, `list`, `print`, and `display`, which shows an
expression again after each line that moves the target."""
import re
from typing import Callable, Dict, Iterator, List, Optional, Sequence

from rdbg import commands, kinds, replies
from rdbg.application import Application, Instruction
from rdbg.driving.target import Unable
from rdbg.failure import turned
from rdbg.goals import computed
from rdbg.goals.reading import NoGoal
from rdbg.looks import Key, Look, Object, hexadecimal, holding, time_of
from rdbg.operands import to_text
from rdbg.replies import Refused
from rdbg.shell.shell import Shell
from rdbg.wording import counted, nearest

# The gap between columns, and the indent of a continued row.
GAP, INDENT = "  ", "    "
REGISTERS = tuple(f"r{number}" for number in range(8))
FIELDS = ("data", "pc", "phase", "notes")
# An assignment to a register, as in C and in gdb's `print`.
SETTING = re.compile(r"\$?(?:(\w+)\.)?r([0-7])\s*(?:\w+\s*)?=\s*(\w+)")


def table(cells: Sequence[Sequence[str]]) -> List[str]:
    """A table's rows as lines, each column as wide as it must be."""
    widths = [max(len(row[at]) for row in cells) for at in range(len(cells[0]))]
    return [GAP.join(it.ljust(width) for it, width in zip(row, widths)).rstrip() for row in cells]


def fitted(cells: Sequence[Sequence[str]], width: Optional[int]) -> List[str]:
    """A table's rows as lines that fit a terminal of so many characters, if one is given: without
    columns that say nothing, and if it is still too wide, each row in several lines. No cell is
    cut; one that is longer than a line goes on in the next one."""
    if width is None:
        return table(cells)
    # (a table of one row has no header)
    below = cells[1:] or cells
    kept = [at for at in range(len(cells[0])) if at == 0 or any(r[at] != "-" for r in below)]
    rows = [[row[at] for at in kept] for row in cells]
    parts: List[List[int]] = [[]]
    used = 0
    for at in range(len(kept)):
        widest = max(len(row[at]) for row in rows)
        if parts[-1] and used + len(GAP) + widest > width:
            parts.append([])
            used = len(INDENT)
        used += widest + (len(GAP) if parts[-1] else 0)
        parts[-1].append(at)
    tables = [table([[row[at] for at in part] for row in rows]) for part in parts]
    # (a continuation line with no value is left out)
    lines = (
        (row[0], *(f"{INDENT}{it}" for it in row[1:] if it.strip(" -"))) for row in zip(*tables)
    )
    return [piece for row in lines for line in row for piece in broken(line.rstrip(), width)]


def broken(line: str, width: int) -> Iterator[str]:
    """Yields the pieces of a line that fit a terminal of so many characters."""
    while len(line) > max(width, len(INDENT) + 1):
        yield line[:width]
        line = f"{INDENT}{line[width:]}"
    if line.strip():
        yield line


def script_of(application: Optional[Application], name: str) -> Sequence[Instruction]:
    """The script of a task; empty where it isn't known."""
    task = application.task(name) if application else None
    return task.code if task else ()


def check_instruction(shell: Shell, name: str, number: int) -> None:
    """Raises `Unable` if a script is known and does not have an instruction of this number."""
    script = script_of(shell.target.application, name)
    if script and number >= len(script):
        has = to_text(0, len(script) - 1)
        raise Unable(f"{name} has no instruction {number}, only {has}")


def written(application: Optional[Application], task: replies.Task) -> str:
    """The next instruction of a task as it is written; empty where it isn't known."""
    return "".join(it.told for it in script_of(application, task.name)[task.pc : task.pc + 1])


def next_of(application: Optional[Application], task: replies.Task) -> str:
    """The next instruction of a task, with its number."""
    return f"{task.pc} {written(application, task)}".rstrip()


def next_moves(application: Optional[Application], look: Look) -> str:
    """What each busy core would do next, in words."""
    seats = ((core, look.tasks.get(name or "")) for core, name in enumerate(look.cores.running))
    found = [f"{it.name} {next_of(application, it)} (core {core})" for core, it in seats if it]
    return ", ".join(found) or "no core is busy; only `tick` is left"


def place_in_file(shell: Shell, task: replies.Task) -> str:
    """The file and the line of the next instruction of a task; empty where it isn't known."""
    name = shell.source.name if shell.source else ""
    application = shell.target.application if name else None
    found = script_of(application, task.name)[task.pc : task.pc + 1]
    return "".join(f"{name}:{it.place.line}" for it in found)


def phase_text(task: replies.Task) -> str:
    """A phase in words."""
    phase = task.phase
    if phase.word == "wait":
        return f"waits at {phase.place} {time_of(phase.deadline)}"
    if phase.word == "again":
        return f"woken, tries again ({time_of(phase.deadline)})"
    if phase.word == "given":
        return f"woken, given bits {phase.bits}"
    return f"failed: {phase.cause}" if phase.word == "failed" else phase.word


def seat(task: replies.Task) -> str:
    """Where a task is: a core's number, `ready`, or nowhere."""
    if task.core is not None:
        return str(task.core)
    return "ready" if task.phase.word in ("run", "again", "given") else "-"


def notes(task: replies.Task) -> str:
    """The notification entries that aren't as at boot."""
    texts = (f"{at}={it.value}:{it.state}" for at, it in enumerate(task.notes))
    return ",".join(text for text in texts if not text.endswith("=0:idle")) or "-"


def tasks(shell: Shell) -> None:
    """All tasks, as a table."""
    application = shell.target.application
    rows = [["task", "core", "phase", "pc", "instruction", "registers", "data", "notes"]]
    for name, it in shell.look().tasks.items():
        here = [name, seat(it), it.phase.text, str(it.pc), written(application, it) or "-"]
        there = [f"{name}={value}" for name, value in zip(REGISTERS, it.registers) if value]
        rows.append([*here, ",".join(there) or "-", hexadecimal(it.data), notes(it)])
    if application is None:
        rows = [[*row[:4], *row[5:]] for row in rows]
    shell.say("\n".join(fitted(rows, shell.width())))


def object_text(key: Key, it: Object) -> List[str]:
    """An object as a row."""
    kind, name = key
    return [f"{kind} {name}", holding(it), contents(it), waiters(it)]


def contents(it: Object) -> str:
    """What an object has in it."""
    if isinstance(it, replies.Queue):
        return ",".join(item.hex() for item in it.items) or "-"
    if isinstance(it, replies.QueueSet):
        return ",".join(it.handles) or "-"
    if isinstance(it, replies.Stream):
        return hexadecimal(it.content)
    if isinstance(it, replies.Messages):
        return ",".join(map(hexadecimal, it.messages)) or "-"
    return f"0x{it.bits:06x}"


def waiters(it: Object) -> str:
    """Who waits at an object, the first to be served first."""
    named: Dict[str, Sequence[Optional[str]]] = {}
    if isinstance(it, replies.Queue):
        named = {"receive": it.receivers, "send": it.senders}
    elif isinstance(it, replies.QueueSet):
        named = {"select": it.waiters}
    elif isinstance(it, (replies.Stream, replies.Messages)):
        named = {"read": [it.reader], "write": [it.writer]}
    else:
        wishes = ((f"{wish.task}:{wish.bits}", wish.wants_all) for wish in it.waiters)
        named = {"bits": [f"{wish}:{'all' if is_all else 'any'}" for wish, is_all in wishes]}
    there = ((word, ",".join(present(names))) for word, names in named.items())
    return "; ".join(f"{word}: {names}" for word, names in there if names) or "nobody"


def present(names: Sequence[Optional[str]]) -> List[str]:
    """The names that there are."""
    return [name for name in names if name]


def objects(shell: Shell) -> None:
    """All objects that are known, as a table."""
    found = shell.look().objects
    if not found:
        shell.say("no objects are known" if shell.source is None else "the model has no objects")
        return
    rows = [["object", "has", "contents", "blocked tasks"]]
    rows += [object_text(key, it) for key, it in found.items()]
    shell.say("\n".join(fitted(rows, shell.width())))


def task(shell: Shell, name: str) -> List[str]:
    """Everything about a task, as lines."""
    it = shell.look().tasks[name]
    application = shell.target.application
    known = application.task(name) if application else None
    rank = f", priority {known.priority}" if known else ""
    where = {"-": "on no core", "ready": "ready"}.get(seat(it), f"on core {it.core}")
    values = " ".join(f"{register}={value}" for register, value in zip(REGISTERS, it.registers))
    entries = " ".join(f"{at}={note.value}:{note.state}" for at, note in enumerate(it.notes))
    return [
        f"task {name}{rank}, {where}, {phase_text(it)}",
        f"pc {it.pc}  {written(application, it)}  {place_in_file(shell, it)}",
        f"{values}  data {hexadecimal(it.data)}",
        f"notes {entries}",
    ]


def where(shell: Shell, words: Sequence[str]) -> None:
    """Executes `where`: shows each core's task with its next instruction, and the ready tasks."""
    look = shell.look()
    rows = []
    for core, name in enumerate(look.cores.running):
        it, more = look.tasks.get(name or ""), ["", "", ""]
        if it is not None:
            phase = "" if it.phase.word == "run" else f"({it.phase.text})"
            more = [next_of(shell.target.application, it), phase, place_in_file(shell, it)]
        rows.append([f"core {core}", name or "idle", *more])
    ready = ",".join(look.cores.ready) or "-"
    shell.say("\n".join(fitted(rows, shell.width())))
    shell.say(f"ready {ready}  tick {look.cores.tick}  turn {look.cores.turn}  at {look.place}")


def listing(shell: Shell, words: Sequence[str]) -> None:
    """Executes `list`: shows the scripts of tasks, by default of the running ones."""
    look = shell.look()
    names = list(words) or present(look.cores.running)
    if not names:
        raise Unable(f"no core is busy; `list` needs a task: {', '.join(look.tasks)}")
    for name in names:
        check_name(shell, name, "task")
        script = script_of(shell.target.application, name)
        if not script:
            raise Unable(f"the script of {name} is not known; start `rdbg sh --port P FILE`")
        it = look.tasks[name]
        where = "" if shell.source is None else f"  {shell.source.name}"
        shell.say(f"{name}, {phase_text(it)}{where}")
        shell.say("\n".join(table(list(listed(script, it.pc, shell.source is not None)))))


def listed(script: Sequence[Instruction], pc: int, has_lines: bool) -> Iterator[List[str]]:
    """The rows of a script, one for each line; that of the next instruction is marked."""
    for number, it in enumerate(script):
        if not it.begins:
            continue
        count = it.part.count if it.part else 1
        is_next = number <= pc < number + count
        numbers = to_text(number, number + count - 1).replace(" to ", "-")
        line = str(it.place.line) if has_lines else ""
        text = script[pc].told if is_next else it.told
        yield [line.rjust(4), "->" if is_next else "  ", numbers.rjust(3), text]


def check_name(shell: Shell, name: str, kind: str = "") -> str:
    """Returns the kind of the task or object of this name. Raises `Unable` if there is none."""
    known = [kind] if kind else list(kinds.OF_WORD)
    if shell.target.application is None and commands.is_name(name):
        # (rdbg may know names that it has not shown yet)
        shell.target.tell_all([f"show {each} {name}" for each in known])
    there = shell.target.names.kinds_of(name)
    if kind in there or (there and not kind):
        return kind or there[0]
    near = nearest(name, [it for each in known for it in shell.target.names.of_kind(each)])
    hint = f" (did you mean '{near}'?)" if near else ""
    hint = f": it is a {there[0]}" if there else hint
    raise Unable(f"there is no {kind or 'task or object'} '{name}'{hint}")


def values(shell: Shell, words: Sequence[str]) -> List[str]:
    """Parts of a task, or of those on the cores; or what an object has."""
    given = SETTING.fullmatch(" ".join(words))
    if given:
        edit = f"poke reg {given[1] or 'worker'} {given[2]} {given[3]}"
        raise Unable(f"`print` cannot change anything; use `{edit}`")
    parts = [part for word in words for part in word.lstrip("$").split(".") if part]
    register = next((part for part in parts if re.fullmatch("r[0-9]+", part)), None)
    if register not in (None, *REGISTERS):
        raise Unable(f"there is no register {register}, only r0 to r7")
    wanted = [part for part in parts if part in (*FIELDS, *REGISTERS)]
    names = [part for part in parts if part not in wanted]
    look = shell.look()
    if not parts:
        raise Unable("`print` needs an expression: `print r0 worker`, `print data`, `print jobs`")
    if not wanted:
        return [line for name in names for line in about(shell, name)]
    found = []
    for name in names or present(look.cores.running):
        check_name(shell, name, "task")
        it = look.tasks[name]
        fields = (hexadecimal(it.data), it.pc, phase_text(it), notes(it), *it.registers)
        texts = dict(zip((*FIELDS, *REGISTERS), fields))
        found.append(f"{name}: {', '.join(f'{part} = {texts[part]}' for part in wanted)}")
    return found


def show(shell: Shell, words: Sequence[str]) -> None:
    """Executes `show NAME`: rdbg's view of each task or object of this name."""
    for kind in shell.target.names.kinds_of(words[0]):
        shell.command(f"show {kind} {words[0]}")


def about(shell: Shell, name: str, only: str = "") -> List[str]:
    """Everything about the task or objects of a name, or of one kind, as lines."""
    check_name(shell, name, only)
    lines: List[str] = []
    for kind in [only] if only else shell.target.names.kinds_of(name):
        if kind == "task":
            lines += task(shell, name)
        else:
            *found, waiting = object_text((kind, name), shell.look().objects[(kind, name)])
            lines.append("  ".join([*found, f"blocked: {waiting}"]))
    return lines


def texts(shell: Shell, words: Sequence[str]) -> List[str]:
    """The values of parts of tasks, of names, or of an expression, as lines."""
    text, scope, names = " ".join(words), shell.scope(), shell.target.names
    known = (*FIELDS, *REGISTERS, *names.tasks, *(name for _, name in names.objects))
    parts = [part for word in words for part in word.lstrip("$").split(".")]
    is_plain = all(part in known for part in parts) or SETTING.fullmatch(text) is not None
    if is_plain or not computed.is_meant(text, scope):
        return values(shell, words)
    with turned(Unable, NoGoal, computed.Undefined):
        found = computed.expression(text, scope)
        target = shell.target
        look = shell.look() if target.is_own else target.look(found.names(target.names))
        value = found.said(look)
    return [f"{text}: {value}" if value in computed.TRUTHS else f"{text} = {value}"]


def tell(shell: Shell, words: Sequence[str]) -> None:
    """Executes `print`."""
    shell.say("\n".join(texts(shell, words)))


def display(shell: Shell, words: Sequence[str]) -> None:
    """Executes `display [EXPR]`."""
    if words:
        texts(shell, words)  # (which raises an error if EXPR is wrong)
        shell.displays[max(shell.displays, default=0) + 1] = " ".join(words)
    elif not shell.displays:
        raise Unable("there are no displays; `display count jobs` adds one")
    displayed(shell, max(shell.displays) if words else 0)


def undisplay(shell: Shell, words: Sequence[str]) -> None:
    """Executes `undisplay [N ..]`."""
    numbers = [int(word) for word in words if commands.is_number(word)]
    if len(numbers) < len(words) or not {*numbers} <= {*shell.displays}:
        there = ", ".join(map(str, shell.displays)) or "none"
        raise Unable(f"`undisplay` needs numbers of displays ({there}), or none to remove all")
    for number in numbers or list(shell.displays):
        shell.displays.pop(number, None)


def displayed(shell: Shell, only: int = 0) -> None:
    """Shows all displays, or one."""
    shown = {only: shell.displays[only]} if only else shell.displays
    for number, text in shown.items():
        try:
            shell.target.afford(len(shell.target.names.lines()))
            lines = texts(shell, text.split())
        except Unable as unable:
            lines = [f"{text}: {unable}"]
        except Refused as refused:
            lines = [f"{text}: no {refused}"]
        for line in lines:
            shell.say(f"{number}: {line}")


def watches(shell: Shell) -> None:
    """Shows the watches and their conditions."""
    if not shell.target.watches:
        shell.say("there are no watches; `watch COND` or `break TASK PC` sets one")
        return
    holds = dict(shell.target.ask("show watches", replies.Watches).holds)
    found = sorted(shell.target.watches.items())
    rows = [[f"w{at}", "holds" if holds.get(at) else "fails", text] for at, text in found]
    shell.say("\n".join(table([["watch", "now", "condition"], *rows])))


def history(shell: Shell) -> None:
    """Shows how many lines were sent, and how many the history has room for."""
    left = shell.target.left()
    room = "" if left is None else f"; the history has room for {left} more"
    shell.say(f"{counted(shell.target.lines, 'line')} sent to rdbg, looks included{room}")


def info(shell: Shell, words: Sequence[str]) -> None:
    """Executes `info`: shows a table, or everything about a task or an object."""
    word = words[0] if words else ""
    singular = word[:-1] if word.endswith("s") else word
    kind = singular if singular in kinds.OF_WORD and not shell.target.names.kinds_of(word) else ""
    if word in TABLES and not (kind and len(words) == 2):
        TABLES[word](shell)
    elif word == "registers":
        shell.say("\n".join(values(shell, [*REGISTERS, *words[1:]])))
    elif kind and len(words) == 2:
        shell.say("\n".join(about(shell, words[1], kind)))
    elif kind:
        (tasks if kind == "task" else objects)(shell)
    elif word:
        shell.say("\n".join(about(shell, word)))
    else:
        raise Unable(
            f"`info` needs one of {', '.join(INFO_WORDS)}, or the name of a task or object"
        )


TABLES: Dict[str, Callable[[Shell], None]] = {
    **dict.fromkeys(("tasks", "threads"), tasks),
    **dict.fromkeys(("objects", kinds.QUEUE.key), objects),
    **dict.fromkeys(("watches", "break", "breakpoints", "watchpoints"), watches),
    **dict.fromkeys(("cores", "line"), lambda shell: where(shell, [])),
    "history": history,
}
INFO_WORDS = ("tasks", "objects", "watches", "history", "registers")
