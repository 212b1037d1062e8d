"""The text in lines (`.fw`) of an application: what `rdbg.firmware` reads, written to be read."""
import itertools
import re
from typing import Callable, Dict, Iterator, List, NamedTuple, Optional, Sequence, Tuple

from rdbg import kinds
from rdbg.application import Application, Instruction, Named, Task
from rdbg.digits import is_digits
from rdbg.firmware.branches import Test
from rdbg.firmware.numbers import FOREVER, LARGEST
from rdbg.firmware.objects import OBJECTS
from rdbg.instructions import FORM_OF
from rdbg.json_layout import pairs, settings

JUMPS = ("jump", "jumpz")
# What stands for a number while instructions are compared.
TARGET = "TARGET"


class FoundIf(NamedTuple):
    """An `if` of so many instructions, that jumps to one by its number."""

    test: Test
    length: int
    target: int


def text_of_test(test: Test) -> str:
    """A test as it is written."""
    sign = "!=" if test.is_turned else "="
    if test.mask is None:
        return f"{test.register} {sign} {test.number}"
    looked = f"{test.register} & {test.mask:#x}"
    if test.number:
        return f"({looked}) {sign} {test.number:#x}"
    return looked if test.is_turned else f"!({looked})"


def tests_at(code: Sequence[str], at: int) -> Iterator[Tuple[Test, str, str]]:
    """What an `if` that begins here may look at, its register and its entry of the task's own."""
    words = [text.split(" ") for text in code[at : at + 5]]
    if len(words) < 3 or words[0][0] != "move":
        return
    spare = words[0][1]
    for is_turned in (False, True):
        if words[1][:2] == ["add", spare]:
            yield Test(words[0][2], -int(words[1][2]) & LARGEST, None, is_turned), spare, ""
        elif words[1][0] == "notify" and words[2][0] == "vclear" and is_digits(words[2][3]):
            mask, register = ~int(words[2][3]) & LARGEST, words[1][3]
            tests = [Test(register, 0, mask, is_turned)]
            if words[4:] and words[4][:2] == ["add", "r0"]:
                tests.append(Test(register, -int(words[4][2]) & LARGEST, mask, is_turned))
            yield from ((test, spare, words[1][2]) for test in tests)


def ifs_at(code: Sequence[str], at: int, own: str) -> Iterator[FoundIf]:
    """Each `if` that may begin with an instruction, into whose middle nothing jumps."""
    words = enumerate(text.split(" ") for text in code)
    jumps = [(it, int(to[-1])) for it, to in words if to[0] in JUMPS and is_digits(to[-1])]
    for test, spare, entry in tests_at(code, at):
        templates, _ = test.jump()
        end = at + len(templates)
        values = {"spare": spare, "entry": entry, "own": own, "target": TARGET}
        text = "\n".join(templates).format(here=range(at, end + 1), **values)
        pattern = re.escape(text).replace(TARGET, "([0-9]+)")
        found = re.fullmatch(pattern, "\n".join(code[at:end]))
        if found and all(at <= it < end for it, to in jumps if at < to < end):
            yield FoundIf(test, len(templates), int(found[1]))


INDENT = "    "
# The profile of a text that says nothing of it.
PROFILE = ("profile", 1)


def label(number: str) -> str:
    """The label of the instruction with this number."""
    return f"L{int(number)}"


def decimal(word: str) -> str:
    """A number in as few digits as it has; a register as it is."""
    return str(int(word)) if is_digits(word) else word


# How the operands are written that can be written in other ways than in the JSON.
WRITERS: Dict[str, Callable[[str], str]] = {
    **dict.fromkeys(("N", "V", "I", "ROOM"), decimal),
    "T": lambda word: FOREVER if word == "max" else decimal(word),
    "L": label,
    "HEX": lambda word: word if word == "-" else f"0x{word}",
}


def instruction_text(instruction: Instruction) -> str:
    """An instruction with labels, with bits as hexadecimal numbers, and less of what is added."""
    first, *operands = instruction.words()
    form = FORM_OF[first]
    parts = [first]
    for symbol, noun, word in zip(form.symbols, form.nouns, operands):
        said, value = WRITERS.get(symbol, str)(word), int(word) if is_digits(word) else 0
        if value and (noun.startswith("bits") or symbol == "V" and operands[-1] == "bits"):
            said = hex(value)
        elif first == "add" and symbol == "N" and value > LARGEST // 2:
            said = str(value - LARGEST - 1)
        parts.append(said)
    return " ".join(parts)


Line = Tuple[int, str, Optional[int]]


def lines_of(task: Task, has_ifs: bool) -> Iterator[Line]:
    """The lines of a script: its first instruction, its text, and where it jumps, of each."""
    code = [" ".join(it.words()) for it in task.code]
    at = 0
    while at < len(code):
        ifs = ifs_at(code, at, task.name) if has_ifs else ()
        several = max(ifs, key=lambda it: it.length, default=None)
        if several is not None:
            text = f"if {text_of_test(several.test)} goto {label(str(several.target))}"
            yield at, text, several.target
            at += several.length
            continue
        words = code[at].split(" ")
        symbols = FORM_OF[words[0]].symbols
        jumps = [int(word) for symbol, word in zip(symbols, words[1:]) if symbol == "L"]
        yield at, instruction_text(task.code[at]), jumps[0] if jumps else None
        at += 1


def script_lines(task: Task, has_ifs: bool) -> Iterator[str]:
    """The lines of a script, with labels."""
    lines = [*lines_of(task, has_ifs)]
    labelled = {target for _, _, target in lines if target is not None}
    for number, text, _ in lines:
        yield from [f"{label(str(number))}:"] if number in labelled else []
        yield INDENT + text


def task_blocks(app: Application, is_plain: bool) -> Iterator[List[str]]:
    """The lines of each task; of several with one script, whose names are counted from 0, once."""
    left = [(it, [*script_lines(it, not is_plain)]) for it in app.tasks]
    while left:
        task, script = left[0]
        count = 0 if is_plain else counted(left)
        name = f"{task.name[:-1]}[{count}]" if count > 1 else task.name
        yield [f"task {name} priority {task.priority}", *script]
        left = left[max(1, count) :]


def counted(left: Sequence[Tuple[Task, List[str]]]) -> int:
    """How many tasks at the front have one script and priority, and names counted from 0."""
    first, script = left[0]
    alike = (
        (it.name, it.priority, other) == (f"{first.name[:-1]}{at}", first.priority, script)
        for at, (it, other) in enumerate(left)
    )
    return len([*itertools.takewhile(bool, alike)])


def object_cells(word: str, thing: Named) -> List[str]:
    """The parts of the line of an object; its members are one of them."""
    cells = [word, thing.name]
    for key, value in pairs(thing, OBJECTS[word])[1:]:
        cells += [key, str(value) if isinstance(value, int) else " ".join(value)]
    return cells


def aligned(rows: Sequence[List[str]], first: int) -> List[str]:
    """Rows as lines: their parts stand below each other. `first` is the width of the first one."""
    if not rows:
        return []
    widths = [max(len(row[at]) for row in rows) for at in range(len(rows[0]))]
    widths[0] = first
    padded = ((cell.ljust(width) for cell, width in zip(row, widths)) for row in rows)
    return [" ".join(cells).rstrip() for cells in padded]


def object_lines(app: Application) -> List[str]:
    """The lines of the objects, kind by kind."""
    rows = [[object_cells(kind.word, it) for it in app.of(kind)] for kind in kinds.OBJECTS]
    width = max((len(each[0][0]) for each in rows if each), default=0)
    return [line for each in rows for line in aligned(each, width)]


def text_of(app: Application, is_plain: bool = False) -> str:
    """The text of an application; not plain, it has several tasks and ifs in a line each."""
    numbers = [pair for pair in settings(app) if pair != PROFILE]
    blocks = [[f"{name} {value}" for name, value in numbers]]
    blocks += [object_lines(app), *task_blocks(app, is_plain)]
    return "\n\n".join("\n".join(block) for block in blocks if block) + "\n"


def jumps_of(app: Application) -> Iterator[str]:
    """The tasks of which jumps come back with labels, as no JSON has blocks, with their numbers."""
    for task in app.tasks:
        ends = [(at, text) for at, text, target in lines_of(task, True) if target is not None]
        numbers = [str(at) for at, text in ends if not text.startswith("if ")]
        if numbers:
            yield f"{task.name} {', '.join(numbers)}"
