"""Where the C of a firmware and the model in its comments have gone apart."""
import itertools
import pathlib
import re
from typing import Dict, Iterator, List, Mapping, NamedTuple, Optional, Sequence, Set, Tuple

from rdbg.from_c.calls import CHOICES, NAMES, TEMPLATES, VALUES, Block, Call, Operand
from rdbg.from_c.calls import blocks, calls_in, made_by
from rdbg.from_c.lexer import DIRECTIVE, Piece, pieces
from rdbg.from_c.lines import SKIP, Line, lines_of, rows_alone
from rdbg.from_c.said import Said, Value, defined, said, shown, tokens_of, value_of, values
from rdbg.operands import PATTERN_OF
from rdbg.tree import MOST_BYTES, Fault, Place

DRIFT = "drift"
NOUN = {
    **dict.fromkeys(NAMES, "object"),
    **dict.fromkeys(VALUES, "number"),
    "K": "task",
    "T": "block time",
}
# The own task, which a script names.
OWN = "NULL"
HANDLE = re.compile(r"[&*()]+")


class Model(NamedTuple):
    """What the model of a source names: things, and numbers; and numbers of the C."""

    names: Set[str]
    known: Mapping[str, int]
    of_c: Mapping[str, int]


def fault(place: Place, message: str) -> Fault:
    """What is told at a place."""
    return Fault(place, DRIFT, message)


def handle(text: str) -> str:
    """What C calls a thing, without what it is reached by."""
    return HANDLE.sub("", text).replace(" ", "")


class Comparing:
    """Holds the lines of a function against its calls."""

    def __init__(self, model: Model) -> None:
        self._model = model
        # (what C calls each thing, with the thing's name and the line that says so)
        self._handles: Dict[str, Tuple[str, int]] = {}

    def would_be(self, call: Call) -> str:
        """The line that a call would have."""
        form = TEMPLATES[call.name][0]
        parts = [form.word]
        for it in form.operands:
            text = call.argument(it.argument)
            named = self._handles.get(handle(text))
            choice = CHOICES.get(it.kind, {}).get(text.lower())
            plain = handle(text) if it.kind in NAMES else text
            parts.append(it.fixed or choice or (named[0] if named else plain) or it.kind)
        return " ".join(parts)

    def judge(self, line: Said, call: Call) -> Iterator[Fault]:
        """Where a line says something else than its call; what it names is known from there on."""
        yield from self.faults(line, call)
        for operand, value in self._pairs(line, call):
            if operand.kind in NAMES:
                text = handle(call.argument(operand.argument))
                self._handles.setdefault(text, (value.text, line.line.number))

    def _pairs(self, line: Said, call: Call) -> List[Tuple[Operand, Value]]:
        """The operands of a line, as the call has them; none where the line is of another call."""
        for form in TEMPLATES[call.name]:
            found = values(line, form, self._model.known) if form.word == line.word else None
            if found is not None:
                return [*zip(form.operands, found)]
        return []

    def faults(self, line: Said, call: Call, is_one: bool = True) -> Iterator[Fault]:
        """Where a line says something else than a call of FreeRTOS; of what it names only where it
        is the one line of that call."""
        pairs = self._pairs(line, call)
        both = f"{shown(line)}: {call.name} in line {call.place.line}"
        if not pairs:
            words = [form.word for form in TEMPLATES[call.name]]
            message = f"{both} is {' or '.join(words)}"
            yield fault(line.line.place, message + ", with other operands" * (line.word in words))
        for operand, value in pairs:
            wrong = self._differs(operand, value, call)
            if wrong and (is_one or operand.kind not in NAMES):
                yield fault(line.line.place, f"{both} has {wrong}")

    def _differs(self, operand: Operand, value: Value, call: Call) -> str:
        """What a call has in the place of an operand, where it is something else."""
        text = operand.fixed or call.argument(operand.argument)
        noun = NOUN.get(operand.kind, "")
        if operand.kind in NAMES:
            return self._other_thing(handle(text), value.text, noun)
        if operand.kind in CHOICES:
            choice = operand.fixed or CHOICES[operand.kind].get(text.lower(), "")
            return f"{text}, which is {choice}" if choice not in ("", value.text) else ""
        if PATTERN_OF["R"].fullmatch(value.text):
            return ""
        if operand.kind not in NOUN:
            return f"{text} there" if text != value.text else ""
        numbers = {} if operand.fixed else {**self._model.known, **self._model.of_c}
        expected = value_of(text, numbers)
        if expected is None or value.number is None or expected == value.number:
            return ""
        known = f", which is {expected}" if text != str(expected) else ""
        return f"{text} as its {noun}{known}"

    def _other_thing(self, text: str, name: str, noun: str) -> str:
        """What a call names, where that is another thing."""
        if not text or text == OWN:
            return ""
        if text in self._model.names:
            return f"{text} as its {noun}" if text != name else ""
        other, line = self._handles.get(text, (name, 0))
        return f"{text} as its {noun}, which is {other} in line {line}" if other != name else ""


INCLUDE = re.compile(r'#\s*include\s*"([^"/\\]+)"')
# The kernel's own header includes the configuration of an application.
KERNEL, CONFIGURATION = "FreeRTOS.h", "FreeRTOSConfig.h"


def included(directives: Sequence[Piece]) -> List[str]:
    """The names that are included by quotes."""
    found = (INCLUDE.match(it.text) for it in directives if it.kind == DIRECTIVE)
    names = [it[1] for it in found if it]
    return [*names, CONFIGURATION] if KERNEL in names else names


def of_headers(path: str, source: Sequence[Piece]) -> List[Piece]:
    """What stands in the headers of a source, and in theirs, as far as its folder has them."""
    folder, found = pathlib.Path(path).parent, []
    names = [*dict.fromkeys(included(source))]
    for name in names:
        try:
            file = folder / name
            is_read = file.is_file() and file.stat().st_size <= MOST_BYTES
            text = file.read_text("utf-8", "replace") if is_read else ""
        except (OSError, ValueError):
            continue
        header = [*pieces(text)]
        found += header
        names += [it for it in dict.fromkeys(included(header)) if it not in names]
    return found


TASK, CONSTS = "task", ("const", "#define")


class Beside(NamedTuple):
    """A call, with the rows in which what stands is beside it."""

    call: Call
    rows: range


class Source(NamedTuple):
    """A source: the lines of its model, the rows that have nothing else, and its functions."""

    lines: Sequence[Line]
    alone: Set[int]
    functions: Mapping[str, Block]


class Function:
    """A function of a task, with the lines of the model in it."""

    def __init__(self, block: Block, source: Source, model: Model) -> None:
        self._block, self._source = block, source
        lines = [it for it in source.lines if block.begin <= it.number <= block.end]
        # (those that are of no call yet)
        self._said = [it for it in map(said, lines) if it is not None]
        self._skips = [it for it in lines if it.text == SKIP]
        self._comparing = Comparing(model)

    def faults(self) -> Iterator[Fault]:
        """Where it and the model have gone apart. A line is of the call beside it that it is the
        word of, and only then of another one beside it."""
        calls = [*self._beside()]
        naming = {it.call: self._naming(it) for it in calls}
        lines = {it.call: self._fitting(it, False) for it in calls if not naming[it.call]}
        for it in calls:
            if naming[it.call]:
                yield from self._judge_several(it, naming[it.call])
            elif it.call.name in TEMPLATES:
                yield from self._judge(it, lines[it.call] or self._fitting(it, is_any=True))
        for left in self._said:
            function, line = left.line.function, shown(left)
            own = "" if function else f"; of a function that makes it: // rdbg(NAME): {line}"
            beside = f"no call of {function or like(left)} stands beside it"
            yield fault(left.line.place, f"{line}: {beside}{own}")

    def _beside(self) -> Iterator[Beside]:
        """The calls that a model has to say, and those by which lines say that one is made."""
        named = {*TEMPLATES, *self._source.functions, *(it.line.function for it in self._said)}
        ends = [it.place for it in self._block.pieces if it.text in (";", "{", "}")]
        begins, alone = [it.place for it in self._block.pieces[1:]], self._source.alone
        for call in calls_in(self._block.pieces):
            if call.name in named:
                before = (it for it in ends if it < call.place)
                last = max(before, default=self._block.pieces[0].place)
                begin = min((it.line for it in begins if it > last), default=call.place.line)
                above = (row for row in itertools.count(begin, -1) if row - 1 not in alone)
                yield Beside(call, range(next(above), call.end + 1))

    def _near(self, it: Beside) -> List[Said]:
        """The lines beside a call that are of no other yet."""
        return [each for each in self._said if each.line.number in it.rows]

    def _naming(self, it: Beside) -> List[Said]:
        """The lines beside a call that name its function, beside those of what that calls."""
        block = self._source.functions.get(it.call.name)
        inner = {call.name for call in calls_in(block.pieces)} if block else set()
        near = [line for line in self._near(it) if line.line.function in (it.call.name, *inner)]
        self._said = [line for line in self._said if line not in near]
        return [line for line in near if line.line.function == it.call.name]

    def _fitting(self, it: Beside, is_any: bool) -> Optional[Said]:
        """The nearest line beside a call of FreeRTOS, with its word, or with any."""
        words, row = words_of(it.call), it.call.place.line
        near = [line for line in self._near(it) if not line.line.function]
        found = [line for line in near if is_any or line.word in words]
        nearest = min(found, key=lambda one: abs(one.line.number - row), default=None)
        if nearest is not None:
            self._said.remove(nearest)
        return nearest

    def _is_skipped(self, it: Beside, function: str) -> bool:
        """Whether a line beside a call says that the model leaves it out."""
        own = (skip for skip in self._skips if skip.function == function)
        found = next((skip for skip in own if skip.number in it.rows), None)
        if found is not None:
            self._skips.remove(found)
        return found is not None

    def _judge(self, it: Beside, line: Optional[Said]) -> Iterator[Fault]:
        """What is told of a call of FreeRTOS, and of the line beside it."""
        call = it.call
        if line is not None:
            yield from self._comparing.judge(line, call)
        elif not self._is_skipped(it, ""):
            would = f"// rdbg: {self._comparing.would_be(call)}, or // rdbg: {SKIP}"
            yield fault(call.place, f"{call.name} has no line beside it: {would}")

    def _judge_several(self, it: Beside, lines: Sequence[Said]) -> Iterator[Fault]:
        """What is told of a call whose function these lines name: they are of that call, or of
        those that it makes, where its function is in the source."""
        name = it.call.name
        if name in TEMPLATES:
            for line in lines:
                yield from self._comparing.faults(line, it.call, is_one=False)
            return
        if name not in self._source.functions:
            return
        made = made_by(it.call, self._source.functions)
        left = dict.fromkeys(made)
        for line in lines:
            fitting = [call for call in (*left, *made) if line.word in words_of(call)]
            if not fitting:
                yield fault(line.line.place, f"{shown(line)}: {name} makes no call of {like(line)}")
                continue
            best = min(fitting, key=lambda call: len([*self._comparing.faults(line, call)]))
            left.pop(best, None)
            yield from self._comparing.judge(line, best)
        if left and not self._is_skipped(it, name):
            for call in left:
                would = f"// rdbg({name}): {self._comparing.would_be(call)}"
                where = f"{call.name} in line {call.place.line}, which {name} calls"
                yield fault(it.call.place, f"{where}, has no line here: {would}")


def words_of(call: Call) -> Set[str]:
    """The words by which a model says a call."""
    return {form.word for form in TEMPLATES.get(call.name, ())}


def like(line: Said) -> str:
    """The calls that a line says, by one of them."""
    forms = (name for name, each in TEMPLATES.items() if line.word in [it.word for it in each])
    return f"{min(forms)} or its like"


def is_of_task(block: Block, lines: Sequence[Line], before: int) -> bool:
    """Whether a function is that of a task: lines of a model stand in it, or the last above it,
    behind the function before, begins a task."""
    if any(block.begin <= it.number <= block.end for it in lines):
        return True
    above = [it for it in lines if before < it.number < block.begin]
    return [it.text for line in above[-1:] for it in tokens_of(line.text)[:1]] == [TASK]


def differing_consts(lines: Sequence[Line], model: Model) -> Iterator[Fault]:
    """Consts of the model that are other numbers in the C."""
    for line in lines:
        word, name, *_ = [*line.text.replace(",", " ").split(), "", ""]
        known, own = model.known.get(name), model.of_c.get(name)
        if word in CONSTS and None not in (known, own) and known != own:
            yield fault(line.place, f"const {name} is {known}, and {own} in the C")


def drifts(path: str, text: str, names: Set[str], known: Mapping[str, int]) -> List[Fault]:
    """Where a source and the model in its comments have gone apart, in the order of its lines.
    `names` are the model's tasks and objects, and `known` its consts."""
    found = [*pieces(text)]
    lines = lines_of(found)
    model = Model(names, known, defined([*found, *of_headers(path, found)], known))
    told = [*differing_consts(lines, model)]
    functions = blocks([it for it in found if it.is_code])
    source = Source(lines, rows_alone(found), {it.name: it for it in functions})
    before = 0
    for block in functions:
        if is_of_task(block, lines, before):
            told += Function(block, source, model).faults()
        before = block.end
    return sorted(told, key=lambda it: it.place)
