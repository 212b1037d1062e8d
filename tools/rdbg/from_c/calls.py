"""FreeRTOS's calls as they stand in C: what a model says of each, which of its arguments that has,
and where calls are found."""
import itertools
import re
from typing import Dict, Iterator, List, Mapping, NamedTuple, Sequence, Tuple

from rdbg.checking.slips import CONSTANTS
from rdbg.from_c.lexer import WORD, Piece, joined
from rdbg.instructions import FORMS, GIVEN
from rdbg.operands import NAMED
from rdbg.tree import Place

# The lines of a model for calls that a text in lines says in a way of its own.
IN_LINES: Dict[str, str] = {
    "xSemaphoreTake(Q,T)": "take Q T or recv Q T",
    "xSemaphoreGive(Q)": "give Q or send Q T=0",
    "uxSemaphoreGetCount(Q)": "count Q",
    "vTaskDelay(T)": "wait T or recv NEVER=never T",
}
# What C calls the choices of a call, in small letters, and the words of a model for them.
CHOICES = {symbol: CONSTANTS[symbol] for symbol in ("ACTION", "WISH", "CLR", "clear|dec")}
NAMES, VALUES = NAMED, ("V", "I", "ROOM", "T")
# A name that is none of a part of something.
NAME = re.compile(r"(?<![\w.>])[A-Za-z_]\w*")
PARAMETER = re.compile(r"\(\*(\w+)\)|(\w+)[\[\]\w]*$")
# So many calls are gone into at the most from one.
MOST_CALLS = 100


class Operand(NamedTuple):
    """An operand of a model's line: its kind, and the number of the argument, or what it is."""

    kind: str
    argument: int
    fixed: str


class Template(NamedTuple):
    """What a model says of a call."""

    word: str
    operands: Tuple[Operand, ...]


def template(arguments: Sequence[str], line: str) -> Template:
    """What a model says of a call: each operand is the first argument of its kind that is no other
    operand, or it is given, behind `=`."""
    word, *parts = line.split()
    left, operands = [*arguments], []
    for part in parts:
        kind, _, fixed = part.partition("=")
        at = -1 if fixed else left.index(kind)
        if not fixed:
            left[at] = ""
        operands.append(Operand(kind, at, fixed))
    return Template(word, tuple(operands))


def templates() -> Iterator[Tuple[str, Tuple[Template, ...]]]:
    """What a model says of each call, by its name, the likeliest first."""
    plain = {call: form.text for form in FORMS for call in form.calls if "(" in call}
    for call, text in {**plain, **GIVEN, **IN_LINES}.items():
        name, *arguments = re.split("[(,)]", call)[:-1]
        yield name, tuple(template(arguments, line) for line in text.split(" or "))


TEMPLATES = dict(templates())
# The words of a model that say that there is a call.
WORDS = frozenset(it.word for each in TEMPLATES.values() for it in each)


class Call(NamedTuple):
    """A call: the name of the function, its arguments, where it begins, and the line of its end."""

    name: str
    arguments: Tuple[str, ...]
    place: Place
    end: int

    def argument(self, number: int) -> str:
        """An argument; empty where there aren't so many."""
        return self.arguments[number] if 0 <= number < len(self.arguments) else ""


class Block(NamedTuple):
    """What stands between the outermost braces of a function: its pieces, its first line, which is
    the one of its name, and its last; its name, and its parameters as they are written."""

    pieces: Tuple[Piece, ...]
    begin: int
    end: int
    name: str
    parameters: Tuple[str, ...]


def blocks(code: Sequence[Piece]) -> List[Block]:
    """The functions of a source, by its pieces of code."""
    found: List[Block] = []
    depth, head, inside = 0, 0, -1
    for at, piece in enumerate(code):
        if piece.text == "{":
            last = code[at - 1].text if at else ""
            if depth == 0 and last.startswith('"'):
                head = at + 1  # (extern "C")
                continue
            if depth == 0:
                inside = at if last == ")" else -1
            depth += 1
        elif piece.text == "}" and depth:
            depth -= 1
            if depth == 0 and inside >= 0:
                body, before = tuple(code[inside : at + 1]), code[head:inside]
                found.append(Block(body, before[0].place.line, piece.end, *named(before)))
            head = at + 1 if depth == 0 else head
        elif piece.text == ";" and depth == 0:
            head = at + 1
    return found


def named(head: Sequence[Piece]) -> Tuple[str, Tuple[str, ...]]:
    """The name and the parameters of a function, by what stands before its braces."""
    for at, piece in enumerate(head[:-1]):
        if piece.kind == WORD and head[at + 1].text == "(":
            given, end = arguments(head, at + 1)
            if end == len(head) - 1:
                return piece.text, given
    return "", ()


def arguments(code: Sequence[Piece], at: int) -> Tuple[Tuple[str, ...], int]:
    """The arguments behind the `(` at this place, and where its `)` is."""
    found: List[str] = []
    part: List[Piece] = []
    depth = 0
    for index in range(at, len(code)):
        text = code[index].text
        depth += (text in ("(", "[", "{")) - (text in (")", "]", "}"))
        if depth == 0:
            return (*found, joined(part)) if found or part else (), index
        if depth == 1 and text == ",":
            found.append(joined(part))
            part = []
        elif index > at:
            part.append(code[index])
    return (*found, joined(part)), len(code) - 1


def calls_in(code: Sequence[Piece]) -> List[Call]:
    """All calls in a function, of whatever it calls, in order."""
    pairs = zip(code, code[1:])
    heads = (at for at, (it, behind) in enumerate(pairs) if it.kind == WORD and behind.text == "(")
    given = ((code[at], *arguments(code, at + 1)) for at in heads)
    return [Call(it.text, texts, it.place, code[end].end) for it, texts, end in given]


def kept(block: Block) -> List[str]:
    """The names of a function's parameters; empty that of one which it may change."""
    text = joined(block.pieces)
    changed = r"\b{0}(?:[-+*/%|&^]|<<|>>)?=(?!=)|[(,]&{0}\b|\b{0}(?:--|\+\+)|(?:--|\+\+){0}\b"
    found = (PARAMETER.search(it) for it in block.parameters)
    names = [(it[1] or it[2]) if it else "" for it in found]
    return ["" if re.search(changed.format(it), text) else it for it in names]


def made_by(call: Call, functions: Mapping[str, Block]) -> List[Call]:
    """The calls of FreeRTOS that a call makes by these functions, with what it is given in them."""
    waiting, found = [call], []
    for one in itertools.islice(waiting, MOST_CALLS):  # (which grows meanwhile)
        block = functions[one.name]
        given = dict(zip(kept(block), one.arguments))
        for it in calls_in(block.pieces):
            put = [NAME.sub(lambda it: given.get(it[0], it[0]), text) for text in it.arguments]
            if it.name in TEMPLATES:
                found.append(it._replace(arguments=tuple(put)))
            elif it.name in functions:
                waiting.append(it._replace(arguments=tuple(put)))
    return found
