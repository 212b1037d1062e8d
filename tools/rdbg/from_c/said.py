"""A line of a model that says that there is a call, taken apart; and the numbers that C defines."""
import re
from typing import Dict, Iterable, List, Mapping, Match, NamedTuple, Optional, Sequence, Set, Tuple

from rdbg.firmware.numbers import LARGEST, Constants, Kept, Numbers
from rdbg.firmware.tokens import Refusal, Scanner, Token, without_parentheses, written
from rdbg.from_c.calls import VALUES, WORDS, Template
from rdbg.from_c.lexer import DIRECTIVE, Piece
from rdbg.from_c.lines import Line
from rdbg.operands import PATTERN_OF

DEFINED = re.compile(r"#\s*define\s+([A-Za-z_]\w*)\s+(\S.*)", re.DOTALL)
CAST = re.compile(r"\(([A-Za-z_]\w*)\)(?=[\w(])")
# (with parentheses in it, and in these)
IN_TICKS = re.compile(r"\bpdMS_TO_TICKS\s*(\((?:[^()]|\((?:[^()]|\([^()]*\))*\))*\))")
RATE = "configTICK_RATE_HZ"
FOREVER = "max"
OF_C = {"UINT32_MAX": LARGEST, "ULONG_MAX": LARGEST}
# So many names are gone through from one to the next.
DEEPEST = 20


def value_of(text: str, known: Mapping[str, int]) -> Optional[int]:
    """The number that a text is, with these names; none where it is something else."""

    def in_ticks(time: Match[str]) -> str:
        milliseconds, rate = value_of(time[1], known), known.get(RATE)
        is_known = milliseconds is not None and rate is not None
        return str((milliseconds or 0) * (rate or 0) // 1000) if is_known else time[0]

    if text == FOREVER:
        return LARGEST
    kept, value = Kept(Constants(), []), None
    kept.constants.values.update({**OF_C, **known})
    plain = IN_TICKS.sub(in_ticks, CAST.sub("", text))
    tokens = next(Scanner(plain.replace("\n", " "), kept.refusals).lines())
    with kept.keeping():
        reader = Numbers(tokens, kept)
        value = reader.number() if tokens else None
        reader.end()
    return None if kept.refusals else value


def defined(pieces: Iterable[Piece], known: Mapping[str, int]) -> Dict[str, int]:
    """The numbers that a source, with its headers, gives names to, wherever they stand. One that is
    given twice, as in the halves of an `#if`, is known where both are one number."""
    texts: Dict[str, Set[str]] = {}
    for piece in pieces:
        said = DEFINED.match(piece.text) if piece.kind == DIRECTIVE else None
        if said:
            texts.setdefault(said[1], set()).add(said[2].strip())
    others = {name: value for name, value in known.items() if name not in texts}
    own: Dict[str, int] = {}
    for _ in range(DEEPEST):
        names = {**others, **own}
        before = len(own)
        for name in texts.keys() - own.keys():
            found = {value_of(text, names) for text in texts[name]}
            value = found.pop()
            if value is not None and not found:
                own[name] = value
        if len(own) == before:
            break
    return own


class Said(NamedTuple):
    """What a line says: its word, and the tokens of its operands."""

    line: Line
    word: str
    tokens: Tuple[Token, ...]


class Value(NamedTuple):
    """An operand as it is written, and its number where that is known."""

    text: str
    number: Optional[int]


def tokens_of(text: str) -> List[Token]:
    """The words of a line behind its labels."""
    tokens = next(Scanner(text, []).lines())
    while [it.text for it in tokens[1:2]] == [":"]:
        tokens = tokens[2:]
    return tokens[:-1] if tokens and tokens[-1].text == ";" else tokens


def said(line: Line) -> Optional[Said]:
    """What a line says of a call; none where it says none."""
    tokens = tokens_of(line.text)
    if not tokens or tokens[0].text not in WORDS:
        return None
    try:
        behind = tuple(without_parentheses(tokens[1:]))
    except Refusal:
        return None  # (which is a fault of the line)
    return Said(line, tokens[0].text, behind)


def grouped(tokens: Sequence[Token]) -> List[str]:
    """Operands as texts: `RX | 1<<4` is one."""
    found: List[str] = []
    depth, is_open = 0, False
    for token in tokens:
        is_sign = token.text in ("|", "<<")
        joins = found and (depth or is_sign or is_open)
        depth += (token.text == "(") - (token.text == ")")
        is_open = is_sign
        if joins:
            found[-1] += token.text
        else:
            found.append(token.text)
    return found


def values(it: Said, form: Template, known: Mapping[str, int]) -> Optional[List[Value]]:
    """The operands of a line, as this form has them; none where there are fewer or more."""
    texts = grouped(it.tokens)
    if len(texts) != len(form.operands):
        return None
    found = []
    for text, operand in zip(texts, form.operands):
        is_number = operand.kind in VALUES and not PATTERN_OF["R"].fullmatch(text)
        found.append(Value(text, value_of(text, known) if is_number else None))
    return found


def shown(it: Said) -> str:
    """A line as a message has it."""
    return written(tokens_of(it.line.text))
