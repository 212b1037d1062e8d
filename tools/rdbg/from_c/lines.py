"""The lines of a model that stand in the comments of a C source: `// rdbg: recv jobs 10`."""
import bisect
import re
from typing import Dict, Iterator, List, Match, NamedTuple, Sequence, Set

from rdbg.from_c.lexer import COMMENT, PIECE, Piece, pieces
from rdbg.tree import Place

ENDING = ".c"
# What begins a line of a model in a comment, with the function in which its call is made.
MARK = re.compile(r"(?://|/\*)[*/]*\s*rdbg(?:\(([A-Za-z_]\w*)\))?:")
STAR = re.compile(r"\s*\*+(?!/)")
# The line of a call that isn't in the model.
SKIP = "skip"


class Line(NamedTuple):
    """A line of a model: its text, where that begins, the function that makes its call where one is
    named, and whether nothing of C stands beside it."""

    text: str
    place: Place
    function: str
    is_alone: bool

    @property
    def number(self) -> int:
        """Its line in the source."""
        return self.place.line


def bodies(piece: Piece, alone: Set[int]) -> Iterator[Line]:
    """The lines of a model in a comment, if it has any, of which these rows have nothing else."""
    mark = MARK.match(piece.text)
    if mark is None:
        return
    closed = piece.text[:-2] if piece.text.startswith("/*") else piece.text
    for number, text in enumerate(closed.split("\n")):
        star = STAR.match(text) if number else mark
        begin = star.end() if star else 0
        body = text[begin:].rstrip()
        begin += len(body) - len(body.lstrip())
        column = begin + (piece.place.column if number == 0 else 1)
        if body.strip():
            place = Place(piece.place.line + number, column)
            yield Line(body.strip(), place, mark[1] or "", place.line in alone)


def rows_alone(found: Sequence[Piece]) -> Set[int]:
    """The rows of a source that have comments with lines of a model, and nothing of C."""
    code = {line for it in found if it.is_code for line in (it.place.line, it.end)}
    said = [it for it in found if it.kind == COMMENT and MARK.match(it.text)]
    return {row for it in said for row in range(it.place.line, it.end + 1)} - code


def lines_of(found: Sequence[Piece]) -> List[Line]:
    """The lines of a model in a source."""
    alone = rows_alone(found)
    return [line for it in found if it.kind == COMMENT for line in bodies(it, alone)]


def has_lines(text: str) -> bool:
    """Whether a source has a comment with lines of a model."""
    return any(it.kind == COMMENT and MARK.match(it.text) for it in pieces(text))


def without_model(piece: Match[str]) -> str:
    """A piece of a source, where it is a comment with lines of a model as so much space."""
    is_of_model = piece.lastgroup == COMMENT and MARK.match(piece[0])
    return re.sub(r"[^\n]", " ", piece[0]) if is_of_model else piece[0]


def code_beside(text: str) -> Dict[int, str]:
    """What each line of a source has besides lines of a model."""
    rows = PIECE.sub(without_model, text).split("\n")
    return {number: row.strip() for number, row in enumerate(rows, 1)}


def in_lines(text: str) -> str:
    """The model of a source as a text in lines, each where it stands, with the C as its comment."""
    said: Dict[int, str] = {}
    for line in lines_of([*pieces(text)]):
        if line.text != SKIP:
            # (two in one line are read as one, which is refused)
            said[line.number] = said.get(line.number, "").ljust(line.place.column - 1) + line.text
    made = []
    for number, code in code_beside(text).items():
        comment = f" // {code}" if code else ""
        made.append((said.get(number, "") + comment) if number in said else comment.lstrip())
    return "\n".join(made) + "\n"


def code_below(text: str) -> Dict[int, str]:
    """For each line of a model that stands alone in its row, by number: the next row of C below."""
    found = [*pieces(text)]
    beside = code_beside(text)
    rows = sorted({it.place.line for it in found if it.is_code})
    said = {it.number: bisect.bisect(rows, it.number) for it in lines_of(found) if it.is_alone}
    return {number: beside[rows[at]] for number, at in said.items() if at < len(rows)}


def below(text: str) -> Dict[int, int]:
    """The lines of C below lines of a model that stand alone, each with the last of these."""
    alone = {it.number for it in lines_of([*pieces(text)]) if it.is_alone}
    return {number + 1: number for number in alone if number + 1 not in alone}
