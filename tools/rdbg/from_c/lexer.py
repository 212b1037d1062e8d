"""The words of a C source, with their places. No C is understood: comments, texts in quotes and
directives of the preprocessor are told apart from what is left, and words from signs."""
import re
from typing import Iterator, NamedTuple, Sequence

from rdbg.tree import Lines, Place

COMMENT, TEXT, DIRECTIVE, WORD = "comment", "text", "directive", "word"
PIECE = re.compile(
    r"""(?P<comment>//(?:\\\n|[^\n])*|/\*.*?(?:\*/|\Z))
    |(?P<text>"(?:\\.|[^"\\\n])*"?|'(?:\\.|[^'\\\n])*'?)
    |(?P<directive>\#(?:\\\r?\n|(?!//|/\*)[^\n])*)
    |(?P<word>[A-Za-z_]\w*|[0-9][\w.]*)
    |(?P<sign>\S)""",
    re.VERBOSE | re.DOTALL,
)


class Piece(NamedTuple):
    """A piece of a source: its kind, its text, where it begins, and its last line."""

    kind: str
    text: str
    place: Place
    end: int

    @property
    def is_code(self) -> bool:
        """Whether it is of the program itself."""
        return self.kind not in (COMMENT, DIRECTIVE)


def pieces(text: str) -> Iterator[Piece]:
    """The pieces of a source, in order."""
    place = Lines(text).place
    for found in PIECE.finditer(text):
        assert found.lastgroup is not None
        last = place(max(found.end() - 1, found.start())).line
        yield Piece(found.lastgroup, found[0], place(found.start()), last)


def joined(found: Sequence[Piece]) -> str:
    """Pieces as one text, with a space between two words."""
    said = ""
    for piece in found:
        is_apart = piece.kind == WORD and said[-1:].isalnum()
        said += (" " if is_apart else "") + piece.text
    return said
