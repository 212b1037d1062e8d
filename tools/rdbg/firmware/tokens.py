"""The words of a text in lines, each with its place; comments and the ends of lines are gone."""
import re
from typing import Dict, Iterator, List, NamedTuple, Optional, Sequence

from rdbg import tree
from rdbg.tree import Place
from rdbg.wording import shown as shown

GRAMMAR = "grammar"
# A longer word is in no line, nor are so many words.
MOST_CHARACTERS = 2000
MOST_TOKENS = 1000
# What a line is made of. A comma is a space.
PIECE = re.compile(
    r"""(?P<space>[ \t,]+)
    |(?P<comment>//.*|\#.*)
    |(?P<block>/\*)
    |(?P<token>"(?:\\.|[^"\\])*"?|<<|[()|;:]|(?:(?!<<|//|/\*)[^ \t,"()|;:\#])+)""",
    re.VERBOSE | re.DOTALL,
)
# What stands round the words of a comment.
COMMENT = re.compile(r"^(?:/[/*]+|#+|\*(?!/))|\*/$")
SIGNS = ("(", ")", "|", "<<", ";", ":")
CLOSED = re.compile(r'"(?:\\.|[^"\\])*"', re.DOTALL)
STRANGE = re.compile(r"[^ -~]")
DEFINE = re.compile(r"#define\b")
# Directives of C that change what is read: as comments they would be passed over in silence.
DIRECTIVE = re.compile(r"#(?:include|undef|if|ifdef|ifndef|elif|else|endif)\b")


class Refusal(Exception):
    """What the grammar of a text in lines refuses: where, why, and as a fault of which kind."""

    def __init__(self, place: Place, message: str, kind: str = GRAMMAR) -> None:
        super().__init__(message)
        self.place, self.message, self.kind = place, message, kind


class Stop(Refusal):
    """A refusal behind which the text isn't read."""


class Token(NamedTuple):
    """A word, a text in quotes or a sign; `gap` is what parts it from the one before it."""

    text: str
    place: Place
    gap: str = ""

    def is_quoted(self) -> bool:
        """Whether it is a text in quotes."""
        return self.text.startswith('"')

    def is_word(self) -> bool:
        """Whether it is a word."""
        return not self.is_quoted() and self.text not in SIGNS

    def place_of(self, index: int) -> Place:
        """The place of a character."""
        return Place(self.place.line, self.place.column + index)

    def check(self) -> None:
        """Refuses a text that isn't closed, what is too long, and a character that no word has."""
        if self.is_quoted() and not CLOSED.fullmatch(self.text):
            raise Refusal(self.place, "this string has no closing quote")
        if len(self.text) > MOST_CHARACTERS:
            raise Refusal(self.place, f"the word is too long ({len(self.text):,} characters)")
        strange = None if self.is_quoted() else STRANGE.search(self.text)
        if strange:
            name = f"U+{ord(strange[0]):04X}"
            message = f"the character {name} is only allowed in comments and strings"
            raise Refusal(self.place_of(strange.start()), message)


def written(tokens: Sequence[Token]) -> str:
    """The tokens as they are written, with one space wherever there is any."""
    return "".join(token.gap + token.text for token in tokens)[len(tokens[0].gap) :]


def without_parentheses(tokens: Sequence[Token]) -> Sequence[Token]:
    """The operands of `recv(jobs, max)`. Raises `Refusal` where a parenthesis isn't closed."""
    depth = 0
    for index, token in enumerate(tokens if tokens and tokens[0].text == "(" else ()):
        depth += (token.text == "(") - (token.text == ")")
        if depth == 0:
            return tokens[1:index] if index + 1 == len(tokens) else tokens
    if depth:
        raise Refusal(tokens[0].place, "this ( is not closed")
    return tokens


def decoded(content: bytes) -> str:
    """The text of a file. Raises `Refusal` where it isn't UTF-8, `Failure` where it is too long."""
    try:
        text = tree.decoded(content)
    except tree.NotText as wrong:
        raise Refusal(wrong.place, str(wrong)) from None
    return text[1:] if text.startswith("\ufeff") else text


class Scanner:
    """Reads a text line by line; what it refuses is kept in `refusals`."""

    def __init__(self, text: str, refusals: List[Refusal]) -> None:
        self._text, self._refusals = text, refusals
        # The comments of each line that has some, by its number, without the signs of them.
        self.comments: Dict[int, str] = {}
        # (where a comment was begun by `/*` that isn't closed yet)
        self._comment: Optional[Place] = None

    def lines(self) -> Iterator[List[Token]]:
        """The tokens of each line."""
        for number, line in enumerate(self._text.split("\n"), 1):
            yield self._line(number, line[:-1] if line.endswith("\r") else line)
        if self._comment is not None:
            message = "this comment has no closing */"
            self._refusals.append(Refusal(self._comment, message))

    def _line(self, number: int, line: str) -> List[Token]:
        tokens: List[Token] = []
        at, gap = 0, ""
        while at < len(line) and len(tokens) <= MOST_TOKENS:
            if self._comment is not None:
                before, closed, _ = line[at:].partition("*/")
                self._comment = None if closed else self._comment
                self._keep(number, before + closed)
                at, gap = at + len(before + closed), " "
                continue
            found = PIECE.match(line, at)
            assert found is not None, "each character begins a piece"
            place = Place(number, at + 1)
            at = found.end()
            if found.lastgroup == "space":
                gap = ", " if "," in found[0] else " "
            elif found.lastgroup == "block":
                self._comment = place
            elif found.lastgroup == "token":
                tokens.append(Token(found[0], place, gap))
                gap = ""
            elif not tokens and DEFINE.match(found[0]):
                tokens.append(Token("#define", place))
                at = found.start() + len("#define")
            else:
                refused = None if tokens else DIRECTIVE.match(found[0])
                if refused:
                    message = f"{refused[0]} is not supported (begin a comment with //)"
                    self._refusals.append(Refusal(place, message))
                self._keep(number, found[0])
        return tokens

    def _keep(self, number: int, comment: str) -> None:
        """Keeps a comment of a line, or the part of one that stands there."""
        text = COMMENT.sub("", comment.strip()).strip()
        if text:
            self.comments[number] = f"{self.comments.get(number, '')} {text}".strip()
