"""Reads JSON as rdbg does, with the line and the column of everything in it.

What is taken is what the program takes: no comments, no commas too many, no byte order mark, at
most 127 brackets within each other, numbers that a float holds, whole characters alone."""
import json
import re
from typing import Callable, List, Optional, Tuple, TypeVar

from rdbg import json_causes as causes
from rdbg.tree import Fault, Lines, Member, Node, NotText, Number, Object, Value, decoded

NOT_JSON = "L1 NotJson"
MOST_DEPTH = 127
SPACE = re.compile(r"[ \t\n\r]*")
WORD = re.compile(r"[^ ]+")
# Characters of a text, or one that is written by an escape, which may be two halves.
PIECE = re.compile(
    r'[^"\\\x00-\x1f]+|\\["\\/bfnrt]|\\u(?![dD][89a-fA-F])[0-9a-fA-F]{4}'
    r"|\\u[dD][89abAB][0-9a-fA-F]{2}\\u[dD][c-fC-F][0-9a-fA-F]{2}"
)
NUMBER = re.compile(r"-?(?:0|[1-9][0-9]*)(?:\.[0-9]+)?(?:[eE][+-]?[0-9]+)?")
NUMBER_GOES_ON = re.compile(r"[0-9A-Za-z_.+]")
LITERAL = re.compile(r"(?:true|false|null)(?![0-9A-Za-z_])")
LITERALS = {"true": True, "false": False, "null": None}
Part = TypeVar("Part")


class NotJson(Exception):
    """The text is no JSON: at which of its characters that is seen, and why."""

    def __init__(self, at: int, message: str) -> None:
        super().__init__(message)
        self.at = at


def read(content: bytes) -> Tuple[Optional[Node], List[Fault]]:
    """The tree of a content, or why there is none. Raises `Failure` where it is too long."""
    try:
        reader = Reader(decoded(content))
    except NotText as wrong:
        return None, [Fault(wrong.place, NOT_JSON, str(wrong))]
    try:
        return reader.file(), []
    except NotJson as fault:
        return None, [Fault(reader.place(fault.at), NOT_JSON, str(fault))]


class Reader:
    """Reads a text. Each method takes where it begins, and answers what is there and its end."""

    def __init__(self, text: str) -> None:
        self.text, self.place = text, Lines(text).place
        self.open: List[int] = []

    def after_space(self, at: int) -> int:
        """Where the white space ends that begins here, or doesn't."""
        found = SPACE.match(self.text, at)
        return found.end() if found else at

    def file(self) -> Node:
        """The one value of the text."""
        at = self.after_space(0)
        if at == len(self.text):
            raise NotJson(0, "the file is empty (an application is one JSON object, { .. })")
        node, end = self.value(at)
        at = self.after_space(end)
        if at != len(self.text):
            raise NotJson(at, causes.behind_end(self.text, at))
        return node

    def value(self, at: int) -> Tuple[Node, int]:
        """A value."""
        value: Value
        sign = self.text[at : at + 1]
        if sign == '"':
            return self.string(at)
        if sign == "{" or sign == "[":
            if len(self.open) == MOST_DEPTH:
                raise NotJson(at, f"brackets are nested more than {MOST_DEPTH} deep")
            self.open.append(at)
            if sign == "{":
                members, end = self.parts(at, "}", self.member)
                value = Object(members)
            else:
                value, end = self.parts(at, "]", self.value)
            self.open.pop()
            return Node(value, self.place(at)), end
        number = NUMBER.match(self.text, at)
        if number:
            value, end = self.number(number.group(), at), number.end()
        else:
            word = LITERAL.match(self.text, at)
            if not word:
                raise NotJson(at, self.cause(at) or causes.no_value(self.text, at))
            value, end = LITERALS[word.group()], word.end()
        return Node(value, self.place(at)), end

    def number(self, digits: str, at: int) -> Number:
        """A number, which a float holds."""
        if NUMBER_GOES_ON.match(self.text, at + len(digits)):
            raise NotJson(at, causes.number(self.text, at))
        if (len(digits) > 300 or "e" in digits or "E" in digits) and "inf" in str(float(digits)):
            raise NotJson(at, "the number is too large")
        return Number(digits)

    def parts(
        self, at: int, bracket: str, read: Callable[[int], Tuple[Part, int]]
    ) -> Tuple[Tuple[Part, ...], int]:
        """What stands between two brackets, with commas between."""
        found: List[Part] = []
        end = self.after_space(at + 1)
        comma: Optional[int] = None
        while comma is not None or not self.text.startswith(bracket, end):
            if comma is not None and self.text.startswith((bracket, ","), end):
                raise NotJson(comma if self.text[end] == bracket else end, causes.COMMA)
            part, end = read(end)
            found.append(part)
            end, comma = self.comma(end, bracket)
        return tuple(found), end + 1

    def comma(self, at: int, bracket: str) -> Tuple[int, Optional[int]]:
        """Where it goes on behind a value, and the comma before that; none at the end."""
        end = self.after_space(at)
        if self.text.startswith(",", end):
            return self.after_space(end + 1), end
        if not self.text.startswith(bracket, end):
            cause = self.cause(end)
            if cause is None:
                raise NotJson(*causes.no_comma(self.text, at, end, bracket))
            raise NotJson(end, cause)
        return end, None

    def member(self, at: int) -> Tuple[Member, int]:
        """A key with its value."""
        if self.text[at : at + 1] != '"':
            raise NotJson(at, self.cause(at) or causes.no_key(self.text, at))
        node, end = self.string(at)
        key = str(node.value)
        colon = self.after_space(end)
        if self.text[colon : colon + 1] != ":":
            raise NotJson(colon, self.cause(colon) or causes.no_colon(self.text, colon))
        value, end = self.value(self.after_space(colon + 1))
        return Member(key, node.place, value), end

    def cause(self, at: int) -> Optional[str]:
        """What can be wrong at any place: an end, a bracket of the other kind, what is no JSON."""
        if at == len(self.text):
            return self.still_open("unexpected end of file: ")
        sign = self.text[at]
        if sign in "]}" and self.open and causes.CLOSES[self.text[self.open[-1]]] != sign:
            return self.still_open(f"unexpected {sign}: ")
        return causes.nowhere(self.text, at)

    def still_open(self, before: str) -> str:
        """Which bracket isn't closed."""
        if not self.open:
            return f"{before}missing value"
        bracket = self.text[self.open[-1]]
        closing = causes.CLOSES[bracket]
        return f"{before}the {bracket} at {self.place(self.open[-1])} needs a closing {closing}"

    def string(self, at: int) -> Tuple[Node, int]:
        """A text, with the places of its words."""
        place, end = self.place(at), at + 1
        begins: List[int] = []
        piece = PIECE.match(self.text, end)
        while piece:
            is_escape = piece.group().startswith("\\")
            begins += [end] if is_escape else range(end, piece.end())
            end = piece.end()
            piece = PIECE.match(self.text, end)
        if not self.text.startswith('"', end):
            raise NotJson(*causes.in_text(self.text, at, end))
        value = json.loads(self.text[at : end + 1])
        columns = [place.column + begins[it.start()] - at for it in WORD.finditer(value)]
        return Node(value, place, columns), end + 1
