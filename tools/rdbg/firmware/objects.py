"""The lines of a text in lines that aren't instructions: what each says of the application."""
import re
from typing import Dict, Iterator, List, Optional, Sequence, Tuple

from rdbg.digits import is_digits
from rdbg.firmware.numbers import NAME, Kept, Numbers
from rdbg.firmware.tokens import Refusal, Token, shown
from rdbg.shapes import FILE, Key, Shape
from rdbg.tree import Member, Node, Number

# By the first word of a line: the keys of a file that are numbers, and those that are lists.
SETTINGS: Dict[str, Key] = {key.name: key for key in FILE.keys if key.of is None}
OBJECTS: Dict[str, Shape] = {key.name[:-1]: key.of for key in FILE.keys if key.of is not None}
# Several tasks with one script, and how many there may be.
SEVERAL = re.compile(r"([^\[\]]+)\[([^\[\]]+)\]")
MOST_TASKS = next(key.most for key in FILE.keys if key.name == "tasks")
# How a line says what a key holds.
WRITTEN = {"name": "NAME", "number": "{} N", "members": "{} Q .."}


def form_of(word: str) -> str:
    """How a line with this first word is written: `queue NAME length N item N`."""
    if word in SETTINGS:
        return f"{word} N"
    keys = [key for key in OBJECTS[word].keys if key.holds in WRITTEN]
    return " ".join([word, *(WRITTEN[key.holds].format(key.name) for key in keys)])


def next_number(reader: Numbers) -> Node:
    """The next number. Its place is that of its first token."""
    token = reader.next()
    value = reader.number()
    assert token is not None, "a number has a token"
    return Node(Number(str(value)), token.place)


def queue(name: Node, length: Node, item: Node) -> Tuple[Member, ...]:
    """The members of a queue for which a line of another thing stands."""
    values = (("name", name), ("length", length), ("item", item))
    return tuple(Member(key, node.place, node) for key, node in values)


class ObjectLine:
    """A line of an object or of a task, read as far as it can be. What is refused of it is kept."""

    def __init__(self, tokens: Sequence[Token], kept: Kept) -> None:
        self._word, self._shape = tokens[0], OBJECTS[tokens[0].text]
        self._reader, self._kept = Numbers(tokens, kept, 1), kept
        self.name = ""
        self.members: List[Member] = []
        # How many tasks have the script, where they are several.
        self.count: Optional[int] = None
        with kept.keeping():
            self._name()
            for token in self._reader.each():
                self._key(token)

    def _name(self) -> None:
        token = self._reader.next()
        lacks = f"{form_of(self._word.text)}: missing name"
        if token is None or not token.is_word():
            raise Refusal(token.place if token else self._word.place, lacks)
        behind = self._reader.tokens[2:3]
        if token.text in self._shape.names() and behind and is_digits(behind[0].text[0]):
            self._kept.refuse(token.place, lacks)
            return
        self._reader.at += 1
        if self._word.text == "task":
            token = self._without_count(token)
        self.name = token.text
        self.members.append(Member("name", token.place, Node(token.text, token.place)))

    def _without_count(self, token: Token) -> Token:
        """The name of a task; that of several, `worker[3]`, without how many they are."""
        found = SEVERAL.fullmatch(token.text)
        if not found:
            return token
        at = token.place_of(found.start(2))
        known = len(self._kept.refusals)
        count = Numbers([Token(found[2], at)], self._kept).number()
        if len(self._kept.refusals) == known and not 1 <= count <= MOST_TASKS:
            self._kept.refuse(at, f"a script can have 1 to {MOST_TASKS} tasks, found {count}")
        self.count = count if len(self._kept.refusals) == known else 1
        return token._replace(text=found[1])

    def _key(self, token: Token) -> None:
        if any(member.key == token.text for member in self.members):
            self._kept.refuse(token.place, f"duplicate key '{shown(token.text)}'")
        if token.text == "members" and "members" in self._shape.names():
            node = Node(tuple(self._members()), token.place)
        elif NAME.fullmatch(token.text) and token.text != "code":
            node = next_number(self._reader)
        else:
            message = f"unknown key '{shown(token.text)}' (expected {form_of(self._word.text)})"
            raise Refusal(token.place, message)
        self.members.append(Member(token.text, token.place, node))

    def _members(self) -> Iterator[Node]:
        """All words that come, as names."""
        for token in self._reader.each():
            if not token.is_word():
                raise Refusal(token.place, f"expected a name, found '{shown(token.text)}'")
            yield Node(token.text, token.place)
