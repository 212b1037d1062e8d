"""Semaphores and mutexes of a text: the queue that stands for each, and what takes and gives it.

A semaphore that is there at the start by nobody's giving can't be a queue with items, since a queue
is empty at boot. So what is given then is a queue of what is taken: an item stands in it as long as
somebody has it. Else an item is what can be taken."""
from typing import Dict, Mapping, NamedTuple, Optional, Sequence, Tuple

from rdbg.firmware.numbers import Constants, Kept, Numbers
from rdbg.firmware.objects import next_number, queue
from rdbg.firmware.operands import Operands
from rdbg.firmware.tokens import Refusal, Token, shown, without_parentheses
from rdbg.operands import KIND_OF
from rdbg.tree import Member, Node, Number

SEMAPHORE, MUTEX = "semaphore", "mutex"
FORMS = {SEMAPHORE: "semaphore NAME length N given", MUTEX: "mutex NAME"}
GIVEN, LENGTH = "given", "length"
TAKE, GIVE, COUNT = "take", "give", "count"
# Instructions that would take or put an item by themselves.
BY_ITSELF = ("send", "front", "recv", "peek", "over", "qreset", "spaces")
OF_SETS = ("setadd", "setdel")
NO_INHERITANCE = "it has no owner and no priority inheritance"


class Semaphore(NamedTuple):
    """A semaphore or a mutex, with the members of its queue where its line isn't wrong."""

    word: Token
    name: str
    length: int
    is_given: bool
    members: Tuple[Member, ...] = ()

    def queue(self) -> str:
        """The queue that stands for it, in words."""
        full = "while it is taken" if self.is_given else "while it can be taken"
        return f"queue {self.name} length {self.length} item 1, which holds an item {full}"

    def gives(self) -> str:
        """The instruction that gives it. One that is a queue of what is taken loses the one item
        that it can have, and the task's data stays; of more than one it takes one out."""
        if not self.is_given:
            return f"send {self.name} 0"
        return f"qreset {self.name}" if self.length == 1 else f"recv {self.name} 0"


def read(tokens: Sequence[Token], kept: Kept) -> Semaphore:
    """The one that a line gives. Raises `Refusal` where it is wrong."""
    word, numbers = tokens[0], Numbers(tokens, kept, 1)
    name, form = numbers.next(), FORMS[word.text]
    if name is None or not name.is_word():
        raise Refusal(word.place, f"{form}: missing name")
    numbers.at += 1
    length = one = Node(Number("1"), word.place)
    is_given = word.text == MUTEX
    for token in numbers.each():
        if token.text == LENGTH and word.text == SEMAPHORE:
            length = next_number(numbers)
        elif token.text == GIVEN and word.text == SEMAPHORE:
            is_given = True
        else:
            raise Refusal(token.place, f"unknown key '{shown(token.text)}' (expected {form})")
    assert isinstance(length.value, Number)
    members = queue(Node(name.text, name.place), length, one)
    return Semaphore(word, name.text, int(length.value.text), is_given, members)


def named(lines: Sequence[Sequence[Token]], constants: Constants) -> Dict[str, Semaphore]:
    """All that lines give, by their names; those whose lines are wrong are as far as is known."""
    found: Dict[str, Semaphore] = {}
    for tokens in (it for it in lines if it[0].text in FORMS):
        try:
            it = read(tokens, Kept(constants, []))
        except Refusal:
            name = tokens[1].text if len(tokens) > 1 else ""
            it = Semaphore(tokens[0], name, 1, tokens[0].text == MUTEX)
        found.setdefault(it.name, it)
    return found


def instruction(
    tokens: Sequence[Token], known: Mapping[str, Semaphore], kept: Kept
) -> Optional[str]:
    """The instruction that a line is which takes, gives or counts one; none where it is another.
    Raises `Refusal` where it is wrong."""
    word = tokens[0].text
    if word not in (TAKE, GIVE, COUNT):
        return None
    tokens = [tokens[0], *without_parentheses(tokens[1:])]
    name = tokens[1].text if len(tokens) > 1 else ""
    it = known.get(name)
    if word == GIVE and it is None:
        there = f" (defined: {', '.join(known)})" if known else ""
        message = f"give NAME: '{shown(name)}' is not a semaphore or a mutex{there}"
        if not name:
            message = f"give NAME: missing name{there}"
        raise Refusal(tokens[-1].place, message)
    if it is None:
        return None
    reader = Operands(tokens[2:], kept)
    if word != TAKE:
        reader.end(f"{word} NAME")
        return it.gives() if word == GIVE else f"{'spaces' if it.is_given else 'count'} {it.name}"
    if reader.next() is None:
        choices = KIND_OF["T"].choices
        raise Refusal(tokens[0].place, f"take NAME T: missing block time ({choices})")
    time = reader.time().text
    reader.end("take NAME T")
    return f"{'send' if it.is_given else 'recv'} {it.name} {time}"


def why_not(word: str, name: str, known: Mapping[str, Semaphore]) -> str:
    """Why an instruction can't name one; empty where it can."""
    it = known.get(name)
    if it is None or not (word in BY_ITSELF or word in OF_SETS and it.is_given):
        return ""
    if word in OF_SETS:
        return not_in_sets(it)
    return f"'{name}' is a {it.word.text} (use take {name} T and give {name})"


def not_in_sets(it: Semaphore) -> str:
    """Why one that is given at the start can be in no set."""
    why = "its queue holds an item while it is taken"
    return f"'{it.name}' cannot be in a set: {why}, so the set would report a take, not a give"
