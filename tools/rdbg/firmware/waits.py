"""`wait N` and `wait M..N`: a delay, and one whose end the search chooses.

A delay is a receive from a queue that nobody fills. One of 3 to 100 ticks is a delay of 3, and then
a wait of up to 97 more at a notification entry of the task's own, which an interrupt of its own may
end at any time. Where that comes before, the wait takes its 3 ticks."""
from typing import Sequence, Tuple

from rdbg.application import ANY, Interrupt
from rdbg.firmware.numbers import LARGEST, Kept, Numbers
from rdbg.firmware.operands import Operands
from rdbg.firmware.tokens import Refusal, Token, shown, without_parentheses

WORD, BETWEEN = "wait", ".."
FORM = "wait N, or wait M..N, in ticks"
# The queue that nobody fills, as documents call it, and what fills a queue.
NEVER = "never"
FILLS = ("send", "front", "over")
NAME_END = "_wait"


def texts_of(tokens: Sequence[Token], kept: Kept) -> Tuple[Tuple[str, ...], str]:
    """The instructions of a line, `{ending}` as its entry, and their cost. Raises `Refusal`."""
    operands = without_parentheses(tokens[1:])
    if not operands:
        raise Refusal(tokens[0].place, f"{FORM}: missing number")
    if BETWEEN not in operands[0].text:
        reader = Operands(operands, kept)
        time = reader.time().text
        reader.end(FORM)
        return (f"recv {NEVER} {time}",), "2 moves"
    Numbers(operands[1:], kept).end(FORM)
    return between(operands[0], kept)


def between(token: Token, kept: Kept) -> Tuple[Tuple[str, ...], str]:
    """The same of a wait of so many ticks to so many."""
    first, _, last = token.text.partition(BETWEEN)
    known = len(kept.refusals)
    least = number(first, token, 0, kept)
    most = LARGEST if last == "max" else number(last, token, len(first) + len(BETWEEN), kept)
    if most <= least and len(kept.refusals) == known:
        message = f"'{shown(token.text)}': the second number must be larger than the first"
        raise Refusal(token.place, message)
    more = "max" if most == LARGEST else str(most - least)
    ending = f"take {{ending}} clear {more}"
    if not least:
        return (ending,), "2 moves, or 1 if its end came before"
    return (f"recv {NEVER} {least}", ending), "4 moves, or 3 if its end came before"


def number(text: str, token: Token, at: int, kept: Kept) -> int:
    """A number of ticks that stands in a word, from one of its characters on."""
    if not text:
        raise Refusal(token.place, f"{FORM}: missing number in '{shown(token.text)}'")
    return Numbers([Token(text, token.place_of(at))], kept).number()


def interrupt(task: str, entry: int) -> Interrupt:
    """The interrupt that may end the waits of a task, at this entry."""
    calls = (f"notify {task} {entry} 1 set",)
    return Interrupt(f"{task}{NAME_END}", calls, ANY, is_of_wait=True)


def remark(cost: str, names: Sequence[str]) -> str:
    """Returns the note about a wait whose end the search chooses."""
    ends = f"interrupt {names[0]}" if len(names) == 1 else f"interrupts {names[0]} to {names[-1]}"
    return f"note: {cost}; {ends} may end it at any time in reach and hunt"
