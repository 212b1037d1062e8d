"""The lines of rdbg's language: a table of commands, one of conditions, and a reader over them.

A form is written as in docs/COMMANDS.md: words in small letters stand as they are, the others are
the symbols of what can stand there."""
import dataclasses
import itertools
from typing import Callable, Dict, FrozenSet, Iterator, List, NamedTuple, Optional, Sequence, Tuple

from rdbg import kinds, record, replies
from rdbg.digits import number
from rdbg.operands import MOST_NUMBER as MOST_NUMBER, is_bytes as is_bytes, is_name as is_name
from rdbg.wording import with_article

MOST_COUNT = 1_000_000
MOST_WATCHES = 16
MOST_BYTES = 1_024
ACTIONS = ("none", "bits", "inc", "set", "setif")
PHASES = ("run", "again", "given", "wait", "ended", "failed")
OPERATORS = ("=", "<", ">")
CONDITION = "COND"
# What a line can change, and on what an answer hangs: the target (its moves and their records too),
# who has the wheel, and the watches of the session that asks.
TARGET, WHEEL, WATCHES = "target", "wheel", "watches"
ALL: FrozenSet[str] = frozenset((TARGET, WHEEL, WATCHES))
# What is answered to a line that changes each.
ANSWERS: Dict[str, type] = {
    TARGET: replies.Moved,
    WHEEL: replies.WheelDone,
    WATCHES: replies.WatchDone,
}


def is_number(word: str, most: int = MOST_NUMBER) -> bool:
    """Whether a word is a number of 1 to 10 digits, and not too large."""
    return number(word, most) is not None


def is_count(word: str) -> bool:
    """Whether a word is a COUNT."""
    return number(word, MOST_COUNT, 1) is not None


def out_of_range(words: Sequence[str]) -> str:
    """Returns that a number among these words can't be a COUNT, and the range; `""` for none."""
    found = (it for it in words if it.isdecimal() and not is_count(it))
    return "".join(f"COUNT is 1 to {MOST_COUNT}, found '{it}'; " for it in list(found)[:1])


def is_watch(word: str) -> bool:
    """Whether a word stands for a watch."""
    return word[:1] == "w" and is_number(word[1:], MOST_WATCHES - 1)


class Symbol(NamedTuple):
    """What can stand at a place of a form."""

    text: str
    noun: str
    choices: str
    fits: Callable[[str], bool]


SYMBOLS: Dict[str, Symbol] = {
    symbol.text: symbol
    for symbol in (
        Symbol("C", "a core number", "0, 1, ..", is_number),
        Symbol("COUNT", "a COUNT", "a number, 1 to 1000000", is_count),
        Symbol("N", "a number", f"0 to {MOST_NUMBER}", is_number),
        Symbol("R", "a register number", "0 to 7", is_number),
        Symbol("I", "the index of a notification entry", "0, 1, ..", is_number),
        Symbol("HEX", "bytes", "pairs of hexadecimal digits, or -", is_bytes),
        Symbol("OP", "=, < or >", "=, < or >", OPERATORS.__contains__),
        Symbol("WORD", "a phase", ", ".join(PHASES), PHASES.__contains__),
        Symbol("ACTION", "an action", "none, bits, inc, set or setif", ACTIONS.__contains__),
        Symbol("wN", "a watch", "w0 to w15", is_watch),
        *(Symbol(it.symbol, with_article(it.noun), "its name", is_name) for it in kinds.ALL),
    )
}


def fits(symbol: str, word: str) -> bool:
    """Whether a word can stand where a form has this symbol, or this word."""
    known = SYMBOLS.get(symbol)
    return known.fits(word) if known else word == symbol


class Form(NamedTuple):
    """A form of lines, or of conditions: how it is written, what it does, and (of lines) which
    replies there are beside refusals, whether it makes moves or takes them back, and on what its
    answer hangs, refusals among them. A line of a form that `changes` nothing is a look."""

    text: str
    does: str
    answers: Optional[type] = None
    moves: bool = False
    changes: FrozenSet[str] = frozenset()
    hangs_on: FrozenSet[str] = ALL

    @property
    def is_look(self) -> bool:
        """Whether its lines change nothing, so that an answer stays as long as what it hangs on."""
        return self.answers is not None and not self.changes

    @property
    def word(self) -> str:
        """Its first word."""
        return self.text.split(" ")[0]

    @property
    def symbols(self) -> Tuple[str, ...]:
        """Its words and symbols."""
        return tuple(self.text.split(" "))


def move(text: str, does: str) -> Form:
    """A form of lines that make moves, or take them back."""
    return change(TARGET, text, does)._replace(moves=True)


def change(what: str, text: str, does: str) -> Form:
    """A form of lines that change something, and make no move."""
    return Form(text, does, ANSWERS[what], False, frozenset((what,)))


def look(text: str, does: str, answers: type, *hangs_on: str) -> Form:
    """A form of lines that change nothing; their answer hangs on the target, or on what is said."""
    return Form(text, does, answers, False, frozenset(), frozenset(hangs_on or (TARGET,)))


CONDITIONS: Tuple[Form, ...] = (
    Form("count Q OP N", "the number of items in queue Q"),
    Form("bytes B OP N", "the number of bytes in stream buffer B"),
    Form("msgs M OP N", "the number of messages in message buffer M"),
    Form("bits G OP N", "the bits of event group G as a number"),
    Form("reg K R OP N", "register R of task K"),
    Form("pc K OP N", "the number of the next instruction of task K"),
    Form("note K I OP N", "the value of notification entry I of task K"),
    Form("tick OP N", "the tick"),
    Form("phase K WORD", "task K is in this phase, whatever it waits for"),
)

FORMS: Tuple[Form, ...] = (
    move("step C", "execute one instruction of the task on core C"),
    move("tick", "let one tick pass"),
    move(f"{record.BACK} COUNT", "undo the last COUNT moves"),
    move(
        "forward COUNT", "make COUNT default moves: one instruction of each busy core, then a tick"
    ),
    move(f"{record.REDO} COUNT", "make COUNT undone moves again"),
    move("until COND COUNT", "make default moves until COND holds after one, at most COUNT"),
    move(f"{record.BACK} until COND", "go back to the last earlier place where COND holds"),
    move("until wN COUNT", "the same with the condition of watch N"),
    move(f"{record.BACK} until wN", "the same with the condition of watch N"),
    move("poke reg K R N", "set register R of task K to N"),
    move("poke data K HEX", "set the data of task K to these bytes, or to none with -"),
    move("poke pc K N", "make task K, in phase run, continue at instruction N"),
    move("poke note K I N", "set the value of notification entry I to N; its state stays"),
    move("poke group G N", "set the bits of event group G to N"),
    move("poke item Q N HEX", "set item N of queue Q, counted from 0 at the front, to these bytes"),
    move("poke byte B N N", "set the byte at the first N, 0 at the front, to the second N"),
    move("isr send Q HEX", "send these bytes to queue Q from an interrupt (xQueueSendFromISR)"),
    move("isr notify K I N ACTION", "notify task K from an interrupt (xTaskNotifyIndexedFromISR)"),
    look("show queue Q", "show the items, oldest first, and the blocked tasks", replies.Queue),
    look("show set S", "show the handles, oldest first, and the blocked tasks", replies.QueueSet),
    look("show stream B", "show the bytes and the blocked tasks", replies.Stream),
    look("show message M", "show the messages, oldest first, and blocked tasks", replies.Messages),
    look("show group G", "show the bits, and which task waits for which bits", replies.Group),
    look(
        "show task K", "show its core, pc, phase, registers, data and notifications", replies.Task
    ),
    look("show cores", "show the task on each core, ready tasks, tick and turn", replies.Cores),
    look("show moves", "show how many moves are done, undone, and kept", replies.Moves),
    change(TARGET, f"{record.TRIM} N", "keep only the undo records of the last N moves"),
    change(WHEEL, "wheel take", "take the wheel: no other session can move the target"),
    change(WHEEL, "wheel give", "give the wheel back"),
    look("show wheel", "show which session holds the wheel", replies.WheelHolder, WHEEL),
    change(WATCHES, "watch COND", "set a watch on COND, named w0, w1, .."),
    change(WATCHES, "unwatch N", "remove watch N"),
    look(
        "show watches", "show the watches and whether each holds", replies.Watches, TARGET, WATCHES
    ),
)
WORDS: FrozenSet[str] = frozenset(form.word for form in FORMS)


class Shape(NamedTuple):
    """A form with one of the conditions in its place: what stands word for word."""

    form: Form
    condition: Optional[Form]
    symbols: Tuple[str, ...]

    def fitting(self, words: Sequence[str]) -> int:
        """How many of the words fit, from the first on."""
        fit = (fits(symbol, word) for symbol, word in zip(self.symbols, words))
        return sum(1 for _ in itertools.takewhile(bool, fit))


def shapes_of(form: Form) -> Iterator[Shape]:
    """The shapes of a form: one, or one for each condition."""
    if CONDITION not in form.symbols:
        yield Shape(form, None, form.symbols)
        return
    at = form.symbols.index(CONDITION)
    for condition in CONDITIONS:
        symbols = form.symbols[:at] + condition.symbols + form.symbols[at + 1 :]
        yield Shape(form, condition, symbols)


SHAPES: Tuple[Shape, ...] = tuple(shape for form in FORMS for shape in shapes_of(form))
# The shapes by their first word and how many words they have.
SHAPES_OF: Dict[Tuple[str, int], List[Shape]] = {}
for _shape in SHAPES:
    SHAPES_OF.setdefault((_shape.form.word, len(_shape.symbols)), []).append(_shape)


@dataclasses.dataclass(frozen=True)
class Command:
    """A line of one of the forms: its words, and what each stands for."""

    form: Form
    condition: Optional[Form]
    words: Tuple[str, ...]
    symbols: Tuple[str, ...]

    def condition_words(self) -> Tuple[str, ...]:
        """The words of its condition, or the watch that stands for one; empty without either."""
        if self.condition is not None:
            at = self.form.symbols.index(CONDITION)
            return self.words[at : at + len(self.condition.symbols)]
        return tuple(word for symbol, word in zip(self.symbols, self.words) if symbol == "wN")

    def count(self) -> Optional[int]:
        """Its COUNT."""
        return int(self.words[-1]) if self.symbols[-1] == "COUNT" else None


def words_of(line: str) -> List[str]:
    """The words of a line as rdbg separates them: by spaces alone."""
    text = line[:-1] if line.endswith("\r") else line
    return [word for word in text.split(" ") if word]


def read(line: str) -> Optional[Command]:
    """The command that a line is, or none where rdbg would answer `no Syntax`."""
    words = words_of(line)
    for shape in SHAPES_OF.get((words[0], len(words)), ()) if words else ():
        if shape.fitting(words) == len(words):
            return Command(shape.form, shape.condition, tuple(words), shape.symbols)
    return None


def following(words: Sequence[str]) -> List[str]:
    """The words and symbols that can come next, each once; an empty one where the line can end."""
    fitting = (it.symbols for it in SHAPES if it.fitting(words) == len(words))
    return list(dict.fromkeys((*symbols, "")[len(words)] for symbols in fitting))
