"""Reads an instruction: its form and operands, or its faults with suggestions."""
import itertools
import re
from typing import Dict, Iterator, List, NamedTuple, Optional, Sequence, Tuple

from rdbg.checking.freertos import sentence
from rdbg.checking.slips import CONSTANTS, slip, statement
from rdbg.instructions import FORM_OF, InstructionForm
from rdbg.operands import KIND_OF, NAMED, PATTERN_OF, Scope
from rdbg.tree import Node, Place
from rdbg.wording import did_you_mean, nearest, shown, with_article

# So many words at the most are too many for a look at which of them they are.
FEW = 3
Word = Tuple[str, Place]
INSTR, NAME = "L5 Instr", "L4 Name"
NAME_FORM = "1 to 16 characters of a to z, 0 to 9 and _, starting with a letter"
NAME_RULE = f"a name must have {NAME_FORM}"
COMMENTS = ("//", "/*", "#", ";", "--")
NO_BRACES = "scripts have no braces (use jump and jumpz)"
NO_VARIABLES = "a task sends its own data, which data HEX sets and each receive replaces"
# So many digits of bytes are proposed.
MOST_DIGITS = 40
# What an operand of an instruction is that another instruction has, by its form.
INSTEAD = (
    ("set", "N", PATTERN_OF["R"], "write move {} {}"),
    ("move", "R", PATTERN_OF["N"], "write set {} {}"),
    ("add", "N", PATTERN_OF["R"], "no instruction adds two registers"),
)


class Operand(NamedTuple):
    """An operand: its kind's symbol, its name, its word and place, and how it is written."""

    symbol: str
    noun: str
    word: str
    place: Place
    spelled: str


class InstructionFault(NamedTuple):
    """What is wrong with an instruction, and the operand that is to blame, where one is."""

    kind: str
    message: str
    place: Place
    symbol: str = ""
    word: str = ""


class Reading(NamedTuple):
    """An instruction: its operands as far as they were told apart, rdbg's first faults first."""

    form: Optional[InstructionForm]
    operands: Tuple[Operand, ...] = ()
    faults: Tuple[InstructionFault, ...] = ()


def read(node: Node, scope: Scope) -> Reading:
    """Reads the instruction of a text. A name that nothing has is a fault too; whether an `over`
    is of a queue of length 1 is looked at by whoever knows the lengths."""
    words = list(node.words())
    if not words:
        return refused(None, "the instruction is empty", node.place)
    form = FORM_OF.get(words[0][0])
    if form is None:
        return refused(None, unknown([word for word, _ in words], scope), words[0][1])
    in_text = text_in_quotes(" ".join(word for word, _ in words[1:]))
    if form.word == "data" and in_text:
        return refused(form, in_text, words[1][1])
    known = scope._replace(in_lines=node.written is not None)
    return Reader(form, words, known, node).read()


def text_in_quotes(text: str) -> str:
    """What to write in place of bytes that are a text in quotes, as `'A'`; empty for others."""
    found = re.fullmatch(r"(['\"])(.+?)\1?", text)
    if not found:
        return ""
    rule = "data HEX takes hexadecimal digits, not text"
    digits = found[2].encode("utf-8", "replace").hex()
    return f"{rule} (write data {digits})" if len(digits) <= MOST_DIGITS else rule


def refused(form: Optional[InstructionForm], message: str, place: Place) -> Reading:
    """An instruction with one fault."""
    return Reading(form, faults=(InstructionFault(INSTR, message, place),))


def unknown(words: Sequence[str], scope: Scope) -> str:
    """What to write in place of a word that no instruction begins with."""
    word = words[0]
    if word.startswith(COMMENTS):
        return "expected an instruction, found a comment"
    if word.endswith(":"):
        rule = "a jump takes the number of an instruction, counted from 0"
        return f"'{shown(word)}' is not an instruction ({rule})"
    known = statement(words, False) or sentence(word)
    if known is not None:
        return known
    plain = re.sub(r"[(),;\s]+", " ", " ".join(words)).strip()
    if plain.split(" ")[0] in FORM_OF and plain != " ".join(words):
        return f"words must be separated by spaces (write {shown(plain)})"
    if re.fullmatch("[{}]+", word):
        return NO_BRACES
    message = f"unknown instruction '{shown(word)}'"
    kinds = [with_article(KIND_OF[it].noun) for it in NAMED if word in scope.names.get(it, ())]
    if kinds:
        return f"{message} (it is the name of {kinds[0]})"
    first = next((other for other in words[1:] if other in FORM_OF), None)
    if first:
        return f"{message} (put {first} first)"
    return message + did_you_mean(nearest(word.strip("(),;\t"), FORM_OF))


class Reader:
    """Lays the words of one instruction against its form."""

    def __init__(
        self, form: InstructionForm, words: Sequence[Word], scope: Scope, node: Node
    ) -> None:
        self.form, self.scope, self.place = form, scope, node.place
        self.words, self.symbols = words[1:], form.symbols
        is_spelled = len(node.spelled) == len(words)
        self.spelled = node.spelled[1:] if is_spelled else [word for word, _ in self.words]
        self.faults: List[InstructionFault] = []

    def fits(self, operand: int, word: int) -> bool:
        """Whether a word has the form of an operand."""
        return self.scope.fits(self.symbols[operand], self.words[word][0])

    def weight(self, operand: int, word: int) -> int:
        """How well a word fits an operand; a name that nothing has fits less than others."""
        symbol, text = self.symbols[operand], self.words[word][0]
        is_there = symbol not in NAMED or text in self.scope.names.get(symbol, ())
        if self.fits(operand, word):
            return 2 + 2 * is_there
        # (`pdTRUE` is meant to be `clear`; a variable is no operand)
        return -1 if text.startswith("&") else int(text.lower() in CONSTANTS.get(symbol, ()))

    def unfit(self) -> List[Tuple[int, int]]:
        """The operands, each with its word, that haven't the form of the operand."""
        return [pair for pair in self.choice().items() if not self.fits(*pair)]

    def in_order(self) -> Optional[Dict[int, int]]:
        """Which word is which operand, where all are right in another order than they stand in."""
        operands, words = len(self.symbols), len(self.words)
        unfit = self.unfit() if words <= operands else []
        # (one that has the form of its operand, but for a limit, stands where it is meant to)
        kinds = [PATTERN_OF[self.symbols[at]].fullmatch(self.words[word][0]) for at, word in unfit]
        if not unfit or any(kinds):
            return None
        fits = [[self.fits(operand, word) for word in range(words)] for operand in range(operands)]
        orders = itertools.permutations(range(operands), words)
        fitting = [it for it in orders if all(fits[at][word] for word, at in enumerate(it))]
        # (the order that moves the fewest words, of which names those that are there are more)
        best = min(fitting, default=None, key=self.moved)
        return None if best is None else {at: word for word, at in enumerate(best)}

    def moved(self, order: Sequence[int]) -> Tuple[int, int]:
        """How far an order is from the one that the words stand in."""
        weight = sum(self.weight(at, word) for word, at in enumerate(order))
        if len(order) == len(self.symbols):
            return -sum(at == word for word, at in enumerate(order)), -weight
        return sum(one > other for one, other in itertools.combinations(order, 2)), -weight

    def choice(self) -> Dict[int, int]:
        """Which word is which operand, in their order, so that as many as can be fit."""
        operands, words = len(self.symbols), len(self.words)
        few = min(operands, words)
        if words > operands + FEW:
            return {at: at for at in range(few)}
        choices = (itertools.combinations(range(count), few) for count in (operands, words))
        pairs = (list(zip(*pair)) for pair in itertools.product(*choices))
        return dict(max(pairs, key=lambda it: sum(self.weight(*each) for each in it)))

    def read(self) -> Reading:
        """The operands and the faults."""
        order = self.in_order()
        if order is not None:
            first = min(word for _, word in self.unfit())
            return refused(self.form, self.another_order(order), self.words[first][1])
        operands = tuple(self.aligned())
        for operand in operands:
            self.look_at(operand)
        # (of one instruction a fault of form comes before a name that nothing has)
        self.faults.sort(key=lambda fault: fault.kind, reverse=True)
        return Reading(self.form, operands, tuple(self.faults))

    def another_order(self, order: Dict[int, int]) -> str:
        """What to say of words that stand in another order, of which some may be missing."""
        symbols = enumerate(self.symbols)
        parts = [self.spelled[order[at]] if at in order else symbol for at, symbol in symbols]
        line = " ".join([self.form.word, *parts])
        missing = [self.described(at) for at in range(len(parts)) if at not in order]
        if not missing:
            return f"{self.form.text}: the operands are in the wrong order (write {line})"
        lacks = f"{self.form.text}: missing {' and '.join(missing)}"
        return f"{lacks}, and the operands are in the wrong order (write {line})"

    def aligned(self) -> Iterator[Operand]:
        """Each operand that has a word, after faults for what is lacking and left over."""
        operands, words = len(self.symbols), len(self.words)
        chosen = self.choice()
        missing = [at for at in range(operands) if at not in chosen]
        if missing:
            parts = [self.described(at) for at in missing]
            self.fault(f"{self.form.text}: missing {' and '.join(parts)}", self.place)
        extra = [at for at in range(words) if at not in chosen.values()]
        if extra:
            self.fault(self.too_many(extra), self.words[extra[0]][1])
        for at, (symbol, noun) in enumerate(zip(self.symbols, self.form.nouns)):
            if at in chosen:
                yield Operand(symbol, noun, *self.words[chosen[at]], self.spelled[chosen[at]])

    def described(self, at: int) -> str:
        """An operand in words: `block time (max, a number, or r0 to r7)`."""
        return f"{self.form.nouns[at]} ({self.scope.choices(self.symbols[at])})"

    def too_many(self, extra: Sequence[int]) -> str:
        """What is wrong with words too many."""
        words = [self.words[at][0] for at in extra]
        if words[0].startswith(COMMENTS):
            return "an instruction cannot contain a comment"
        whole = "".join(word for word, _ in self.words)
        if self.form.word == "data" and self.scope.fits("HEX", whole):
            return f"bytes must be written without spaces (write data {shown(whole)})"
        if any(word.startswith("&") for word in words):
            return f"{self.form.text}: unexpected '{shown(words[0])}' ({NO_VARIABLES})"
        many = "word" if len(words) == 1 else f"{len(words)} words"
        spelled = [self.spelled[at] for at in extra[:FEW]]
        said = shown(" ".join(spelled)) + (" .." if len(words) > FEW else "")
        return f"{self.form.text}: unexpected {many} '{said}'"

    def look_at(self, operand: Operand) -> None:
        """Finds the fault of one word."""
        symbol, word = operand.symbol, operand.word
        if not self.scope.fits(symbol, word):
            choices = self.scope.choices(symbol)
            rule = f"a name of {NAME_FORM}" if symbol in NAMED else choices
            remedy = self.instead(symbol, word) or slip(symbol, word, self.scope)
            said = self.said(operand)
            message = f"{self.form.text}: {operand.noun} must be {rule}, found {said}"
            self.fault(message + (f" ({remedy})" if remedy else ""), operand.place, operand)
        elif self.scope.missing(symbol, word):
            self.fault(self.scope.missing(symbol, word), operand.place, operand, NAME)

    def said(self, operand: Operand) -> str:
        """A word as it is written, with its number where it is written by a name."""
        if operand.symbol in NAMED:
            return f"'{shown(operand.spelled)}'"
        if operand.spelled == operand.word or self.scope.limits(operand.symbol) is None:
            return f"'{shown(operand.word)}'"
        return f"'{shown(operand.spelled)}', which is {operand.word}"

    def instead(self, symbol: str, word: str) -> str:
        """Another instruction that has such a word; empty where there is none."""
        for first, its, pattern, text in INSTEAD:
            if (first, its) == (self.form.word, symbol) and pattern.fullmatch(word):
                return text.format(*self.spelled)
        return ""

    def fault(
        self, message: str, place: Place, operand: Optional[Operand] = None, kind: str = INSTR
    ) -> None:
        """Keeps a fault."""
        symbol, word = (operand.symbol, operand.word) if operand else ("", "")
        self.faults.append(InstructionFault(kind, message, place, symbol, word))
