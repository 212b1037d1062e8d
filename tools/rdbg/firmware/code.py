"""The scripts of a text in lines: each instruction as rdbg reads it, with numbers for labels. And
the registers that a task leaves free."""
import contextlib
import dataclasses
import re
from typing import Dict, Iterator, List, Mapping, NamedTuple, Optional, Sequence, Set, Tuple, Union

from rdbg.digits import is_digits
from rdbg.firmware import waits
from rdbg.firmware.blocks import LOOP, WORDS, Blocks, Mark
from rdbg.firmware.numbers import NAME, Kept, near_to
from rdbg.firmware.operands import Operand, Operands, as_written
from rdbg.firmware.semaphores import Semaphore, instruction, why_not
from rdbg.firmware.tokens import Refusal, Stop, Token, shown, without_parentheses, written
from rdbg.instructions import FORM_OF, WRITES_R1
from rdbg.operands import PATTERN_OF
from rdbg.tree import Fault, Member, Node, Object, Part
from rdbg.wording import quoted

# The registers that a line can have, the first one first.
REGISTERS = ("r7", "r6", "r5", "r4", "r3", "r2", "r1")
# Calls of an entry of one's own, of one of any task, and those that wait by entry 0.
OWN, OF_ANY = ("take", "nwait"), ("notify", "query", "nclear", "vclear")
BY_ENTRY_0 = ("sread", "swrite", "mread", "mwrite")


class Spare(NamedTuple):
    """What a task doesn't use, to look at bits, and to wait at (`ending`); none for all used."""

    register: Optional[str]
    entry: Optional[int]
    ending: Optional[int] = None


class Uses:
    """What instructions use: registers, entries of their own task, and entries of tasks by name."""

    def __init__(self) -> None:
        self.registers: Set[str] = {"r0"}
        self.entries: Set[int] = set()
        self.told: Set[Tuple[str, int]] = set()

    def add(self, words: Sequence[str]) -> None:
        """Takes note of an instruction."""
        form = FORM_OF.get(words[0])
        if form is None:
            return
        for symbol, word in zip(form.symbols, words[1:]):
            if symbol in ("R", "V", "T") and PATTERN_OF["R"].fullmatch(word):
                self.registers.add(word)
        if words[0] in WRITES_R1:
            self.registers.add("r1")
        if words[0] in BY_ENTRY_0:
            self.entries.add(0)
        if words[0] in OWN and words[1:] and is_digits(words[1]):
            self.entries.add(int(words[1]))
        self.tell(words)

    def tell(self, words: Sequence[str]) -> None:
        """Takes note of a call of an entry of any task, of an interrupt too."""
        if words[0] in OF_ANY and words[2:] and is_digits(words[2]):
            self.told.add((words[1], int(words[2])))


def spare(
    names: Sequence[str], own: Uses, all_uses: Sequence[Uses], entries: int, has_waits: bool
) -> Spare:
    """What tasks of one script don't use, of so many entries each; one is to wait at."""
    told = {entry for uses in all_uses for name, entry in uses.told if name in names}
    free = (it for it in reversed(range(entries)) if it not in own.entries | told)
    register = next((it for it in REGISTERS if it not in own.registers), None)
    ending = next(free, None) if has_waits else None
    return Spare(register, next(free, None), ending)


# So many instructions of a script are read; fewer are too many already.
MOST_READ = 1000
# What is no label where a register stands beside it.
LIKE_REGISTER = re.compile("[rR][0-9]+")


@dataclasses.dataclass(frozen=True)
class Line:
    """A line that becomes instructions, which are written as in `rdbg.firmware.branches`. They jump
    to `target`, if anywhere, a number once its script is closed; `note` is said behind the line,
    and `cost` of it."""

    tokens: Tuple[Token, ...]
    texts: Tuple[str, ...]
    cost: str = "1 move"
    target: Union[None, Token, Mark, int] = None
    note: str = ""

    @property
    def length(self) -> int:
        """How many instructions it becomes."""
        return len(self.texts)

    def uses(self, uses: Uses) -> None:
        """Takes note of what it uses, beside what the task doesn't."""
        for text in self.texts:
            uses.add(text.split(" "))

    def needs(self, what: str) -> bool:
        """Whether it needs a register (`{spare}`), a notification entry (`{entry}`), or one at
        which an interrupt ends a wait (`{ending}`)."""
        return any(what in text for text in self.texts)

    def lacks(self, spare: Spare) -> str:
        """What there is none of that it needs; empty where there is all."""
        if self.needs("{spare}") and spare.register is None:
            return "a free register, but the task uses all of r1 to r7"
        lacks_entry = self.needs("{entry}") and spare.entry is None
        if lacks_entry or (self.needs("{ending}") and spare.ending is None):
            return "a free notification entry (raise the number in notes N)"
        return ""

    def nodes(self, own: str, spare: Spare, at: int) -> Iterator[Node]:
        """The instructions, the first of which has this number, of a task of this name."""
        here = range(at, at + self.length + 1)
        free = {"spare": spare.register, "entry": spare.entry, "ending": spare.ending}
        for index, text in enumerate(self.texts):
            made = text.format(own=own, target=self.target, here=here, **free)
            part = Part(index, self.length, self.note, self.cost)
            yield Node(made, self.tokens[0].place, (), written(self.tokens), (), part)


@dataclasses.dataclass(frozen=True)
class Draft(Line):
    """An instruction. Labels among its operands are numbers once its script is closed."""

    parts: Tuple[Operand, ...] = ()

    @classmethod
    def of(cls, tokens: Sequence[Token], parts: Sequence[Operand]) -> "Draft":
        """The one that is written so, with these parts."""
        text = " ".join(part.text for part in parts)
        return cls(tuple(tokens), (text,), parts=tuple(parts))

    def labels(self, known: Mapping[str, object]) -> List[Operand]:
        """The operands that are labels. Where it jumps, and no label stands in its place, those are
        which stand in that of another."""
        labels = [part for part in self.parts if part.is_label]
        is_there = any(it.text in known or not LIKE_REGISTER.fullmatch(it.text) for it in labels)
        form = FORM_OF.get(self.tokens[0].text)
        if is_there or form is None or "L" not in form.symbols:
            return labels
        names = (it for it in self.parts[1:] if NAME.fullmatch(it.text))
        return [it for it in names if not LIKE_REGISTER.fullmatch(it.text)]

    def nodes(self, own: str, spare: Spare, at: int) -> Iterator[Node]:
        """The instruction."""
        columns = [part.place.column for part in self.parts]
        spelled = tuple(part.spelled or part.text for part in self.parts)
        yield Node(self.texts[0], self.tokens[0].place, columns, written(self.tokens), spelled)


class Script:
    """The script of a task, read line by line; what it refuses is kept in `refusals`."""

    def __init__(self, task: str, kept: Kept, semaphores: Mapping[str, Semaphore]) -> None:
        self.task, self.kept, self.refusals = task, kept, kept.refusals
        self.length, self.blocks, self.semaphores = 0, Blocks(self), semaphores
        self.spare = Spare(None, None)
        # (each line with the number of its first instruction)
        self._lines: List[Tuple[int, Line]] = []
        self._labels: Dict[str, Tuple[Token, int]] = {}

    def label(self, token: Token) -> None:
        """Names the next instruction. Raises `Refusal` where this can't be its name."""
        if not NAME.fullmatch(token.text):
            message = f"'{shown(token.text)}' is not a valid label (use letters, digits and _)"
            raise Refusal(token.place, message)
        first, _ = self._labels.setdefault(token.text, (token, self.length))
        if first is not token:
            message = f"label '{shown(token.text)}' is already defined in line {first.place.line}"
            raise Refusal(token.place, f"{self.task}: {message}")

    def refuse(self, token: Token, message: str) -> None:
        """Keeps what is refused of a line."""
        self.refusals.append(Refusal(token.place, f"{self.task}: {message}"))

    def _add(self, line: Line) -> None:
        """Keeps a line. Raises `Stop` where there are far too many instructions."""
        if self.length >= MOST_READ:
            message = f"{self.task} has more than {MOST_READ} instructions; the rest of the file is skipped"
            raise Stop(line.tokens[0].place, message, "L3 Limit")
        self._lines.append((self.length, line))
        self.length += line.length

    def add(
        self,
        tokens: Sequence[Token],
        texts: Tuple[str, ...],
        cost: str = "1 move",
        target: Union[None, Token, Mark] = None,
        note: str = "",
    ) -> None:
        """A line that becomes instructions."""
        if isinstance(target, Mark):
            target.is_used = True
        self._add(Line(tuple(tokens), texts, cost, target, note))

    @contextlib.contextmanager
    def counting(self, tokens: Sequence[Token]) -> Iterator[None]:
        """Has a line that is refused count as an instruction, where it is no `loop`."""
        known = self.length
        try:
            yield
        except Refusal:
            if tokens and self.length == known and tokens[0].text != LOOP:
                self.placeholder(tokens)
            raise

    def read(self, tokens: Sequence[Token]) -> None:
        """Reads a line of a block, of a wait or of a semaphore, or an instruction."""
        if self.blocks.reads(tokens):
            return
        if tokens[0].text == waits.WORD:
            self.add(tokens, *waits.texts_of(tokens, self.kept))
            return
        text = instruction(tokens, self.semaphores, self.kept)
        if text is None:
            self.instruction(tokens)
        else:
            self.add(tokens, (text,))

    @property
    def has_waits(self) -> bool:
        """Whether some line waits at an entry that an interrupt may end."""
        return any(it.needs("{ending}") for _, it in self._lines)

    def waits(self) -> Iterator[Token]:
        """The first words of lines that wait."""
        firsts = (line.tokens[0] for _, line in self._lines)
        return (it for it in firsts if it.text == waits.WORD)

    def fillers(self, queue: str) -> Iterator[Token]:
        """The lines that put something into a queue."""
        filling = tuple(f"{word} {queue} " for word in waits.FILLS)
        lines = (line for _, line in self._lines if f"{line.texts[0]} ".startswith(filling))
        return (line.tokens[0] for line in lines)

    def instruction(self, tokens: Sequence[Token]) -> None:
        """Reads an instruction; where it is refused its word counts. Raises `Stop` at the most."""
        parts, index = [as_written(tokens[0])], self.length
        kept = Kept(self.kept.constants, [])
        with kept.keeping():
            parts += self._operands(tokens, kept)
        why = why_not(tokens[0].text, parts[1].text, self.semaphores) if parts[1:] else ""
        if why:
            kept.refuse(tokens[0].place, why)
        self._add(Draft.of(tokens, parts))
        self.refusals += [self._told(refusal, index, tokens) for refusal in kept.refusals]

    def placeholder(self, tokens: Sequence[Token]) -> None:
        """Keeps the place of an instruction that is refused."""
        self._add(Draft.of(tokens, [as_written(tokens[0])]))

    def _told(self, refusal: Refusal, index: int, tokens: Sequence[Token]) -> Refusal:
        """What is refused of an instruction, with the words that say of which one."""
        text = quoted(written(tokens))
        message = f"{self.task}, instruction {index}: {text}: {refusal.message}"
        return Refusal(refusal.place, message, refusal.kind)

    def _operands(self, tokens: Sequence[Token], kept: Kept) -> List[Operand]:
        """The operands of an instruction; what is too much as it is written."""
        symbols = FORM_OF[tokens[0].text].symbols
        reader = Operands(without_parentheses(tokens[1:]), kept)
        operands: List[Operand] = []
        while reader.next() is not None:
            at, count = reader.at, len(operands)
            read = reader.operand(symbols[count]) if count < len(symbols) else reader.whatever()
            spelled = written(reader.tokens[at : reader.at])
            operands.append(read._replace(spelled=spelled))
        return operands

    def lines(self) -> List[int]:
        """The numbers of its lines."""
        return [line.tokens[0].place.line for _, line in self._lines]

    def labels(self) -> Dict[str, int]:
        """The number of the instruction behind each label."""
        return {name: number for name, (_, number) in self._labels.items()}

    def uses(self) -> Uses:
        """What its lines use."""
        found = Uses()
        for _, line in self._lines:
            line.uses(found)
        return found

    def close(self) -> None:
        """Refuses what is wrong of it, once all its lines are read."""
        self.blocks.close_all()
        for token, at in self._labels.values():
            if at == self.length:
                self.refuse(token, f"no instruction follows label '{shown(token.text)}'")
        self._lines = [(at, self._with_numbers(line, at)) for at, line in self._lines]

    def check_spare(self) -> None:
        """Refuses lines that need what their task has none of."""
        for at, line in self._lines:
            lacks = line.lacks(self.spare)
            if lacks:
                refusal = Refusal(line.tokens[0].place, f"this line needs {lacks}")
                self.refusals.append(self._told(refusal, at, line.tokens))

    def remarks(self, names: Sequence[str]) -> Iterator[Fault]:
        """What there is to say of lines that look at bits or wait, and aren't refused."""
        for _, line in self._lines:
            if line.lacks(self.spare):
                continue
            if line.needs("{ending}"):
                ends = [f"{name}{waits.NAME_END}" for name in names]
                yield Fault(line.tokens[0].place, "", waits.remark(line.cost, ends))
            if line.needs("{entry}"):
                by = f"entry {self.spare.entry} and {self.spare.register}"
                text = f"note: {line.cost}, using {by}; r0 changes in between and is then restored"
                yield Fault(line.tokens[0].place, "", text)

    def nodes(self, own: str) -> Iterator[Node]:
        """The instructions of a task of this name, when the script is closed."""
        for at, line in self._lines:
            yield from line.nodes(own, self.spare, at)

    def _with_numbers(self, line: Line, index: int) -> Line:
        """A line with the number of an instruction in place of each label."""
        if isinstance(line, Draft):
            labels = line.labels(self._labels)
            known = {it: self._target(it, index, line.tokens) for it in labels}
            return Draft.of(line.tokens, [known.get(part, part) for part in line.parts])
        number = 0
        if isinstance(line.target, Mark):
            # (what is refused of its block is told there)
            number = min(line.target.at or 0, self.length - 1)
        elif isinstance(line.target, Token):
            found = self._target(as_written(line.target), index, line.tokens).text
            number = int(found) if found.isdigit() else 0
        return dataclasses.replace(line, target=number)

    def _target(self, label: Operand, index: int, tokens: Sequence[Token]) -> Operand:
        """The number of the instruction for a label; the label itself where it names none."""
        name = label.text
        if name in self._labels:
            return Operand(str(self._labels[name][1]), label.place, spelled=name)
        near = near_to(name, self._labels)
        hint = f" (a label needs a colon: {name}:)" if name in WORDS else near
        message = f"label '{shown(name)}' is not defined{hint}"
        self.refusals.append(self._told(Refusal(label.place, message, "L5 Instr"), index, tokens))
        return label


@dataclasses.dataclass(frozen=True)
class Thing:
    """An object or a task, by its first word; of a script several have, `count` of them."""

    word: Token
    members: Tuple[Member, ...]
    script: Optional[Script] = None
    count: Optional[int] = None

    def name(self) -> str:
        """Its name; empty where there is none."""
        return next((str(it.node.value) for it in self.members if it.key == "name"), "")

    def names(self) -> Tuple[str, ...]:
        """The names of the tasks or the object that it is."""
        numbers = [""] if self.count is None else [str(it) for it in range(self.count)]
        return tuple(self.name() + number for number in numbers)

    def nodes(self) -> Iterator[Node]:
        """The thing, or the tasks that it is, as parts of the tree."""
        for name in self.names():
            members = [
                it._replace(node=Node(name, it.node.place)) if it.key == "name" else it
                for it in self.members
            ]
            if self.script is not None:
                code = Node(tuple(self.script.nodes(name)), self.word.place)
                members.append(Member("code", self.word.place, code))
            yield Node(Object(tuple(members)), self.word.place)
