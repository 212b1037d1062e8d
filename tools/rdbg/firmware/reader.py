"""An application in lines (`.fw`), as the tree of the JSON with the places of what is written.

docs/FORMATS.md has the grammar. What it refuses is a fault of its own; what else can be wrong is
found in the tree, as in that of a JSON (`rdbg.checking.faults`)."""
import contextlib
import itertools
import re
from typing import Callable, Dict, List, Mapping, Optional, Sequence, Set, Tuple

from rdbg.application import Beside, Interrupt, Text
from rdbg.checking.faults import faults_of
from rdbg.failure import Failure
from rdbg.firmware import blocks, interrupts, meant, semaphores, waits
from rdbg.firmware.code import MOST_READ, Script, Thing, Uses, spare
from rdbg.firmware.numbers import Constants, Kept, Numbers, near_to
from rdbg.firmware.objects import OBJECTS, SETTINGS, ObjectLine, form_of, next_number, queue
from rdbg.firmware.tokens import MOST_TOKENS, Refusal, Scanner, Stop, Token, decoded, shown, written
from rdbg.instructions import FORM_OF
from rdbg.operands import Scope
from rdbg.shapes import FILE
from rdbg.tree import Fault, Member, Node, Number, Object, Place
from rdbg.wording import without_suggestions

# The rest of a text isn't read after so many lines. Of more refusals than these only their number
# is kept.
MOST_LINES = 20_000
MOST_REFUSALS = 500
CONST = ("const", "#define")
SET_KEYS = ("length", "members")
OF_SCRIPTS = frozenset((*FORM_OF, *blocks.WORDS, semaphores.GIVE, waits.WORD))
TOP = Place(1, 1)


def is_const(tokens: Sequence[Token]) -> bool:
    """Whether a line names a number, or was meant to."""
    return tokens[0].text in CONST or meant.as_const(tokens) is not None


def check(tokens: Sequence[Token]) -> None:
    """Refuses what can't stand in any line."""
    for token in tokens:
        token.check()
    if len(tokens) > MOST_TOKENS:
        raise Refusal(tokens[MOST_TOKENS].place, "the line has too many words")


def is_label(tokens: Sequence[Token]) -> bool:
    """Whether two tokens are a label and its colon."""
    words = [token.text for token in tokens]
    return words[1:] == [":"] and words[0] not in OBJECTS and words[0] not in SETTINGS


class Reader:
    """Reads a text line by line. What is refused of it is kept in `refusals`."""

    def __init__(self, given: Mapping[str, int]) -> None:
        self.refusals: List[Refusal] = []
        # (refusals of which only the number is kept)
        self.more = 0
        self.remarks: List[Fault] = []
        # What lines of objects become that are written as others, in words.
        self.made: List[Tuple[int, str]] = []
        self.comments: Dict[int, str] = {}
        self.constants = Constants(given)
        self.kept = Kept(self.constants, self.refusals)
        self._semaphores: Dict[str, semaphores.Semaphore] = {}
        self._interrupts: List[interrupts.Read] = []
        self._refused_interrupts: List[str] = []
        # (those that end waits)
        self._endings: List[Interrupt] = []
        self._numbers: Dict[str, Member] = {}
        self._things: Dict[str, List[Thing]] = {word: [] for word in OBJECTS}
        self._script: Optional[Script] = None
        # (what lines name that are refused; words that are jumped to)
        self._meant: List[Thing] = []
        self._targets: Set[str] = set()

    def read(self, text: str) -> Optional[Node]:
        """The tree of a text, as far as it can be read; none where the rest of it isn't read. The
        lines of consts are read first, so that those of others may stand above them."""
        try:
            lines = self._lines(text)
            self._targets = meant.jumped_to(lines)
            consts = [tokens for tokens in lines if is_const(tokens)]
            self._try_all(consts)
            known = semaphores.named(lines, self.constants)
            self._semaphores = {**known, **dict(meant.semaphores_of(lines)), **known}
            self._try_all([tokens for tokens in lines if not is_const(tokens)])
        except Stop as stop:
            self.refusals.append(stop)
            return None
        if self.more:
            return None
        self._check_constants()
        self._check_sets()
        self._check_never()
        return self._tree()

    def _lines(self, text: str) -> List[List[Token]]:
        """The lines that have words."""
        found: List[List[Token]] = []
        scanner = Scanner(text, self.refusals)
        self.comments = scanner.comments
        for tokens in scanner.lines():
            if tokens:
                found.append(tokens)
            if len(found) > MOST_LINES:
                raise Stop(
                    tokens[0].place,
                    f"the file has more than {MOST_LINES:,} lines; the rest is skipped",
                )
        self._keep_count(MOST_REFUSALS)
        return found

    def _try_all(self, lines: Sequence[List[Token]]) -> None:
        """Reads lines, and keeps what is refused of them; of too many refusals only their number,
        so that nothing near has to be found for each."""
        for at, tokens in enumerate(lines):
            if len(self.refusals) >= MOST_REFUSALS:
                with without_suggestions():
                    self._count(lines[at:])
                return
            with self.kept.keeping():
                self._line(tokens)

    def _count(self, lines: Sequence[List[Token]]) -> None:
        """Reads lines, and counts what is refused of them."""
        for tokens in lines:
            with contextlib.suppress(Stop), self.kept.keeping():
                try:
                    self._line(tokens)
                except Stop:
                    # (each line is one too many)
                    self.more += 1
                    raise
            self._keep_count(MOST_REFUSALS)

    def _keep_count(self, most: int) -> None:
        """Keeps so many refusals at most, and the number of the others."""
        self.more += max(0, len(self.refusals) - most)
        del self.refusals[most:]

    def _line(self, tokens: List[Token]) -> None:
        """Reads a line: labels, then what its first word says."""
        if tokens[-1].text == ";":
            tokens = tokens[:-1]
        at = 0
        while is_label(tokens[at : at + 2]):
            at += 2
        labels, said = tokens[:at:2], tokens[at:]
        word = said[0].text if said else ""
        is_set = word == "set" and self._is_queue_set(said)
        is_of_script = word in OF_SCRIPTS and not is_set
        if not labels and not is_of_script:
            check(tokens)
            if said:
                self._structure(said)
            return
        script = self._script_of(tokens[0])
        with script.counting(said):
            check(tokens)
            for token in labels:
                with self.kept.keeping():
                    script.label(token)
            if is_of_script:
                script.read(said)
            elif said:
                self._structure(said)

    def _check_never(self) -> None:
        """Makes the queue that waits receive from, if it isn't there, and refuses what fills it."""
        first = next((it for _, script in self.scripts() for it in script.waits()), None)
        if first is None:
            return
        if waits.NEVER not in [it.name() for it in self._things["queue"]]:
            one = Node(Number("1"), first.place)
            members = queue(Node(waits.NEVER, first.place), one, one)
            self._things["queue"].append(Thing(first, members))
            made = f"{first.text}: queue {waits.NEVER} length 1 item 1, which nobody fills"
            self.made.append((first.place.line, made))
        fillers = [it for _, script in self.scripts() for it in script.fillers(waits.NEVER)]
        calls = [call for it in self._interrupts for call in it.calls]
        fillers += [it.tokens[0] for it in calls if it.words[:2] == ("send", waits.NEVER)]
        for token in fillers:
            message = f"queue '{waits.NEVER}' must stay empty, because wait receives from it"
            self.kept.refuse(token.place, message)

    def _semaphore(self, tokens: Sequence[Token]) -> None:
        """A line of a semaphore or a mutex, which is a queue."""
        it = semaphores.read(tokens, self.kept)
        place = tokens[0].place
        self.made.append((place.line, f"{written(tokens)}: {it.queue()}"))
        if it.word.text == semaphores.MUTEX:
            text = f"note: mutex '{it.name}' is modelled as a queue: {semaphores.NO_INHERITANCE}"
            self.remarks.append(Fault(place, "", text))
        self._things["queue"].append(Thing(tokens[0], it.members))

    def _structure(self, tokens: Sequence[Token]) -> None:
        """Reads a line that is of no script. The first fault of it counts."""
        known = len(self.refusals)
        if self._script is not None:
            self._script.blocks.fill()
        with self.kept.keeping():
            READERS.get(tokens[0].text, Reader._unknown)(self, tokens)
        del self.refusals[known + 1 :]

    def _interrupt(self, tokens: Sequence[Token]) -> None:
        try:
            line = interrupts.InterruptLine(tokens, self.kept, self._semaphores)
            self._interrupts.append(line.read())
        except Refusal:
            self._refused_interrupts += [token.text for token in tokens[1:2]]
            raise

    def _script_of(self, token: Token) -> Script:
        """The script that a line belongs to; where there is none yet, one that nobody has."""
        if self._script is None:
            message = f"'{shown(token.text)}' must follow a task line ({form_of('task')})"
            self.kept.refuse(token.place, message)
            self._script = Script("no task", Kept(self.constants, []), {})
        return self._script

    def _is_queue_set(self, tokens: Sequence[Token]) -> bool:
        """Whether a line `set ..` is a queue set, and no instruction."""
        if len(tokens) > 3 and any(token.text in SET_KEYS for token in tokens[2:]):
            return True
        second = tokens[1].text if len(tokens) > 1 else ""
        return self._script is None and re.fullmatch(r"r[0-9]+|\(", second) is None

    def _const(self, tokens: Sequence[Token]) -> None:
        if len(tokens) < 2 or not tokens[1].is_word():
            raise Refusal(tokens[0].place, f"{tokens[0].text} NAME N: missing name")
        if meant.TYPES.fullmatch(tokens[1].text) and meant.as_const(tokens):
            self._unknown(tokens)
        reader = Numbers(tokens, self.kept, 2)
        if reader.is_next("="):
            line = f"{tokens[0].text} {shown(tokens[1].text)} N"
            self.kept.refuse(tokens[2].place, f"unexpected '=' (write {line})")
        known, value, is_refused = len(self.refusals), 0, True
        try:
            value = reader.number()
            doubtful = tokens[0].place.line in self.constants.doubtful
            is_refused = doubtful or len(self.refusals) > known
            reader.end()
        finally:
            self.constants.define(tokens[1], value, is_refused)

    def _number(self, tokens: Sequence[Token]) -> None:
        """A line for a key of the file that is a number."""
        word = tokens[0]
        if word.text in self._numbers:
            line = self._numbers[word.text].place.line
            raise Refusal(word.place, f"'{word.text}' is already set in line {line}")
        reader = Numbers(tokens, self.kept, 1)
        self._numbers[word.text] = Member(word.text, word.place, next_number(reader))
        reader.end()

    def _thing(self, tokens: Sequence[Token]) -> None:
        """A line of an object or of a task."""
        word = tokens[0]
        if len(self._things[word.text]) == MOST_READ:
            what = OBJECTS[word.text].plural
            message = f"there are more than {MOST_READ} {what}; the rest of the file is skipped"
            raise Stop(word.place, message, "L3 Limit")
        line, script = ObjectLine(tokens, self.kept), None
        if word.text == "task":
            name = line.name if line.count is None else f"{line.name}[{line.count}]"
            label = f"task {name or 'number ' + str(len(self._things['task']))}"
            script = self._script = Script(label, self.kept, self._semaphores)
        self._things[word.text].append(Thing(word, tuple(line.members), script, line.count))

    def _unknown(self, tokens: Sequence[Token]) -> None:
        """A line that begins with no word that lines begin with. What it names is there all the
        same; where it names nothing it counts as an instruction."""
        known = len(self.refusals)
        with self.kept.keeping():
            self._keep_names(tokens)
        del self.refusals[known:]
        raise Refusal(tokens[0].place, meant.message_of(tokens, self._targets))

    def _keep_names(self, tokens: Sequence[Token]) -> None:
        """Reads a line as what it was meant to be."""
        word, name = meant.object_of(tokens)
        const = meant.as_const(tokens)
        if const is not None:
            self._const([tokens[0], *const])
        elif name is not None:
            is_mutex = word == semaphores.MUTEX
            first = tokens[0]._replace(text="queue" if is_mutex else word)
            keys = [] if is_mutex else tokens[tokens.index(name) + 1 :]
            line = [first, name, *keys]
            if word == "task":
                self._thing(line)
                return
            members = ObjectLine(line, Kept(self.constants, [])).members
            self._meant.append(Thing(first, tuple(members)))
        elif meant.is_label(tokens, self._targets) and self._script is not None:
            self._script.label(tokens[0])
        elif self._script is not None:
            self._script.placeholder(tokens)

    def _check_constants(self) -> None:
        """Refuses consts with the name of an object or a task."""
        for word, things in self._things.items():
            for name in (thing.name() for thing in things):
                if name in self.constants.named:
                    place = self.constants.named[name].place
                    self.kept.refuse(place, f"const '{name}' has the same name as a {word}")

    def _check_sets(self) -> None:
        """Refuses semaphores in queue sets that are given at the start."""
        members = [member.node.value for it in self._things["set"] for member in it.members]
        lists = (it for it in members if isinstance(it, tuple))
        for node in itertools.chain.from_iterable(lists):
            it = self._semaphores.get(str(node.value))
            if it is not None and it.is_given:
                self.kept.refuse(node.place, semaphores.not_in_sets(it))

    def _check_interrupts(self) -> None:
        """Refuses interrupts that name what isn't there, and a profile that has none."""
        tasks = [name for thing in self._things["task"] for name in thing.names()]
        queues = [thing.name() for thing in self._things["queue"]]
        scope = Scope({"K": tasks, "Q": queues}, self._entries())
        known, refused = self._interrupts, self._refused_interrupts
        for at, it in enumerate(known):
            self.refusals += interrupts.faults_of(it, known[:at], refused, scope)
        profile = self._numbers.get("profile")
        is_needed = self._interrupts or self._endings
        if is_needed and profile is not None and profile.node.value == Number("1"):
            self.kept.refuse(profile.node.place, "profile 1 has no interrupts (use profile 2)")

    def scripts(self) -> List[Tuple[Thing, Script]]:
        """The tasks, with their scripts."""
        return [(it, it.script) for it in self._things["task"] if it.script is not None]

    def interrupts(self) -> Tuple[Interrupt, ...]:
        """The interrupts that may come."""
        return (*(it.interrupt() for it in self._interrupts), *self._endings)

    def several(self) -> Set[int]:
        """The lines of scripts that several tasks have."""
        those = (it for it in self.scripts() if it[0].count is not None)
        return {at for it, script in those for at in (it.word.place.line, *script.lines())}

    def _close(self) -> None:
        """Closes the scripts, once it is known what each task doesn't use."""
        for _, script in self.scripts():
            script.close()
        uses = [script.uses() for _, script in self.scripts()]
        uses.append(Uses())
        for call in (call for it in self._interrupts for call in it.calls):
            uses[-1].tell(call.words)
        for (task, script), own in zip(self.scripts(), uses):
            names = task.names()
            script.spare = spare(names, own, uses, self._entries(), script.has_waits)
            script.check_spare()
            self.remarks += script.remarks(names)
            ending = script.spare.ending
            if ending is not None:
                self._endings += [waits.interrupt(name, ending) for name in names]

    def _entries(self) -> int:
        """How many notification entries each task has."""
        node = self._numbers["notes"].node.value if "notes" in self._numbers else Number("1")
        return int(node.text) if isinstance(node, Number) and len(node.text) < 3 else 1

    def _tree(self) -> Node:
        for thing in self._meant:
            others = self._things[thing.word.text]
            if thing.name() not in [other.name() for other in others]:
                others.append(thing)
        self._close()
        self._check_interrupts()
        number = Number("2" if self._interrupts or self._endings else "1")
        profile = Member("profile", TOP, Node(number, TOP))
        numbers = {"profile": profile, **self._numbers}
        members: List[Member] = []
        for key in FILE.keys:
            things = [] if key.of is None else self._things[key.name[:-1]]
            if key.name in numbers:
                members.append(numbers[key.name])
            elif things:
                place = things[0].word.place
                tree = Node(tuple(node for it in things for node in it.nodes()), place)
                members.append(Member(key.name, place, tree))
        return Node(Object(tuple(members)), TOP)


# By the first word: how lines are read that are of no script.
READERS: Dict[str, Callable[[Reader, Sequence[Token]], None]] = {
    **dict.fromkeys(CONST, Reader._const),
    **dict.fromkeys(SETTINGS, Reader._number),
    **dict.fromkeys(semaphores.FORMS, Reader._semaphore),
    **dict.fromkeys(OBJECTS, Reader._thing),
    interrupts.WORD: Reader._interrupt,
}


def named(text: str, given: Mapping[str, int]) -> Beside:
    """What an accepted text names, whose consts of these names are these numbers."""
    reader = Reader(given)
    reader.read(text)
    labels = {name: script.labels() for it, script in reader.scripts() for name in it.names()}
    return Beside(reader.constants.values, labels)


def read(content: bytes, given: Mapping[str, int]) -> Text:
    """Reads a text, whose consts of these names are these numbers. Where anything is refused of it,
    what else is wrong in other lines is among its faults, but for those with a number that is
    refused where it has its name. Raises `Failure` where the text is too long, or where no line has
    a const that is given."""
    reader = Reader(given)
    root: Optional[Node] = None
    with reader.kept.keeping():
        root = reader.read(decoded(content))
    idle = min(reader.constants.idle, default=None)
    if idle is not None:
        near = near_to(idle, reader.constants.named)
        raise Failure(f"-D {idle}: const '{idle}' is not defined{near}", 2)
    faults = [Fault(it.place, it.kind, it.message) for it in reader.refusals]
    others = [] if root is None else once(faults_of(root), reader.several())
    if faults:
        lines = reader.constants.doubtful | {fault.place.line for fault in faults}
        others = [fault for fault in others if fault.place.line not in lines]
        others = sorted([*faults, *others], key=lambda fault: fault.place)
    remarks = sorted(reader.remarks, key=lambda it: it.place)
    made, comments = reader.made, reader.comments
    return Text(root, others, remarks, made, comments, reader.interrupts(), reader.more)


def once(faults: Sequence[Fault], several: Set[int]) -> List[Fault]:
    """Faults without those that lines of several tasks have as often as there are tasks."""
    firsts: Dict[Tuple[Place, str], Fault] = {}
    told = [(it, firsts.setdefault((it.place, it.kind), it)) for it in faults]
    return [it for it, first in told if it.place.line not in several or it is first]
