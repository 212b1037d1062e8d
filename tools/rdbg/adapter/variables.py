"""The state as variables: registers and parts of tasks, objects, the time and the cores."""
import dataclasses
import re
from typing import Callable, Dict, Iterable, List, Mapping, Optional, Sequence, Tuple

from rdbg import commands, kinds, replies
from rdbg.adapter.messages import Values, Wrong
from rdbg.looks import Key, Look, Object, holding
from rdbg.shell.views import contents, phase_text, waiters

# What a variable stands in: a kind, and names.
Path = Tuple[str, ...]
# Makes the line that gives a variable the value that was typed.
Setter = Callable[[str], str]
BITS = 16_777_215
MOST_VALUE = commands.MOST_NUMBER
DIGITS = 40
# What a value may have behind it where it is shown: `5 (received)`.
BEHIND = re.compile(r"\s+\(.*\)$")


def typed_number(text: str, most: int = MOST_VALUE) -> int:
    """A number that was typed: decimal, hexadecimal behind 0x, or below 0, which counts from the
    other end as in C. Raises `Wrong` where it is none."""
    plain = BEHIND.sub("", text.strip()).replace("_", "")
    if not re.fullmatch(r"-?(0[xX][0-9a-fA-F]+|[0-9]+)", plain):
        raise Wrong(f"'{text}' is not a number: expected 41, 0x29 or -1")
    # (a number of more digits is too large, whatever they are)
    value = int(plain[:DIGITS], 16 if "x" in plain.lower() else 10)
    if value < 0 and most == MOST_VALUE:
        value += MOST_VALUE + 1
    if not 0 <= value <= most:
        raise Wrong(f"'{text}' is out of range: 0 to {most}")
    return value


def typed_bytes(text: str) -> str:
    """Bytes that were typed, as a line of rdbg has them: hexadecimal digits, or a text in quotes.
    Raises `Wrong` where they are none."""
    plain = BEHIND.sub("", text.strip())
    quoted = re.fullmatch(r'"([ -~]*)"', plain)
    digits = quoted[1].encode("ascii").hex() if quoted else re.sub(r"\s|^0[xX]", "", plain)
    if not commands.is_bytes(digits or "-"):
        raise Wrong(f"'{text}' is not a byte string: expected 0a1b, \"text\" or - for none")
    return digits or "-"


def bytes_shown(value: bytes) -> str:
    """Bytes in hexadecimal, with the text that they are where they are one."""
    if not value:
        return "-"
    is_text = all(32 <= byte < 127 for byte in value)
    return f'{value.hex()} ("{value.decode("ascii")}")' if is_text else value.hex()


def names_shown(waiting: Sequence[str]) -> str:
    """Who waits, the first to be served first."""
    return ", ".join(waiting) or "-"


@dataclasses.dataclass(frozen=True)
class Variable:
    """A variable: its name and value; what stands in it; how it is set; what a data breakpoint on
    it watches; and what names it in an expression."""

    name: str
    value: str
    within: Optional[Path] = None
    put: Optional[Setter] = None
    watched: str = ""
    expression: str = ""
    is_indexed: bool = False


@dataclasses.dataclass(frozen=True)
class Shown:
    """A look, and how numbers are shown."""

    look: Look
    undone: int
    is_hex: bool = False

    def number(self, value: int) -> str:
        """A number."""
        return hex(value) if self.is_hex else str(value)


def putting(form: str, most: int = MOST_VALUE) -> Setter:
    """Makes a line of a number that was typed."""
    return lambda text: form.format(typed_number(text, most))


def amount(word: str, name: str, value: str, put: Optional[Setter] = None) -> Variable:
    """What a condition calls so, of a task or an object of this name."""
    return Variable(word, value, None, put, f"{word} {name}", f"{name}.{word}")


def settable(name: str, watched: str, value: str, expression: str = "") -> Variable:
    """A number of a task, which is set by the words that a condition has for it."""
    put = putting(f"poke {watched} {{}}")
    return Variable(name, value, put=put, watched=watched, expression=expression)


def plain(parts: Mapping[str, object]) -> List[Variable]:
    """What is shown alone, by names; `-` where there is none."""
    return [Variable(name, "-" if it is None else str(it)) for name, it in parts.items()]


def indexed(texts: Iterable[str], put: Optional[Callable[[int], Setter]] = None) -> List[Variable]:
    """What stands in a row, each set by what `put` makes of its number."""
    return [
        Variable(f"[{at}]", text, put=put(at) if put else None, is_indexed=True)
        for at, text in enumerate(texts)
    ]


def task_of(shown: Shown, name: str) -> replies.Task:
    """A task as it is."""
    if name not in shown.look.tasks:
        raise Wrong(f"there is no task {name}")
    return shown.look.tasks[name]


def registers(shown: Shown, name: str) -> List[Variable]:
    """The registers of a task."""
    found = enumerate(map(shown.number, task_of(shown, name).registers))
    return [settable(f"r{at}", f"reg {name} {at}", it, f"{name}.r{at}") for at, it in found]


def parts(shown: Shown, name: str) -> List[Variable]:
    """The parts of a task beside its registers."""
    it = task_of(shown, name)
    data: Setter = lambda text: f"poke data {name} {typed_bytes(text)}"
    found = [
        amount("pc", name, str(it.pc), putting(f"poke pc {name} {{}}")),
        amount("phase", name, phase_text(it)),
        Variable("core", "-" if it.core is None else str(it.core)),
        Variable("data", bytes_shown(it.data), put=data, expression=f"{name}.data"),
    ]
    notes = [(at, f"{shown.number(note.value)} ({note.state})") for at, note in enumerate(it.notes)]
    return found + [settable(f"note {at}", f"note {name} {at}", text) for at, text in notes]


def of_time(shown: Shown) -> List[Variable]:
    """The time, the cores, and where in the moves one is."""
    cores = shown.look.cores
    found = [
        Variable("place", f"{shown.look.place}", expression="place"),
        Variable("undone", f"{shown.undone}"),
        Variable("tick", shown.number(cores.tick), watched="tick", expression="tick"),
        Variable("turn", str(cores.turn), expression="turn"),
        Variable("ready", names_shown(cores.ready), watched="ready", expression="ready"),
    ]
    seats = [(f"core {at}", name or "-") for at, name in enumerate(cores.running)]
    return found + [Variable(it, name, watched=it, expression=it) for it, name in seats]


def of_object(key: Key, it: Object) -> Variable:
    """An object as one variable."""
    kind, name = key
    waiting = waiters(it)
    holds = "" if kind == kinds.GROUP.word else f"{holding(it)} "
    value = f"{holds}{contents(it)}" + ("" if waiting == "nobody" else f", waits: {waiting}")
    return Variable(f"{kind} {name}", value, within=("object", kind, name), expression=name)


def within_object(shown: Shown, kind: str, name: str) -> List[Variable]:
    """What an object has in it."""
    it = shown.look.objects.get((kind, name))
    if it is None:
        raise Wrong(f"there is no {kind} {name}")
    return WITHIN[kind](it)


def within_queue(it: replies.Queue) -> List[Variable]:
    """A queue: its count, who waits, and its items, the oldest first."""
    receive, send = names_shown(it.receivers), names_shown(it.senders)
    found = {"length": it.length, "waits to receive": receive, "waits to send": send}
    member = {"member of": it.member_of} if it.member_of else {}
    put = lambda at: lambda text: f"poke item {it.name} {at} {typed_bytes(text)}"
    items = indexed(map(bytes_shown, it.items), put)
    return [amount("count", it.name, str(it.count)), *plain({**found, **member}), *items]


def within_set(it: replies.QueueSet) -> List[Variable]:
    """A queue set: who waits, and the queues of its handles, the oldest first."""
    found = {"count": it.count, "length": it.length, "waits": names_shown(it.waiters)}
    return plain(found) + indexed(it.handles)


def within_stream(it: replies.Stream) -> List[Variable]:
    """A stream buffer: how much is in it, who waits, and each byte, the oldest first."""
    waits = {"waits to read": it.reader, "waits to write": it.writer}
    found = plain({"size": it.size, "trigger": it.trigger, **waits})
    put = lambda at: putting(f"poke byte {it.name} {at} {{}}", 255)
    content = indexed((f"0x{byte:02x}" for byte in it.content), put)
    return [amount("bytes", it.name, str(it.held)), *found, *content]


def within_messages(it: replies.Messages) -> List[Variable]:
    """A message buffer: its messages, the oldest first, and who waits."""
    waits = {"waits to read": it.reader, "waits to write": it.writer}
    found = plain({"held": it.held, "size": it.size, **waits})
    messages = indexed(map(bytes_shown, it.messages))
    return [amount("msgs", it.name, str(len(it.messages))), *found, *messages]


def within_group(it: replies.Group) -> List[Variable]:
    """An event group: its bits, and who waits for which, in the order of arrival."""
    put = putting(f"poke group {it.name} {{}}", BITS)
    bits = amount("bits", it.name, f"0x{it.bits:06x}", put)
    texts = (
        f"{wish.task}: {'all' if wish.wants_all else 'any'} of 0x{wish.bits:06x}, then"
        f" {'cleared' if wish.clears else 'kept'}"
        for wish in it.waiters
    )
    waits = plain({"waits": names_shown([wish.task for wish in it.waiters])})
    return [bits, *waits, *indexed(texts)]


WITHIN: Dict[str, Callable[..., List[Variable]]] = {
    kinds.QUEUE.word: within_queue,
    kinds.QUEUE_SET.word: within_set,
    kinds.STREAM.word: within_stream,
    kinds.MESSAGE.word: within_messages,
    kinds.GROUP.word: within_group,
}
LISTS: Dict[str, Callable[..., List[Variable]]] = {
    "registers": registers,
    "task": parts,
    "objects": lambda shown: [of_object(key, it) for key, it in shown.look.objects.items()],
    "time": of_time,
    "object": within_object,
}


class References:
    """The numbers by which an editor asks for what stands in something."""

    def __init__(self) -> None:
        self._numbers: Dict[Path, int] = {}

    def number(self, path: Path) -> int:
        """The number of a path."""
        return self._numbers.setdefault(path, len(self._numbers) + 1)

    def path(self, number: int) -> Path:
        """The path of a number. Raises `Wrong` where there is none."""
        if not 0 < number <= len(self._numbers):
            raise Wrong(f"there are no variables {number}")
        return list(self._numbers)[number - 1]

    def scopes(self, task: Optional[str], look: Look) -> List[Values]:
        """The scopes of a task's frame, or of the time's."""
        of_task: List[Path] = [("task", task), ("registers", task)] if task else []
        found: List[Values] = []
        for path in (*of_task, ("objects",), ("time",)):
            scope: Values = {"name": path[0].capitalize(), "variablesReference": self.number(path)}
            scope["expensive"] = False
            if path[0] == "registers":
                scope["presentationHint"] = "registers"
            if path[0] == "objects":
                scope["namedVariables"] = len(look.objects)
            found.append(scope)
        return found

    def value(self, it: Variable, shown: Shown) -> Values:
        """A variable as the protocol has it."""
        reference = self.number(it.within) if it.within else 0
        found: Values = {"name": it.name, "value": it.value, "variablesReference": reference}
        if it.expression:
            found["evaluateName"] = it.expression
        if it.put is None and it.within is None:
            found["presentationHint"] = {"attributes": ["readOnly"]}
        if it.within:
            inner = within(shown, it.within)
            found["indexedVariables"] = sum(each.is_indexed for each in inner)
            found["namedVariables"] = len(inner) - found["indexedVariables"]
        return found


def within(shown: Shown, path: Path) -> List[Variable]:
    """The variables that stand in something."""
    return LISTS[path[0]](shown, *path[1:])


def named(shown: Shown, path: Path, name: str) -> Variable:
    """The variable of this name. Raises `Wrong` where there is none."""
    for it in within(shown, path):
        if it.name == name:
            return it
    raise Wrong(f"there is no variable '{name}' here")
