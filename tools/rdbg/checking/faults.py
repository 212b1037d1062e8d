"""Finds all faults of an application file, in the order in which the program checks for them.

The program reports the kind of the first one. Follow-on faults are left out, such as an instruction
that names a queue whose name was refused, or an operand whose bound was refused.
"""
import contextlib
import re
from typing import Dict, Iterator, List, Optional, Set, Tuple

from rdbg.checking.reading import NAME_RULE, read
from rdbg.checking.slips import as_bytes, is_binary
from rdbg.digits import is_digits
from rdbg.instructions import FINAL, FORM_OF
from rdbg.operands import NAMED, PATTERN_OF, Scope, is_name, to_text
from rdbg.shapes import FILE, NOT_THERE, OTHER_NAMES, Key, Shape
from rdbg.tree import Fault, Node, Number, Object, Place, kind_of, objects
from rdbg.wording import did_you_mean, nearest, quoted, shown

SHAPE, LIMIT, NAME, INSTR = "L2 Shape", "L3 Limit", "L4 Name", "L5 Instr"
OVERWRITE = "L6 OverwriteLength"
MOST_ENTRIES = 4
# The search for faults stops after this many.
MOST_FAULTS = 1000


class Enough(Exception):
    """`MOST_FAULTS` faults have been found."""


def faults_of(root: Node) -> List[Fault]:
    """The faults of a file, up to `MOST_FAULTS`; none where rdbg accepts it."""
    finder = Finder()
    with contextlib.suppress(Enough):
        finder.file(root)
    return finder.faults


def explain_bound(key: Key, value: int, most: int) -> Tuple[str, str]:
    """Returns what sets the bound of a number that is too large, and a remedy; both may be empty.

    The bound comes from another key (` (its size)`) or from the profile.
    """
    if key.most_key and most < value <= key.most:
        return f" (its {key.most_key})", ""
    if most < value and most < key.most and key.most_by_profile:
        own, more = (key.most_by_profile.index(it) + 1 for it in (most, key.most))
        return f" in profile {own}", f" (profile {more} allows {key.most})"
    return "", ""


class Finder:
    """Checks a file in the order of the program, and continues after a fault."""

    def __init__(self) -> None:
        self.faults: List[Fault] = []
        # (each kind's names, in order, with their places; those that were refused, with what they
        # may become; the kinds of which some have no name that can be read)
        self.names: Dict[str, Dict[str, Place]] = {symbol: {} for symbol in NAMED}
        self.refused: Dict[str, Set[str]] = {symbol: set() for symbol in NAMED}
        self.unsure: Set[str] = set()
        self.lengths: Dict[str, Set[Optional[int]]] = {}
        self.members: Dict[str, str] = {}
        self.scripts: List[Tuple[str, Tuple[Node, ...]]] = []

    def fault(self, kind: str, place: Place, message: str) -> None:
        """Keeps a fault. Raises `Enough` after the last one that is kept."""
        self.faults.append(Fault(place, kind, message))
        if len(self.faults) == MOST_FAULTS:
            raise Enough

    def other(self, node: Node, subject: str, what: str) -> None:
        """Reports a value of the wrong type; `what` is the type that it must have."""
        message = f"{subject} must be {what}, found {shown(kind_of(node.value))}"
        self.fault(SHAPE, node.place, message)

    def file(self, root: Node) -> None:
        """The file: its keys in their order, then its scripts."""
        found = self.values(FILE, root, "the application")
        numbers: Dict[str, Optional[int]] = {"notes": 1}
        for key in (it for it in FILE.keys if it.name in found):
            if key.of is not None:
                self.list_of(key, key.of, found[key.name])
            else:
                most = key.most_in(numbers.get("profile"))
                numbers[key.name] = self.number(key, found[key.name], "", most)
        names = {symbol: list(names) for symbol, names in self.names.items()}
        for label, code in self.scripts:
            self.script(label, code, Scope(names, numbers["notes"] or MOST_ENTRIES, len(code)))

    def list_of(self, key: Key, shape: Shape, node: Node) -> None:
        """A list of objects of one kind."""
        if not isinstance(node.value, tuple):
            self.unsure.add(shape.symbol)
            self.other(node, key.name, f"a list of {shape.plural}")
            return
        if len(node.value) < key.least:
            message = f"{key.name} is empty (an application needs at least one {shape.noun})"
            self.fault(LIMIT, node.place, message)
        if len(node.value) > key.most:
            message = f"{len(node.value)} {shape.plural} (at most {key.most} are allowed)"
            self.fault(LIMIT, node.value[key.most].place, message)
        for index, each in enumerate(node.value):
            self.object(shape, each, index)

    def object(self, shape: Shape, node: Node, index: int) -> None:
        """An object of a list: its keys in their order."""
        name = node.value.get("name") if isinstance(node.value, Object) else None
        label = f"{shape.noun} number {index}"
        if name is not None and isinstance(name.value, str):
            label = f"{shape.noun} {name.value if is_name(name.value) else quoted(name.value)}"
        found = self.values(shape, node, label)
        if "name" not in found:
            self.unsure.add(shape.symbol)
        numbers: Dict[str, Optional[int]] = {}
        for key in (it for it in shape.keys if it.name in found):
            value = found[key.name]
            if key.holds == "name":
                self.name(shape, value, label)
            elif key.holds == "number":
                most = numbers.get(key.most_key) or key.most
                numbers[key.name] = self.number(key, value, f"{label}: ", most)
            elif key.holds == "members":
                self.members_of(value, label)
            else:
                self.code(key, value, label)
        if shape.symbol == "Q" and "name" in found:
            self.lengths.setdefault(str(found["name"].value), set()).add(numbers.get("length"))

    def values(self, shape: Shape, node: Node, label: str) -> Dict[str, Node]:
        """The values of an object's keys; that of a key with a slip in it counts as the key's."""
        if not isinstance(node.value, Object):
            self.other(node, label, f"an object ({', '.join(shape.names())})")
            return {}
        given = {member.key: member for member in node.value.members}
        found = {key: given[key].node for key in shape.names() if key in given}
        for member in (it for it in given.values() if it.key not in shape.names()):
            meant, said = self.meant(shape, member.key)
            said = f"{label}: unknown key {quoted(member.key)} ({said})"
            self.fault(SHAPE, member.place, said)
            if meant and meant not in found:
                found[meant] = member.node
            elif shape is FILE:
                self.refuse_names(member.node)
        for key in (it for it in shape.keys if it.is_needed and it.name not in found):
            limits = f", {to_text(key.least, key.most)}" if key.holds == "number" else ""
            message = f"{label}: missing key {quoted(key.name)} ({key.text}{limits})"
            self.fault(SHAPE, node.place, message)
        return found

    def refuse_names(self, node: Node) -> None:
        """What stands under a key of the file that is none may be of any kind."""
        for thing in objects(node):
            name = thing.get("name")
            if name is not None and isinstance(name.value, str):
                for names in self.refused.values():
                    names.add(name.value)

    def meant(self, shape: Shape, key: str) -> Tuple[str, str]:
        """The key that another is meant to be, if there is one, and what to say of it."""
        small, names = key.lower(), shape.names()
        calls = {each.freertos.lower(): each.name for each in shape.keys if each.freertos}
        other = calls.get(small, OTHER_NAMES.get(small, ""))
        near = other if other in names else nearest(key, names)
        why = NOT_THERE.get(small, f"known keys: {', '.join(names)}")
        return near or "", f"did you mean {quoted(near)}?" if near else why

    def number(self, key: Key, node: Node, label: str, most: int) -> Optional[int]:
        """A number within its limits, or none after a fault."""
        must_be = f"{label}{key.name} must be"
        limits = to_text(key.least, most)
        if not isinstance(node.value, Number):
            is_quoted = isinstance(node.value, str) and is_digits(node.value)
            found = shown(kind_of(node.value)) + (" (remove the quotes)" if is_quoted else "")
            self.fault(SHAPE, node.place, f"{must_be} a whole number, {limits}, found {found}")
            return None
        value = node.value.natural()
        if value is None:
            found = shown(node.value.text)
            self.fault(SHAPE, node.place, f"{must_be} a whole number, {limits}, found {found}")
        elif not key.least <= value <= most:
            bound, remedy = explain_bound(key, value, most)
            self.fault(LIMIT, node.place, f"{must_be} {limits}{bound}, found {value}{remedy}")
            value = None
        return value

    def name(self, shape: Shape, node: Node, label: str) -> None:
        """A name, which is the first of its kind."""
        if not isinstance(node.value, str):
            self.unsure.add(shape.symbol)
            self.other(node, f"{label}: name", "a string")
            return
        first = self.names[shape.symbol].get(node.value)
        if not is_name(node.value):
            small = re.sub(r"(?<=[a-z0-9])(?=[A-Z])", "_", node.value).lower()
            plain = re.sub(r"[^a-z0-9_]", "_", small).strip("_")[:16]
            near = plain if is_name(plain) else ""
            self.refused[shape.symbol] |= {node.value, near}
            self.fault(NAME, node.place, f"{label}: {NAME_RULE}{did_you_mean(near)}")
        elif first is not None:
            self.fault(NAME, node.place, f"{label} is defined twice (first at {first})")
        else:
            self.names[shape.symbol][node.value] = node.place

    def members_of(self, node: Node, label: str) -> None:
        """The members of a queue set: queues that are in no set yet."""
        if not isinstance(node.value, tuple):
            self.other(node, f"{label}: members", "a list of names")
            return
        for member in node.value:
            name = member.value
            if not isinstance(name, str):
                self.other(member, f"{label}: a member", "a queue's name")
            elif name in self.members:
                message = f"{label}: queue '{name}' is already a member of {self.members[name]}"
                self.fault(NAME, member.place, message)
            elif name in self.names["Q"]:
                self.members[name] = label
            elif name not in self.refused["Q"] and "Q" not in self.unsure:
                missing = Scope({"Q": [*self.names["Q"]]}).missing("Q", name)
                self.fault(NAME, member.place, f"{label}: {missing}")

    def code(self, key: Key, node: Node, label: str) -> None:
        """A script, whose instructions are read once all names are known."""
        if not isinstance(node.value, tuple):
            self.other(node, f"{label}: code", "a list of instructions")
            return
        count = len(node.value)
        if not count:
            message = f"{label}: code is empty (a script needs at least one instruction)"
            self.fault(LIMIT, node.place, message)
        if count > key.most:
            message = f"{label}: code has {count} instructions (at most {key.most} are allowed)"
            self.fault(LIMIT, node.value[key.most].place, message)
        for index, each in enumerate(node.value):
            if not isinstance(each.value, str):
                self.other(each, f"{label}, instruction {index}", "a string")
        self.scripts.append((label, node.value))

    def script(self, label: str, code: Tuple[Node, ...], scope: Scope) -> None:
        """The instructions of a script, and whether it goes on behind its last one."""
        for index, node in enumerate(code):
            if isinstance(node.value, str):
                self.instruction(f"{label}, instruction {index}: {written(node)}", node, scope)
        word = next((word for word, _ in code[-1].words()), "") if code else ""
        if word in FORM_OF and word not in FINAL:
            what = f"{label}, instruction {len(code) - 1}: {written(code[-1])}"
            message = f"{what}: a script must end with end or jump"
            self.fault(INSTR, code[-1].place, message)

    def instruction(self, label: str, node: Node, scope: Scope) -> None:
        """An instruction. What names a thing whose own name is at fault is none of its faults."""
        reading = read(node, scope)
        for fault in reading.faults:
            refused = fault.word in self.refused.get(fault.symbol, ())
            if not refused and not (fault.kind == NAME and fault.symbol in self.unsure):
                self.fault(fault.kind, fault.place, f"{label}: {fault.message}")
        if reading.form is not None and reading.form.word == "over" and not reading.faults:
            queue = reading.operands[0]
            lengths = self.lengths.get(queue.word, {None})
            if not lengths & {1, None}:
                has = ", ".join(str(length) for length in sorted(filter(None, lengths)))
                message = f"over Q needs a queue of length 1, but {queue.word} has length {has}"
                self.fault(OVERWRITE, queue.place, f"{label}: {message}")


def written(node: Node) -> str:
    """An instruction as it stands in the text, between quotes."""
    return quoted(str(node.value) if node.written is None else node.written)


def binary(node: Node) -> Iterator[Fault]:
    """Bytes of a script that look like a binary number."""
    words = list(node.words()) if node.written is None else []
    if [word for word, _ in words[:-1]] != ["data"]:
        return
    word, place = words[1]
    if is_binary(word) and PATTERN_OF["HEX"].fullmatch(word):
        remedy = f"for the binary number {shown(word)} write data {shown(as_bytes(word))}"
        yield Fault(place, "", f"note: these hexadecimal digits begin with the byte 0b ({remedy})")


def remarks_of(root: Node) -> List[Fault]:
    """Returns notes on what is accepted but likely wrong: duplicate keys, bytes like a number."""
    found: List[Fault] = []
    values = [root]
    while values:
        node = values.pop()
        value = node.value
        if isinstance(value, str):
            found += binary(node)
        elif isinstance(value, Object):
            places: Dict[str, Place] = {}
            for member in value.members:
                if member.key in places:
                    first = f"the value at {places[member.key]} is ignored"
                    message = f"note: duplicate key {quoted(member.key)}; {first}"
                    found.append(Fault(member.place, "", message))
                places[member.key] = member.place
                values.append(member.node)
        elif isinstance(value, tuple):
            values += value
    return sorted(found, key=lambda remark: remark.place)
