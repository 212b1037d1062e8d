"""What is done by hand between the moves of tasks, edits and interrupts: found from the looks
before and after it, or held against them."""
from typing import Callable, Dict, List, NamedTuple, Optional, Sequence, Tuple, TypeVar

from rdbg import kinds, replies
from rdbg.looks import Key, Look, Object, content_of

INTERRUPT = "isr"
Value = TypeVar("Value")
MOST = 2**32
# What a notification makes of a value and the one that is sent.
VALUE_BY: Dict[str, Callable[[int, int], int]] = {
    "none": lambda value, sent: value,
    "bits": lambda value, sent: value | sent,
    "inc": lambda value, sent: (value + 1) % MOST,
    "set": lambda value, sent: sent,
    "setif": lambda value, sent: sent,
}


class ByHand(NamedTuple):
    """An edit or an interrupt that was made: its line, and what an interrupt was answered."""

    line: str
    answer: Optional[int] = None


def changes(was: Sequence[Value], now: Sequence[Value]) -> List[Tuple[int, Value]]:
    """What is another value now, each with its index."""
    return [(at, new) for at, (old, new) in enumerate(zip(was, now)) if old != new]


def changed_objects(before: Look, after: Look) -> List[Key]:
    """The objects that hold something else in the second look."""
    there = ((key, before.objects.get(key, it), it) for key, it in after.objects.items())
    # (a reply that says the same is mostly the same value)
    others = ((key, was, now) for key, was, now in there if was is not now)
    return [key for key, was, now in others if content_of(was) != content_of(now)]


def edit_of(before: Look, after: Look) -> Optional[str]:
    """The one edit that makes the second look of the first, if any; any where nothing differs."""
    found: List[str] = []
    for name, now in after.tasks.items():
        was = before.tasks.get(name, now)
        # (no edit wakes a task, or has it leave or take a core)
        kept = [(it.phase, it.core, [note.state for note in it.notes]) for it in (was, now)]
        if kept[0] != kept[1]:
            return None
        if was.pc != now.pc:
            found.append(f"poke pc {name} {now.pc}")
        if was.data != now.data:
            found.append(f"poke data {name} {now.data.hex() or '-'}")
        registers, notes = changes(was.registers, now.registers), changes(was.notes, now.notes)
        found += [f"poke reg {name} {at} {value}" for at, value in registers]
        found += [f"poke note {name} {at} {note.value}" for at, note in notes]
    for key in changed_objects(before, after):
        found.append(edit_of_object(before.objects[key], after.objects[key]))
    if not found and after.tasks:
        name, task = next(iter(after.tasks.items()))
        found = [f"poke reg {name} 0 {task.registers[0]}"]
    return found[0] if len(found) == 1 and found[0] else None


def edit_of_object(was: Object, now: Object) -> str:
    """The edit of an object that makes the second of the first, empty where there is none."""
    if isinstance(now, replies.Group):
        return f"poke group {now.name} {now.bits}"
    if isinstance(now, replies.Queue) and isinstance(was, replies.Queue):
        items = changes(was.items, now.items)
        if len(items) == 1 and was.count == now.count:
            return f"poke item {now.name} {items[0][0]} {items[0][1].hex()}"
    if isinstance(now, replies.Stream) and isinstance(was, replies.Stream):
        values = changes(was.content, now.content)
        if len(values) == 1 and was.held == now.held:
            return f"poke byte {now.name} {values[0][0]} {values[0][1]}"
    return ""


def interrupt_of(before: Look, after: Look) -> Optional[str]:
    """The one interrupt that makes the second look of the first, and that can be seen, if any."""
    told: List[str] = []
    for name, now in after.tasks.items():
        was = before.tasks.get(name, now)
        if (was.pc, was.data, was.registers) != (now.pc, now.data, now.registers):
            return None
        for index, new in changes(was.notes, now.notes):
            told.append(f"isr notify {name} {index} {new.value} set")
            if new.state != "received":
                return None
    changed = changed_objects(before, after)
    if not changed:
        return told[0] if len(told) == 1 else None
    return None if told else send_of(before, after, changed)


def send_of(before: Look, after: Look, changed: List[Key]) -> Optional[str]:
    """The interrupt that put an item into a queue, and its handle into a set, where that is all."""
    line: Optional[str] = None
    for key in changed:
        was, now = before.objects[key], after.objects[key]
        if isinstance(now, replies.Queue) and isinstance(was, replies.Queue):
            if line is not None or now.items[:-1] != was.items:
                return None
            line = f"isr send {now.name} {now.items[-1].hex()}"
        elif not isinstance(now, replies.QueueSet) or not isinstance(was, replies.QueueSet):
            return None
        elif now.handles[:-1] != was.handles:
            return None
    return line


def could_be(before: Look, after: Look, made: ByHand) -> bool:
    """Whether what was done can be what lies between two looks, or others have moved since."""
    words = made.line.split(" ")
    if words[0] != INTERRUPT:
        return edit_of(before, after) == made.line
    if words[1] == "send":
        return could_be_send(before, after, words, made.answer)
    was, now = before.tasks.get(words[2]), after.tasks.get(words[2])
    if was is None or now is None:
        return True
    old, new = was.notes[int(words[3])], now.notes[int(words[3])]
    if not made.answer:
        return old == new
    return new == replies.Note(VALUE_BY[words[5]](old.value, int(words[4])), "received")


def could_be_send(before: Look, after: Look, words: List[str], answer: Optional[int]) -> bool:
    """The same of an interrupt that sends to a queue."""
    key = (kinds.QUEUE.word, words[2])
    was, now = before.objects.get(key), after.objects.get(key)
    if not isinstance(was, replies.Queue) or not isinstance(now, replies.Queue):
        return True
    if not answer:
        return now.items == was.items
    sent = replies.content(words[3])
    size = len(now.items[-1]) if now.items else 0
    return now.items == (*was.items, sent[:size].ljust(size, b"\0"))
