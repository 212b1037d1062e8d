"""The keys of an application file: one table for each kind of object."""
from typing import Dict, NamedTuple, Optional, Tuple

from rdbg import kinds
from rdbg.wording import by_word

MOST_TICK = 4_294_967_295
MOST_INSTRUCTIONS = 256


class Key(NamedTuple):
    """A key: what is said of it, and what its value is. `holds` is `number`, `name`, `code`,
    `members`, or `objects` of the shape `of`; `least` and `most` bound the number or the length of
    the list. `most_key` names a key whose number is the bound in place of `most`. `most_by_profile`
    has the bounds of profile 1, profile 2 and so on, of which `most` is the largest."""

    name: str
    text: str
    holds: str
    least: int = 0
    most: int = 0
    is_needed: bool = True
    of: Optional["Shape"] = None
    most_key: str = ""
    most_by_profile: Tuple[int, ...] = ()
    freertos: str = ""

    def most_in(self, profile: Optional[int]) -> int:
        """The bound in that profile; the largest where the profile isn't known."""
        return dict(enumerate(self.most_by_profile, 1)).get(profile or 0, self.most)


class Shape(NamedTuple):
    """An object: what it is called, the symbol of its names, and its keys, in order."""

    noun: str
    plural: str
    symbol: str
    keys: Tuple[Key, ...]
    freertos: str = ""

    def names(self) -> Tuple[str, ...]:
        """The names of its keys."""
        return tuple(key.name for key in self.keys)


def of_kind(kind: kinds.Kind, freertos: str, *keys: Key) -> Shape:
    """The object that stands for a thing of a kind: its name, and its other keys."""
    text = f"the name of the {kind.noun} in instructions and commands"
    name = Key("name", text, "name")
    return Shape(kind.noun, f"{kind.noun}s", kind.symbol, (name, *keys), freertos)


def number(name: str, text: str, least: int, most: int, freertos: str = "") -> Key:
    """A key whose value is a number."""
    is_needed = name not in DEFAULTS
    return Key(name, text, "number", least, most, is_needed, freertos=freertos)


def objects(of: Shape, least: int = 0) -> Key:
    """A key whose value is a list of objects."""
    name, text = kinds.OF_SYMBOL[of.symbol].key, f"the {of.plural}"
    return Key(name, text, "objects", least, 32, least > 0, of, freertos=of.freertos)


# The optional keys and their default values.
DEFAULTS: Dict[str, int] = {"notes": 1, "tick": 0}
BOOT = "the tick count at boot; 0 if omitted"
MEMBERS = "the names of the queues that are members at boot"
BYTES = "the capacity in bytes"
BYTES_OF_MESSAGES = f"{BYTES}; each message takes four bytes more than its length"
TRIGGER = "the number of bytes that wakes a waiting reader; 0 means 1"
CODE = "the script: instructions, counted from 0, the last of which is end or jump"
ENTRIES = "the number of notification entries of each task; 1 if omitted"
CORES = "the number of cores; more than 8 needs profile 2"
CORES_OF_C = "configNUMBER_OF_CORES"

QUEUE = of_kind(
    kinds.QUEUE,
    "xQueueCreate",
    number("length", "the number of items that the queue can hold", 1, 64, "uxQueueLength"),
    number("item", "the size of an item in bytes", 1, 64, "uxItemSize"),
)
QUEUE_SET = of_kind(
    kinds.QUEUE_SET,
    "xQueueCreateSet",
    number("length", "the number of handles that the set can hold", 1, 2048, "uxEventQueueLength"),
    Key("members", MEMBERS, "members", freertos="xQueueAddToSet"),
)
STREAM = of_kind(
    kinds.STREAM,
    "xStreamBufferCreate",
    number("size", BYTES, 1, 1024, "xBufferSizeBytes"),
    Key("trigger", TRIGGER, "number", 0, 1024, most_key="size", freertos="xTriggerLevelBytes"),
)
MESSAGE = of_kind(
    kinds.MESSAGE,
    "xMessageBufferCreate",
    number("size", BYTES_OF_MESSAGES, 5, 1024, "xBufferSizeBytes"),
)
GROUP = of_kind(kinds.GROUP, "xEventGroupCreate")
TASK = of_kind(
    kinds.TASK,
    "xTaskCreate",
    number("priority", "the priority; a higher number is a higher priority", 0, 31, "uxPriority"),
    Key("code", CODE, "code", 1, MOST_INSTRUCTIONS, freertos="pxTaskCode"),
)
FILE = Shape(
    "application",
    "applications",
    "",
    (
        number("profile", "the profile, which sets what an application may contain", 1, 2),
        Key("cores", CORES, "number", 1, 16, most_by_profile=(8, 16), freertos=CORES_OF_C),
        number("notes", ENTRIES, 1, 4, "configTASK_NOTIFICATION_ARRAY_ENTRIES"),
        number("tick", BOOT, 0, MOST_TICK, "configINITIAL_TICK_COUNT"),
        *map(objects, (QUEUE, QUEUE_SET, STREAM, MESSAGE, GROUP)),
        objects(TASK, least=1),
    ),
)

# Other names for keys, in lower case. The object that has the unknown key may lack the right one.
OTHER_NAMES = by_word(
    {
        "priority": "prio",
        "code": "script instructions program",
        "item": "itemsize item_size",
        "length": "count capacity size",
        "size": "length",
        "trigger": "triggerlevel trigger_level",
        "streams": "stream_buffers",
        "messages": "message_buffers",
        "groups": "event_groups events",
        "sets": "queue_sets",
        "notes": "notifications",
    }
)
# Why there is no such key, and what to do instead.
NOT_THERE = {
    "$schema": "name the schema in your editor's settings instead",
    "semaphores": "use a queue for a semaphore, see docs/guides/from-c.md",
    "mutexes": "use a queue for a mutex, see docs/guides/from-c.md",
    "timers": "software timers are not modelled",
    "stack": "stacks are not modelled",
    "affinity": "every task can run on every core",
    "core": "every task can run on every core",
    "comment": "for comments, use a .fw file",
    "_comment": "for comments, use a .fw file",
    "//": "for comments, use a .fw file",
}
