"""The kinds of things that have a name, a table: each as `show` names it, as a form has it, as a
file and a sentence call it, with the condition that says how much is in it, and how phases name the
places where tasks wait at it."""
from typing import Dict, NamedTuple, Tuple


class Kind(NamedTuple):
    """A kind: the word of `show`, the symbol of forms, and the words of conditions and phases."""

    word: str
    symbol: str
    noun: str
    amount: str = ""
    places: Tuple[str, ...] = ()

    @property
    def key(self) -> str:
        """The key of a file that lists them."""
        return f"{self.word}s"


TASK = Kind("task", "K", "task")
QUEUE = Kind("queue", "Q", "queue", "count", ("recv", "send"))
QUEUE_SET = Kind("set", "S", "queue set", "", ("set",))
STREAM = Kind("stream", "B", "stream buffer", "bytes", ("sread", "swrite"))
MESSAGE = Kind("message", "M", "message buffer", "msgs", ("mread", "mwrite"))
GROUP = Kind("group", "G", "event group", "bits", ("group",))
# In the order of a file's keys.
OBJECTS: Tuple[Kind, ...] = (QUEUE, QUEUE_SET, STREAM, MESSAGE, GROUP)
ALL: Tuple[Kind, ...] = (*OBJECTS, TASK)
OF_WORD: Dict[str, Kind] = {kind.word: kind for kind in ALL}
OF_SYMBOL: Dict[str, Kind] = {kind.symbol: kind for kind in ALL}
OF_AMOUNT: Dict[str, Kind] = {kind.amount: kind for kind in OBJECTS if kind.amount}
# How a phase names the place: `select`'s is `set:jobs`.
OF_PLACE: Dict[str, Kind] = {place: kind for kind in OBJECTS for place in kind.places}
