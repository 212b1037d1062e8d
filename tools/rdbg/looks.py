"""A look at the target as a value: who runs, and each task and object as it is."""
import dataclasses
from typing import Dict, Iterable, List, Mapping, NamedTuple, Optional, Sequence, Tuple, Union

from rdbg import kinds, replies
from rdbg.application import Application
from rdbg.wording import counted

Object = Union[replies.Queue, replies.QueueSet, replies.Stream, replies.Messages, replies.Group]
# An object's kind, as `show` names it, and its name: two of one kind have two names.
Key = Tuple[str, str]
OBJECTS = (replies.Queue, replies.QueueSet, replies.Stream, replies.Messages, replies.Group)
# The kind that each is of; they stand in the order of the kinds.
KINDS: Dict[type, str] = {reply: kind.word for reply, kind in zip(OBJECTS, kinds.OBJECTS)}
BYTES_SHOWN = 16


def key_of(it: Object) -> Key:
    """The kind and the name of an object."""
    return KINDS[type(it)], it.name


class Names(NamedTuple):
    """What is looked at: tasks by name, objects by the kind that `show` has for them and name."""

    tasks: Tuple[str, ...] = ()
    objects: Tuple[Key, ...] = ()

    @classmethod
    def of(cls, application: Application) -> "Names":
        """All that an application has."""
        return cls(tuple(it.name for it in application.tasks), tuple(application.objects()))

    @classmethod
    def all(cls, several: Iterable["Names"]) -> "Names":
        """What some have together, each thing once."""
        found = list(several)
        tasks = dict.fromkeys(name for it in found for name in it.tasks)
        return cls(tuple(tasks), tuple(dict.fromkeys(key for it in found for key in it.objects)))

    def of_kind(self, kind: str) -> List[str]:
        """The names of a kind, as `show` has it."""
        if kind == kinds.TASK.word:
            return list(self.tasks)
        return [name for other, name in self.objects if other == kind]

    def kinds_of(self, name: str) -> List[str]:
        """The kinds of which there is a thing of this name: `task`, `queue`, .."""
        tasks = [kinds.TASK.word] if name in self.tasks else []
        return tasks + [kind for kind, other in self.objects if other == name]

    def lines(self) -> List[str]:
        """The lines whose replies make a look."""
        tasks = [f"show task {name}" for name in self.tasks]
        return ["show cores", *tasks, *(f"show {kind} {name}" for kind, name in self.objects)]


@dataclasses.dataclass(frozen=True)
class Look:
    """What there is at a place: who runs, and the tasks and objects that were looked at."""

    place: int
    cores: replies.Cores
    tasks: Mapping[str, replies.Task]
    objects: Mapping[Key, Object]

    @classmethod
    def of(cls, place: int, answers: Sequence[replies.Reply]) -> "Look":
        """The look that the replies to `Names.lines` make, at a place that is known. Raises
        `Unreadable` where one of them is none of these."""
        tasks = {it.name: it for it in answers if isinstance(it, replies.Task)}
        objects = {key_of(it): it for it in answers if isinstance(it, OBJECTS)}
        cores = next((it for it in answers if isinstance(it, replies.Cores)), None)
        if cores is None:
            raise replies.Unreadable(str(answers))
        return cls(place, cores, tasks, objects)


def hexadecimal(content: bytes) -> str:
    """Bytes as rdbg writes them, the first of many."""
    shown = content[:BYTES_SHOWN].hex() or "-"
    return f"{shown}.. ({len(content)} bytes)" if len(content) > BYTES_SHOWN else shown


# What each object holds, whoever waits at it, and how that is said.
HELD: Dict[type, Tuple[Tuple[str, ...], str]] = {
    replies.Queue: (("items", "member_of"), "{it.count}/{it.length}"),
    replies.QueueSet: (("handles",), "{it.count}/{it.length} handles"),
    replies.Stream: (("content", "trigger"), "{it.held}/{it.size} bytes"),
    replies.Messages: (("messages",), "{messages}, {it.held}/{it.size} bytes"),
    replies.Group: (("bits",), "bits {it.bits}"),
}


def holding(it: Object) -> str:
    """What an object holds, in a word or two."""
    messages = counted(len(it.messages), "message") if isinstance(it, replies.Messages) else ""
    return HELD[type(it)][1].format(it=it, messages=messages)


def content_of(it: Object) -> Tuple[object, ...]:
    """What an object holds, whoever waits at it."""
    return tuple(getattr(it, name) for name in HELD[type(it)][0])


def time_of(deadline: Optional[int]) -> str:
    """A deadline in words."""
    return "with no limit of time" if deadline is None else f"until tick {deadline}"
