"""A run as values for a page: what stays, a track for each thing that changes, and the moves."""
import json
from typing import Dict, Iterable, List, Optional, Sequence, Tuple, Union

from rdbg import replies
from rdbg.application import Application, Instruction
from rdbg.driving.parts import Part, Trim
from rdbg.effects import Effect, Move
from rdbg.looks import Key, Look, Object

Value = Union[None, int, str, Sequence[object]]


class Values:
    """Values of JSON, each once, by number."""

    def __init__(self) -> None:
        self.listed: List[Value] = []
        self._numbers: Dict[object, int] = {}

    def number(self, value: Value) -> int:
        """The number of a value."""
        # (most are plain, and their text would take long)
        is_plain = value is None or isinstance(value, (int, str))
        key = (type(value), value) if is_plain else json.dumps(value)
        number = self._numbers.get(key)
        if number is None:
            number = self._numbers[key] = len(self.listed)
            self.listed.append(value)
        return number


class Track:
    """What becomes of one thing, as a flat list that grows: the number of the first value, then of
    each other one how many places further it begins, and its number."""

    def __init__(self, values: Values) -> None:
        self.flat: List[int] = []
        self._values = values
        self._place = 0
        # (most of what is looked at is what it was: then nothing has to be numbered)
        self._last: Value = None

    def put(self, place: int, value: Value) -> None:
        """What there is from a place on, which isn't before those that were put."""
        if self.flat and value == self._last and type(value) is type(self._last):
            return
        if self.flat:
            self.flat.append(place - self._place)
        self.flat.append(self._values.number(value))
        self._place, self._last = place, value

    def cut(self, place: int) -> None:
        """Forgets what comes behind a place, which isn't before the first."""
        while len(self.flat) > 1 and self._place > place:
            self.flat.pop()
            self._place -= self.flat.pop()
        self._last = self._values.listed[self.flat[-1]]

    def behind(self, place: int) -> List[Tuple[int, Value]]:
        """The values that begin behind a place, each with where."""
        found: List[Tuple[int, Value]] = []
        at, here = len(self.flat) - 1, self._place
        while at > 0 and here > place:
            found.append((here, self._values.listed[self.flat[at]]))
            here -= self.flat[at - 1]
            at -= 2
        return found[::-1]


WAKES = ("woke", "given", "time up")
KINDS = {"step": 0, "tick": 1, "edit": 2, "isr": 3}
CORES = ("running", "ready", "tick", "turn")
TASK = ("core", "pc", "phase", "registers", "data", "notes")
NOT_KNOWN: Tuple[Tuple[str, Value], ...] = tuple((name, None) for name in TASK)


def cores_of(cores: replies.Cores) -> Tuple[Value, ...]:
    """The values of `CORES`."""
    return (list(cores.running), list(cores.ready), cores.tick, cores.turn)


def task_of(task: replies.Task) -> Tuple[Value, ...]:
    """The values of `TASK`."""
    registers = ",".join(map(str, task.registers))
    notes = ",".join(f"{it.value}:{it.state}" for it in task.notes)
    return (task.core, task.pc, task.phase.text, registers, task.data.hex(), notes)


def wish_of(wish: replies.Wish) -> List[object]:
    """A waiter of a group: who, for which bits, how."""
    which, after = "all" if wish.wants_all else "any", "clear" if wish.clears else "keep"
    return [wish.task, wish.bits, which, after]


def object_of(it: Object) -> Dict[str, Value]:
    """What an object has that changes, by name."""
    if isinstance(it, replies.Queue):
        items = [each.hex() for each in it.items]
        lists = {"recv": list(it.receivers), "send": list(it.senders)}
        return {"items": items, **lists, "set": it.member_of}
    if isinstance(it, replies.QueueSet):
        return {"handles": list(it.handles), "wait": list(it.waiters)}
    if isinstance(it, replies.Stream):
        ends = {"reader": it.reader, "writer": it.writer}
        return {"trigger": it.trigger, "bytes": it.content.hex(), **ends}
    if isinstance(it, replies.Messages):
        messages = [each.hex() for each in it.messages]
        ends = {"reader": it.reader, "writer": it.writer}
        return {"held": it.held, "messages": messages, **ends}
    return {"bits": it.bits, "wishes": [wish_of(each) for each in it.waiters]}


def most_of(it: Object) -> Optional[int]:
    """How much an object can hold; none of an event group."""
    if isinstance(it, (replies.Queue, replies.QueueSet)):
        return it.length
    return None if isinstance(it, replies.Group) else it.size


class Recorder:
    """Takes parts that come in order, and gives what a page has of them."""

    def __init__(self, application: Optional[Application]) -> None:
        # (before the first part has come, the first place is none)
        self.first, self.last = -1, 0
        self.lines: List[str] = []
        self._application = application
        self._values = Values()
        self._moves: List[int] = []
        self._cores: Dict[str, Track] = {}
        self._tasks: Dict[str, Dict[str, Track]] = {}
        self._numbers: Dict[str, int] = {}
        self._objects: Dict[Key, Dict[str, Track]] = {}
        self._most: Dict[Key, Optional[int]] = {}
        self._before: Optional[Look] = None

    def add(self, part: Part) -> None:
        """Takes note of what a part has."""
        if self.first < 0:
            self.first = self.last = part.before.place
            self._see(part.before)
        for move, look in zip(part.moves, part.looks):
            self.last = move.place
            self.lines.append(move.line)
            self._see(look)
            self._moves.append(self._values.number(self._move(move)))

    def values(self, trims: Sequence[Trim] = (), has_code: bool = True) -> Dict[str, object]:
        """What the page has of all that was taken note of, with scripts where it needs them."""
        return {
            "first": self.first,
            "last": self.last,
            "cores": flat(self._cores),
            "tasks": [self._task(name, of, has_code) for name, of in self._tasks.items()],
            "objects": [
                {"kind": key[0], "name": key[1], "most": self._most[key], "tracks": flat(of)}
                for key, of in self._objects.items()
            ],
            "moves": self._moves,
            "trims": [[it.place, it.line] for it in trims],
            "values": self._values.listed,
        }

    def cut(self, place: int) -> None:
        """Forgets the moves behind a place, which isn't before the first."""
        for tracks in (self._cores, *self._tasks.values(), *self._objects.values()):
            for track in tracks.values():
                track.cut(place)
        count = place - self.first
        del self._moves[count:]
        del self.lines[count:]
        self.last, self._before = place, None

    def behind(self, place: int) -> Dict[str, object]:
        """What was taken note of behind a place: values that begin there, and moves."""
        return {
            "cores": values_behind(self._cores, place),
            "tasks": [values_behind(of, place) for of in self._tasks.values()],
            "objects": [values_behind(of, place) for of in self._objects.values()],
            "moves": [self._values.listed[it] for it in self._moves[place - self.first :]],
        }

    @property
    def size(self) -> int:
        """How many values there are."""
        return len(self._values.listed)

    def _task(self, name: str, tracks: Dict[str, Track], has_code: bool) -> Dict[str, object]:
        """A task, with its script where that is known, and wanted."""
        found = self._application.task(name) if self._application else None
        code = [code_of(it) for it in found.code] if found and has_code else []
        priority = found.priority if found else None
        return {"name": name, "priority": priority, "code": code, "tracks": flat(tracks)}

    def _move(self, move: Move) -> List[object]:
        """A move: its kind, core, task, instruction by number, what was done, effects, name."""
        number = None if move.task is None else self._numbers[move.task]
        effects = [self._effect(it, move.task) for it in move.effects]
        return [KINDS[move.kind], move.core, number, move.pc, move.does, effects, move.name]

    def _effect(self, effect: Effect, actor: Optional[str]) -> List[object]:
        """An effect in words, and whom it woke, by number."""
        woken = [self._numbers[effect.name]] if effect.kind in WAKES else []
        return [effect.text(actor), *woken]

    def _see(self, look: Look) -> None:
        """Takes note of what there is from a place on."""
        before = self._before
        self._put(self._cores, look.place, zip(CORES, cores_of(look.cores)))
        for name, task in look.tasks.items():
            if before is None or before.tasks.get(name) is not task:
                self._put(self._of_task(name), look.place, zip(TASK, task_of(task)))
        for seated in (*look.cores.running, *look.cores.ready):
            if seated is not None and seated not in self._tasks:
                # (it is looked at later, or never: of a port not all names are known)
                self._put(self._of_task(seated), look.place, NOT_KNOWN)
        for key, it in look.objects.items():
            if before is None or before.objects.get(key) is not it:
                tracks = self._objects.setdefault(key, {})
                self._most[key] = most_of(it)
                self._put(tracks, look.place, object_of(it).items())
        self._before = look

    def _of_task(self, name: str) -> Dict[str, Track]:
        """The tracks of a task, which has a number from now on."""
        self._numbers.setdefault(name, len(self._numbers))
        return self._tasks.setdefault(name, {})

    def _put(
        self, tracks: Dict[str, Track], place: int, values: Iterable[Tuple[str, Value]]
    ) -> None:
        """Puts values on their tracks. What is known since a later place was nothing before."""
        for name, value in values:
            track = tracks.get(name)
            if track is None:
                track = tracks[name] = Track(self._values)
                if place > self.first:
                    track.put(self.first, None)
            track.put(place, value)


def code_of(it: Instruction) -> List[object]:
    """An instruction of a script: its text, its line, which one of its line's it is, how many these
    are, and its comments, that of its line and those above it, where it has any."""
    part = (it.part.index, it.part.count) if it.part else (0, 1)
    comments = [it.beside, list(it.above)] if it.beside or it.above else []
    return [it.told, it.place.line, *part, *comments]


def flat(tracks: Dict[str, Track]) -> Dict[str, List[int]]:
    """Tracks as lists."""
    return {name: track.flat for name, track in tracks.items()}


def values_behind(tracks: Dict[str, Track], place: int) -> Dict[str, List[Tuple[int, Value]]]:
    """The values of tracks that begin behind a place, of those that have some."""
    found = {name: track.behind(place) for name, track in tracks.items()}
    return {name: values for name, values in found.items() if values}
