"""A run as Chrome trace events, for Perfetto and its kin.

A place stands for a millisecond: move N is made from N - 1 to N. Tracks: each core, with who is on
it and below that each of its moves; the ticks, and what was changed by hand; each task, with its
phases. Counters say what objects hold. A flow leads from the move that wakes a task to the task.
"""
import json
from typing import Callable, Dict, List, Optional, Sequence, Tuple

from rdbg import replies
from rdbg.driving.parts import Part, Trim
from rdbg.effects import Effect, Move
from rdbg.looks import Key, Look, Object

MOVE = 1_000  # microseconds
CORES, TASKS, OBJECTS = 1, 2, 3
WAKES = ("woke", "given", "time up")
# Behind the tracks of the cores: that of the ticks, and that of what is done by hand.
TICKS, BY_HAND = 1_000, 1_001
Event = Dict[str, object]
# The process and the thread by which a track is named.
Track = Tuple[int, int]


def phase_of(task: replies.Task) -> str:
    """What a task does, as its slice is called."""
    failed = f"failed {task.phase.cause}"
    return failed if task.core is None and task.phase.word == "failed" else task.doing


def level_of(it: Object) -> Dict[str, int]:
    """What an object holds, as numbers by name."""
    if isinstance(it, replies.Queue):
        return {"items": it.count}
    if isinstance(it, replies.QueueSet):
        return {"handles": it.count}
    if isinstance(it, replies.Group):
        return {"bits": it.bits}
    return {"bytes": it.held}


def track_of(move: Move) -> int:
    """The track on which a move stands."""
    if move.kind == "tick":
        return TICKS
    return BY_HAND if move.core is None else move.core


class Events:
    """Writes the events of parts that come in order, with what is open between them."""

    def __init__(self, write: Callable[[str], object]) -> None:
        self._write = write
        self._is_first = True
        self._end = 0
        self._flows = 0
        # What is open: who is on a core and what a task does, and since when.
        self._open: Dict[Track, Tuple[str, int]] = {}
        self._levels: Dict[Key, Dict[str, int]] = {}
        self._tasks: List[str] = []

    def add(self, part: Part) -> None:
        """Writes what a part has."""
        if self._is_first:
            self._begin(part.before)
        for move, look in zip(part.moves, part.looks):
            self._end = move.place * MOVE
            track = (CORES, track_of(move))
            self._slice(track, move.text(), self._end - MOVE, said_of(move))
            self._see(look)
            for effect in move.effects:
                if effect.kind in WAKES:
                    self._flow(move, effect)

    def end(self, trims: Sequence[Trim]) -> None:
        """Closes what is open, and ends the file."""
        if self._is_first:
            self._put("")
        self._end += MOVE
        for track, (name, since) in self._open.items():
            self._slice(track, name, since, {})
        for trim in trims:
            at = {"ph": "i", "s": "g", "ts": trim.place * MOVE, "pid": CORES, "tid": BY_HAND}
            self._event({"name": trim.line, **at})
        self._write('\n], "displayTimeUnit": "ms"}\n')

    def _begin(self, look: Look) -> None:
        """Names the tracks, and opens what is there before the first move."""
        self._end = look.place * MOVE
        for process, name in ((CORES, "cores"), (TASKS, "tasks"), (OBJECTS, "objects")):
            self._name("process_name", process, 0, name)
        for core in range(len(look.cores.running)):
            self._name("thread_name", CORES, core, f"core {core}")
        self._name("thread_name", CORES, TICKS, "ticks")
        self._name("thread_name", CORES, BY_HAND, "by hand")
        self._see(look)

    def _name(self, what: str, process: int, track: int, name: str) -> None:
        at: Event = {"ph": "M", "pid": process, "tid": track}
        self._event({"name": what, **at, "args": {"name": name}})

    def _see(self, look: Look) -> None:
        """Takes note of who is where, and of what objects hold, from this place on."""
        for core, seated in enumerate(look.cores.running):
            self._turn_to((CORES, core), seated)
        for name, task in look.tasks.items():
            if name not in self._tasks:  # (of a port, one may become known behind the first place)
                self._name("thread_name", TASKS, len(self._tasks), name)
                self._tasks.append(name)
            self._turn_to((TASKS, self._tasks.index(name)), phase_of(task))
        for key, it in look.objects.items():
            level = level_of(it)
            if self._levels.get(key) != level:
                self._levels[key] = level
                counter: Event = {"ph": "C", "ts": self._end, "pid": OBJECTS, "tid": 0}
                self._event({"name": " ".join(key), **counter, "args": level})

    def _turn_to(self, track: Track, name: Optional[str]) -> None:
        """Ends the slice that is open on a track where it isn't this one, and begins this one."""
        was = self._open.get(track)
        if (was and was[0]) == name:
            return
        if was is not None:
            self._slice(track, *was, {})
            del self._open[track]
        if name is not None:
            self._open[track] = (name, self._end)

    def _slice(self, track: Track, name: str, since: int, args: Event) -> None:
        at = {"ph": "X", "ts": since, "dur": self._end - since, "pid": track[0], "tid": track[1]}
        self._event({"name": name, **at, **({"args": args} if args else {})})

    def _flow(self, move: Move, effect: Effect) -> None:
        """An arrow from the middle of a move to the task that it woke."""
        self._flows += 1
        what = {"name": "wakes", "cat": "wakes", "id": self._flows}
        begin: Event = {"ph": "s", "ts": self._end - MOVE // 2, "pid": CORES, "tid": track_of(move)}
        woken = self._tasks.index(effect.name)
        end: Event = {"ph": "f", "bp": "e", "ts": self._end + 1, "pid": TASKS, "tid": woken}
        self._event({**what, **begin})
        self._event({**what, **end})

    def _event(self, event: Event) -> None:
        self._put(json.dumps(event))

    def _put(self, text: str) -> None:
        self._write(('{"traceEvents": [\n' if self._is_first else ",\n") + text)
        self._is_first = False


def said_of(move: Move) -> Event:
    """What is said of a move where its slice is chosen."""
    said: Event = {"place": move.place, "tick": move.tick}
    if move.task is not None:
        said.update({"task": move.task, "pc": move.pc, "instruction": move.written})
    if move.answer is not None:
        said["r0" if move.kind == "step" else "answer"] = move.answer
    if move.effects:
        said["effects"] = [it.text(move.task) for it in move.effects]
    return said
