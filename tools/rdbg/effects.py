"""What a move did, as a value, found from the looks before and after it."""
import dataclasses
from typing import Callable, Dict, Iterator, List, NamedTuple, Optional, Sequence, Tuple

from rdbg import replies
from rdbg.by_hand import INTERRUPT, ByHand, changed_objects, edit_of, interrupt_of
from rdbg.instructions import WRITES_R1
from rdbg.looks import Look, Object, hexadecimal, holding, time_of

# (instructions that don't call the kernel, so that r0 is no answer of theirs)
LOCAL = ("set", "add", "move", "data", "pack", "unpack", "jump", "jumpz", "end")
NOTIFICATIONS = ("notify", "query", "take", "nwait", "nclear", "vclear")


class Effect(NamedTuple):
    """Something that a move did, by a key of `TEXTS`, and on which core where one is meant."""

    kind: str
    name: str
    core: Optional[int] = None
    how: str = ""

    def text(self, actor: Optional[str] = None) -> str:
        """It in words; of the task that made the move, without its name."""
        where = "ready" if self.core is None else f"core {self.core}"
        name = "" if self.kind == "left" and self.name == actor else f"{self.name} "
        form = TEXTS[self.kind]
        return form.format(name=self.name, core=self.core, how=self.how, where=where, who=name)


TEXTS: Dict[str, str] = {
    "register": "{name} = {how}",
    "data": "data {how}",
    "goes on": "goes on at {how}",
    "holds": "{name} {how}",
    "note": "{name}'s note {how}",
    "woke": "woke {name} ({where})",
    "time up": "woke {name}, whose time was up ({where})",
    "given": "woke {name} with {how} ({where})",
    "left": "{who}left core {core} ({how})",
    "took": "{name} took core {core}",
    "turns": "{name} took core {core} in turn after {how}",
}


@dataclasses.dataclass(frozen=True)
class Move:
    """A move: the place behind it, its kind (`step`, `tick`, `edit` or `isr`), the tick behind it,
    who did which instruction on which core (of a step; of an interrupt its line stands there), what
    it was answered where it returned, and what it did. `line` is what makes it again; `written` is
    the instruction as its file has it, where that is another text."""

    place: int
    kind: str
    line: str
    tick: int
    core: Optional[int] = None
    task: Optional[str] = None
    pc: Optional[int] = None
    instruction: Optional[str] = None
    answer: Optional[int] = None
    effects: Tuple[Effect, ...] = ()
    written: Optional[str] = None

    @property
    def who(self) -> str:
        """The task that made it, or what it is where none did."""
        return self.task or self.kind

    @property
    def does(self) -> str:
        """What was done, and what that was answered; nothing more of a tick."""
        if self.kind == "edit":
            return self.line or "an edit that can't be told"
        done = self.written or self.instruction or ""
        return done if self.answer is None else f"{done} -> {self.answer}"

    @property
    def name(self) -> str:
        """Who did what, by which it is called wherever it is shown; of a tick, its kind."""
        if self.kind == "tick":
            return self.kind
        words = (self.task, self.pc, self.does)
        return " ".join(str(word) for word in words if word not in (None, ""))

    def text(self) -> str:
        """It in one line, without its place and core."""
        head = f"{self.name} {self.tick}" if self.kind == "tick" else self.name
        return ", ".join([head, *(effect.text(self.task) for effect in self.effects)])

    def row(self, width: int = 0) -> str:
        """It in one line, with its place, as wide as said, and its core."""
        core = f"core {self.core}  " if self.kind == "step" else ""
        return f"{str(self.place).rjust(width)}  {core}{self.text()}"


def reason(task: Optional[replies.Task]) -> str:
    """Why a task isn't on the core that it was on."""
    if task is None:
        return "gone"
    if task.phase.word == "wait":
        return f"waits {time_of(task.phase.deadline)}"
    if task.phase.word == "failed":
        return f"failed, {task.phase.cause}"
    return "ended" if task.phase.word == "ended" else "displaced"


def woken(before: Look, after: Look, at_tick: bool) -> Iterator[Effect]:
    """The tasks that waited and don't wait any more."""
    for name, task in after.tasks.items():
        was = before.tasks.get(name)
        if was is task or was is None or was.phase.word != "wait" or task.phase.word == "wait":
            continue
        if task.phase.word == "given":
            yield Effect("given", name, task.core, f"bits {task.phase.bits}")
        else:
            yield Effect("time up" if at_tick else "woke", name, task.core)


def scheduled(before: Look, after: Look, turning: Optional[int] = None) -> List[Effect]:
    """Who woke, who left a core, and who took one that wasn't woken by the move. On the core
    `turning` a task takes its turn at a tick, where nobody outranks who ran there."""
    found = list(woken(before, after, turning is not None))
    awake = [it.name for it in found]
    for core, (was, now) in enumerate(zip(before.cores.running, after.cores.running)):
        if was == now:
            continue
        if core == turning and was and now and now not in awake:
            found.append(Effect("turns", now, core, was))
            continue
        if was:
            found.append(Effect("left", was, core, reason(after.tasks.get(was))))
        if now and now not in awake:
            found.append(Effect("took", now, core))
    return found


def change_of(was: Object, now: Object) -> str:
    """What has become of an object that isn't as it was, in a word or two."""
    if isinstance(was, replies.Queue) and isinstance(now, replies.Queue):
        if was.member_of != now.member_of:
            return f"in set {now.member_of}" if now.member_of else "in no set"
    if isinstance(was, replies.Stream) and isinstance(now, replies.Stream):
        if was.trigger != now.trigger:
            return f"trigger {now.trigger}"
    return holding(now)


def holdings(before: Look, after: Look) -> Iterator[Effect]:
    """The objects that hold something else now."""
    for key in changed_objects(before, after):
        was, now = before.objects[key], after.objects[key]
        yield Effect("holds", now.name, None, change_of(was, now))


def notes(before: Look, after: Look) -> Iterator[Effect]:
    """The notification entries that say something else now."""
    for name, task in after.tasks.items():
        was = before.tasks.get(name)
        if was is task or was is None:
            continue
        for index, note in enumerate(task.notes):
            if was.notes[index] != note and note.state != "waiting":
                yield Effect("note", name, None, f"{index} = {note.value}:{note.state}")


def own(was: replies.Task, now: replies.Task, word: str) -> Iterator[Effect]:
    """What an instruction changed in its own task."""
    first = 0 if word in LOCAL else 1
    for register in range(first, len(now.registers)):
        value = now.registers[register]
        if value != was.registers[register] or (register == 1 and word in WRITES_R1):
            if now.phase.word == "run":
                yield Effect("register", f"r{register}", None, str(value))
    if now.data != was.data and word != "data":
        yield Effect("data", now.name, None, hexadecimal(now.data))
    if word == "jumpz":
        yield Effect("goes on", now.name, None, str(now.pc))


Script = Callable[[str, int], Optional[str]]


def move_between(before: Look, after: Look, script: Script, known: Optional[ByHand] = None) -> Move:
    """The move from one look to the next. `script` says the instruction of a task at a `pc`, where
    that is known; `known` the edit or the interrupt where the move is known to be one."""
    if known is not None:
        return done_by_hand(before, after, known)
    if after.cores.tick != before.cores.tick:
        effects = scheduled(before, after, after.cores.tick % len(after.cores.running))
        return Move(after.place, "tick", "tick", after.cores.tick, effects=tuple(effects))
    core = after.cores.turn - 1
    task = before.cores.running[core] if 0 <= core < len(before.cores.running) else None
    if task is None or not could_step(before, after, task, script):
        edit, interrupt = edit_of(before, after), interrupt_of(before, after)
        found = ByHand(interrupt, 1) if edit is None and interrupt else ByHand(edit or "")
        return done_by_hand(before, after, found)
    return stepped(before, after, core, task, script)


def done_by_hand(before: Look, after: Look, known: ByHand) -> Move:
    """An edit, or an interrupt, which has effects."""
    line, tick = known.line, after.cores.tick
    if line.split(" ")[0] != INTERRUPT:
        return Move(after.place, "edit", line, tick)
    effects = [*holdings(before, after), *notes(before, after), *scheduled(before, after)]
    what, answer = tuple(effects), known.answer
    return Move(after.place, "isr", line, tick, instruction=line, answer=answer, effects=what)


def could_step(before: Look, after: Look, task: str, script: Script) -> bool:
    """Whether a move that left the tick can have been one of this task: an edit, which leaves the
    turn, changes one thing alone, and an interrupt, which leaves it too, nothing of the task but
    its core."""
    was, now = before.tasks.get(task), after.tasks.get(task)
    if before.cores.turn != after.cores.turn or was is None or now is None:
        return True
    if now.pc == was.pc and now.phase == was.phase:
        if now.core != was.core or interrupt_of(before, after) is not None:
            return False
        words = (script(task, was.pc) or f"jump {now.pc}").split()
        return words[0] in ("jump", "jumpz") and words[-1] == str(now.pc)
    word = (script(task, was.pc) or "jump").split()[0]
    return word in ("jump", "jumpz") or now.pc in (was.pc, was.pc + 1)


def stepped(before: Look, after: Look, core: int, task: str, script: Script) -> Move:
    """A move of a core."""
    was, now = before.tasks.get(task), after.tasks.get(task)
    text = script(task, was.pc) if was else None
    word = text.split()[0] if text else ""
    is_answered = word and word not in LOCAL and was and now and now.phase.word == "run"
    answer = now.registers[0] if now and is_answered else None
    effects = [*own(was, now, word or "set")] if was and now else []
    effects += holdings(before, after)
    if word in NOTIFICATIONS:
        effects += notes(before, after)
    effects += scheduled(before, after)
    pc, tick, line = was.pc if was else None, after.cores.tick, f"step {core}"
    return Move(after.place, "step", line, tick, core, task, pc, text, answer, tuple(effects))
