"""What goals claim of a place, and how claims are joined: each is judged by a look, and says by
which conditions of rdbg's own it could become otherwise."""
import dataclasses
from typing import Iterable, Iterator, List, Optional, Sequence

from rdbg import kinds
from rdbg.goals.conditions import OPERATORS, Condition
from rdbg.looks import Look, Names
from rdbg.replies import Reply, Task

# Conditions of which one holds where something first becomes otherwise; none where none say that.
Turns = Optional[List[Condition]]
UNDER_WAY = ("run", "again", "given", "wait")
OVER = ("ended", "failed")


class Goal:
    """A goal: a claim, or some that are joined; `form` is its text, of its own fields."""

    form = ""

    @property
    def is_lasting(self) -> bool:
        """Whether it stays so as long as tasks and ticks alone move the target."""
        return False

    @property
    def text(self) -> str:
        """It in words, with a number for each name of one."""
        return self.asked(None) or ""

    def asked(self, tasks: Optional[Sequence[str]]) -> Optional[str]:
        """It as the program that searches has it, of an application of these tasks; none where it
        has no words for it. Without tasks it is in words of rdbg's own."""
        return self.form.format(self)

    def claims(self) -> Iterator["Goal"]:
        """The claims that it joins."""
        yield self

    def names(self, there: Names) -> Names:
        """What has to be looked at, of what is there."""
        raise NotImplementedError

    def is_so(self, look: Look) -> bool:
        """Whether it holds where this is seen."""
        raise NotImplementedError

    def turns(self, look: Look, earlier: bool) -> Turns:
        """Conditions of which one holds at the first later place, or the last earlier one, where it
        isn't as here. None where no conditions say that, and no condition where there is no such
        place."""
        raise NotImplementedError


def reply_of(condition: Condition, look: Look) -> Reply:
    """What says whether a condition holds."""
    kind = kinds.OF_AMOUNT.get(condition.kind)
    if kind is not None:
        return look.objects[kind.word, condition.name]
    return look.tasks[condition.name] if condition.name else look.cores


def changes_of(amount: Condition, look: Look) -> List[Condition]:
    """Conditions of which one holds wherever an amount isn't as here."""
    now = amount.amount(reply_of(amount, look))
    return dataclasses.replace(amount, operator="=", number=now).others(earlier=False)


@dataclasses.dataclass(frozen=True)
class Holds(Goal):
    """A condition of the language holds."""

    condition: Condition
    form = "{0.condition.text}"

    @property
    def is_lasting(self) -> bool:
        return self.condition.phase in OVER

    def names(self, there: Names) -> Names:
        kind = kinds.OF_AMOUNT.get(self.condition.kind)
        if kind is not None:
            return Names((), ((kind.word, self.condition.name),))
        return Names((self.condition.name,) if self.condition.name else ())

    def is_so(self, look: Look) -> bool:
        return self.condition.holds(reply_of(self.condition, look))

    def turns(self, look: Look, earlier: bool) -> Turns:
        return self.condition.others(earlier) if self.is_so(look) else [self.condition]


@dataclasses.dataclass(frozen=True)
class Masked(Goal):
    """Some of an amount's bits are as a number says."""

    amount: Condition
    mask: int
    operator: str
    number: int
    form = "{0.amount.subject} & {0.mask} {0.operator} {0.number}"

    def names(self, there: Names) -> Names:
        return Holds(self.amount).names(there)

    def is_so(self, look: Look) -> bool:
        value = self.amount.amount(reply_of(self.amount, look))
        return OPERATORS[self.operator](value & self.mask, self.number)

    def turns(self, look: Look, earlier: bool) -> Turns:
        return changes_of(self.amount, look)


@dataclasses.dataclass(frozen=True)
class Among(Goal):
    """Two registers are to each other as an operator says."""

    one: Condition
    operator: str
    other: Condition
    form = "{0.one.subject} {0.operator} {0.other.subject}"

    def names(self, there: Names) -> Names:
        return Names.all(Holds(it).names(there) for it in (self.one, self.other))

    def is_so(self, look: Look) -> bool:
        one, other = (it.amount(reply_of(it, look)) for it in (self.one, self.other))
        return OPERATORS[self.operator](one, other)

    def turns(self, look: Look, earlier: bool) -> Turns:
        return changes_of(self.one, look) + changes_of(self.other, look)


@dataclasses.dataclass(frozen=True)
class OfTask(Goal):
    """What is claimed of a task by its name."""

    task: str

    def names(self, there: Names) -> Names:
        return Names((self.task,))

    def phase(self, word: str) -> Condition:
        """The condition that the task is in a phase."""
        return Condition("phase", self.task, phase=word)

    def others(self, look: Look, earlier: bool) -> List[Condition]:
        """Conditions of which one holds where its phase is first another one."""
        return self.phase(look.tasks[self.task].phase.word).others(earlier)


@dataclasses.dataclass(frozen=True)
class At(OfTask):
    """A task has an instruction to do, or waits in it."""

    pc: int
    form = "at {0.task} {0.pc}"

    def is_so(self, look: Look) -> bool:
        task = look.tasks[self.task]
        return task.pc == self.pc and task.phase.word in UNDER_WAY

    def turns(self, look: Look, earlier: bool) -> Turns:
        here = Condition("pc", self.task, number=self.pc)
        if look.tasks[self.task].pc != self.pc:
            return [here]
        if not self.is_so(look):
            return self.others(look, earlier)
        return [*here.others(earlier), *(self.phase(word) for word in OVER)]


@dataclasses.dataclass(frozen=True)
class Waits(OfTask):
    """A task waits at a place, whose words and whose name in a phase these are; wherever, where
    they are empty. `is_endless`: it waits without a deadline."""

    words: str = ""
    place: str = ""
    is_endless: bool = False

    def asked(self, tasks: Optional[Sequence[str]]) -> Optional[str]:
        if self.is_endless and tasks is not None:
            return None
        return f"{'sleeps' if self.is_endless else 'waits'} {self.task} {self.words}".rstrip()

    def is_so(self, look: Look) -> bool:
        phase = look.tasks[self.task].phase
        if phase.word != "wait" or (self.is_endless and phase.deadline is not None):
            return False
        return self.place in ("", phase.place)

    def turns(self, look: Look, earlier: bool) -> Turns:
        is_waiting = look.tasks[self.task].phase.word == "wait"
        return self.others(look, earlier) if is_waiting else [self.phase("wait")]


@dataclasses.dataclass(frozen=True)
class Runs(OfTask):
    """A task is on a core."""

    form = "runs {0.task}"

    def is_so(self, look: Look) -> bool:
        return self.task in look.cores.running

    def turns(self, look: Look, earlier: bool) -> Turns:
        away = look.tasks[self.task].phase.word in ("wait", *OVER)
        return self.others(look, earlier) if away else None


class OfAll(Goal):
    """What is claimed of all tasks together."""

    is_lasting = True

    def names(self, there: Names) -> Names:
        return Names(there.tasks)


def others_of(tasks: Iterable[Task], earlier: bool) -> List[Condition]:
    """Conditions of which one holds where the phase of one of some tasks is first another one."""
    phases = (Condition("phase", it.name, phase=it.phase.word) for it in tasks)
    return [other for phase in phases for other in phase.others(earlier)]


@dataclasses.dataclass(frozen=True)
class SomeFailed(OfAll):
    """Some task has failed."""

    form = "failed"

    def is_so(self, look: Look) -> bool:
        return any(it.phase.word == "failed" for it in look.tasks.values())

    def turns(self, look: Look, earlier: bool) -> Turns:
        failed = [it for it in look.tasks.values() if it.phase.word == "failed"]
        if failed:
            return others_of(failed, earlier)
        return [Condition("phase", name, phase="failed") for name in look.tasks]


@dataclasses.dataclass(frozen=True)
class Finished(OfAll):
    """All tasks have ended."""

    form = "finished"

    def is_so(self, look: Look) -> bool:
        return all(it.phase.word == "ended" for it in look.tasks.values())

    def turns(self, look: Look, earlier: bool) -> Turns:
        left = [it.name for it in look.tasks.values() if it.phase.word != "ended"]
        if not left:
            return others_of(look.tasks.values(), earlier)
        return [Condition("phase", left[0], phase="ended")]


@dataclasses.dataclass(frozen=True)
class Stuck(OfAll):
    """No core is busy, and no task waits for a time alone: only ticks are left, and wake nobody.
    `is_asleep`: some task waits."""

    is_asleep: bool = False

    @staticmethod
    def _waiting(look: Look, is_timed: bool = False) -> List[Task]:
        """The tasks that wait, or those of them that have a deadline."""
        found = (it for it in look.tasks.values() if it.phase.word == "wait")
        return [it for it in found if not is_timed or it.phase.deadline is not None]

    def asked(self, tasks: Optional[Sequence[str]]) -> str:
        if self.is_asleep or tasks is None:
            return "asleep" if self.is_asleep else "stuck"
        over = " and ".join(f"(ended {name} or failed {name})" for name in tasks)
        return f"(asleep or {over})"

    def is_so(self, look: Look) -> bool:
        if any(look.cores.running) or self._waiting(look, is_timed=True):
            return False
        return bool(self._waiting(look)) or not self.is_asleep

    def turns(self, look: Look, earlier: bool) -> Turns:
        busy = next(filter(None, look.cores.running), None)
        if busy is not None:
            return [Condition("phase", busy, phase=word) for word in ("wait", *OVER)]
        waiting = self._waiting(look, is_timed=True) or self._waiting(look)
        return others_of(waiting or look.tasks.values(), earlier)


ASLEEP = Stuck(is_asleep=True)


@dataclasses.dataclass(frozen=True)
class Not(Goal):
    """A goal isn't so."""

    goal: Goal

    def asked(self, tasks: Optional[Sequence[str]]) -> Optional[str]:
        asked = self.goal.asked(tasks)
        return None if asked is None else f"not {enclosed(self.goal, asked)}"

    def claims(self) -> Iterator[Goal]:
        return self.goal.claims()

    def names(self, there: Names) -> Names:
        return self.goal.names(there)

    def is_so(self, look: Look) -> bool:
        return not self.goal.is_so(look)

    def turns(self, look: Look, earlier: bool) -> Turns:
        return self.goal.turns(look, earlier)


@dataclasses.dataclass(frozen=True)
class Joined(Goal):
    """Two goals, joined by `and` or `or`."""

    word: str
    one: Goal
    other: Goal

    @property
    def is_lasting(self) -> bool:
        return self.one.is_lasting and self.other.is_lasting

    def asked(self, tasks: Optional[Sequence[str]]) -> Optional[str]:
        pairs = [(it, it.asked(tasks)) for it in (self.one, self.other)]
        asked = [enclosed(it, text, self.word) for it, text in pairs if text is not None]
        return f" {self.word} ".join(asked) if len(asked) == len(pairs) else None

    def claims(self) -> Iterator[Goal]:
        yield from self.one.claims()
        yield from self.other.claims()

    def names(self, there: Names) -> Names:
        return Names.all((self.one.names(there), self.other.names(there)))

    def is_so(self, look: Look) -> bool:
        both = (self.one.is_so(look), self.other.is_so(look))
        return all(both) if self.word == "and" else any(both)

    def turns(self, look: Look, earlier: bool) -> Turns:
        # (of `and` all that isn't so has to become so; of `or` all that is so has to end)
        both, is_or = (self.one, self.other), self.word == "or"
        is_all = self.is_so(look) == is_or
        found = [it.turns(look, earlier) for it in both if not is_all or it.is_so(look) == is_or]
        known = [it for it in found if it is not None]
        if is_all:
            return min(known, key=len) if known else None
        return [turn for it in known for turn in it] if len(known) == len(found) else None


def enclosed(goal: Goal, text: str, word: str = "") -> str:
    """The text of a goal where `and` stands beside it, or `not`, which is the empty word."""
    is_apart = isinstance(goal, Joined) and goal.word != word and word != "or"
    return f"({text})" if is_apart else text
