"""Goals at random, each as the words that rdreach is asked and as what the views must show."""
import random
from typing import Any, Callable, Dict, List, NamedTuple

from tests.reaching.clock import LAST_TICK
from tests.reaching.states import State

Holds = Callable[[State], bool]
COMPARED: Dict[str, Callable[[int, int], bool]] = {
    "=": lambda one, other: one == other,
    "<": lambda one, other: one < other,
    ">": lambda one, other: one > other,
}
PHASES = ("run", "again", "given", "wait", "ended", "failed")
GOING_ON = ("run", "again", "given", "wait")
# The word of a goal and the kind of place that the views show, by the kind of object.
PLACES = {
    "queues": (("recv", "recv"), ("send", "send")),
    "sets": (("select", "set"),),
    "streams": (("read", "sread"), ("write", "swrite")),
    "messages": (("read", "mread"), ("write", "mwrite")),
    "groups": (("group", "group"),),
}


class Goal(NamedTuple):
    """A goal: its words, whether it holds at a place, and whether it speaks of the tick."""

    words: str
    holds: Holds
    on_tick: bool = False


def is_asleep(state: State) -> bool:
    """No core is busy, some task waits, and none of those that wait has a deadline."""
    waiting = [task for task in state.tasks.values() if task.phase == "wait"]
    return not state.busy() and bool(waiting) and not any(it.has_deadline() for it in waiting)


def is_finished(state: State) -> bool:
    """All tasks have ended."""
    return all(task.phase == "ended" for task in state.tasks.values())


def has_failed(state: State) -> bool:
    """Some task has failed."""
    return any(task.phase == "failed" for task in state.tasks.values())


ASLEEP = Goal("asleep", is_asleep)
FINISHED = Goal("finished", is_finished)
FAILED = Goal("failed", has_failed)
# What holds nowhere, with and without a word of the tick.
NEVER = Goal("tick < 0", lambda state: False, True)
NOWHERE = Goal("failed and not failed", lambda state: False)


def negated(goal: Goal) -> Goal:
    """Its opposite."""
    return Goal(f"not ({goal.words})", lambda state: not goal.holds(state), goal.on_tick)


def joined(word: str, one: Goal, other: Goal) -> Goal:
    """Both, or one of both."""
    both: Holds = lambda state: one.holds(state) and other.holds(state)
    some: Holds = lambda state: one.holds(state) or other.holds(state)
    words, on_tick = f"({one.words}) {word} ({other.words})", one.on_tick or other.on_tick
    return Goal(words, both if word == "and" else some, on_tick)


class Goals:
    """Makes goals of an application."""

    def __init__(self, dice: random.Random, application: Dict[str, Any]) -> None:
        self.dice, self.application = dice, application
        self.tasks: List[Dict[str, Any]] = application["tasks"]

    def goal(self) -> Goal:
        """One of a claim or two."""
        chance = self.dice.random()
        if chance < 0.15:
            return negated(self.claim())
        if chance < 0.45:
            return joined(self.dice.choice(["and", "and", "or"]), self.claim(), self.claim())
        return self.claim()

    def claim(self) -> Goal:
        """One that is joined of no others."""
        makers = [self._whole, self._phase, self._at, self._waits, self._place, self._note]
        makers += [self._register, self._registers, self._runs, self._tick]
        makers += [self._count] if self.application.get("queues") else []
        makers += [self._bits] if self.application.get("groups") else []
        return self.dice.choice(makers)()

    def _task(self) -> Dict[str, Any]:
        return self.dice.choice(self.tasks)

    def _compared(self) -> str:
        return self.dice.choice("==<>")

    def _whole(self) -> Goal:
        return self.dice.choice([ASLEEP, FINISHED, FAILED])

    def _phase(self) -> Goal:
        name, phase = self._task()["name"], self.dice.choice(PHASES)
        words = [f"phase {name} {phase}"]
        words += [f"{phase} {name}"] if phase in ("ended", "failed") else []
        return Goal(self.dice.choice(words), lambda state: state.tasks[name].phase == phase)

    def _at(self) -> Goal:
        task = self._task()
        name, pc = task["name"], self.dice.randrange(len(task["code"]))

        def holds(state: State) -> bool:
            return state.tasks[name].pc == pc and state.tasks[name].phase in GOING_ON

        return Goal(f"at {name} {pc}", holds)

    def _waits(self) -> Goal:
        name = self._task()["name"]
        return Goal(f"waits {name}", lambda state: state.tasks[name].phase == "wait")

    def _place(self) -> Goal:
        name = self._task()["name"]
        places = [("note 0", ("note", "0"))]
        for kind, words in PLACES.items():
            for it in self.application.get(kind, []):
                places += [(f"{word} {it['name']}", (seen, it["name"])) for word, seen in words]
        word, place = self.dice.choice(places)
        return Goal(f"waits {name} {word}", lambda state: state.tasks[name].place() == place)

    def _runs(self) -> Goal:
        name = self._task()["name"]
        return Goal(f"runs {name}", lambda state: name in state.cores)

    def _register(self) -> Goal:
        name, register = self._task()["name"], self.dice.choice([0, 0, 1])
        compared, number, mask = self._compared(), self.dice.randint(0, 3), self.dice.randint(1, 3)
        if self.dice.random() < 0.5:
            mask = (1 << 32) - 1
        masked = f" & {mask}" if mask < 4 else ""

        def holds(state: State) -> bool:
            return COMPARED[compared](state.tasks[name].registers[register] & mask, number)

        return Goal(f"reg {name} {register}{masked} {compared} {number}", holds)

    def _registers(self) -> Goal:
        one, other, compared = self._task()["name"], self._task()["name"], self._compared()

        def holds(state: State) -> bool:
            first, second = state.tasks[one].registers[0], state.tasks[other].registers[1]
            return COMPARED[compared](first, second)

        return Goal(f"reg {one} 0 {compared} reg {other} 1", holds)

    def _tick(self) -> Goal:
        compared = self._compared()
        number = min(self.application.get("tick", 0) + self.dice.randint(0, 6), LAST_TICK)

        def holds(state: State) -> bool:
            return COMPARED[compared](state.tick, number)

        return Goal(f"tick {compared} {number}", holds, True)

    def _note(self) -> Goal:
        name, number, mask = self._task()["name"], self.dice.randint(0, 3), self.dice.randint(1, 3)

        def holds(state: State) -> bool:
            return int(state.tasks[name].notes[0].split(":")[0]) & mask == number

        return Goal(f"note {name} 0 & {mask} = {number}", holds)

    def _count(self) -> Goal:
        name = self.dice.choice(self.application["queues"])["name"]
        compared, number = self._compared(), self.dice.randint(0, 2)

        def holds(state: State) -> bool:
            return COMPARED[compared](state.count(name), number)

        return Goal(f"count {name} {compared} {number}", holds)

    def _bits(self) -> Goal:
        name = self.dice.choice(self.application["groups"])["name"]
        mask, number = self.dice.randint(1, 7), self.dice.randint(0, 7)

        def holds(state: State) -> bool:
            return state.bits(name) & mask == number

        return Goal(f"bits {name} & {mask} = {number}", holds)
