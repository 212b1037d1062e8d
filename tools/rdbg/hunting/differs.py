"""Two orders that end otherwise: `forward`'s own, and one that is found.

Where `forward` comes to rest, so that no core is busy and no task has a deadline, an order differs
that comes to rest otherwise. Where it goes on for ever, tasks of it may be at rest, and an order
differs behind which one of them can't come to rest as it does there any more, whatever comes next.

Interrupts come to `forward`'s own order where nothing else is left to do, each as often as it may;
so that one came is no difference by itself."""
import itertools
import re
from typing import Iterator, List, Optional, Sequence, Set, Tuple

from rdbg.goals.conditions import Condition
from rdbg.goals.ways import To, latest
from rdbg.hunting.goals import STUCK
from rdbg.hunting.search import STOPS, Search, claims
from rdbg.hunting.stage import FORWARD, TICK, Find, Stage, choice
from rdbg.reaching.said import Answer, Bound, Kind
from rdbg.replies import Cores

# So many moves does `forward` make at the most, if nothing else is asked.
MOVES = 100
# A core is let so many moves ahead where an order leaves `forward`'s.
AHEAD = 4
# In so many ways interrupts come to `forward`'s own order at the most.
MOST_WAYS = 32
TIMES = re.compile(r"((?:wait:\w+:\w+|again):)(\d+)\b")
AWAKE = ("run", "again", "given")


def ways(stage: Stage) -> Iterator[Tuple[Tuple[str, ...], ...]]:
    """The ways in which interrupts may come at the end, each as often as it may: their calls."""
    counts = [range(it.times + 1) for it in stage.handlers]
    for chosen in itertools.islice(itertools.product(*counts), MOST_WAYS):
        yield tuple(it.lines for count, it in zip(chosen, stage.handlers) for _ in range(count))


def rests(stage: Stage, task: str) -> bool:
    """Whether a task has ended or failed, or waited without a deadline for the second half."""
    it = stage.target.look().tasks[task]
    if it.phase.word in ("ended", "failed"):
        return True
    if it.phase.word != "wait" or it.phase.deadline is not None:
        return False
    last = latest(stage.walk, [Condition("phase", task, phase=word) for word in AWAKE])
    return last is None or last <= stage.walk.place // 2


class Differs:
    """A search for orders that end otherwise than `own`, that of `forward`."""

    def __init__(self, search: Search) -> None:
        self.search, self.stage = search, search.stage
        self._moves = MOVES if search.bound.moves is None else search.bound.moves
        self.own = self._run(())
        tasks = () if STUCK.is_so(self.own.look) else self.stage.names.tasks
        # The tasks that are at rest at its end, where not all is; and what it comes to in each way
        # in which interrupts come there.
        self._resting = [it for it in tasks if rests(self.stage, it)]
        self._ends = [self._run(way) for way in ways(self.stage)]
        self._views = {it.views for it in self._ends}

    def _run(self, way: Sequence[Tuple[str, ...]]) -> Find:
        """What `forward` comes to, with these interrupts behind it, each where all rests again."""
        self.stage.at_boot()
        walk = self.stage.walk
        lines = self._to_rest()
        for calls in way:
            walk.target.tell_all(calls)
            lines += [*calls, *self._to_rest()]
        return self.stage.here(lines, (), walk.place)

    def _to_rest(self) -> List[str]:
        """Goes on as `forward` does until all rests, or so many moves are made: the lines of it."""
        walk, start = self.stage.walk, self.stage.walk.place
        if STUCK.is_so(walk.target.look()):
            return []
        met = To(STUCK, becoming=False).next(walk, self._moves)
        if met is None:
            walk.forward(self._moves - (walk.place - start))
        else:
            walk.reach(met)
        made = walk.place - start
        return [f"{FORWARD} {made}"] if made else []

    def find(self, wanted: int) -> List[Find]:
        """So many that differ, at the most; those with fewer surprises first."""
        if self._resting:
            return self._by_leaving(wanted)[:wanted]
        if not STUCK.is_so(self.own.look):
            why = f"the default run of {self._moves} moves does not come to rest (name a goal)"
            self.search.none.append(Answer(Kind.UNTOLD, why=why))
            return []
        found = self.search.different(wanted, lambda it: it.views, self._views)
        if len(found) < wanted:
            # (which bytes there are no goal can say)
            found += self._by_leaving(wanted - len(found))
        return sorted(found, key=lambda it: it.size)[:wanted]

    def _by_leaving(self, wanted: int) -> List[Find]:
        """Those that leave `forward`'s order at one place, those with fewer surprises first; the
        first that there is, where one is wanted."""
        found: List[Find] = []
        if self.search.bound.surprises == 0:
            return found
        for leaving in self._leavings():
            if self.search.is_stopped():
                break
            it = self._behind(leaving)
            if it is not None and it.views not in self._views:
                self._views.add(it.views)
                found.append(it)
            if len(found) == wanted == 1:
                return found
        if self._resting and not self.search.is_stopped():
            why = "only runs that leave the default run at one place were searched"
            self.search.none.append(Answer(Kind.UNTOLD, why=why))
        return sorted(found, key=lambda it: it.size)

    def _leavings(self) -> Iterator[List[str]]:
        """The orders that leave `forward`'s once, by their moves, at each place from boot up to
        where a state comes again."""
        seen: Set[Tuple[object, ...]] = set()
        before: List[str] = []
        while len(before) < self.own.place:
            self._stand(before)
            here = self.stage.here(before, (), len(before))
            cores = here.look.cores
            state = self._state(cores, here.views)
            if state in seen:
                return
            seen.add(state)
            next_core = choice(cores)
            for core, task in enumerate(cores.running):
                if task is not None and core != next_core:
                    for count in range(1, AHEAD + 1):
                        yield [*before, *[f"step {core}"] * count]
            if next_core is not None:
                yield [*before, TICK]
            yield from ([*before, *it.lines] for it in self.stage.handlers)
            before.append(TICK if next_core is None else f"step {next_core}")

    def _stand(self, lines: Sequence[str]) -> bool:
        """Goes to where these moves lead, if all of them can be made."""
        return not any(it.startswith("no ") for it in self.stage.at_boot().tell_all(lines))

    def _state(self, cores: Cores, views: Sequence[str]) -> Tuple[object, ...]:
        """What is the same where all goes on alike, whatever the tick."""

        def relative(found: "re.Match[str]") -> str:
            return f"{found[1]}+{max(0, int(found[2]) - cores.tick)}"

        tick, left = cores.tick % len(cores.running), (TIMES.sub(relative, it) for it in views)
        return (cores.running, cores.ready, tick, choice(cores), *left)

    def _behind(self, leaving: Sequence[str]) -> Optional[Find]:
        """What differs behind an order that has left `forward`'s."""
        if not self._stand(leaving):
            return None
        most, moves = self.search.bound.surprises, self.search.bound.moves
        left = None if moves is None else max(0, moves - len(leaving))
        bound = Bound(left, None if most is None else most - 1)
        if not self._resting:
            return self.search.ask(self.search.goal.asked, bound, leaving, keeps=False)
        for name in self._resting:
            ends = {claims(it.look, self.stage.application)[name] for it in self._ends}
            goal = " or ".join(f"( {it} )" for it in sorted(ends))
            # (of whatever length)
            answer = self.search.answer(goal, Bound(), leaving)
            if answer.why in STOPS:
                self.search.none.append(answer)
                return None
            if answer.kind is Kind.NONE:
                found = self.search.ask(self._at_rest(name), bound, leaving, keeps=False)
                return (found or self.stage.find(leaving))._replace(tasks=(name,))
        return None

    def _at_rest(self, name: str) -> str:
        """That a task has ended or failed, or waits in a call without a deadline."""
        task = self.stage.application.task(name)
        assert task is not None
        endless = (at for at, it in enumerate(task.code) if it.words()[-1] == "max")
        waiting = (f"waits {name} and at {name} {at}" for at in endless)
        return " or ".join([f"ended {name}", f"failed {name}", *waiting])
