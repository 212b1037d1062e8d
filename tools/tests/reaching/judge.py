"""What rdreach says, held against the enumeration.

Where it has `--exact` it is asked three times. With that it has to keep as many states as there are
places. Without it, it has to say the same with no more states. And of orders of any length it is
asked where an enumeration that takes places for one by the laws of the turn, of the clock and of
what nobody reads comes to an end: it has to keep as many states, and to say `never` where the goal
holds at none of these places."""
import json
import pathlib
from typing import Dict, Iterator, List, NamedTuple, Optional, Sequence, Tuple

from tests.reaching.clock import LAST_TICK, Rules, Schedule
from tests.reaching.enumeration import Enumeration, Place
from tests.reaching.fewest import Cost, Levels, counting
from tests.reaching.goals import ASLEEP, FAILED, FINISHED, NEVER, NOWHERE, Goal
from tests.reaching.machine import Alike, Answered, Machine, lines_taken
from tests.reaching.questions import EXACT, FROM, SURPRISES, Question, words_of
from tests.reaching.saying import FOUND, Asked, Said, Tally, said
from tests.reaching.states import State, by_clock, by_laws
from tests.reaching.unread import Unread, unread, without

# No enumeration goes through so many moves, and no search that ends as it does makes so many ticks.
MANY = 1_000_000
# So deep are places by the laws, at the most, that are gone through to the end.
DEEP = 200


class Most(NamedTuple):
    """How much is gone through at the most: moves and places, and places by the laws."""

    moves: int
    places: int
    classes: int


class Judge:
    """Judges what rdreach says of one application, of orders of one schedule."""

    def __init__(
        self, machine: Machine, schedule: Schedule, asked: Asked, words: Sequence[str] = ()
    ) -> None:
        self.machine, self.schedule, self.rdreach = machine, schedule, asked.rdreach
        # the rules by which an order is found: with the fewest surprises, if it tells of them
        self.rules = counting(schedule) if SURPRISES in asked.options else Rules(schedule)
        self.words = [str(machine.file), *words]
        # how it is asked to tell states apart exactly, if it takes them for one otherwise
        self.exact = [EXACT] if EXACT in asked.options else []
        self.tally = Tally()
        self._replayed: Dict[Sequence[str], State] = {}
        self._application = json.loads(machine.file.read_text())
        # the places by the laws, by what nobody reads
        self._counted: Dict[Unread, Optional[Enumeration]] = {}

    def faults(self, goals: Sequence[Goal], most: Most) -> Iterator[str]:
        """What is wrong with what it says of each goal, of orders of the most moves, and of fewer
        where they lead to more than the most places; and of orders of any length, where these lead
        to no more than so many by the laws."""
        there = Enumeration(self.machine, Rules(self.schedule), most.moves, most.places)
        self.tally.places += len(there.places)
        asked = (NEVER, NOWHERE, *goals)
        come = [goal for goal in asked if there.fewest_moves(goal.holds) is not None]
        levels = Levels(self.machine, self.rules, there.moves)
        costs = dict(zip(come, levels.fewest(come)))
        for goal in asked:
            classes = self._classes(goal, most.classes)
            yield from self._of_some_moves(goal, there, costs.get(goal), classes)
        if there.is_all:
            self.tally.never += 1
            words, heard = self._ask(NEVER, "--moves", str(MANY), *self.exact)
            wanted = (self._never(), 0, len(there.places))
            if (heard.answer, heard.status, heard.states) != wanted:
                yield f"{words}: {wanted} is due: {heard}"
        for goal in (NOWHERE, *goals):
            classes = self._classes(goal, most.classes)
            if classes is not None and not goal.on_tick:
                yield from self._of_any_length(goal, classes)
        every = [classes for classes in self._counted.values() if classes is not None]
        self.tally.closed += len(every)
        self.tally.closed_places += sum(len(classes.places) for classes in every)

    def _unread(self, goal: Goal) -> Unread:
        """What nobody reads where this goal is looked for."""
        return unread(self._application, goal.words)

    def _classes(self, goal: Goal, places: int) -> Optional[Enumeration]:
        """The places by the laws, if there are no more than so many. Where surprises are counted,
        which hang on the turn, that tells them apart, too. (At the last tick there is another law.)
        """
        if not self.exact:
            return None
        hidden = self._unread(goal)
        if hidden not in self._counted:
            is_what = by_laws if self.schedule.surprises is None else by_clock
            alike = Alike(self.machine, lambda state: without(hidden, is_what(state)))
            classes = Enumeration(alike, Rules(self.schedule), DEEP, places)
            is_all = classes.is_all and not self._come_to_last(classes)
            self._counted[hidden] = classes if is_all else None
        return self._counted[hidden]

    def _ask(self, goal: Goal, *options: str) -> Tuple[str, Said]:
        """What it is asked, in short, and what it says."""
        words = [*self.words, goal.words, *options]
        return " ".join(words[1:]), said(self.rdreach, words, self.machine.start)

    def _of_some_moves(
        self, goal: Goal, there: Enumeration, fewest: Optional[Cost], classes: Optional[Enumeration]
    ) -> Iterator[str]:
        """What is wrong with what it says of a goal, of the orders that were gone through."""
        self.tally.found += int(fewest is not None)
        self.tally.none += int(fewest is None)
        most = ["--moves", str(there.moves)]
        words, heard = self._ask(goal, *most, *self.exact)
        for fault in self._faults(heard, there, goal, fewest):
            yield f"{words}: {fault}: {heard}"
        if self.exact:
            words, heard = self._ask(goal, *most)
            for fault in self._faults_by_laws(heard, there, goal, fewest, classes):
                yield f"{words}: {fault}: {heard}"

    def _of_any_length(self, goal: Goal, classes: Enumeration) -> Iterator[str]:
        """What is wrong with what it says of orders of any length, which lead to these places."""
        is_late = self.machine.states[0].tick > LAST_TICK - MANY
        words, heard = self._ask(goal)
        comes = classes.fewest_moves(goal.holds) is not None
        self.tally.comes += int(comes)
        self.tally.never_comes += int(not comes)
        if is_late and heard.is_full():
            return
        never = (self._never(), 0, len(classes.places), classes.made)
        if comes:
            for fault in self._faults_of_find(heard, goal, self._fewest(goal), not is_late):
                yield f"{words}: {fault}: {heard}"
        elif (heard.answer, heard.status, heard.states, heard.moves) != never:
            yield f"{words}: {never} is due: {heard}"

    def _fewest(self, goal: Goal) -> Cost:
        """With how few surprises and moves a goal comes, which does, by orders of any length."""
        hidden = self._unread(goal)
        alike = Alike(self.machine, lambda state: without(hidden, by_clock(state)))
        return Levels(alike, self.rules, None).fewest([goal])[0]

    def _come_to_last(self, there: Enumeration) -> bool:
        """Whether an order comes to the last tick."""
        return any(self.machine.states[number].tick == LAST_TICK for number, _ in there.places)

    def _never(self) -> str:
        surprises = self.schedule.surprises
        return "never" if surprises is None else f"not within {surprises} surprises"

    def _not_within(self, moves: int) -> str:
        surprises = self.schedule.surprises
        return f"not within {moves} moves" + (
            "" if surprises is None else f" and {surprises} surprises"
        )

    def _faults(
        self, heard: Said, there: Enumeration, goal: Goal, fewest: Optional[Cost]
    ) -> Iterator[str]:
        """Where states are told apart exactly."""
        if fewest is not None:
            yield from self._faults_of_find(heard, goal, fewest)
        elif not self._is_none(heard, there, there.is_all):
            yield "there is none"
        elif heard.states != len(there.places):
            yield f"there are {len(there.places)} states"

    def _faults_by_laws(
        self,
        heard: Said,
        there: Enumeration,
        goal: Goal,
        fewest: Optional[Cost],
        classes: Optional[Enumeration],
    ) -> Iterator[str]:
        """Where those are taken for one which go on alike, but for the tick, where the goal hangs
        on it. A search that doesn't see the tick ends where that comes to the last there is."""
        may_be_full = self._come_to_last(there)
        if goal.on_tick or self.machine.states[0].tick == LAST_TICK:
            yield from self._faults(heard, there, goal, fewest)
        elif may_be_full and heard.is_full():
            moves = there.fewest_moves(goal.holds)
            if heard.depth() >= (there.moves + 1 if moves is None else moves):
                yield f"there is one of {moves} moves, of {there.moves} that were gone through"
        elif fewest is not None:
            yield from self._faults_of_find(heard, goal, fewest, not may_be_full)
        else:
            comes_never = classes is not None and classes.fewest_moves(goal.holds) is None
            if not self._is_none(heard, there, there.is_all or comes_never or may_be_full):
                yield "there is none"
            elif heard.states is None or heard.states > len(there.places):
                yield f"there are {len(there.places)} states at the most"

    def _is_none(self, heard: Said, there: Enumeration, may_be_never: bool) -> bool:
        """Whether it says that there is none of the orders that were gone through, or none at
        all."""
        is_never = may_be_never and heard.answer == self._never()
        is_due = is_never or heard.answer == self._not_within(there.moves)
        return is_due and heard.status == 0

    def _faults_of_find(
        self, heard: Said, goal: Goal, fewest: Cost, is_fewest: bool = True
    ) -> Iterator[str]:
        """Where there is an order. That which it says has to have the fewest surprises and moves,
        if no end of room came in between."""
        if (heard.answer, heard.status) != (FOUND, 1):
            yield f"there is one with {fewest[0]} surprises and {fewest[1]} moves"
            return
        costs = []
        for (place, clock), moves in self.readings(heard.order):
            if goal.holds(self.machine.states[place]):
                costs.append((clock.spent, moves))
        if not costs or (is_fewest and fewest not in costs):
            yield f"one has {fewest[0]} surprises and {fewest[1]} moves, and it has {costs}"
        elif not goal.holds(self.replayed_at(heard.order)):
            yield "the goal doesn't hold behind it"

    def readings(self, order: Sequence[str]) -> Iterator[Tuple[Place, int]]:
        """Where an order leads, with its moves, in each way in which its lines are moves that may
        come where they stand: two interrupts may make the same calls."""
        rules = self.rules
        start = (0, rules.at_start(self.machine.states[0]))
        left: List[Tuple[int, Place, int]] = [(0, start, 0)]
        while left:
            at, place, moves = left.pop()
            if at == len(order):
                yield place, moves
                continue
            number, clock = place
            state = self.machine.states[number]
            for choice in rules.choices(state, clock):
                lines = rules.lines(choice)
                if tuple(order[at : at + len(lines)]) != lines:
                    continue
                later = self.machine.after(number, [lines])[0]
                after = rules.after(state, clock, choice, self.machine.states[later])
                left.append((at + len(lines), (later, after), moves + 1))

    def replayed_at(self, order: Sequence[str]) -> State:
        """Where the lines of an order lead in a run of their own."""
        if order not in self._replayed:
            lines = [*self.machine.start, *order]
            with Machine(self.machine.program, self.machine.file, lines) as run:
                self._replayed[order] = run.states[0]
        return self._replayed[order]


Judged = Tuple[List[str], Tally]


def judge(question: Question, folder: pathlib.Path, asked: Asked, most: Most) -> Judged:
    """What is wrong with what rdreach says of a question, whose files are put into a folder."""
    file, commands = folder / "application.json", folder / "start.commands"
    file.write_text(question.text)
    start = lines_taken(asked.rdbg, file, question.start)
    commands.write_text("".join(f"{line}\n" for line in start))
    words = words_of(question.schedule)
    words += [FROM, str(commands)] if start else []
    with Machine(asked.rdbg, file, start) as machine:
        judged = Judge(machine, question.schedule, asked, words)
        return all_faults(judged, question.goals, most)


def judge_file(file: pathlib.Path, asked: Asked, most: Most) -> Judged:
    """What is wrong with what it says of an application, of orders without a pace or interrupts."""
    with Machine(asked.rdbg, file) as machine:
        judged = Judge(machine, Schedule(), asked)
        return all_faults(judged, (ASLEEP, FINISHED, FAILED), most)


def all_faults(judged: Judge, goals: Sequence[Goal], most: Most) -> Judged:
    """All that is wrong, and what was gone through."""
    try:
        return list(judged.faults(goals, most)), judged.tally
    except Answered as error:
        return [str(error)], judged.tally
