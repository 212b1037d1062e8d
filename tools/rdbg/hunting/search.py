"""What is asked of the program that searches, one question after the other, for what a hunt wants.

A find is the answer to one question. That it is the smallest, has the fewest moves of all, or that
no other ends otherwise, are further questions, of which each answer is said of every order in a
bound."""
import dataclasses
import heapq
import re
from typing import Callable, Dict, FrozenSet, Iterator, List, Optional, Sequence, Set, Tuple

from rdbg import kinds, replies
from rdbg.application import Application, Task
from rdbg.goals.conditions import AMOUNTS
from rdbg.hunting.goals import Goal
from rdbg.hunting.stage import Find, Stage
from rdbg.instructions import form_of
from rdbg.looks import Look
from rdbg.reaching import said
from rdbg.reaching.asking import CTRL_C, REACH, TIME, Asker, NoQuestion, Question
from rdbg.reaching.handlers import left
from rdbg.reaching.said import Answer, Bound, Kind

# Why a goal isn't asked for any more, and why nothing is.
TOO_LONG = "the goal is too long"
STOPS = (TIME, CTRL_C)
Cell = FrozenSet[str]
End = Tuple[str, ...]
# A find that waits to be told, behind those that have fewer surprises, fewer moves, or came first;
# and the claims that its end denies.
Waiting = Tuple[Tuple[int, int], int, Find, Cell]
REGISTER = re.compile(r"\br([0-7])\b")
# The register that each call answers in, and the symbol of an entry in forms of instructions.
ANSWER, ENTRY = 0, "I"


def task_claims(it: replies.Task, task: Task, has_notes: bool) -> Iterator[str]:
    """What is so of a task."""
    yield f"phase {it.name} {it.phase.word}"
    yield f"pc {it.name} = {it.pc}"
    named = (int(it) for line in task.code for it in REGISTER.findall(line.written))
    for register in sorted({ANSWER, *named}):
        yield f"reg {it.name} {register} = {it.registers[register]}"
    for entry, note in enumerate(it.notes if has_notes else ()):
        yield f"note {it.name} {entry} = {note.value}"


def claims(look: Look, application: Application) -> Dict[str, str]:
    """What is so where an order ends, as far as goals can say it, by task and object: one that ends
    otherwise denies one of these."""
    forms = (form_of(it.words()[0]) for task in application.tasks for it in task.code)
    has_notes = any(form is not None and ENTRY in form.symbols for form in forms)
    found: Dict[str, str] = {}
    for task in application.tasks:
        found[task.name] = " and ".join(task_claims(look.tasks[task.name], task, has_notes))
    # (goals can't speak of a stream buffer and a message buffer that have one name)
    buffers = [name for kind, name in look.objects if kind in ("stream", "message")]
    for (kind, name), it in look.objects.items():
        if kind not in ("stream", "message") or buffers.count(name) < 2:
            amount = kinds.OF_WORD[kind].amount
            if amount:
                found[f"{kind} {name}"] = f"{amount} {name} = {AMOUNTS[amount](it, 0)}"
    return found


@dataclasses.dataclass
class Search:
    """A search for a goal in a bound, by a question of the program's, with what it was answered
    where nothing was found. Where it is exhaustive, surprises aren't counted."""

    asker: Asker
    stage: Stage
    goal: Goal
    bound: Bound
    question: Question = REACH
    is_exhaustive: bool = False
    none: List[Answer] = dataclasses.field(default_factory=list)
    # What was gone through for what was found first.
    counts: Tuple[int, int, int] = (0, 0, 0)
    # Whether fewer finds that end otherwise were found than were wanted.
    is_all: bool = False

    def is_stopped(self) -> bool:
        """Whether the time is up, or Ctrl-C came."""
        return any(it.why in STOPS for it in self.none)

    def answer(self, goal: str, bound: Bound, begin: Sequence[str]) -> Answer:
        """What is answered of a goal behind these lines, with the interrupts that are left there."""
        more = [it.line() for it in left(self.stage.handlers, begin)]
        return self.asker.ask(goal, bound, begin, more, self.question)

    def ask(
        self,
        goal: str,
        bound: Optional[Bound] = None,
        begin: Sequence[str] = (),
        keeps: bool = True,
    ) -> Optional[Find]:
        """The order that is found for a goal, made again. Where there is none its answer is kept,
        without `keeps` only one that leaves it open."""
        answer = self.answer(goal, self.bound if bound is None else bound, begin)
        if answer.kind is Kind.REACHED:
            self.counts = self.counts if any(self.counts) else answer.counts
            return self.stage.find(answer.order)
        if keeps or answer.kind is Kind.UNTOLD:
            self.none.append(answer)
        return None

    def left(self) -> Answer:
        """What is said of the orders that weren't found."""
        return said.together(self.none) if self.none else Answer(Kind.UNTOLD)

    def smallest(self) -> List[Find]:
        """The find with the fewest surprises, and of those the fewest moves: none has fewer."""
        found = self.ask(self.goal.asked)
        while found is not None and not self.is_stopped():
            surprises, moves = found.size
            tighter = [Bound(moves - 1, surprises)] if moves else []
            tighter += [Bound(self.bound.moves, surprises - 1)] if surprises else []
            fewer = [it for it in (self.ask(self.goal.asked, bound) for bound in tighter) if it]
            if not fewer:
                break
            self.none = []
            found = min(fewer, key=lambda it: it.size)
        return [found] if found else []

    def shortest(self, goal: str) -> Optional[Find]:
        """The find with the fewest moves, however many surprises."""
        found = self.ask(goal)
        low, untold = 0, self.untold()
        while found is not None and low < found.length and self.untold() == untold:
            middle = (low + found.length - 1) // 2
            fewer = self.ask(goal, Bound(middle), keeps=False)
            found, low = (found, middle + 1) if fewer is None else (fewer, low)
        return found

    def untold(self) -> int:
        """How many questions couldn't be answered."""
        return sum(it.kind is Kind.UNTOLD for it in self.none)

    def different(self, wanted: int, end: Callable[[Find], End], ends: Set[End]) -> List[Find]:
        """Finds with other ends than these, so many at the most, the smaller ones first. The ends
        are gone through in cells, those in which some claims are denied: where one is found, all
        others lie where one of its own claims is denied, too."""
        finds: List[Find] = []
        waiting: List[Waiting] = []
        asked: Set[Cell] = set()

        def look(cell: Cell) -> None:
            if cell in asked or self.is_stopped():
                return
            asked.add(cell)
            found = self._in_cell(cell)
            if found is not None:
                surprises, moves = found.size
                size = (0 if self.is_exhaustive else surprises), moves
                heapq.heappush(waiting, (size, len(asked), found, cell))

        look(frozenset())
        while waiting and len(finds) < wanted:
            _, _, found, cell = heapq.heappop(waiting)
            if end(found) not in ends:
                ends.add(end(found))
                finds.append(found)
            if len(finds) < wanted:
                for claim in claims(found.look, self.stage.application).values():
                    look(cell | {claim})
        self.is_all = len(finds) < wanted
        return finds

    def _in_cell(self, cell: Cell) -> Optional[Find]:
        """What is found in a cell."""
        denied = (f"not ( {it} )" for it in sorted(cell))
        goal = " and ".join([f"( {self.goal.asked} )", *denied]) if cell else self.goal.asked
        try:
            return self.shortest(goal) if self.is_exhaustive else self.ask(goal)
        except NoQuestion as refused:
            if TOO_LONG not in str(refused) or not cell:
                raise
            self.none.append(
                Answer(
                    Kind.UNTOLD,
                    why="the goal that excludes the end states found so far is too long",
                )
            )
            return None

    def all(self, wanted: int) -> List[Find]:
        """So many finds that end otherwise, as far as goals can tell it."""

        def end(found: Find) -> End:
            return tuple(claims(found.look, self.stage.application).values())

        return self.different(wanted, end, set())
