"""Orders of a hunt, made again in a program of its own and looked at, and what in one is a surprise.

A surprise is a move that `forward` wouldn't make next, where the moves of one core in a row, all
ahead of it, count as one; an interrupt is one, whatever it calls."""
import dataclasses
from typing import Iterator, List, NamedTuple, Optional, Sequence, Tuple

from rdbg import commands
from rdbg.driving.interrupt import Interrupt
from rdbg.driving.opening import begin
from rdbg.driving.parts import look_through
from rdbg.driving.target import Limits, Target, read
from rdbg.driving.walk import Walk
from rdbg.failure import Failure
from rdbg.files.source import Source
from rdbg.hunting.goals import Goal
from rdbg.looks import Look, Names
from rdbg.reaching.handlers import WORD, Handler, coming
from rdbg.replies import Cores
from rdbg.tracing.table import Table, rows
from rdbg.wording import counted

TICK, FORWARD = "tick", "forward"
# So many rows of a table are shown at the most.
MOST_ROWS = 60
# So many places of a history are left before a new program is begun.
LEFT = 100_000


@dataclasses.dataclass
class Run:
    """Moves in a row that are one to whoever reads of them: their line, or the word for those of
    `forward`, how many they are, and behind how many they come; the calls of an interrupt are one,
    each a move of the program."""

    line: str
    count: int
    place: int
    handler: Optional[Handler] = None

    def told(self) -> str:
        """The surprise that it is; empty where it is none."""
        if self.line == FORWARD:
            return ""
        if self.handler:
            return f"at {self.place}: an interrupt occurs: {self.handler.calls}"
        if self.line == TICK:
            return f"at {self.place}: an early tick"
        moves = counted(self.count, "move")
        return f"at {self.place}: core {self.line.split()[1]} is {moves} ahead"

    def lines(self) -> List[str]:
        """The lines that make it."""
        if self.handler:
            return [*self.handler.lines]
        return [f"{FORWARD} {self.count}"] if self.line == FORWARD else [self.line] * self.count


def choice(cores: Cores) -> Optional[int]:
    """The core that `forward` would move next, the first busy one from the turn on, if any."""
    busy = (core for core, task in enumerate(cores.running) if task and core >= cores.turn)
    return next(busy, None)


def runs_of(lines: Sequence[str], looks: Sequence[Cores], handlers: Sequence[Handler]) -> List[Run]:
    """The runs that the moves of an order make, with the cores before each of them."""
    found: List[Run] = []
    at = 0
    while at < len(lines):
        line = lines[at]
        if line.split()[0] == WORD:
            it = coming(handlers, lines, at) or Handler(line[len(WORD) + 1 :])
            run = Run(line, len(it.lines), at, it)
        else:
            core = choice(looks[at])
            expected = TICK if core is None else f"step {core}"
            run = Run(FORWARD if line == expected else line, 1, at)
        at += run.count
        if found and found[-1].line == run.line and run.line != TICK and not run.handler:
            found[-1].count += 1
        else:
            found.append(run)
    return found


class Find(NamedTuple):
    """An order that is made: its lines from boot on, its surprises as they are told, and how many
    moves it has, an interrupt as one; what there is at its end, as a look and as the program's
    views; and the tasks that end otherwise than in another order, where not all is held against
    that."""

    lines: Tuple[str, ...]
    told: Tuple[str, ...]
    length: int
    look: Look
    views: Tuple[str, ...]
    tasks: Tuple[str, ...] = ()

    @property
    def size(self) -> Tuple[int, int]:
        """How many surprises it has, and how many moves."""
        return len(self.told), self.length

    @property
    def place(self) -> int:
        """How many moves the program has made at its end, each call of an interrupt as one."""
        return self.look.place


class Stage:
    """Makes orders of an application, in which these handlers may come."""

    def __init__(self, source: Source, handlers: Sequence[Handler]) -> None:
        assert source.application is not None
        self.source, self.handlers, self.application = source, handlers, source.application
        self.names = Names.of(self.application)
        self._walk: Optional[Walk] = None

    def close(self) -> None:
        """Ends the program."""
        if self._walk is not None:
            self._walk.target.session.kill()
            self._walk = None

    @property
    def walk(self) -> Walk:
        """The program, as it is."""
        if self._walk is None:
            limits = Limits(commands.MOST_COUNT, commands.MOST_COUNT)
            self._walk = Walk(begin(self.source, limits), Interrupt())
        return self._walk

    @property
    def target(self) -> Target:
        """What is told of it."""
        return self.walk.target

    def at_boot(self) -> Target:
        """The program at boot."""
        if self._walk is not None and not self.target.can_afford(LEFT):
            self.close()
        self.walk.goto(0)
        return self.target

    def find(self, moves: Sequence[str]) -> Find:
        """The order of these moves. Raises `Failure` where it can't be made."""
        answers = self.at_boot().tell_all([it for move in moves for it in ("show cores", move)])
        if any(it.startswith("no ") for it in answers):
            raise Failure("cannot replay the run that was found")
        looks = [it for it in map(read, answers[::2]) if isinstance(it, Cores)]
        runs = runs_of(moves, looks, self.handlers)
        told = [it.told() for it in runs if it.told()]
        length = sum(1 if it.handler else it.count for it in runs)
        return self.here([line for it in runs for line in it.lines()], told, length)

    def here(self, lines: Sequence[str], told: Sequence[str], length: int) -> Find:
        """An order of these lines, which are done, with what there is."""
        views = self.target.tell_all(self.names.lines())
        look = Look.of(self.walk.place, [read(view) for view in views])
        return Find((*lines,), (*told,), length, look, (*views[1:],))

    def table(self, find: Find, goal: Goal) -> Iterator[str]:
        """Who did what in an order, as `rdbg trace` says it: the head and the rows of a table, if it
        has moves. Raises `Failure` where it doesn't come to its goal."""
        self.at_boot().tell_all(find.lines)
        done, look = self.walk.place, self.target.look()
        if done != find.place or not goal.is_so(look):
            raise Failure("the run that was found does not reach the goal when it is replayed")
        if not done:
            return
        table = Table.of(self.application, done, look.cores.tick)
        yield table.head()
        part = look_through(self.target, 1, min(done, MOST_ROWS))
        yield from (table.row(row.cells) for row in rows(part.moves))
        if done > MOST_ROWS:
            yield f"(and {done - MOST_ROWS} more)"
