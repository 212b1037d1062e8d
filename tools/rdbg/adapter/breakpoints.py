"""Breakpoints of an editor: at lines, by name or condition, on variables, and on failures."""
import dataclasses
import re
from typing import Callable, Dict, List, Sequence, Tuple

from rdbg import commands, instructions
from rdbg.adapter import names
from rdbg.adapter.losing import Loses
from rdbg.adapter.messages import Arguments, Values, Wrong
from rdbg.adapter.sources import Spot, Text
from rdbg.adapter.stops import Amount, Becomes, Content, Counted, Seat, Stop, Where, becoming
from rdbg.driving.target import Unable
from rdbg.failure import turned
from rdbg.goals import reading, words as goal_words
from rdbg.goals.changes import Changes
from rdbg.goals.claims import Goal
from rdbg.goals.computed import COMPARING
from rdbg.goals.conditions import Condition
from rdbg.goals.reading import NoGoal
from rdbg.goals.ways import To
from rdbg.reaching.asking import LOST
from rdbg.replies import Cores, Refused
from rdbg.shell import seek
from rdbg.shell.hints import refusal
from rdbg.shell.shell import Shell

# The failures that can stop a run, each with its label and whether it is on by default.
FAILURES: Dict[str, Tuple[str, bool]] = {
    "failed": ("failed: a task fails", True),
    "asleep": ("asleep: all remaining tasks wait, and none has a deadline", True),
}
# Comparisons of a hit count.
HITS: Dict[str, Callable[[int, int], bool]] = {
    **COMPARING,
    "%": lambda hits, number: hits % number == 0,
}
HIT = re.compile(r"\s*(==?|>=?|<=?|%)?\s*([0-9]{1,7})\s*")
# The kinds of breakpoints; also the reason of a stop at one.
LINE, NAME, DATA = "breakpoint", "function breakpoint", "data breakpoint"
# The most breakpoints of one kind.
MOST = 256


@dataclasses.dataclass(frozen=True)
class Breakpoint:
    """A breakpoint: its number, its kind, its stops, its description for the editor, and the
    instruction of each stop that is at one. It has no stops if it could not be set, and does not
    stop a run if it has a text to `log`."""

    number: int
    reason: str
    stops: Tuple[Stop, ...]
    value: Values
    spots: Tuple[Spot, ...] = ()
    log: str = ""


def goal_in(shell: Shell, text: str) -> Goal:
    """Parses a goal. Raises `Wrong` if the text is not a goal, or names something unknown."""
    try:
        with turned(Wrong, NoGoal, Unable):
            goal = goal_words.read(text.split(), shell.scope())
            seek.check_goal(shell, goal)
    except Refused as refused:
        raise wrong_line(shell, shell.asked, refused) from None
    return goal


def wrong_line(shell: Shell, line: str, refused: Refused) -> Wrong:
    """Explains why rdbg refused a line."""
    why = refusal(shell, line, refused)
    return Wrong(f"rdbg replied no {refused}" + (f": {why}" if why else ""))


def hits_of(text: str) -> Callable[[int], bool]:
    """Parses a hit condition."""
    found = HIT.fullmatch(text)
    if not found or not int(found[2]):
        raise Wrong(f"'{text}' is not a hit count: expected 3, > 3, or % 3 for every third hit")
    compare, number = HITS[found[1] or "="], int(found[2])
    return lambda hits: compare(hits, number)


def limited(shell: Shell, stop: Stop, given: Arguments) -> Stop:
    """Adds the condition and the hit count of a request to a stop."""
    condition, hits = given.text("condition", "").strip(), given.text("hitCondition", "").strip()
    if isinstance(stop, Loses) and (condition or hits):
        raise Wrong(
            f"{stop.text} can be hit only once: it takes neither a condition nor a hit count"
        )
    if condition:
        stop = Where(stop, goal_in(shell, condition))
    return Counted(stop, hits, hits_of(hits)) if hits else stop


def arrival(spot: Spot) -> Stop:
    """Returns the stop where a task reaches an instruction."""
    condition = Condition("pc", spot.task, number=spot.pc)
    return Becomes(condition, f"{spot.task} reaches {spot.pc}", is_at_start=True)


def named(shell: Shell, text: Text, name: str) -> List[Stop]:
    """Returns the stops of a name: a goal, `lost GOAL`, an instruction, or a FreeRTOS call."""
    words = name.replace(":", " ").split()
    if not words:
        raise Wrong(
            "expected a condition such as count jobs > 0, a call such as xQueueSend, or worker 2"
        )
    if words[0] in reading.OF_MOVES:
        return [of_move(shell, words)]
    if words[0] == LOST.word and LOST.word not in shell.target.names.tasks:
        goal = " ".join(words[1:]) or shell.goal
        if not goal:
            raise Wrong(shell.in_its_names(LOST.lacks_goal("worker")))
        return [Loses(shell, goal_in(shell, goal))]
    if words[0] in shell.target.names.tasks and len(words) <= 2:
        number = words[1] if words[1:] else "0"
        spot = text.of(words[0], int(number)) if commands.is_number(number) else None
        if spot is None:
            raise Wrong(f"{words[0]} has no instruction {number}")
        return [arrival(spot)]
    calls = [spot for spot in text.spots if is_call(spot, words)]
    return [arrival(spot) for spot in calls] or [becoming(goal_in(shell, name))]


def is_call(spot: Spot, words: Sequence[str]) -> bool:
    """Whether an instruction begins with these words, or is the FreeRTOS call of that name."""
    there = spot.instruction.words()
    form = instructions.form_of(there[0])
    called = form.freertos if form else ()
    return there[: len(words)] == list(words) or (words[0] in called and len(words) == 1)


def of_move(shell: Shell, words: Sequence[str]) -> Stop:
    """Returns the stop for a property of moves, such as `changes jobs`. Raises `Wrong`."""
    with turned(Wrong, NoGoal):
        way, at = goal_words.of_move(words, shell.target, shell.scope())
    if at < len(words):
        raise Wrong(f"unexpected '{' '.join(words[at:])}' after '{' '.join(words[:at])}'")
    if isinstance(way, Changes):
        return Content(shell.target, (way.kind, way.name))
    assert isinstance(way, To)
    return becoming(way.goal, way.text)


class Breakpoints:
    """All breakpoints. An editor always sets all of one kind at once."""

    def __init__(self) -> None:
        self._count = 0
        self._of: Dict[str, List[Breakpoint]] = {}
        # The last requests with their numbers, to set them again after a reload.
        self._asked: Dict[str, List[Tuple[int, Arguments]]] = {}
        self.failures = [name for name, (_, is_on) in FAILURES.items() if is_on]

    def all(self) -> List[Breakpoint]:
        """Returns those that could be set."""
        return [it for group in self._of.values() for it in group if it.stops]

    def logs(self) -> List[Breakpoint]:
        """Returns the log points."""
        return [it for it in self.all() if it.log]

    def put(self, kind: str, shell: Shell, text: Text, asked: Sequence[Arguments]) -> List[Values]:
        """Sets all of one kind."""
        if len(asked) > MOST:
            raise Wrong(f"{len(asked)} breakpoints are too many: the limit is {MOST}")
        self._asked[kind] = list(enumerate(asked, self._count + 1))
        self._count += len(asked)
        return self._made(kind, shell, text)

    def again(self, shell: Shell, text: Text) -> List[Values]:
        """Sets all of them again for a new target and source, with the same numbers."""
        return [value for kind in self._asked for value in self._made(kind, shell, text)]

    def _made(self, kind: str, shell: Shell, text: Text) -> List[Values]:
        found: List[Breakpoint] = []
        for number, asked in self._asked[kind]:
            try:
                found.append(MAKERS[kind](shell, text, asked, number))
            except Wrong as wrong:
                value = {"id": number, "verified": False, "message": str(wrong)}
                found.append(Breakpoint(number, kind, (), value))
        self._of[kind] = found
        return [it.value for it in found]

    def put_lines(self, shell: Shell, text: Text, given: Arguments) -> List[Values]:
        """Sets the breakpoints at lines of a source."""
        asked = given.parts("breakpoints")
        if not given.has("breakpoints"):
            asked = [Arguments({"line": it}, "setBreakpoints.lines") for it in given.all("lines")]
        if text.is_named(given.part("source")):
            return self.put(LINE, shell, text, asked)
        found = "no model is loaded"
        if text.source is not None:
            found = f"this file is not the model that is being debugged, {text.source.name}"
        return [{"verified": False, "message": found} for _ in asked]


def told(number: int, said: str) -> Values:
    """Returns the description of a breakpoint that was set."""
    return {"id": number, "verified": True, "message": said[:1_000]}


def at_line(shell: Shell, text: Text, given: Arguments, number: int) -> Breakpoint:
    """Makes a breakpoint at a line, and at a column if one is given."""
    log = given.text("logMessage", "").strip()
    column = given.number("column") + 1 - text.first_column if given.has("column") else None
    spot = text.found(text.line_in(given), column)
    spots = text.same(spot)
    for each in {it.task for it in spots}:
        names.check(shell, log, each)
    stops = tuple(limited(shell, arrival(it), given) for it in spots)
    value = {**told(number, "; ".join(map(str, spots))), **text.place(spot)}
    value["source"] = text.value()
    return Breakpoint(number, LINE, stops, value, tuple(spots), log)


def by_name(shell: Shell, text: Text, given: Arguments, number: int) -> Breakpoint:
    """Makes a function breakpoint."""
    stops = [limited(shell, it, given) for it in named(shell, text, given.text("name"))]
    return Breakpoint(number, NAME, tuple(stops), told(number, "; ".join(it.text for it in stops)))


def on_data(shell: Shell, text: Text, given: Arguments, number: int) -> Breakpoint:
    """Makes a data breakpoint from the id that `dataBreakpointInfo` returned."""
    if given.text("accessType", "write") != "write":
        raise Wrong("a data breakpoint stops at changes only; reads cannot be watched")
    watched = given.text("dataId")
    words = watched.split()
    if words[:1] == ["changes"] and len(words) == 3:
        stop: Stop = of_move(shell, words)
    elif words[:1] in (["core"], ["ready"]):
        cores = len(shell.target.ask("show cores", Cores).running)
        if watched not in ("ready", *(f"core {core}" for core in range(cores))):
            raise Wrong(
                f"'{watched[:100]}' is not a core: expected core 0 to core {cores - 1}, or ready"
            )
        stop = Seat(watched)
    else:
        condition = f"{watched} run" if words[:1] == ["phase"] else f"{watched} = 0"
        goal_in(shell, condition)  # (raises if it names something unknown)
        stop = Amount(watched)
    stop = limited(shell, stop, given)
    return Breakpoint(number, DATA, (stop,), told(number, stop.text))


# The function that makes a breakpoint of each kind.
MAKERS: Dict[str, Callable[[Shell, Text, Arguments, int], Breakpoint]] = {
    LINE: at_line,
    NAME: by_name,
    DATA: on_data,
}
