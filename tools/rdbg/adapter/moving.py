"""Requests that move the target in both directions, the output of log points, and `evaluate`, which
executes lines of the console."""
import contextlib
import re
from typing import Callable, Dict, Iterator, List, Optional, Sequence

from rdbg import record, replies
from rdbg.adapter import names
from rdbg.adapter.breakpoints import arrival
from rdbg.adapter.debugger import Debugger, Request
from rdbg.adapter.looking import value_of
from rdbg.adapter.messages import Arguments, Values, Wrong
from rdbg.adapter.printing import gathered, text_of
from rdbg.adapter.running import Outcome, Runner
from rdbg.adapter.stops import Amount, Stop
from rdbg.adapter.threads import TIME
from rdbg.driving import trail
from rdbg.driving.target import Target, Unable
from rdbg.replies import Refused
from rdbg.shell.steps import why_not_running


def told(it: Debugger, text: str, task: str) -> str:
    """Returns the text of a log point that a task has reached, with its values filled in."""

    def value(found: "re.Match[str]") -> str:
        try:
            return names.value(it.shell, it.shown, task, found[1].strip()).value
        except Wrong as wrong:
            return f"{found[0]} ({wrong})"

    return names.BRACES.sub(value, text)


def tell(it: Debugger, met: Sequence[Stop]) -> bool:
    """Prints the log points among some stops. Returns whether all stops are log points."""
    told_of: List[Stop] = []
    it.changed()
    for point in it.breakpoints.logs():
        for stop, spot in zip(point.stops, point.spots):
            if stop in met:
                it.say(told(it, point.log, spot.task), spot=spot)
                told_of.append(stop)
    return bool(told_of) and all(stop in told_of for stop in met)


# The direction of a run, and its stops.
Run = Callable[[Runner], Outcome]
Stops = Callable[[], List[Stop]]


def begin_run(it: Debugger, run: Run, stops: Stops, thread: Optional[int] = None) -> None:
    """Takes the wheel, and starts the run after the response. `thread` is the thread that stops if
    the run fails."""
    held = contextlib.ExitStack()
    with it.asking("wheel take"):
        held.enter_context(it.wheel())
    it.pause.forget()
    it.is_running, it.failure = True, ""

    def go() -> None:
        it.is_held = True
        it.progress.begin()
        try:
            with held:
                run_held(it, run, stops, thread)
        finally:
            it.progress.end()
            it.is_held = False
            it.tell_waiting()

    it.later.append(go)


def run_held(it: Debugger, run: Run, stops: Stops, thread: Optional[int]) -> None:
    """Runs while it holds the wheel."""
    start = it.shell.target.place
    end = start + it.shell.target.places().undone
    try:
        outcome = run(it.runner(stops))
        while outcome.how == "met" and tell(it, outcome.met):
            left = it.limit - max(0, it.shell.target.place - end)
            runner = it.runner(stops)
            outcome = runner.forwards(left) if left > 0 else Outcome("limit")
        it.serve()
        it.is_running = False
        it.pause.forget()
        it.tell_outcome(outcome, start)
    except (Unable, Refused, Wrong) as wrong:
        it.is_running = False
        it.shell.walk.reach(start)
        it.changed()
        it.say(str(wrong), category="stderr")
        it.stopped("pause", f"at {it.shell.target.place}: {wrong}", thread or it.focus)
    finally:
        it.is_running = False


def go_on(it: Debugger, given: Arguments) -> Optional[Values]:
    """`continue`."""
    it.threads.task(given.number("threadId", TIME))
    begin_run(it, lambda runner: runner.forwards(it.limit), it.stops)
    return {"allThreadsContinued": True}


def go_back(it: Debugger, given: Arguments) -> None:
    """`reverseContinue`."""
    it.threads.task(given.number("threadId", TIME))
    begin_run(it, lambda runner: runner.backwards(), it.halts)


def step(it: Debugger, given: Arguments) -> None:
    """`next` and `stepIn`: one instruction of a task, or a tick for the thread `time`."""
    thread = given.number("threadId")
    task = it.threads.task(thread)
    with it.asking("step 0"), it.wheel():
        before = it.look()
        move = it.make("tick" if task is None else f"step {core_of(it, task)}")
        after = it.look()
        stops = [stop for point in it.breakpoints.logs() for stop in point.stops]
        if stops:
            tell(it, it.runner(lambda: stops).met().met)
    failure = it.failed_here(before, after)
    it.failure = ""
    if failure:
        it.later.append(lambda: it.tell_failure(failure, thread))
    else:
        it.later.append(lambda: it.stopped("step", f"at {move.place}: {move.text()}", thread))


def core_of(it: Debugger, name: str) -> int:
    """Returns the core that a task is on. Raises `Wrong` if it is on none."""
    task = it.shell.target.ask(f"show task {name}", replies.Task)
    if task.core is None:
        why = why_not_running(it.shell, task)
        more = (
            "" if task.phase.word in ("ended", "failed") else "; Step Out runs until it continues"
        )
        raise Wrong(f"{name} is not on a core: {why}{more}")
    return task.core


def step_out(it: Debugger, given: Arguments) -> None:
    """`stepOut`: runs all tasks until this one has completed its instruction."""
    thread = given.number("threadId")
    task = it.threads.task(thread)
    if task is None:
        return step(it, given)
    now = it.shell.target.ask(f"show task {task}", replies.Task)
    if now.phase.word in ("ended", "failed"):
        raise Wrong(f"{task} has {now.phase.word}")
    done = Amount(f"pc {task}")
    done.text = f"{task} continued"
    stops = lambda: [*it.stops(), done]
    begin_run(it, lambda runner: runner.forwards(it.limit), stops, thread)


def step_back(it: Debugger, given: Arguments) -> None:
    """`stepBack`: undoes the last move, whichever task made it."""
    it.threads.task(given.number("threadId", TIME))
    target = it.shell.target
    it.failure = ""
    with it.asking(record.back(1)), it.wheel():
        places = target.places()
        if not places.kept:
            start = (
                "the start" if not places.done else record.given_up("the records of earlier moves")
            )
            it.later.append(lambda: it.stopped("entry", f"at {places.done}: {start}", it.focus))
            return
        after = target.look()
        target.ask(record.back(1), replies.Moved)
        before = target.look()
    move = trail.between(target, before, after)
    it.changed()
    it.say(f"back at {target.place}, before: {move.row()}", move)
    thread = (
        it.threads.number(move.task) if move.task else TIME if move.kind == "tick" else it.focus
    )
    it.later.append(lambda: it.stopped("step", f"at {target.place}, before: {move.text()}", thread))


def goto_targets(it: Debugger, given: Arguments) -> Optional[Values]:
    """`gotoTargets`: for each instruction at a line, its last execution, and an edit of the pc."""
    if not it.text.is_named(given.part("source")):
        return {"targets": []}
    it.gotos = []
    targets: List[Values] = []
    for spot in it.text.at(it.text.line_in(given)):
        with it.wheel(), it.shell.walk.staying():
            there = arrival(spot).last(it.shell.walk)
        for place in (None,) if there is None else (there, None):
            it.gotos.append((spot, place))
            label = f"edit: {spot.task} continues at {spot.pc}"
            if place is not None:
                label = f"go back to place {place}, where {spot.task} reached {spot.pc}"
            targets.append({"id": len(it.gotos), "label": label, **it.text.place(spot)})
    return {"targets": targets}


def goto(it: Debugger, given: Arguments) -> None:
    """`goto`: goes to the chosen target."""
    number = given.number("targetId")
    if not 0 < number <= len(it.gotos):
        raise Wrong(f"there is no target {number}: gotoTargets lists them")
    spot, place = it.gotos[number - 1]
    thread = it.threads.number(spot.task)
    with it.wheel():
        if place is None:
            it.edit(f"poke pc {spot.task} {spot.pc}")
        else:
            it.shell.walk.goto(place)
            it.say(f"back at {place}")
    it.changed()
    it.later.append(lambda: it.stopped("goto", f"at {it.shell.target.place}", thread))


def pause(it: Debugger, given: Arguments) -> None:
    """`pause`: asks the run to end."""
    if it.is_running:
        it.pause.ask()


def cancel(it: Debugger, given: Arguments) -> None:
    """`cancel`: checks its arguments; the reader has already cancelled what it names."""
    given.number("requestId", 0)
    given.text("progressId", "")


MOVING: Dict[str, Request] = {
    "continue": go_on,
    "reverseContinue": go_back,
    "next": step,
    "stepIn": step,
    "stepOut": step_out,
    "stepBack": step_back,
    "goto": goto,
}
# Contexts in which an expression changes nothing.
LOOKS = ("watch", "hover", "variables", "clipboard")
# The most lines of one request.
MOST_LINES = 1_000
# Commands that run to the editor's breakpoints, like its buttons.
BUTTONS: Dict[str, Request] = {
    **dict.fromkeys(("continue", "c", "cont"), go_on),
    **dict.fromkeys(("rc", "reverse-continue"), go_back),
}
ENDS = ("quit", "q", "exit")


def evaluate(it: Debugger, given: Arguments) -> Optional[Values]:
    """`evaluate`."""
    it.standing()
    if given.text("context", "repl") in LOOKS:
        return value_of(it, given)
    lines = [line for line in given.text("expression").splitlines() if line.strip()]
    if len(lines) > MOST_LINES:
        raise Wrong(f"{len(lines)} lines at once are too many: the limit is {MOST_LINES}")
    word = lines[0].strip() if len(lines) == 1 else ""
    if word in ENDS:
        raise Wrong("use Disconnect or Stop to end the session")
    if word in BUTTONS:
        BUTTONS[word](it, Arguments({}, "evaluate"))
    return {"result": "" if word in BUTTONS else typed(it, lines), "variablesReference": 0}


@contextlib.contextmanager
def new_moves(target: Target) -> Iterator[List[str]]:
    """Yields a list of the lines within the block that make new moves. Commands that look back only
    undo and redo recorded moves, which do not count."""
    made: List[str] = []

    def hear(line: str, reply: str, before: int) -> None:
        if reply.startswith("ok at ") and line.split()[0] not in record.WORDS:
            made.append(line)

    target.hearing.append(hear)
    try:
        yield made
    finally:
        target.hearing.remove(hear)


def typed(it: Debugger, lines: List[str]) -> str:
    """Executes lines, and returns their output. Sends events if they moved the target."""
    shell = it.shell
    target, place = shell.target, shell.target.place
    it.pause.forget()
    shell.shows_moves, shell.lost = True, None
    with gathered() as pieces, new_moves(target) as made:
        for line in lines:
            shell.line(line)
            if shell.is_stopped:
                break
    it.changed()
    if shell.lost is not None:
        it.say(f"lost at {shell.lost.place}: {shell.lost.text()}", shell.lost)
    if shell.target is not target:  # (`reload` has read the file anew)
        it.take(shell)
        it.later.append(lambda: it.restarted(f"at {shell.target.place}"))
    elif made or target.place != place:
        it.later.append(lambda: moved(it))
    return text_of(pieces)


def moved(it: Debugger) -> None:
    """Sends the events that the target is at another place."""
    try:
        with it.wheel():
            thread = it.mover()
    except Refused:
        thread = it.focus
    it.failure = it.failed_here(None, it.look())
    it.went()
    it.stopped("goto", f"at {it.shell.target.place}", thread)


OTHERS: Dict[str, Request] = {
    "gotoTargets": goto_targets,
    "pause": pause,
    "cancel": cancel,
    "evaluate": evaluate,
}
