"""The debug session of one editor: the target with its threads, sources and breakpoints, its moves,
and the events that the editor gets."""
import contextlib
import itertools
import select
import time
from typing import Callable, Dict, Iterator, List, Optional, Sequence, Tuple

from rdbg import record, replies
from rdbg.adapter.breakpoints import Breakpoint, Breakpoints, wrong_line
from rdbg.adapter.known import Facts
from rdbg.adapter.losing import Loses
from rdbg.adapter.messages import Arguments, Values, Wrong, event
from rdbg.adapter.running import Outcome, Pause, Runner
from rdbg.adapter.sources import Spot, Text
from rdbg.adapter.stops import Becomes, Begins, Stop
from rdbg.adapter.threads import TIME, Threads
from rdbg.adapter.variables import References, Shown
from rdbg.driving import trail
from rdbg.effects import Move
from rdbg.goals import conditions
from rdbg.goals.claims import ASLEEP, Finished, SomeFailed, Stuck
from rdbg.looks import Look
from rdbg.replies import Refused
from rdbg.shell.notices import MOVED
from rdbg.shell.shell import Shell
from rdbg.shell.views import phase_text
from rdbg.wording import counted

# Seconds before the first progress report, and between two of them.
MOMENT = 1.0


class Progress:
    """The progress report of the current run. An editor cancels the run by its name."""

    def __init__(self, send: Callable[[Values], None]) -> None:
        self._send, self._numbers, self._next = send, itertools.count(1), 0.0
        self.is_asked_for = self._is_shown = False
        self.name = ""

    def begin(self) -> None:
        """Starts a new report."""
        self.name = f"run {next(self._numbers)}"
        self._next, self._is_shown = time.monotonic() + MOMENT, False

    def show(self, text: str) -> None:
        """Reports the progress, unless that was done a moment ago."""
        now = time.monotonic()
        if not self.is_asked_for or now < self._next:
            return
        self._next = now + MOMENT
        body: Values = {"progressId": self.name, "message": text}
        if self._is_shown:
            self._send(event("progressUpdate", body))
        else:
            self._is_shown = True
            self._send(event("progressStart", {**body, "title": "rdbg", "cancellable": True}))

    def end(self) -> None:
        """Ends the report."""
        if self._is_shown:
            self._is_shown = False
            self._send(event("progressEnd", {"progressId": self.name}))
        self.name = ""


# Of a run of more than MANY moves, only the last FEW are listed.
MANY, FEW = 20, 5
# The most new moves of a run, unless `launch` sets `limit`.
LIMIT = 200_000
FAILURE = "exception"


class Debugger:
    """A target and its editor."""

    def __init__(self, send: Callable[[Values], None]) -> None:
        self.send = send
        self.pause, self.progress = Pause(), Progress(send)
        self.given = Arguments({}, "launch")
        self.text, self.threads = Text(None), Threads()
        self.references, self.breakpoints = References(), Breakpoints()
        self.begins = {goal.text: Begins(goal) for goal in (SomeFailed(), ASLEEP)}
        self._shell: Optional[Shell] = None
        # Waits for notices of a room while the target does not run.
        self._listening = contextlib.ExitStack()
        # Whether a run holds the wheel, and the events to send once it is given back.
        self.is_held = False
        self.waiting: List[Values] = []
        # The last move of another member that the editor does not show yet.
        self.others = ""
        # Actions to take after the response to the current request.
        self.later: List[Callable[[], None]] = []
        # Serves requests of the editor during a long operation.
        self.serve: Callable[[], None] = lambda: None
        # Called from any thread when a notice of a room has arrived.
        self.came: Callable[[], None] = lambda: None
        self.is_attached = self.is_configured = self.is_running = self.is_done = False
        self.shows_invalidated = False
        # The thread that stopped last, and the failure that stopped it, if any.
        self.focus = TIME
        self.failure = ""
        self.limit = LIMIT
        # The last result of `gotoTargets`.
        self.gotos: List[Tuple[Spot, Optional[int]]] = []
        # The last move of a run.
        self._last: Optional[Move] = None
        self._seen: Optional[Look] = None
        self._watches: Dict[str, Stop] = {}

    @property
    def shell(self) -> Shell:
        """Returns the shell that drives the target. Raises `Wrong` if there is none yet."""
        if self._shell is None:
            raise Wrong("no debug session yet: send launch or attach first")
        return self._shell

    @property
    def has_shell(self) -> bool:
        """Whether there is a target."""
        return self._shell is not None

    @property
    def own_name(self) -> Optional[str]:
        """Returns the name of this session in a room, or `None` outside a room."""
        return self._shell.target.session.name if self._shell else None

    def standing(self) -> None:
        """Raises `Wrong` if the target is running, or if there is none yet."""
        if self.shell and self.is_running:
            raise Wrong("the target is running: pause it first")

    def take(self, shell: Shell) -> None:
        """Switches to a shell and its source."""
        self._shell = shell
        Facts.of(shell.walk)  # (which records all moves from here on)
        self.text = Text(shell.source, self.text.first_line, self.text.first_column)
        self.threads.learn(shell.target.names.tasks)
        self._seen = None

    @contextlib.contextmanager
    def wheel(self) -> Iterator[None]:
        """Holds the wheel during the block."""
        with self.shell.target.wheel():
            self.notice()
            yield

    def notice(self) -> None:
        """Reports if another session has moved the target since the last report."""
        target = self.shell.target
        drift, target.drift = target.drift, None
        if drift is not None:
            self._seen = None
            # (a room has announced each move)
            if self.own_name is None and drift[0] != drift[1]:
                self.say(f"another session moved the target from {drift[0]} to {drift[1]}")

    def look(self) -> Look:
        """Returns the current state, which is cached until the target moves."""
        if self._seen is None:
            target = self.shell.target
            look = self.shell.look() if target.is_own else target.look()
            self.threads.learn(target.names.tasks)
            self.notice()
            self._seen = look
        return self._seen

    def shown(self, is_hex: bool = False) -> Shown:
        """Returns the current state for display as variables."""
        return Shown(self.look(), self.shell.target.undone, is_hex)

    def changed(self) -> None:
        """Drops the cached state."""
        self._seen = None

    def say(
        self,
        text: str,
        move: Optional[Move] = None,
        category: str = "stdout",
        spot: Optional[Spot] = None,
    ) -> None:
        """Sends a line of output, with the position of an instruction or a move."""
        if move is not None and move.task and move.pc is not None:
            spot = self.text.of(move.task, move.pc)
        body: Values = {"category": category, "output": f"{text}\n"}
        if spot is not None:
            place = self.text.place(spot)
            body.update(source=self.text.value(), line=place["line"], column=place["column"])
        self.send(event("output", body))

    @contextlib.contextmanager
    def asking(self, line: str) -> Iterator[None]:
        """Turns a refusal of `line` within the block into `Wrong`."""
        try:
            yield
        except Refused as refused:
            raise wrong_line(self.shell, line, refused) from None

    def stops(self) -> List[Stop]:
        """Returns all stops, log points included."""
        return [*self.halts(), *(stop for it in self.breakpoints.logs() for stop in it.stops)]

    def halts(self) -> List[Stop]:
        """Returns all stops that end a run."""
        found = [stop for it in self.breakpoints.all() if not it.log for stop in it.stops]
        found += self._watched()
        return found + [self.begins[name] for name in self.breakpoints.failures]

    def _watched(self) -> List[Stop]:
        """Returns stops for the session's watches, which were set in the console."""
        found: List[Stop] = []
        for number, text in sorted(self.shell.target.watches.items()):
            key = f"w{number}, {text}"
            condition = conditions.read(text.split())
            if condition is not None:
                found.append(self._watches.setdefault(key, Becomes(condition, key)))
        return found

    def runner(self, stops: Callable[[], List[Stop]]) -> Runner:
        """Returns a runner to some stops."""
        return Runner(self.shell.walk, stops, self.between)

    def between(self) -> None:
        """Serves requests of the editor, among which may be a pause."""
        self.progress.show(f"at {self.shell.target.place}")
        self.serve()
        self.pause.check()

    def make(self, line: str) -> Move:
        """Makes one move. If it is the one that was undone last, redoes it, so that the undone
        moves after it are kept. Raises `Wrong` if rdbg refuses it."""
        target = self.shell.target
        before = target.look()
        with self.asking(line):
            if target.places().undone:
                target.ask(record.again(), replies.Moved)
                after = target.look()
                move = trail.between(target, before, after)
                if move.line == line:
                    return self._made(move, after)
                target.ask(record.back(1), replies.Moved)
            target.ask(line, replies.Moved)
        after = target.look()
        return self._made(trail.between(target, before, after), after)

    def edit(self, line: str) -> None:
        """Makes an edit. Raises `Wrong` if rdbg refuses it."""
        target = self.shell.target
        with self.asking(line), self.wheel():
            moved = target.ask(line, replies.Moved)
        self.changed()
        self.say(f"{moved.at}  {line}")

    def _made(self, move: Move, after: Look) -> Move:
        self._seen, self._last = after, None
        self.say(move.row(), move)
        return move

    def last_moves(self, count: int) -> Sequence[Move]:
        """Returns the last moves, at most `count`."""
        walk = self.shell.walk
        first = max(self.shell.target.base, walk.place - count) + 1
        if walk.place < first:
            return ()
        found, self._seen = trail.moves(walk, first, walk.place)
        return found

    def tell_run(self, start: int) -> None:
        """Lists what the moves since a place did; only the last few if there are many."""
        here = self.shell.target.place
        if here < start:
            self.say(f"back at {here}, next: {self.shell.next_moves()}")
        elif here > start:
            # (a room has announced each move already)
            most, few = (MANY, FEW) if self.own_name is None else (1, 1)
            shown = here - start if here - start <= most else few
            if shown < here - start:
                self.say(f".. {counted(here - start - shown, 'move')} before these")
            for move in self.last_moves(shown):
                self.say(move.row(len(str(here))), move)
                self._last = move

    def mover(self) -> int:
        """Returns the thread that made the last move, or the one that stopped last."""
        is_known = self._last is not None and self._last.place == self.shell.target.place
        last = self._last if is_known else next(iter(self.last_moves(1)), None)
        return self.threads.number(last.task) if last and last.task else self.focus

    def stopped(
        self, reason: str, description: str, thread: int, hit: Sequence[Breakpoint] = ()
    ) -> None:
        """Sends the event that the target has stopped, with the reason."""
        self.focus = thread
        body: Values = {"reason": reason, "description": description, "threadId": thread}
        body.update(text=description, allThreadsStopped=True, preserveFocusHint=False)
        if hit:
            body["hitBreakpointIds"] = [it.number for it in hit]
        self.waiting.append(event("stopped", body))
        if not self.is_held:
            self.tell_waiting()

    def tell_waiting(self) -> None:
        """Sends the events that waited until the wheel was given back."""
        while self.waiting:
            self.send(self.waiting.pop(0))

    def went(self) -> None:
        """Sends the event that the target has continued, so that the editor follows it."""
        self.send(event("continued", {"threadId": self.focus, "allThreadsContinued": True}))

    def restarted(self, where: str) -> None:
        """Sets the breakpoints again in the reloaded file, reports them, and stops."""
        for value in self.breakpoints.again(self.shell, self.text):
            self.send(event("breakpoint", {"reason": "changed", "breakpoint": value}))
        self.went()
        self.stopped("entry", where, self.focus)

    def hear(self, notice: str) -> None:
        """Passes a notice of a room to the editor, and records a move of another member."""
        text = notice.lstrip("# ")
        self.say(text)
        self.others = self.others or (text if MOVED.match(notice) else "")

    def listen(self) -> None:
        """Starts to wait for notices of a room; `came` is called when one arrives."""
        self._listening.enter_context(self.shell.notices.listening(self.came))

    def heard(self) -> None:
        """Handles the notices of a room, and shows where other members have moved the target.
        Raises `Failure` if the room has ended."""
        if self._shell is None:
            return
        self._listening.close()
        there = self._shell.target.session.waited_for()
        while select.select([there], [], [], 0)[0]:
            self._shell.notices.hear_now()
        self.listen()
        others, self.others = self.others, ""
        if others and self.is_configured and not self.is_running:
            self._shell.target.places()
            self._shell.target.drift = None
            self.changed()
            self.went()
            self.stopped("pause", others, self.focus)

    def still(self) -> None:
        """Reports that the target has not moved, after a refused request to move it."""
        if self.is_configured and self.has_shell and not self.is_running and not self.is_done:
            self.stopped("pause", f"still at {self.shell.target.place}", self.focus)

    def failed_here(self, before: Optional[Look], after: Look) -> str:
        """Returns the failure that a move caused, if the editor wants to stop at it."""
        for name in self.breakpoints.failures:
            goal = self.begins[name].goal
            if goal.is_so(after) and not (before and goal.is_so(before)):
                return name
        return ""

    def tell_failure(self, name: str, thread: int) -> None:
        """Stops at a failure."""
        self.failure = name
        if name == "failed":
            numbers = [self.threads.number(it.name) for it in self._failed()]
            thread = thread if thread in numbers or not numbers else numbers[0]
        self.stopped(FAILURE, f"at {self.shell.target.place}: {self.why(name)}", thread)

    def why(self, name: str) -> str:
        """Describes a failure."""
        told = self._failed() if name == "failed" else self.look().tasks.values()
        texts = "; ".join(f"{it.name} {phase_text(it)}" for it in told)
        return texts if name == "failed" else f"{ASLEEP.text}: {texts}"

    def _failed(self) -> List[replies.Task]:
        return [it for it in self.look().tasks.values() if it.phase.word == "failed"]

    def tell_outcome(self, outcome: Outcome, start: int) -> None:
        """Stops after a run, and says why."""
        self.changed()
        self._last = None
        self.tell_run(start)
        here = self.shell.target.place
        if outcome.how == "met":
            self._tell_met(outcome.met)
            return
        texts = {
            "limit": f"no breakpoint was hit in {counted(here - start, 'move')}",
            "wall": f"no further move is possible: {outcome.wall}",
            "stuck": self._ending(),
            "start": "the start: no breakpoint was hit before",
            "paused": "paused",
        }
        reason = "entry" if outcome.how == "start" else "pause"
        self.stopped(reason, f"at {here}: {texts[outcome.how]}", self.mover())

    def _ending(self) -> str:
        """Describes why nothing can continue, with the goal that holds."""
        look = self.look()
        if Finished().is_so(look):
            return f"{Finished().text}: all tasks have ended"
        if ASLEEP.is_so(look):
            return f"{ASLEEP.text}: all remaining tasks wait, and none has a deadline"
        return f"{Stuck().text}: no task waits, and at least one has failed"

    def _tell_met(self, met: Sequence[Stop]) -> None:
        failures = [name for name, stop in self.begins.items() if stop in met]
        points = [it for it in self.breakpoints.all() if not it.log]
        hit = [it for it in points if any(stop in met for stop in it.stops)]
        if failures and not hit:
            self.tell_failure(failures[0], self.mover())
            return
        text = "; ".join(stop.text for stop in met)
        for stop in met:
            if isinstance(stop, Loses):
                self.say(stop.way)
        pairs = [pair for it in hit for pair in zip(it.stops, it.spots)]
        tasks = [spot.task for stop, spot in pairs if stop in met]
        thread = self.threads.number(tasks[0]) if tasks else self.mover()
        reason = hit[0].reason if hit else "breakpoint"
        self.stopped(reason, f"at {self.shell.target.place}: {text}", thread, hit)
        texts = {stop.text for stop in met}
        watches = self.shell.target.watches.items()
        self.shell.drop_temporary([it for it, goal in watches if f"w{it}, {goal}" in texts])

    def end(self) -> None:
        """Ends the program, and sends the events for that."""
        status = self.close()
        self.is_running = False
        self.send(event("exited", {"exitCode": status or 0}))
        self.send(event("terminated", {}))

    def close(self) -> Optional[int]:
        """Ends the session, and returns the exit status of its program."""
        shell, self._shell = self._shell, None
        self._listening.close()
        return shell.target.session.close() if shell else None


# The function of a request, which returns the body of the response, if any.
Request = Callable[[Debugger, Arguments], Optional[Values]]
