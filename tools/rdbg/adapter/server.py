"""A session with an editor: serves its requests in order, and some of them during a run."""
import contextlib
import hmac
import queue
import threading
from typing import IO, Callable, Dict, List, Optional, Set

from rdbg.adapter.breakpoints import wrong_line
from rdbg.adapter.debugger import Debugger, Request
from rdbg.adapter.framing import Frames, Sender
from rdbg.adapter.looking import LOOKING, SETTING
from rdbg.adapter.messages import Arguments, Request as Asked, Unreadable, Wrong, done, failed, read
from rdbg.adapter.moving import MOVING, OTHERS
from rdbg.adapter.printing import gathered, install, text_of
from rdbg.adapter.setup import SETUP
from rdbg.driving.interrupt import Interrupted
from rdbg.driving.target import Unable
from rdbg.failure import Failure
from rdbg.replies import Refused

REQUESTS: Dict[str, Request] = {**SETUP, **LOOKING, **SETTING, **MOVING, **OTHERS}
# Requests that need a stopped target.
STANDING = (*MOVING, *LOOKING)
# Requests that are served while the target runs; all others wait until it stops.
MEANWHILE = (
    *"threads stackTrace scopes variables pause cancel source loadedSources".split(),
    "breakpointLocations",
    *(name for name in SETTING if name.startswith("set")),
)
# Requests that end the current run, and the one that cancels a run or a request.
ENDING, CANCEL = ("pause", "terminate", "disconnect"), "cancel"
CANCELLED = "cancelled"
# The requests that may pass a token, and the one that is served before it.
TELLING, BEFORE = ("launch", "attach"), "initialize"
NO_TOKEN = "`launch` or `attach` must pass the `token` that `rdbg dap` named when it started"
# Stands for a notice of a room in the queue of requests.
HEARD = Asked(0, "", Arguments({}, ""))
# The most requests that may wait.
MOST_WAITING = 1_000
# Returns why a new editor is refused, or an empty text.
Comes = Callable[[], str]


def said_of(error: Exception) -> str:
    """Returns the message of an error; an unexpected exception is called an internal error."""
    if isinstance(error, (Failure, Interrupted, Refused, Unable, Wrong)):
        return str(error)
    return f"internal error in rdbg dap: {type(error).__name__}: {error}"


class Server:
    """Answers an editor, which has to say a token first, where there is one. `comes` is called
    where it has, or where its first request has come, and says why it isn't served, if so."""

    def __init__(
        self, lines: IO[bytes], answers: IO[bytes], comes: Comes = lambda: "", token: str = ""
    ) -> None:
        self._comes, self._token = comes, token
        self._frames, self._sender = Frames(lines), Sender(answers)
        self.debugger = Debugger(self._sender.send)
        self.debugger.serve = self._meanwhile
        self.debugger.came = self._came
        self._asked: "queue.Queue[Optional[Asked]]" = queue.Queue(MOST_WAITING)
        self._waiting: List[Optional[Asked]] = []
        # Whether something has come from a room that isn't heard yet.
        self._has_come = False
        # The number of the request that is at work, and those of requests that won't be.
        self._at_work = 0
        self._cancelled: Set[int] = set()

    def serve(self) -> None:
        """Answers requests up to the end of the session."""
        install()
        threading.Thread(target=self._read, daemon=True).start()
        try:
            while not self.debugger.is_done and not self._sender.is_closed:
                request = self._waiting.pop(0) if self._waiting else self._asked.get()
                if request is None:
                    return
                if request is HEARD:
                    self._has_come = False
                    self._guarded(self.debugger.heard)
                else:
                    self._at_work = request.seq
                    self._answer(request)
                    self._at_work = 0
                    self.debugger.pause.forget()
        finally:
            self.debugger.close()

    def _read(self) -> None:
        """Reads requests, in a thread of its own."""
        while True:
            try:
                body = self._frames.read()
                request = None if body is None else read(body)
            except Unreadable as wrong:
                self._sender.send(failed(wrong.seq, wrong.command, str(wrong)))
                continue
            if request is not None and self._token and not self._is_told(request):
                continue
            if request is not None and not self._token and not self._is_served(request):
                request = None
            is_end = request is None or request.command in ENDING
            if is_end and self.debugger.is_running:
                self.debugger.pause.ask()
            if request is not None and request.command == CANCEL:
                self._cancel(request.arguments)
            self._asked.put(request)
            if request is None:
                return

    def _came(self) -> None:
        if not self._has_come:
            self._has_come = True
            self._asked.put(HEARD)

    def _cancel(self, given: Arguments) -> None:
        """Ends the run or the request that a request to cancel names. A request that still waits
        is not begun."""
        with contextlib.suppress(Wrong):
            number, name = given.number("requestId", 0), given.text("progressId", "")
            it = self.debugger
            # (a run has no name before it begins: a request to cancel without one doesn't mean it)
            is_run_named = it.is_running and name != "" and name == it.progress.name
            if number == self._at_work != 0 or is_run_named:
                it.pause.ask()
            elif number and len(self._cancelled) < MOST_WAITING:
                self._cancelled.add(number)

    def _is_told(self, request: Asked) -> bool:
        """Whether a request is answered that comes before the token, or says it."""
        if request.command == BEFORE:
            return True
        try:
            said = request.arguments.text("token", "") if request.command in TELLING else ""
            why = "" if hmac.compare_digest(said.encode(), self._token.encode()) else NO_TOKEN
        except Wrong as wrong:
            why = str(wrong)
        self._token = self._token if why else ""
        return self._is_fine(request, why)

    def _is_served(self, request: Asked) -> bool:
        comes, self._comes = self._comes, lambda: ""
        return self._is_fine(request, comes())

    def _is_fine(self, request: Asked, why: str) -> bool:
        """Whether nothing says why a request isn't answered; the editor is told what does."""
        if why:
            self._sender.send(failed(request.seq, request.command, why))
        return not why

    def _meanwhile(self) -> None:
        """Answers what can be answered while the target runs."""
        while not self._asked.empty():
            request = self._asked.get()
            if request is not None and request.command in MEANWHILE:
                self._answer(request)
            else:
                self._waiting.append(request)

    def _answer(self, request: Asked) -> None:
        """Answers a request, and does what comes behind the answer."""
        it = self.debugger
        outer, it.later = it.later, []
        with gathered() as pieces:
            self._done(request)
            later, it.later = it.later, outer
            for each in later:
                self._guarded(each)
        said = text_of(pieces)
        if said:
            it.say(said)

    def _done(self, request: Asked) -> None:
        it = self.debugger
        try:
            if request.seq in self._cancelled:
                raise Wrong(CANCELLED)
            if request.command not in REQUESTS:
                raise Wrong(f"request '{request.command[:100]}' is not supported")
            if request.command in STANDING:
                it.standing()
            return self._sender.send(
                done(request, REQUESTS[request.command](it, request.arguments))
            )
        except Refused as refused:
            wrong = wrong_line(it.shell, "", refused) if it.has_shell else ""
            why = str(wrong or f"rdbg replied no {refused}")
        except Interrupted:
            why = "interrupted by a pause"
        except Exception as error:  # (so that the editor isn't left without an answer)
            why = said_of(error)
            if isinstance(error, Failure):
                it.later = [lambda: self._end(why)]
        if request.command in MOVING:
            it.still()  # (before the answer: dap-mode drops what comes behind one that is an error)
        self._sender.send(failed(request.seq, request.command, why))

    def _guarded(self, each: Callable[[], None]) -> None:
        """Does something behind an answer."""
        try:
            each()
        except Failure as failure:
            self._end(str(failure))
        except Exception as error:
            self.debugger.say(said_of(error), category="stderr")
            self.debugger.still()

    def _end(self, why: str) -> None:
        self.debugger.say(why, category="stderr")
        self.debugger.end()
