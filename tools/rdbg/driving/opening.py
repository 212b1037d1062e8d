"""The beginning and the end of a session: a program of one's own, or a port that is attached to."""
import contextlib
import sys
import threading
from typing import Iterator, Optional

from rdbg.application import Application
from rdbg.client import REMEDY, Session
from rdbg.driving.target import Limits, Target
from rdbg.failure import Failure
from rdbg.files import source as sources
from rdbg.files.source import Source
from rdbg.replies import Refused, Unreadable, read
from rdbg.wording import counted

# The application that rdbg has without a file.
BUILTIN = b"""{"profile": 1, "cores": 1, "queues": [{"name": "q0", "length": 2, "item": 1}],
"tasks": [{"name": "t0", "priority": 1,
"code": ["data 41", "send q0 0", "send q0 0", "send q0 0", "end"]}]}"""
# So many seconds pass before it is said that a server doesn't answer.
PATIENCE = 3
NOTE = "# the server does not answer; has it reached its number of sessions (--sessions)?"
# What a refusal of the first looks means.
REFUSALS = {
    "HistoryFull": "the history of the server is full, so it executes no more commands",
    "Syntax": "not an rdbg server, or another version of rdbg",
}
OTHER = "the server refuses to show its target"
# What those that start programs of their own give them.
as_read = Source.as_read


class NotLetIn(Failure):
    """A server has refused a session; `refusal` is its reason, such as `NoMemory`."""

    def __init__(self, refusal: str) -> None:
        super().__init__(f"the server accepts no more sessions: no {refusal}")
        self.refusal = refusal


def builtin() -> Application:
    """The application that rdbg has without a file."""
    application = sources.source("built-in", BUILTIN).application
    assert application is not None
    return application


def begin(source: Optional[Source], limits: Limits, named: str = "") -> Target:
    """A program of its own with an application as it was read, or the built-in one; another program
    than that of `./rdbg` where one is named. Raises `Failure` where it can't be started, or refuses
    the application."""
    with contextlib.ExitStack() as kept:
        path = kept.enter_context(source.as_read()) if source else None
        session = Session.run(path, limits.words(), named)
        greet(session)  # (once it has answered it has read the file)
    return Target(session, source.application if source else builtin(), limits)


def greet(session: Session) -> None:
    """Waits until a session answers. (An empty line takes no place in the history.)"""
    with closed_if_wrong(session):
        reply = session.tell("")
        try:
            read(reply)
        except Refused as refused:
            if refused.name == "Syntax":
                return
            raise NotLetIn(str(refused)) from None
        raise Unreadable(reply)


@contextlib.contextmanager
def closed_if_wrong(session: Session) -> Iterator[None]:
    """As long as something is done with a session: where that goes wrong, it is ended."""
    try:
        yield
    except BaseException:
        session.close()
        raise


def attach(
    port: int,
    source: Optional[Source],
    name: Optional[str] = None,
    anyone: bool = False,
    remedy: str = REMEDY,
) -> Target:
    """Connects to a server or a room as `Session.attach` does, and waits until it answers.

    Raises `Failure` if that is not possible, and if `source` is not the server's application."""
    timer = threading.Timer(PATIENCE, lambda: print(NOTE, file=sys.stderr, flush=True))
    timer.daemon = True
    timer.start()
    with expecting_rdbg(port):
        try:
            session = Session.attach(port, name, anyone, remedy)
            if name is None:
                greet(session)
        finally:
            timer.cancel()
        target = Target(session, source.application if source else None, None)
        with closed_if_wrong(session), session.looking():
            target.places()
            target.tell("show cores")
            if source is not None and source.application is not None:
                compare(target, source.application, source.path)
    return target


@contextlib.contextmanager
def expecting_rdbg(port: int) -> Iterator[None]:
    """Turns the first answers of a server that does not serve, or is not rdbg's, into a `Failure`
    with status 2."""
    try:
        yield
    except NotLetIn as failure:
        raise Failure(f"port {port}: {failure}", 2) from None
    except Unreadable as unreadable:
        why = f"not an rdbg server: it answered '{unreadable.line}'"
        raise Failure(f"port {port}: {why}", 2) from None
    except Refused as refused:
        raise Failure(
            f"port {port}: {REFUSALS.get(refused.name, OTHER)}: no {refused}", 2
        ) from None


def compare(target: Target, application: Application, path: str) -> None:
    """Raises `Failure` where what the target has isn't what an application says."""
    other = f"{path} is not the model of the server"
    lines = target.names.lines()
    for line, answer in zip(lines, target.tell_all(lines)):
        if answer == "no NoSuch":
            raise Failure(f"{other}: the server has no {line[len('show '):]}", 2)
    look = target.look()
    if len(look.cores.running) != application.cores:
        raise Failure(f"{other}: the server has {counted(len(look.cores.running), 'core')}", 2)
    for task in application.tasks:
        if look.tasks[task.name].pc >= len(task.code):
            raise Failure(
                f"{other}: there {task.name} is at instruction {look.tasks[task.name].pc}", 2
            )


def close(target: Target) -> None:
    """Ends a session. Raises `Failure` where its program ends with another status than 0."""
    status = target.session.close()
    if status:
        raise Failure(f"the rdbg program ended with status {status}")
