"""Shares one target between several named sessions, which attach at a port."""
import argparse
import contextlib
import signal
import sys
from types import FrameType
from typing import List, Optional, Sequence

from rdbg.files.definitions import take_definitions
from rdbg.files.source import Source, accepted
from rdbg.options import APPLICATION, Parser, bounded, port
from rdbg.door import TOKEN, Door
from rdbg.ending import Terminated
from rdbg.failure import Failure
from rdbg.printable import printable
from rdbg.rooms import keys, remarks
from rdbg.rooms.host import MOST_SESSIONS, Audit, Hindered
from rdbg.rooms.program import HISTORY
from rdbg.rooms.port import Port
from rdbg.rooms.room import IDLE, Room
from rdbg.rooms.talk import Talk
from rdbg.rooms.web import Served
from rdbg.driving.target import Limits

SUMMARY = "Share one target between several engineers"
EPILOG = (
    "Attach with `rdbg sh --port P --name NAME`, or with any program that opens a connection, such"
    f" as nc. Lines that begin with # are for the room: {remarks.WORDS}. Type `free` in the"
    " terminal of the room to take the wheel from an idle session. Ctrl-C or SIGTERM ends the room with"
    " an audit of the session records.\n\n"
    "Exit status: 0 ended; 1 the model is refused, rdbg ended early, or the audit found an error; 2"
    " a file cannot be read or written, a port is taken, or the system has too little memory or too"
    " few descriptors.\n\n"
    "Example:\n"
    "  rdbg room jobs.fw --port 7000 --web\n"
    "  rdbg sh --port 7000 --name ada        (in another terminal)"
)
# So many signals end it at once.
ENOUGH = 3


def web_port(text: str) -> int:
    """Reads a port, or 0 for a free one."""
    return 0 if text == "0" else port(text)


def with_web_port(words: Sequence[str]) -> List[str]:
    """Inserts the number 0 between `--web` and a file name, which it would take for its number."""
    found: List[str] = []
    for word, following in zip(words, [*words[1:], ""]):
        is_file = "." in following or "/" in following
        found += [word, "0"] if word == "--web" and is_file else [word]
    return found


def parser() -> Parser:
    """The parser of the command line."""
    made = Parser("rdbg room", description=SUMMARY, epilog=EPILOG)
    word, most = made.word, MOST_SESSIONS
    word("file", "FILE", APPLICATION)
    word("--port", "P", "listen on port P of 127.0.0.1", type=port, required=True)
    page = "also serve a page for browsers on port Q of 127.0.0.1 [default: a free port]"
    word("--web", "Q", page, type=web_port, nargs="?", const=0)
    anyone = "accept connections of every user of this machine [default: only yours]"
    made.flag("--anyone", anyone)
    word("--talk", "FILE", "record all lines and replies in FILE")
    word(
        "--sessions",
        "N",
        f"accept at most N sessions at a time, 1 to {most} [default: {most}]",
        type=bounded(1, most),
        default=most,
    )
    idle = f"seconds after which an idle session can lose the wheel [default: {IDLE}]"
    word("--idle", "S", idle, type=bounded(1), default=IDLE)
    word("--moves", "N", "maximum number of moves, 1 to 1000000 [default: 100000]", type=bounded(1))
    word(
        "--history", "N", f"maximum number of history entries [default: {HISTORY}]", type=bounded(2)
    )
    take_definitions(made)
    return made


class Signals:
    """Ctrl-C and SIGTERM end a port once it is there; before, and again and again, the process."""

    def __init__(self) -> None:
        self.port: Optional[Port] = None
        self._count, self._is_enough = 0, False
        for number in (signal.SIGINT, signal.SIGTERM, signal.SIGHUP):
            if signal.getsignal(number) is not signal.SIG_IGN:  # (as below nohup)
                signal.signal(number, self._came)

    def _came(self, number: int, frame: Optional[FrameType]) -> None:
        self._count += 1
        if self._is_enough:
            return  # (the process ends already)
        if self.port is None or self._count >= ENOUGH:
            self._is_enough = True
            raise Terminated if number == signal.SIGTERM else KeyboardInterrupt
        self.port.stop()


def say(text: str) -> None:
    """Prints what cannot wait until the end of the room. It goes on if nobody can read that."""
    with contextlib.suppress(OSError, ValueError):
        print(f"rdbg room: {text}", file=sys.stderr, flush=True)


def open_room(source: Source, limits: Limits, sessions: int, talk: Optional[Talk]) -> Room:
    """A room, once it has its program. Where others are first it says so, and tries again."""
    while True:
        try:
            return Room(source, limits, sessions, talk)
        except Hindered as hindered:
            print(f"rdbg room: {hindered} (trying again)", file=sys.stderr, flush=True)


def serve(room: Room, port: Port, door: Door, given: argparse.Namespace) -> List[Audit]:
    """Serves until a signal comes or the program ends, and answers the audits. Where it can't be
    served the room ends."""
    with contextlib.ExitStack() as ends:
        pages: Optional[Served] = None
        where = ""
        try:
            if given.web is not None:
                pages = Served(room, given.web, door)
                where = pages.say_where(ends, sys.stdout.isatty())
            tell(given, door, where)
            room.when_over, room.idle = port.stop, given.idle
            keys.listen(room)
            with port.heard():
                port.serve(room)
            audits = room.close()
        except BaseException:
            room.kill()
            raise
        port.close()
        if pages is not None:
            pages.close()
    return audits


def tell(given: argparse.Namespace, door: Door, where: str) -> None:
    """Says where the room is, and how one comes in."""
    print(f"listening {given.port}{door.announcement}", flush=True)
    if door.token:
        why = "this system cannot tell which user a connection belongs to"
        print(
            f"rdbg room: {why}; first line of each session: {TOKEN} {door.token}", file=sys.stderr
        )
    if where:
        print(f"web {where}", flush=True)
    if sys.stdout.isatty():
        name = printable(given.file)
        print(f"# to attach: rdbg sh --port {given.port} --name NAME {name}", flush=True)


def main(words: Sequence[str]) -> int:
    """Opens a room, and serves it."""
    given = parser().parse_args(with_web_port(words))
    source = accepted(given.file, dict(given.consts))
    assert source is not None
    limits = Limits(given.moves or Limits.moves, given.history or HISTORY)
    if limits.history < 4 * given.sessions:
        least = 4 * given.sessions
        raise Failure(f"--history must be at least {least} for {given.sessions} sessions", 2)
    door = Door(given.anyone)
    port = Port(given.port, door)
    talk = None if given.talk is None else Talk(given.talk)
    signals = Signals()
    room = open_room(source, limits, given.sessions, talk)
    signals.port = port
    room.say = say
    audits = serve(room, port, door, given)
    for row in room.counts.rows():
        print(f"# {row}")
    for audit in audits:
        print(audit.text(), file=sys.stdout if audit.is_good else sys.stderr)
    is_incomplete = talk is not None and bool(talk.fault or talk.missing)
    if talk is not None and is_incomplete:
        missing = f" (missing: {talk.missing})" if talk.missing else ""
        why = f"cannot write {printable(talk.path)}: {talk.last_fault}{missing}"
        print(f"rdbg room: {why}", file=sys.stderr)
    if not all(audit.is_good for audit in audits):
        return 1
    return 2 if is_incomplete else 0
