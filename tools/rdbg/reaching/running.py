"""The program that searches: it is started, listened to, and ended in time."""
import os
import selectors
import subprocess
import sys
import time
from typing import IO, NamedTuple, Optional, Sequence

from rdbg import children
from rdbg.ending import ENDING, STARTED
from rdbg.failure import trying
from rdbg.reaching import progress
from rdbg.reaching.progress import Gauge, Progress
from rdbg.reaching.words import PROGRESS

READ = 65_536
# How the program's errors begin.
OWN_NAMES = ("rdbg reach: ", "rdreach: ")
USAGE = f"Usage: rdreach {PROGRESS} "


def named(line: str) -> str:
    """An error of the program in the name of the tool that started it, as `rdbg hunt: ..`."""
    for own in OWN_NAMES:
        if line.startswith(own):
            return f"{ENDING.name}: {line[len(own):]}"
    if line.startswith(USAGE):
        return f"Usage: {ENDING.name} {line[len(USAGE):]}"
    return line


class Outcome(NamedTuple):
    """What came of a search: what was said on standard output, the status by which the program
    ended, below 0 by a signal, how far it had said to be, and whether it was ended from here."""

    output: str
    status: int
    last: Optional[Progress]
    is_stopped: bool


class Listener:
    """Reads a program's output until its end, and keeps it. Its errors are passed on in the name of
    the tool that started it; its lines of progress are not."""

    def __init__(self, process: "subprocess.Popen[bytes]", gauge: Gauge) -> None:
        assert process.stdout is not None and process.stderr is not None
        self.output = bytearray()
        self.last: Optional[Progress] = None
        self._gauge, self._tail = gauge, b""
        self._selector = selectors.DefaultSelector()
        self._selector.register(process.stdout, selectors.EVENT_READ, self.output.extend)
        self._selector.register(process.stderr, selectors.EVENT_READ, self._hear_errors)

    def _hear_errors(self, content: bytes) -> None:
        """What comes of its standard error; nothing more where that is empty."""
        *whole, self._tail = (self._tail + content).split(b"\n")
        for line in whole:
            self._hear(line.decode("utf-8", "replace"))
        # (half a line of how far it is says nothing)
        if not content and not self._tail.startswith(progress.BEGIN.encode()[: len(self._tail)]):
            self._hear(self._tail.decode("utf-8", "replace"))

    def _hear(self, line: str) -> None:
        found = progress.read(line)
        if found is not None:
            self.last = found
            return
        self._gauge.clear()
        print(named(line), file=sys.stderr, flush=True)

    def listen(self, end: Optional[float] = None) -> bool:
        """Listens until the program has said all, or until a time. Whether it has said all."""
        while self._selector.get_map():
            until_end = None if end is None else max(0.0, end - time.monotonic())
            rests = [it for it in (until_end, self._gauge.rest()) if it is not None]
            for key, _ in self._selector.select(min(rests, default=None)):
                # (a signal that came in between would lose what was read)
                with ENDING.held():
                    content = os.read(key.fd, READ)
                    key.data(content)
                    if not content:
                        self._selector.unregister(key.fd)
            self._gauge.show(self.last)
            if end is not None and time.monotonic() >= end:
                return False
        return True


def run(
    words: Sequence[str], seconds: Optional[float], lines: Optional[IO[bytes]] = None
) -> Outcome:
    """What comes of a program that searches, on these words, and on the lines of a file, where it
    is given one. It is ended where so many seconds have passed, or Ctrl-C came. Raises `Failure`
    where it can't be started."""
    end = None if seconds is None else time.monotonic() + seconds
    gauge = Gauge(sys.stderr)
    with trying(f"start {words[0]}"):
        started = children.start(words, lines, subprocess.PIPE, subprocess.PIPE)
    with started as process:
        listener = Listener(process, gauge)
        try:
            is_ended = listener.listen(end)
        except KeyboardInterrupt:
            is_ended = False
        if not is_ended:
            process.kill()
            listener.listen()
        gauge.clear()
        status = process.wait()
    STARTED.pop(process)
    output = listener.output.decode("utf-8", "replace")
    # (it may have come to its end at the same time)
    return Outcome(output, status, listener.last, not is_ended and status < 0)
