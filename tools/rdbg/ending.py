"""Ctrl-C and SIGTERM: each ends a companion with a line and a status that say so, whatever it is
at.

As long as it starts there is nothing to close, and it ends at once. Later both are exceptions, so
that sessions and files are closed. At SIGTERM the programs and processes that it has started are
ended before, so that it waits for none of them; where another signal comes, it ends at once.

A signal that was ignored at the start stays so. Who has words of its own for Ctrl-C takes it over,
as the prompt does."""
import contextlib
import os
import signal
import sys
from types import FrameType
from typing import TYPE_CHECKING, Callable, Dict, Iterator, NoReturn, Optional, Set

if TYPE_CHECKING:
    import subprocess


SAID = {signal.SIGINT: "interrupted", signal.SIGTERM: "ended by SIGTERM"}
# The programs that were started, and haven't been waited for, with the signal that ends each.
STARTED: "Dict[subprocess.Popen[bytes], int]" = {}
# How messages name it.
STANDARD_OUTPUT = "standard output"
# Files and folders that were made for a while, and aren't gone yet.
MADE: Set[str] = set()


class Terminated(BaseException):
    """SIGTERM came."""


class Ending:
    """How this process ends: under which name it is said, and how far it is."""

    def __init__(self) -> None:
        self.name = "rdbg"
        self.is_running = self.is_terminated = False
        self._is_held = False
        self._waiting: Optional[int] = None

    def install(self, name: str) -> None:
        """Takes over the signals that aren't ignored."""
        self.name = name
        if signal.getsignal(signal.SIGINT) == signal.default_int_handler:
            signal.signal(signal.SIGINT, self._came)
        if signal.getsignal(signal.SIGTERM) == signal.SIG_DFL:
            signal.signal(signal.SIGTERM, self._came)
        os.register_at_fork(after_in_child=self._in_child)
        sys.unraisablehook = self._passed_over

    @contextlib.contextmanager
    def held(self) -> Iterator[None]:
        """As long as something is made that isn't known yet: a signal comes behind it."""
        self._is_held = True
        try:
            yield
        finally:
            self._is_held = False
            waiting, self._waiting = self._waiting, None
            if waiting is not None:
                signal.raise_signal(waiting)

    def _came(self, number: int, frame: Optional[FrameType]) -> None:
        if self._is_held:
            self._waiting = number
            return
        if not self.is_running or self.is_terminated:
            self.leave(number)
        if number == signal.SIGINT:
            raise KeyboardInterrupt
        self.is_terminated = True
        end_started()
        raise Terminated

    def _in_child(self) -> None:
        """In a process that this one has made of itself: Ctrl-C is left to this one, and SIGTERM
        ends it without a word."""
        STARTED.clear()
        MADE.clear()
        self._is_held = False
        signal.signal(signal.SIGINT, signal.SIG_IGN)
        signal.signal(signal.SIGTERM, self._child_terminated)

    def _child_terminated(self, number: int, frame: Optional[FrameType]) -> None:
        if self._is_held:
            self._waiting = number
            return
        try:
            end_programs()
            take_away()
        finally:
            os._exit(128 + number)

    def _passed_over(self, it: "sys.UnraisableHookArgs") -> None:
        """What Python can't raise where it comes, as in what is called when a value goes."""
        if isinstance(it.exc_value, KeyboardInterrupt):
            self.leave(signal.SIGINT)
        if isinstance(it.exc_value, Terminated):
            self.leave(signal.SIGTERM)
        sys.__unraisablehook__(it)

    def leave(self, number: int) -> NoReturn:
        """Ends the process, and all that it has started, with a line."""
        try:
            end_started()
            take_away()
            os.write(2, f"{self.name}: {SAID[signal.Signals(number)]}\n".encode())
        finally:
            os._exit(128 + number)

    def check(self) -> None:
        """Raises `Terminated` where SIGTERM came: what failed since then did so for that."""
        if self.is_terminated:
            raise Terminated


ENDING = Ending()


def end_programs() -> None:
    """Ends the programs that this process has started."""
    for it, number in list(STARTED.items()):
        it.send_signal(number)


def end_started() -> None:
    """Ends all that this process has started, of which each process ends its own programs."""
    end_programs()
    processes = sys.modules.get("multiprocessing")
    for process in () if processes is None else processes.active_children():
        process.terminate()


def take_away() -> None:
    """Takes away what was made for a while."""
    for path in list(MADE):
        if os.path.isdir(path):
            import shutil

            shutil.rmtree(path, ignore_errors=True)
        elif os.path.lexists(path):
            os.unlink(path)


def name_output_errors() -> None:
    """Has each error in writing standard output name it, so that it is told from all others."""
    if sys.stdout is None:
        return

    def named(method: Callable[..., object]) -> Callable[..., object]:
        def call(*arguments: object) -> object:
            try:
                return method(*arguments)
            except OSError as error:
                error.filename = STANDARD_OUTPUT
                raise

        return call

    for name in ("write", "flush"):
        setattr(sys.stdout, name, named(getattr(sys.stdout, name)))


def give_up_output(error: OSError) -> str:
    """Returns the message for an error that ends a tool, and discards what is left of its output.

    (Python would report it once more when it exits.)"""
    os.dup2(os.open(os.devnull, os.O_WRONLY), sys.stdout.fileno())
    why = error.strerror or str(error)
    is_output = error.filename == STANDARD_OUTPUT
    return f"cannot write {STANDARD_OUTPUT}: {why}" if is_output else why
