"""Ctrl-C: while rdbg is asked it sets a flag, so that no reply is cut; at the prompt it ends the
line that is typed. And what wakes the prompt where something comes from a port."""
import contextlib
import os
import signal
import threading
from types import FrameType
from typing import Iterator, List, Optional

PATIENCE = 3
# The signal that wakes the prompt.
WAKE = signal.SIGUSR1
NOTE = b"\n# rdbg is executing a line that cannot be stopped; press Ctrl-C again to end rdbg sh\n"


class Interrupted(Exception):
    """Ctrl-C came between two pieces of something long."""


class HardInterrupt(BaseException):
    """Ctrl-C came again and again while one line was at work."""


class Woken(Exception):
    """Something came while a line was typed."""


class Interrupt:
    """Whether Ctrl-C came. `check` is called where what is long can end well."""

    def __init__(self) -> None:
        self._count = 0
        # (the line that is typed, once it is there; none where none is asked for)
        self._typed: Optional[List[str]] = None

    def install(self) -> None:
        """Takes Ctrl-C over, and what wakes the prompt, for the rest of the process."""
        signal.signal(signal.SIGINT, self._came)
        signal.signal(WAKE, self._woken)

    def _came(self, number: int, frame: Optional[FrameType]) -> None:
        if self._typed == []:
            raise KeyboardInterrupt
        self._count += 1
        if self._count >= PATIENCE:
            raise HardInterrupt
        if self._count == PATIENCE - 1:
            os.write(2, NOTE)

    def _woken(self, number: int, frame: Optional[FrameType]) -> None:
        if self._typed == []:
            raise Woken

    @staticmethod
    def wake() -> None:
        """Wakes the prompt, from another thread."""
        number = threading.main_thread().ident
        assert number is not None
        signal.pthread_kill(number, WAKE)

    @contextlib.contextmanager
    def at_prompt(self) -> Iterator[List[str]]:
        """As long as a line is typed, which comes into the list: until it is there Ctrl-C raises
        `KeyboardInterrupt`, and `wake` raises `Woken`."""
        self._count, self._typed = 0, []
        try:
            yield self._typed
        finally:
            self._typed = None

    def check(self) -> None:
        """Raises `Interrupted` where Ctrl-C came since the prompt."""
        if self._count:
            self._count = 0
            raise Interrupted
