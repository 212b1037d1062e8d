"""Processes that a companion starts. Each ends with it, also where it is killed.

The system sends a process a signal once the thread that started it has gone. So all of them are
started by threads that are there as long as their process is: its main thread, or one for this
alone."""
import functools
import os
import signal
import subprocess
import threading
from typing import IO, TYPE_CHECKING, Callable, Sequence, Union

from rdbg.ending import ENDING, STARTED

if TYPE_CHECKING:
    import concurrent.futures

Stream = Union[None, int, IO[bytes]]
# What is asked of the system: this signal, once who started it has gone.
PR_SET_PDEATHSIG = 1
# What a process that is made of this one takes over, which a program shouldn't have.
TAKEN_OVER = (signal.SIGINT, signal.SIGTERM)


@functools.lru_cache(maxsize=None)
def asked() -> Callable[..., int]:
    """What asks the system for something (found before a process is made, where little is safe)."""
    import ctypes

    found: Callable[..., int] = ctypes.CDLL(None).prctl
    return found


def bind(parent: int, number: int) -> None:
    """Has this process end by a signal once its parent has gone, also where it has already."""
    asked()(PR_SET_PDEATHSIG, int(number), 0, 0, 0)
    if os.getppid() != parent:
        os.kill(os.getpid(), number)


def end_with_parent() -> None:
    """Has a process that this program has made of itself end with it, as by SIGTERM."""
    from multiprocessing import parent_process

    parent = parent_process()
    if parent is not None and parent.pid is not None:
        bind(parent.pid, signal.SIGTERM)


def become(parent: int, number: int, ignored: Sequence[int]) -> None:
    """Is what a new process does before it becomes a program: it has the signals as they were."""
    for each in TAKEN_OVER:
        signal.signal(each, signal.SIG_IGN if each in ignored else signal.SIG_DFL)
    bind(parent, number)


@functools.lru_cache(maxsize=None)
def starter(process: int) -> "concurrent.futures.Executor":
    """The thread of this process that starts others for threads that end before those do."""
    import concurrent.futures

    return concurrent.futures.ThreadPoolExecutor(1)


def start(
    words: Sequence[str],
    stdin: Stream,
    stdout: Stream,
    stderr: Stream,
    number: int = signal.SIGKILL,
    is_apart: bool = True,
) -> "subprocess.Popen[bytes]":
    """A program of this one, which ends by a signal where this one has gone. Ctrl-C at the terminal
    doesn't reach one that stands apart. Who has waited for it takes it from `STARTED`. Raises
    `OSError` where it can't be started."""
    asked()
    ignored = [each for each in TAKEN_OVER if signal.getsignal(each) == signal.SIG_IGN]
    before = functools.partial(become, os.getpid(), number, ignored)

    def begin() -> "subprocess.Popen[bytes]":
        return subprocess.Popen(
            words,
            stdin=stdin,
            stdout=stdout,
            stderr=stderr,
            start_new_session=is_apart,
            preexec_fn=before,
        )

    is_main = threading.current_thread() is threading.main_thread()
    with ENDING.held():
        process = begin() if is_main else starter(os.getpid()).submit(begin).result()
        STARTED[process] = number
    return process
