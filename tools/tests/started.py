"""Companions as processes of their own: what they leave behind, and what becomes of them where a
module is missing or a signal comes while one is imported."""
import array
import contextlib
import fcntl
import os
import pathlib
import subprocess
import sys
import termios
import time
from typing import Dict, List, Optional, Sequence

from tests.paths import COMPANION

PATIENCE = 30.0
MARK = "RDBG_TEST_MARK"
# Runs the companion so that something is done before a module is imported.
RUNNER = """
import os, runpy, sys
companion, at, action, *words = sys.argv[1:]
class Finder:
    def find_spec(self, name, path=None, target=None):
        if name in at.split(","):
            if action == "hide":
                raise ModuleNotFoundError(f"No module named {name!r}", name=name)
            if action == "fill":
                raise MemoryError
            os.kill(os.getpid(), int(action))
sys.meta_path.insert(0, Finder())
sys.argv = [companion, *words]
sys.path[0] = os.path.dirname(companion)
runpy.run_path(companion, run_name="__main__")
"""
# A program that never answers, nor ends by itself.
SLEEPER = """#!/bin/sh
exec sleep 1000
"""


def at_import(module: str, action: str, *words: str) -> "subprocess.CompletedProcess[str]":
    """A companion of which, before a module is imported, this signal comes, or that is hidden, or
    memory ends."""
    told = [sys.executable, "-B", "-c", RUNNER, str(COMPANION), module, action, *words]
    return subprocess.run(
        told, stdin=subprocess.DEVNULL, stdout=subprocess.PIPE, stderr=subprocess.PIPE, text=True
    )


def sleeper(folder: str) -> str:
    """The path of a program that never answers, in a folder."""
    made = pathlib.Path(folder) / "sleeper"
    made.write_text(SLEEPER)
    made.chmod(0o700)
    return str(made)


def seconds_of(command: Sequence[str], wanted: int = 0) -> float:
    """How many seconds of a processor a command takes, which ends with this status: the fewest of a
    few starts."""
    took = []
    for _ in range(3):
        none = subprocess.DEVNULL
        process = subprocess.Popen(command, stdin=none, stdout=none, stderr=none)
        _, status, used = os.wait4(process.pid, 0)
        process.returncode = os.WEXITSTATUS(status)
        assert os.WIFEXITED(status) and process.returncode == wanted, status
        took.append(used.ru_utime + used.ru_stime)
    return float(min(took))


def marked(mark: str) -> List[int]:
    """Returns the processes in whose environment `MARK` has this value."""
    found = []
    for folder in pathlib.Path("/proc").iterdir():
        with contextlib.suppress(OSError):
            if f"{MARK}={mark}".encode() in (folder / "environ").read_bytes().split(b"\0"):
                found.append(int(folder.name))
    return found


def trace_processes() -> int:
    """Returns how many processes a long trace has: itself and its program, and one and a program
    more for each processor where there are several."""
    count = len(os.sched_getaffinity(0))
    return 2 * count + 1 if count > 1 else 2


def processor_seconds() -> float:
    """Returns how many seconds of a processor this process and its children have used, those that
    have ended not counted. Unlike the clock it doesn't go on while others are at work."""
    ticks, own = 0, os.getpid()
    for file in pathlib.Path("/proc").glob("[0-9]*/stat"):
        with contextlib.suppress(OSError):
            # (behind the name: the state, the parent; and then, for the user and the kernel)
            fields = file.read_text().rpartition(")")[2].split()
            if own in (int(file.parent.name), int(fields[1])):
                ticks += int(fields[11]) + int(fields[12])
    return ticks / os.sysconf("SC_CLK_TCK")


def unread(process: int) -> int:
    """Returns how many bytes wait in a pipe that is the standard error of a process."""
    count = array.array("i", [0])
    with open(f"/proc/{process}/fd/2", "wb", 0) as pipe:
        fcntl.ioctl(pipe, termios.FIONREAD, count)
    return count[0]


class Started:
    """A companion that runs, with all processes that it has started, and theirs."""

    def __init__(
        self,
        *words: str,
        program: Optional[str] = None,
        reach: Optional[str] = None,
        ignored: Optional[int] = None,
    ) -> None:
        self.mark = f"{os.getpid()}-{time.monotonic_ns()}"
        named = {"RDBG_PROGRAM": program, "RDBG_REACH": reach}
        more: Dict[str, str] = {name: path for name, path in named.items() if path is not None}
        begin = [sys.executable, str(COMPANION)]
        if ignored is not None:
            begin = ["sh", "-c", f"trap '' {ignored}; exec \"$@\"", "sh", *begin]
        self.process = subprocess.Popen(
            [*begin, *words],
            env={**os.environ, MARK: self.mark, **more},
            stdin=subprocess.PIPE,
            stdout=subprocess.PIPE,
            stderr=subprocess.PIPE,
        )

    def family(self) -> List[int]:
        """Returns the processes that there are, the companion's own among them."""
        return marked(self.mark)

    def wait_for(self, count: int) -> None:
        """Waits until there are so many processes."""
        end = time.monotonic() + PATIENCE
        while len(self.family()) != count:
            assert time.monotonic() < end, (self.family(), self.process.poll())
            time.sleep(0.01)

    def give(self, lines: str) -> None:
        """Gives lines to its standard input, which ends there."""
        assert self.process.stdin is not None
        self.process.stdin.write(lines.encode())
        self.process.stdin.close()

    def tell(self, lines: str) -> None:
        """Gives lines to its standard input."""
        assert self.process.stdin is not None
        self.process.stdin.write(lines.encode())
        self.process.stdin.flush()

    def ask(self, line: str) -> str:
        """What it answers to a line."""
        self.tell(line)
        assert self.process.stdout is not None
        return self.process.stdout.readline().decode()

    def end(self, number: int) -> List[object]:
        """What it says on standard error and its status, once a signal has come, or where that is 0
        its input has ended; nothing that it has started is there any more."""
        streams = (self.process.stdin, self.process.stdout, self.process.stderr)
        assert streams[0] is not None and streams[2] is not None
        if number:
            self.process.send_signal(number)
        else:
            streams[0].close()
        status = self.process.wait(PATIENCE)
        self.wait_for(0)
        errors = streams[2].read().decode()
        for stream in streams:
            assert stream is not None
            stream.close()
        return [errors, status]
