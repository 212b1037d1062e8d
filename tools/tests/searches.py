"""Searches for the tests: `rdbg reach` over a program that says what a test wants, or the real
one."""
import contextlib
import io
import os
import pathlib
import shlex
import stat
import tempfile
import time
from typing import Iterator, List, NamedTuple, Optional, Tuple
from unittest import mock

from rdbg.main import main
from rdbg.reaching import running

FOUND = "found\nstep 0\ntick\nstates 5 moves 9 deepest 2\n"
NEVER = "never\nstates 5 moves 9 deepest 4\n"
FAR = "progress within 12 states 345 moves 6789 deepest 24 bytes 1048576\n"
FURTHER = "progress within 13 states 400 moves 8000 deepest 26 bytes 2097152\n"
# How far that is, as it is answered.
SAID_FURTHER = "full: not within 13 moves\nstopped\nstates 400 moves 8000 deepest 26\n"
# How a program ends: by a signal, or not by itself.
KILLED, SLEEPS = "kill -9 $$", "exec sleep 1000"
TEXT = """#!/bin/sh
echo "$@" > {words}
{hears}
cat {errors} >&2
cat {output}
: > {printed}
{end}
"""


class Fake(NamedTuple):
    """A program that isn't rdreach."""

    path: str
    folder: pathlib.Path

    def words(self) -> str:
        """With which words it was started; empty where it wasn't yet."""
        file = self.folder / "words"
        return file.read_text().rstrip("\n") if file.exists() else ""

    def heard(self) -> List[str]:
        """Returns the lines of its standard input, of a program that `hears`."""
        return (self.folder / "heard").read_text().splitlines()

    def has_printed(self) -> bool:
        """Whether it has said all that it says."""
        return (self.folder / "printed").exists()

    def clock(self) -> mock.Mock:
        """Returns a clock that stands still until it has said all that it says."""
        began = time.monotonic()
        return mock.Mock(monotonic=lambda: time.monotonic() if self.has_printed() else began)


@contextlib.contextmanager
def program(
    output: str, errors: str = "", end: str = "exit 0", hears: bool = False
) -> Iterator[Fake]:
    """A program that says this, and then ends in this way; first it reads its standard input, if it
    `hears`. As long as it is there, `rdbg reach` starts it."""
    with tempfile.TemporaryDirectory() as name:
        folder = pathlib.Path(name)
        for file, text in (("output", output), ("errors", errors)):
            (folder / file).write_text(text)
        files = ("words", "output", "errors", "printed")
        places = {it: shlex.quote(str(folder / it)) for it in files}
        places["hears"] = f"cat > {shlex.quote(str(folder / 'heard'))}" if hears else ""
        made = folder / "rdreach"
        made.write_text(TEXT.format(end=end, **places))
        made.chmod(made.stat().st_mode | stat.S_IXUSR)
        found = Fake(str(made), folder)
        with mock.patch.dict(os.environ, {"RDBG_REACH": str(made)}):
            # (on a busy machine a search would be ended before it has said anything)
            with mock.patch.object(running, "time", found.clock()):
                yield found


def real() -> Optional[str]:
    """The program that searches, where the tests are told which it is."""
    return os.environ.get("RDBG_REACH")


def said(*words: str) -> Tuple[int, str, List[str]]:
    """The status of `rdbg reach` on these words, its standard output, and the lines of the
    other."""
    output, errors = io.StringIO(), io.StringIO()
    with contextlib.redirect_stdout(output), contextlib.redirect_stderr(errors):
        status = main(["reach", *words])
    return status, output.getvalue(), errors.getvalue().splitlines()
