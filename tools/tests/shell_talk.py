"""Talks with a shell as a terminal or a filter does, in this process."""
import contextlib
import io
import pathlib
from typing import Iterator, List, Optional, Tuple

from rdbg.driving.interrupt import Interrupt
from rdbg.driving.opening import begin
from rdbg.shell.shell import Shell
from rdbg.driving.target import Limits
from rdbg.files.source import Source, load
from tests.paths import EXAMPLES


@contextlib.contextmanager
def opened(source: Optional[Source], limits: Limits = Limits()) -> Iterator[Shell]:
    """A shell on an application that was read, or on the built-in one."""
    shell = Shell(begin(source, limits), source, Interrupt())
    try:
        yield shell
    finally:
        shell.target.session.close()


def example(name: str, limits: Limits = Limits()) -> "contextlib.AbstractContextManager[Shell]":
    """A shell on one of the examples."""
    return opened(load(str(EXAMPLES / f"{name}.json")), limits)


def file(path: pathlib.Path) -> "contextlib.AbstractContextManager[Shell]":
    """A shell on a file."""
    return opened(load(str(path)))


def both(shell: Shell, *lines: str) -> Tuple[List[str], List[str]]:
    """What these lines print on standard output, and on standard error."""
    output, errors = io.StringIO(), io.StringIO()
    with contextlib.redirect_stdout(output), contextlib.redirect_stderr(errors):
        for line in lines:
            shell.line(line)
    return output.getvalue().splitlines(), errors.getvalue().splitlines()


def said(shell: Shell, *lines: str) -> List[str]:
    """What these lines print on standard output."""
    return both(shell, *lines)[0]
