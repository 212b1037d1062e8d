"""Executes lines of files as if they were typed: `source FILE`, and the start files."""
import os
from typing import List, Sequence

from rdbg.driving.target import Unable
from rdbg.failure import Failure, trying, turned
from rdbg.input_file import read_bounded, read_own
from rdbg.printable import printable
from rdbg.shell.shell import Shell

START = ".rdbginit"
# The maximum nesting of `source`.
MOST_DEEP = 8


def source(shell: Shell, words: Sequence[str]) -> None:
    """Executes `source FILE`."""
    if len(words) != 1:
        raise Unable("`source` needs one file name without spaces, such as `source lines.rdbg`")
    with turned(Unable, Failure, ValueError), trying(f"read {words[0]}"):
        content = read_bounded(os.path.expanduser(words[0]))
    do_all(shell, words[0], content)


def do_all(shell: Shell, path: str, content: bytes) -> None:
    """Executes each line up to the first that is refused."""
    name = printable(path)
    if len(shell.sourced) >= MOST_DEEP:
        raise Unable(f"cannot execute {name}: `source` is nested more than {MOST_DEEP} deep")
    shell.sourced.append(path)
    try:
        for number, line in enumerate(content.decode("utf-8", "replace").splitlines(), 1):
            shell.do(line)
            if shell.is_refused:
                raise Unable(f"{name}:{number}: stopped here, because the line was refused")
            if shell.is_done:
                return
    finally:
        shell.sourced.pop()


def start_files(shell: Shell) -> List[str]:
    """Returns the paths of the start files that exist: the user's own and the one beside the
    application, if that is another one."""
    beside = [os.path.dirname(os.path.abspath(shell.source.path))] if shell.source else []
    folders = {os.path.realpath(it): it for it in (*beside, os.path.expanduser("~"))}
    paths = (os.path.join(it, START) for it in reversed(list(folders.values())))
    return [it for it in paths if os.path.lexists(it)]


def begin(shell: Shell) -> None:
    """Executes the start files. Refuses a file that another user may have written."""
    for path in start_files(shell):
        shell.is_starting = True
        try:
            with trying(f"read {path}"):
                content = read_own(path)
            do_all(shell, path, content)
        except (Unable, Failure) as why:
            shell.say(str(why))
        finally:
            shell.is_starting = False
