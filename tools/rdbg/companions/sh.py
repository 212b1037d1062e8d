"""An interactive prompt on a model."""
import os
import sys
from typing import Sequence

from rdbg.failure import Failure
from rdbg.files.definitions import take_definitions
from rdbg.files.source import accepted
from rdbg.options import ANYONE, APPLICATION, Parser, bounded, port
from rdbg.shell import prompt
from rdbg.shell.sourcing import START
from rdbg.driving.interrupt import HardInterrupt, Interrupt
from rdbg.driving.opening import attach, begin, close
from rdbg.shell.shell import Shell
from rdbg.driving.target import Limits

SUMMARY = "Start an interactive prompt on a model"
EPILOG = (
    "Type `help` at the prompt for its commands. If standard input or output is not a terminal, sh"
    " works as a filter: it prints rdbg's replies, its own lines begin with '# ', and hints go to"
    " standard error.\n\n"
    "Exit status: 0 ended; 1 the model is refused, or rdbg or the room ended early; 2 a file cannot"
    " be read, or the server cannot be reached, belongs to another user, accepts no more sessions,"
    " or is not rdbg.\n\n"
    "Examples:\n"
    "  rdbg sh jobs.fw\n"
    "  rdbg sh --port 7000 --name ada jobs.fw"
)


def parser() -> Parser:
    """The parser of the command line."""
    made = Parser("rdbg sh", description=SUMMARY, epilog=EPILOG)
    made.word("file", "FILE", APPLICATION, nargs="?")
    made.word("--app", "FILE", "same as FILE")
    made.word("--port", "P", "attach to `rdbg serve` or `rdbg room` on port P", type=port)
    made.word("--name", "NAME", "your name in the room")
    made.flag("--anyone", ANYONE)
    made.word("--moves", "N", "maximum number of moves [default: 100000]", type=bounded(1))
    made.word(
        "--history", "N", "maximum number of history entries [default: 1000000]", type=bounded(2)
    )
    made.flag("--nx", f"do not execute the files {START} (see `help source` at the prompt)")
    take_definitions(made)
    return made


def main(words: Sequence[str]) -> int:
    """Runs the prompt at a terminal, or executes the lines of standard input."""
    given = parser().parse_args(words)
    if given.file is not None and given.app is not None:
        raise Failure(f"two models given, {given.app} and {given.file}; sh takes one", 2)
    if given.port is not None and (given.moves or given.history):
        raise Failure(
            "--moves and --history cannot be combined with --port: the server sets them", 2
        )
    if given.name is not None and given.port is None:
        raise Failure("--name requires --port", 2)
    if given.anyone and given.port is None:
        raise Failure("--anyone requires --port", 2)
    limits = Limits(given.moves or Limits.moves, given.history or Limits.history)
    source = accepted(given.file or given.app, dict(given.consts))
    if given.port is None:
        target = begin(source, limits)
    else:
        target = attach(given.port, source, given.name, given.anyone)
    shell = Shell(target, source, Interrupt())
    try:
        is_terminal = sys.stdin.isatty() and sys.stdout.isatty()
        (prompt.talk if is_terminal else prompt.filter_lines)(shell, not given.nx)
    except HardInterrupt:
        sys.stdout.flush()
        os._exit(130)
    except BaseException:
        shell.target.session.close()
        raise
    close(shell.target)
    return 0
