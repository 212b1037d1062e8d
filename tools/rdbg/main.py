"""Runs the tool that the first word of the command line names."""
import contextlib
import importlib
import io
import os
import sys
from types import ModuleType
from typing import List, NamedTuple, Sequence

from rdbg import ending
from rdbg.ending import ENDING
from rdbg.failure import Failure
from rdbg.printable import printable

FOLDER = os.path.join(os.path.dirname(os.path.abspath(__file__)), "companions")
# How the line with the summary of a companion begins.
SUMMARY = 'SUMMARY = "'
# The exit status if the output cannot be written.
CANNOT_WRITE = 2


class Entry(NamedTuple):
    """Words of a command line, and what they do."""

    words: str
    text: str


def names() -> List[str]:
    """The names of all companions."""
    stems = [os.path.splitext(file) for file in os.listdir(FOLDER)]
    return sorted(stem for stem, end in stems if end == ".py" and stem != "__init__")


def companion(name: str) -> ModuleType:
    """The module of the companion of this name."""
    return importlib.import_module(f"rdbg.companions.{name}")


def summary(name: str) -> str:
    """The summary of a companion, read from its source because importing all takes long."""
    with open(os.path.join(FOLDER, f"{name}.py"), encoding="utf-8") as file:
        line = next(line for line in file if line.startswith(SUMMARY))
    return line[len(SUMMARY) :].rstrip().rstrip('"')


def entries() -> List[Entry]:
    """Each companion with its summary."""
    return [Entry(name, summary(name)) for name in names()]


def hint(words: Sequence[str]) -> int:
    """Reports what is wrong with a command line that the program refused or does not know."""
    from rdbg import command_line

    if words[0] in command_line.OF_COMMAND:
        found = command_line.why(words)
    else:
        found = command_line.unknown(
            words[0], [*command_line.OF_COMMAND, *names(), "install", "uninstall", "prove"]
        )
    if found is not None:
        print(f"rdbg: {found}", file=sys.stderr)
    return 2


def warn_of_port(words: Sequence[str]) -> None:
    """Reports on standard error why `serve` cannot listen on its port, if it cannot."""
    from rdbg import serve_port

    found = serve_port.warning(words)
    if found is not None:
        print(f"rdbg: {found}", file=sys.stderr)


def run(words: Sequence[str]) -> int:
    """Executes a command line, and returns the exit status."""
    word = words[0] if words else ""
    if word in ("--help", "-h"):
        from rdbg.manual import help_text

        print(help_text(entries()))
    elif word == "--manual":
        from rdbg.manual import page

        print(page(entries(), *words[1:2]))
    elif word == "--manuals" and len(words) == 3:
        from rdbg.manual_pages import write_all

        write_all(words[1], words[2])
    elif word == "--why" and words[1:]:
        return hint(words[1:])
    elif word == "--port-of" and words[1:]:
        warn_of_port(words[1:])
    elif word == "--help-of" and words[1:]:
        from rdbg import program_help

        print(program_help.OF[words[1]])
    elif word in names():
        return int(companion(word).main(words[1:]))
    else:
        raise Failure(f"unknown tool '{word}'; the tools are {', '.join(names())}", 2)
    return 0


def finish(words: Sequence[str], name: str) -> int:
    """Runs the tool, and returns its exit status once its output is written. A failure is one line
    on standard error. Raises `OSError` if the output cannot be written."""
    try:
        status = run(words)
    except Failure as failure:
        ENDING.check()
        print(f"{name}: {printable(str(failure))}", file=sys.stderr)
        status = failure.status
    except SystemExit as ended:
        # (the parser of the arguments has printed its help or an error)
        status = ended.code if isinstance(ended.code, int) else 0
    sys.stdout.flush()
    return status


def main(words: Sequence[str]) -> int:
    """Runs the tool that the first word names, and returns its exit status: 2 if its output cannot
    be written, of which nothing is said if its reader has gone."""
    for stream in (sys.stdout, sys.stderr):
        if isinstance(stream, io.TextIOWrapper):
            stream.reconfigure(errors="backslashreplace")
    name = printable(" ".join(["rdbg", *words[:1]]))
    try:
        return finish(words, name)
    except OSError as error:
        ENDING.check()
        why = ending.give_up_output(error)
        if not isinstance(error, BrokenPipeError):
            with contextlib.suppress(OSError):
                print(f"{name}: {why}", file=sys.stderr)
        return CANNOT_WRITE
