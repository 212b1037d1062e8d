"""The commands of rdbg with their options, collected from their parsers and help texts."""
import argparse
import re
from typing import Iterator, List, NamedTuple, Optional, Tuple

from rdbg import main, program_help

# Names of values that are files or folders.
FILES = "FILE OUT OUT.html OUT.json COMMANDS ANSWER FOLDER PATH PREFIX IN".split()
# An option with its value, as in the help of a program.
TOLD = re.compile(r"^ +(?:(-\w), )?(--?[\w-]+)(?: <?([\w.\-/=]+)>?)?  +(\S.*)$", re.MULTILINE)
PLACED = re.compile(r"[<\[]?\b([A-Z]+)\b[>\]]?")
SHELLS = ("bash", "zsh")


class Option(NamedTuple):
    """An option; the name of its value is empty if it has none."""

    names: Tuple[str, ...]
    value: str
    text: str
    choices: Tuple[str, ...] = ()
    is_repeated: bool = False


class Word(NamedTuple):
    """A command: its summary, its options, and what may follow it."""

    name: str
    text: str
    options: Tuple[Option, ...] = ()
    has_files: bool = False
    choices: Tuple[str, ...] = ()


def option_of(action: argparse.Action) -> Option:
    """An option of a tool, from its parser."""
    # (an option with an optional value may be followed by any word)
    has_value = action.nargs not in (0, "?")
    value = str(action.metavar or action.dest.upper()) if has_value else ""
    choices = tuple(map(str, action.choices or ()))
    text = (action.help or "").replace("%%", "%")
    # (an option that collects its values may be repeated)
    is_repeated = isinstance(action.default, (list, dict))
    return Option(tuple(action.option_strings), value, text, choices, is_repeated)


def of_parser(name: str, parser: argparse.ArgumentParser) -> Word:
    """A companion, from its parser."""
    actions = parser._actions  # pylint: disable=protected-access
    placed = [it for it in actions if not it.option_strings]
    choices = tuple(str(word) for it in placed for word in it.choices or ())
    has_files = any(it.metavar in FILES for it in placed)
    options = tuple(option_of(it) for it in actions if it.option_strings)
    return Word(name, main.summary(name), options, has_files, choices)


def of_help(name: str, text: str) -> Word:
    """A command of a program, from its help text."""
    options = tuple(
        Option(tuple(filter(None, names)), value, said, is_repeated=True)
        for *names, value, said in TOLD.findall(text)
    )
    usage = next(line for line in text.split("\n") if line.startswith("Usage:"))
    usage = re.sub(r"--?[\w-]+ <?\w+>?", "", usage)
    has_files = any(it in FILES for it in PLACED.findall(usage))
    return Word(name, text.split("\n")[0], options, has_files)


def words() -> List[Word]:
    """All commands, without the options of the wrapper."""
    found = [of_help(name, text) for name, text in program_help.OF.items()]
    known = {it.name for it in found}
    others = ((name, main.companion(name)) for name in main.names() if name not in known)
    found += [of_parser(name, it.parser()) for name, it in others if hasattr(it, "parser")]
    names = tuple(sorted(it.name for it in found))
    found.append(Word("help", "Show help for a command", choices=names))
    return sorted(found, key=lambda it: it.name)


def own() -> Iterator[Option]:
    """The options that the wrapper takes instead of a command."""
    yield Option(("--help",), "", "Show the commands")
    yield Option(("--version",), "", "Show the version and whether the program is proved")
    yield Option(("--proved",), "", "Run the proved build, or refuse if there is none")
    yield Option(("--unproved",), "", "Run the unproved build")
    yield Option(("--build",), "", "Print the path of the program, and build it if necessary")
