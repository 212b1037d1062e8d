"""Command lines: a parser with grouped options, and the numbers and ports in them."""
import argparse
import sys
import textwrap
from typing import Any, Callable, NoReturn, Optional, Tuple

from rdbg.digits import number
from rdbg.printable import printable
from rdbg.wording import shown

MOST_COUNT = 1_000_000
MOST_PORT = 65_535
APPLICATION = "model (.fw, .json, or .c with `// rdbg:` lines)"
ANYONE = "connect to the server at --port even if another user runs it"


class Paragraphs(argparse.HelpFormatter):
    """Formats a text paragraph by paragraph, and keeps a paragraph with indented lines as it is."""

    def _fill_text(self, text: str, width: int, indent: str) -> str:
        return "\n\n".join(
            part if "\n  " in part else textwrap.fill(part, width, initial_indent=indent)
            for part in text.split("\n\n")
        )


class Parser(argparse.ArgumentParser):
    """Parses the arguments of a tool."""

    def __init__(self, prog: str, **more: Any) -> None:
        more.setdefault("formatter_class", Paragraphs)
        super().__init__(prog, **more)
        self._section: Optional[Any] = None

    def section(self, title: str) -> None:
        """Begins a group of options in the help, to which the next ones belong."""
        self._section = self.add_argument_group(title)

    def print_help(self, file: Any = None) -> None:
        """Prints the help. Raises `OSError` if that fails, which argparse would pass over."""
        print(self.format_help(), end="", file=file or sys.stdout)

    def error(self, message: str) -> NoReturn:
        """Prints the usage and a message about wrong arguments, and ends the tool."""
        super().error(printable(message))

    def word(self, name: str, value: str, text: str, **more: Any) -> None:
        """Adds an option with a value, or a positional argument."""
        (self._section or self).add_argument(name, metavar=value, help=text, **more)

    def flag(self, name: str, text: str, **more: Any) -> None:
        """Adds an option without a value."""
        (self._section or self).add_argument(name, action="store_true", help=text, **more)


def bounded(least: int, most: int = MOST_COUNT) -> Callable[[str], int]:
    """Returns a parser for numbers from `least` to `most`, a million by default."""

    def read_number(text: str) -> int:
        value = number(text, most, least)
        if value is None:
            raise argparse.ArgumentTypeError(f"must be {least} to {most}, found '{shown(text)}'")
        return value

    return read_number


def part(text: str) -> Tuple[int, int]:
    """Parses K/N: part K of N."""
    first, _, second = text.partition("/")
    count = number(second, MOST_COUNT, 1)
    which = None if count is None else number(first, count, 1)
    if which is None or count is None:
        raise argparse.ArgumentTypeError(f"must be K/N with K from 1 to N, found '{shown(text)}'")
    return which, count


# Parses a port.
port = bounded(1, MOST_PORT)
