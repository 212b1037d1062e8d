"""Prints a completion script for a shell."""
import sys
from typing import Sequence

from rdbg.completing.table import SHELLS
from rdbg.options import Parser

SUMMARY = "Print the completion script for bash or zsh"
EPILOG = (
    "`rdbg install` and the Debian package install both scripts where the shells look for them.\n\n"
    "Examples:\n"
    "  source <(rdbg completion bash)\n"
    "  source <(rdbg completion zsh)     (after compinit)"
)


def parser() -> Parser:
    """The parser of the command line."""
    made = Parser("rdbg completion", description=SUMMARY, epilog=EPILOG)
    made.word("shell", "SHELL", "bash or zsh", choices=SHELLS)
    return made


def main(words: Sequence[str]) -> int:
    """Prints the script of a shell."""
    given = parser().parse_args(words)
    # (which asks every companion for its words)
    from rdbg.completing.scripts import OF_SHELL
    from rdbg.completing.table import words as all_words

    sys.stdout.write(OF_SHELL[given.shell](all_words()))
    return 0
