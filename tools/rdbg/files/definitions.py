"""Constants of a .fw model set on the command line: `-D NAME=N`."""
import argparse
from typing import Tuple

from rdbg.failure import turned
from rdbg.firmware.numbers import NAME, Constants, Kept, Numbers
from rdbg.firmware.tokens import Refusal, Scanner
from rdbg.options import Parser
from rdbg.wording import shown

OPTION = "-D"


def definition(text: str) -> Tuple[str, int]:
    """Parses a constant and its value, such as `JOBS=3` or `MASK=1<<4`."""
    name, sign, number = text.partition("=")
    if not sign or not NAME.fullmatch(name):
        raise argparse.ArgumentTypeError(f"must be NAME=N, such as JOBS=3, found '{shown(text)}'")
    kept = Kept(Constants(), [])
    reader = Numbers(next(Scanner(number, kept.refusals).lines()), kept)
    with turned(argparse.ArgumentTypeError, Refusal, of=name):
        value = reader.number() if reader.tokens else 0
    if kept.refusals or reader.next() is not None or not reader.tokens:
        raise argparse.ArgumentTypeError(f"{name}: '{shown(number)}' is not a number")
    return name, value


def take_definitions(parser: Parser) -> None:
    """Adds the option -D, which fills `consts`. The last value of a name counts."""
    text = "set constant NAME in a .fw model (repeatable)"
    parser.word(OPTION, "NAME=N", text, dest="consts", type=definition, action="append", default=[])
