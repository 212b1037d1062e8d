"""Prints or exports what each move of a run did."""
import argparse
from typing import Sequence

from rdbg.failure import Failure
from rdbg.files.definitions import take_definitions
from rdbg.options import ANYONE, APPLICATION, Parser, bounded, port

SUMMARY = "Print or export what each move of a run did"
EPILOG = (
    "COMMANDS is a file with commands of rdbg, such as `save` in rdbg sh writes; # starts a"
    " comment, and - is standard input (the default). trace replays them in a new program, and"
    " reports commands that rdbg refuses on standard error.\n\n"
    "Exit status: 0 done; 1 the model is refused, or rdbg ended early; 2 a file cannot be read or"
    " written, or the server cannot be reached.\n\n"
    "Examples:\n"
    "  rdbg trace jobs.fw lost-job.commands --only worker,jobs\n"
    "  rdbg trace jobs.fw lost-job.commands --page lost-job.html --lost 'reg worker 7 = 2'"
)


def parser() -> Parser:
    """The parser of the command line."""
    made = Parser("rdbg trace", description=SUMMARY, epilog=EPILOG)
    word = made.word
    word("file", "FILE", APPLICATION, nargs="?")
    word("commands", "COMMANDS", "commands of the run [default: standard input]", nargs="?")
    made.section("run")
    word("--port", "P", "trace the moves made at the `rdbg serve` on port P", type=port)
    made.flag("--anyone", ANYONE)
    word("--moves", "N", "maximum number of moves [default: 100000]", type=bounded(1))
    take_definitions(made)
    made.section("rows")
    only = "print only rows about these tasks, objects and cores, such as jobs,worker,0"
    word("--only", "NAMES", only)
    when = "print only moves after which GOAL holds, such as 'count jobs > 0 and not runs worker'"
    word("--when", "GOAL", when)
    word("--from", "N", "start at place N", dest="first", type=bounded(0))
    word("--to", "N", "stop at place N", dest="last", type=bounded(0))
    made.section("files")
    word("--events", "OUT", "write Chrome trace events to OUT; - for standard output")
    word("--page", "OUT.html", "write the run as an HTML page; - for standard output")
    made.section("with --page")
    other = "show another run of the model below, and where the two first differ"
    word("--against", "COMMANDS2", other)
    word("--title", "TEXT", "title of the page")
    word("--note", "FILE", "text for the page, in Markdown; - for standard input")
    word("--at", "PLACE", "place where the page opens: a number, or a goal that holds there")
    question = made.add_mutually_exclusive_group()
    ask = "show the answer to 'lost GOAL', 'reach GOAL' or 'doomed GOAL' on the page"
    question.add_argument("--ask", metavar="QUESTION", help=ask)
    lost = "same as --ask 'lost GOAL'; also marks the row of the move that lost GOAL"
    as_ask = "lost {}".format
    question.add_argument("--lost", dest="ask", type=as_ask, metavar="GOAL", help=lost)
    return made


# Options that need --page.
OF_PAGES = ("title", "note", "at", "against")


def check_words(given: argparse.Namespace) -> None:
    """Raises `Failure` if options cannot be combined."""
    if given.anyone and given.port is None:
        raise Failure("--anyone requires --port", 2)
    if given.port is not None and given.commands is not None:
        raise Failure("--port cannot be combined with COMMANDS", 2)
    if given.port is not None and given.moves is not None:
        raise Failure("--moves cannot be combined with --port: the server sets it", 2)
    for option, value in (("--only", given.only), ("--when", given.when)):
        if value is not None and (given.events or given.page):
            word = "--events" if given.events else "--page"
            raise Failure(f"{option} cannot be combined with {word}", 2)
    for name in OF_PAGES:
        if getattr(given, name) is not None and not given.page:
            raise Failure(f"--{name} requires --page", 2)
    if given.against is not None and given.port is not None:
        raise Failure("--against cannot be combined with --port", 2)
    if given.ask is not None:
        check_question(given)
    if given.note == "-" and given.port is None and given.commands in (None, "-"):
        raise Failure("COMMANDS and --note cannot both be standard input", 2)
    if given.events and given.page:
        raise Failure("--events cannot be combined with --page", 2)
    if given.first is not None and given.last is not None and given.first > given.last:
        raise Failure(f"--from {given.first} is after --to {given.last}", 2)


def check_question(given: argparse.Namespace) -> None:
    """Raises `Failure` if --ask or --lost cannot be combined with the other options."""
    is_lost = given.ask.startswith("lost ")
    if is_lost and (given.events or given.port is not None):
        word = "--events" if given.events else "--port"
        raise Failure(f"--lost cannot be combined with {word}", 2)
    if not is_lost and not given.page:
        raise Failure("--ask requires --page (without it, only 'lost GOAL' is possible)", 2)
    if given.port is not None:
        raise Failure("--ask cannot be combined with --port", 2)


def main(words: Sequence[str]) -> int:
    """Traces a run, or what is done at a port."""
    given = parser().parse_args(words)
    check_words(given)
    # (these take their time; what is said above needs none)
    from rdbg.files.source import accepted
    from rdbg.tracing.command import trace

    trace(given, accepted(given.file, dict(given.consts)))
    return 0
