"""Searches for a run with the fewest surprises that reaches a goal."""
import argparse
import contextlib
import os
import sys
import time
from typing import IO, Iterator, List, Optional, Sequence, Tuple

from rdbg import atomic_file, digits, options
from rdbg.application import NO_INTERRUPT
from rdbg.driving.target import Unable
from rdbg.failure import Failure
from rdbg.files.definitions import take_definitions
from rdbg.files.source import Source, without_faults
from rdbg.hunting import goals, report
from rdbg.hunting.differs import Differs
from rdbg.hunting.goals import Goal
from rdbg.hunting.interrupts import handlers
from rdbg.hunting.search import Search
from rdbg.hunting.stage import Find, Stage
from rdbg.options import APPLICATION, Paragraphs, Parser, bounded
from rdbg.goals.scope import Scope
from rdbg.reaching import beside, vacuity
from rdbg.reaching.asking import CTRL_C, LOST, QUESTIONS, REACH, Asker, NoQuestion
from rdbg.reaching.handlers import OPTION, TIMES
from rdbg.reaching.said import Answer, Bound, Kind
from rdbg.reaching.vacuity import Vacuous
from rdbg.replies import Refused

SUMMARY = "Search for runs that reach a goal, with the fewest surprises first"
EPILOG = (
    "GOAL is a goal as for `rdbg reach`, or `differs`: two runs end differently. A run is printed"
    " as commands that `rdbg run` replays, and remarks about it go to standard error; with -o, the"
    " run goes to OUT and the remarks to standard output.\n\n"
    "Exit status: 0 no run is found (never, or not within the limits asked for); 1 a run is found;"
    " 2 undecided, or an error; 130 after Ctrl-C. With --expect found: 0 a run is found, 1 none"
    " is.\n\n"
    "Example:\n  rdbg hunt jobs.fw 'asleep and count jobs > 0' -o lost-job.commands"
)
ISR = (
    "interrupt that may occur once at any time, such as 'send rx 41', with ; between several calls;"
    " or the name of an interrupt of the model, which occurs as declared (repeatable)"
    " [default: the interrupts of the model; `--isr none` for none]"
)
NONE_FOUND, FOUND, CANT, STOPPED = 0, 1, 2, 130
STANDARD = "-"
# Options that are passed on to the search program, each with the name of its value and its help.
PASSED = {
    "--pace": ("M..N", "moves per busy core between two ticks [default: any number]"),
    "--states": ("N", "stored states"),
    "--memory": ("MIB", "memory for stored states in MiB"),
    "--part": ("K/N", "search only part K of N, to divide the work between machines"),
}
# Those of them that the goal `differs` does not support.
OF_ONE_GOAL = ("--pace", "--part")


def part(text: str) -> str:
    """Reads K/N, the part K of N, and passes it on."""
    options.part(text)
    return text


def seconds(text: str) -> float:
    """Reads a number of seconds, above 0."""
    value = digits.seconds(text)
    if value is None:
        raise argparse.ArgumentTypeError(f"must be a positive number of seconds, found '{text}'")
    return value


class OneGoal(Paragraphs):
    """Shows an argument of several words once in the usage."""

    def _format_args(self, action: argparse.Action, default_metavar: str) -> str:
        if action.nargs == "+" and isinstance(action.metavar, str):
            return action.metavar
        return super()._format_args(action, default_metavar)


def parser() -> Parser:
    """The parser of the command line."""
    made = Parser("rdbg hunt", description=SUMMARY, epilog=EPILOG, formatter_class=OneGoal)
    word, count = made.word, bounded(1)
    word("file", "FILE", APPLICATION)
    word("goal", "GOAL", "goal, such as 'asleep and count jobs > 0'", nargs="+")
    word("-o", "OUT", "write the runs to OUT", dest="output")
    word("--page", "OUT.html", "write the first run as an HTML page")
    report = "write the result as SARIF, or as JUnit XML if FILE ends in .xml"
    word("--report", "FILE", report)
    word(
        "--surprises", "N", "allow at most N deviations from the default schedule", type=bounded(0)
    )
    word("--moves", "N", "consider runs of at most N moves (0: only the start)", type=bounded(0))
    word("--isr", "CALLS", ISR, action="append", default=[])
    made.flag("--exhaustive", "minimize moves instead of surprises")
    made.flag("--smallest", "prove that no run has fewer surprises or, with as many, fewer moves")
    word("--all", "N", "find the first N runs that end differently", type=count)
    made.add_argument(
        "--expect", choices=["none", "found"], help="result with exit status 0 [default: none]"
    )
    word("--within", "SECONDS", "stop after this time", type=seconds)
    for name, (value, what) in PASSED.items():
        word(name, value, what, type=part if name == "--part" else str)
    take_definitions(made)
    return made


def passed(given: argparse.Namespace) -> List[Tuple[str, str]]:
    """The options that are passed on, with their values."""
    found = ((name, getattr(given, name.strip("-"))) for name in PASSED)
    return [(name, value) for name, value in found if value is not None]


def check_words(given: argparse.Namespace, goal: Goal) -> None:
    """Raises `Failure` if options cannot be combined."""
    options_given = (("--surprises", given.surprises is not None), ("--smallest", given.smallest))
    for name in (name for name, is_given in options_given if is_given and given.exhaustive):
        raise Failure(f"--exhaustive cannot be combined with {name}", CANT)
    if given.smallest and given.all is not None:
        raise Failure("--smallest cannot be combined with --all", CANT)
    smallest = ["--smallest"] if given.smallest else []
    names = [*smallest, *(name for name, _ in passed(given) if name in OF_ONE_GOAL)]
    if goal.compares and names:
        raise Failure(f"{names[0]} cannot be combined with the goal differs", CANT)


@contextlib.contextmanager
def outputs(path: Optional[str], source: str) -> Iterator[Tuple[IO[str], IO[str]]]:
    """Yields the file for the lines of the finds, and the file for the text about them.

    An existing output file is emptied first, so that it has no lines of an earlier hunt if this one
    finds nothing; a new one is made only for a find. Raises `Failure` if it cannot be written."""
    if path is None or path == STANDARD:
        yield sys.stdout, sys.stderr
        return
    with contextlib.suppress(OSError):
        if os.path.samefile(path, source):
            raise Failure(f"-o {path}: refusing to overwrite the model", CANT)
    atomic_file.empty(path)
    with atomic_file.write_atomically(path, skips_empty=True) as file:
        yield file, sys.stdout


class Hunt:
    """A hunt by its words."""

    def __init__(self, given: argparse.Namespace, search: Search) -> None:
        self.given, self.search, self.goal = given, search, search.goal
        self.stage, self.source = search.stage, search.stage.source
        self.finds: List[Find] = []
        # (the order of `forward`, where others are held against it)
        self.own: Optional[Find] = None

    def run(self) -> None:
        """Searches."""
        given, search = self.given, self.search
        if self.goal.compares:
            differs = Differs(search)
            self.own, self.finds = differs.own, differs.find(given.all or 1)
        elif given.smallest:
            self.finds = search.smallest()
        else:
            self.finds = search.all(given.all or 1)

    def report(self) -> None:
        """Writes what came of it, where that was asked."""
        if self.given.report is None:
            return
        from rdbg.hunting import reports  # (which takes its time)

        source, goal, stage = self.source, self.goal.text, self.stage
        found = [reports.found(source, goal, stage, it.lines, it.told) for it in self.finds]
        empty = [reports.vacuous(source, goal, it) for it in [self.vacuous()] if it]
        results = found or [reports.none(source, goal, self.search.left())]
        reports.write(self.given.report, source.path, goal, results + empty, self.given.expect)

    def say(self, file: IO[str], out: IO[str]) -> None:
        """Prints the lines of what was found, and what is said."""
        said = self._said()
        if self.finds:
            lines = report.lines_of(self.goal, [*filter(None, [self.own]), *self.finds])
            print(*lines, sep="\n", file=file, flush=True)
        print(*said, sep="\n", file=out, flush=True)
        empty = self.vacuous()
        if empty:
            print(empty.note, file=sys.stderr, flush=True)
        self._write_page()

    def vacuous(self) -> Optional[Vacuous]:
        """Returns why the answer is vacuous, if it is."""
        if self.goal.compares:
            return None
        question = self.search.question
        words = " ".join(self.given.goal).split()
        goal = " ".join(words[words[:1] == [question.word] :])
        answer = Answer(Kind.REACHED) if self.finds else self.search.left()
        return vacuity.find(Scope.of(self.source), goal, question, answer)

    def _said(self) -> List[str]:
        """What is said."""
        search, left = self.search, self.search.left()
        if not self.finds:
            answer, said = left, [*report.none(self.goal, left, self.stage.application)]
        else:
            is_exhaustive = self.given.exhaustive and self.own is None
            told = report.found(self.goal, self.stage, self.finds, is_exhaustive, self.own)
            answer, said = Answer(Kind.REACHED), [*told, report.gone_through(search.counts)]
            if self.given.smallest:
                said += report.smaller(search.none)
            elif search.is_all or search.untold():
                said += report.others(left)
        has_pace = self.given.pace is not None
        more = beside.remarks(answer, self.source, self.given.isr, has_pace, "--pace")
        return [*said, *more]

    def _write_page(self) -> None:
        """Writes the first find as a page, where that was asked."""
        if self.given.page is None or not self.finds:
            return
        from rdbg.tracing.command import page_of  # (which takes its time)
        from rdbg.tracing.page.asked import Asked

        find, is_exhaustive = self.finds[0], self.given.exhaustive
        where = report.place_of(find, is_exhaustive)
        said = f"Found: the run on this page reaches it, {where}."
        told = () if is_exhaustive else find.told
        asked = Asked(f"hunt {self.goal.text}", (said, *told), find.place)
        page_of(self.source, find.lines, self.given.page, lambda _: asked)

    def status(self) -> int:
        """The exit status."""
        expected, left = self.given.expect, self.search.left()
        if self.finds:
            return NONE_FOUND if expected == "found" else FOUND
        if left.why == CTRL_C:
            return STOPPED
        if left.kind is Kind.UNTOLD:
            return CANT
        return FOUND if expected == "found" else NONE_FOUND


# (where a run lost a goal is no order that is hunted for)
HUNTED = {word: it for word, it in QUESTIONS.items() if it is not LOST}


def hunt(given: argparse.Namespace, source: Source, path: str) -> int:
    """Hunts through an application whose JSON is at a path."""
    assert source.application is not None
    words = " ".join(given.goal).split()
    question = HUNTED.get(words[0] if words else "", REACH)
    goal = goals.read(words[words[:1] == [question.word] :], source, question)
    check_words(given, goal)
    may_come = handlers(given.isr, source.application)
    if goal.compares and any({*dict(it.when)} - {TIMES} for it in may_come):
        why = "the goal differs cannot use declared interrupts with `after` or `apart`"
        remedy = f"write their calls, or use {OPTION} {NO_INTERRUPT}"
        raise Failure(f"{why} ({remedy})", CANT)
    for output in (given.page, given.report):
        if output not in (None, STANDARD):
            atomic_file.check_writable(output)
    end = None if given.within is None else time.monotonic() + given.within
    words_passed = tuple(word for pair in passed(given) for word in pair)
    stage = Stage(source, may_come)
    bound = Bound(given.moves, given.surprises)
    search = Search(Asker(path, words_passed, end), stage, goal, bound, question, given.exhaustive)
    it = Hunt(given, search)
    with outputs(given.output, given.file) as (file, out), contextlib.closing(stage):
        try:
            it.run()
        except KeyboardInterrupt:
            search.none.append(Answer(Kind.UNTOLD, why=CTRL_C))
        it.say(file, out)
        it.report()
        return it.status()


def main(words: Sequence[str]) -> int:
    """Hunts, and says what was found, or that nothing was."""
    given = parser().parse_args(words)
    try:
        source, _ = without_faults(given.file, dict(given.consts))
        with source.as_json() as path:
            return hunt(given, source, path)
    except NoQuestion as refused:
        if str(refused):
            raise Failure(f"rdreach refused the question: {refused}", CANT) from None
        return CANT  # (it has said why)
    except Refused as refused:
        raise Failure(f"rdbg refused the run: no {refused}", CANT) from None
    except (Unable, Failure) as wrong:
        raise Failure(str(wrong), CANT) from None
