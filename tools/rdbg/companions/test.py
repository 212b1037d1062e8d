"""Checks a folder of models against their expected answers."""
import argparse
import contextlib
import functools
import os
import sys
from typing import IO, Iterator, List, Sequence, Tuple
from xml.etree import ElementTree

from rdbg import client, junit
from rdbg.atomic_file import check_writable, write_atomically
from rdbg.failure import Failure, of_words, turned
from rdbg.options import Parser, bounded, part
from rdbg.printable import printable
from rdbg.reaching import asking
from rdbg.testing import cases
from rdbg.testing.cases import Case
from rdbg.testing.trial import Result, Verdict, tried, wrong_with
from rdbg.wording import counted
from rdbg.workers import side_by_side

SUMMARY = "Check a folder of models against their expected answers"
EPILOG = (
    "PATH is a folder with a file goals.json, or such a file: a list of cases, each with a model, a"
    " question, a goal and the expected answer (docs/COMPANIONS.md). Each case is reported on one"
    " line as `ok` or `wrong`, the latter with the actual answer and its run.\n\n"
    "Exit status: 0 all answers are as expected; 1 an answer is wrong; 2 a file, a goal or the"
    " command line is invalid; 130 after Ctrl-C.\n\n"
    "Example:\n  rdbg test models --jobs 4 --report results.xml"
)
AS_EXPECTED, OTHERWISE, NONE = 0, 1, 2


def parser() -> Parser:
    """The parser of the command line."""
    made = Parser("rdbg test", description=SUMMARY, epilog=EPILOG)
    made.word(
        "path",
        "PATH",
        "folder with goals.json, or such a file [default: .]",
        nargs="?",
        default=".",
    )
    jobs, count = len(os.sched_getaffinity(0)), bounded(1)
    side_by_side = "run N cases in parallel [default: the number of processors]"
    made.word("--jobs", "N", side_by_side, type=count, default=jobs)
    parts = "run only part K of N of the cases, to divide them between machines"
    made.word("--part", "K/N", parts, type=part, default=(1, 1))
    made.word("--report", "FILE", "write the results as JUnit XML")
    made.flag("--strict", 'report a vacuous answer as wrong, unless the case has "vacuous": true')
    return made


def checked(path: str) -> Tuple[str, List[Case]]:
    """The file with the cases, and these. Says all that is wrong with it, then raises `Failure`."""
    file = cases.file_of(path)
    found, faults = cases.load(file)
    name = printable(file)
    said = [f"{name}:{fault}" for fault in faults]
    if not said:
        folder = os.path.dirname(file)
        pairs = ((it, wrong_with(it, folder)) for it in found)
        said = [f"{name}:{it.place}: {printable(wrong)}" for it, wrong in pairs if wrong]
    if said:
        print(*said, sep="\n", file=sys.stderr)
        raise Failure(f"{file} has {counted(len(said), 'error')}; no case was run", NONE)
    return file, found


def draw(text: str, stream: IO[str]) -> None:
    """Draws a line at a terminal, in place of the one that is there; elsewhere none."""
    if stream.isatty():
        print(f"\r\x1b[K{text}", end="", file=stream, flush=True)


def results_of(
    folder: str, found: Sequence[Case], jobs: int, is_strict: bool = False
) -> Iterator[Tuple[Case, Result]]:
    """What becomes of the cases, one after the other; a line says meanwhile which is waited for."""
    work = functools.partial(tried, folder, is_strict)
    answers = side_by_side(lambda: contextlib.nullcontext(work), found, jobs)
    for done, case in enumerate(found):
        draw(f"{done} of {len(found)} done, running {case.file}"[:78], sys.stderr)
        result = next(answers)
        draw("", sys.stderr)
        yield case, result


def why_wrong(case: Case, result: Result, joined: str) -> str:
    """Returns what came, and why that is wrong; `joined` stands between what was expected and
    came."""
    if not case.is_met(result.came):
        return f"expected {case.expect}{joined}got {result.came}"
    if result.vacuous:
        return f"{result.came}, but {result.vacuous.text}"
    return f"{result.came}, but expected a vacuous answer"


def warning_of(file: str, case: Case, result: Result) -> str:
    """Returns the warning that an answer is vacuous, if it is and the case does not expect it."""
    if result.vacuous is None or case.vacuous:
        return ""
    what = f"{case.file}: {case.question} {case.goal}: {result.vacuous.note}"
    return f'{file}:{case.place}: warning: {what} (add "vacuous": true if that is intended)'


def said_of(case: Case, result: Result) -> Iterator[str]:
    """What is said of a case."""
    what = f"{case.file}: {case.question} {case.goal}: "
    if result.verdict is Verdict.WRONG:
        what += why_wrong(case, result, ", ")
    elif result.verdict is Verdict.REFUSED:
        what += f"{case.expect}: {result.came}"
    else:
        # (what is expected can be less than what came)
        what += case.expect if result.came == case.expect else f"{case.expect}, {result.came}"
        what += ", vacuous as expected" if case.vacuous else ""
    what += f", {result.beside}" if result.beside else ""
    yield f"{result.verdict.value:<6} {what} ({result.seconds:.1f} s)"
    if result.verdict is Verdict.WRONG:
        yield from (f"       {line}" for line in result.told)


# What a case has in a report.
ELEMENTS = {
    Verdict.OK: junit.AS_EXPECTED,
    Verdict.WRONG: junit.FAILURE,
    Verdict.REFUSED: junit.ERROR,
}


def element(case: Case, result: Result, warning: str) -> ElementTree.Element:
    """A case, with the warning or the note that its answer is vacuous."""
    name = f"{case.question} {case.goal}: {case.expect}"
    is_wrong = result.verdict is Verdict.WRONG
    why = why_wrong(case, result, ", ") if is_wrong else f"refused: {result.came}"
    told = [result.came, *result.told] if result.told else []
    wrong = (ELEMENTS[result.verdict], why)
    made = junit.case(case.file, name, wrong, told, time=f"{result.seconds:.3f}")
    return junit.with_notes(
        made, filter(None, [warning or (result.vacuous and result.vacuous.note)])
    )


@turned(of_words, Failure)
def test(given: argparse.Namespace) -> int:
    """Tries the cases, and says what became of them."""
    file, listed = checked(given.path)
    which, count = given.part
    found = listed[which - 1 :: count]
    if given.report is not None:
        check_writable(given.report)
    # (which are built where they have to be, once for all)
    asking.program()
    client.program()
    tried: List[Tuple[Case, Result]] = []
    folder = os.path.dirname(file)
    for case, result in results_of(folder, found, given.jobs, given.strict):
        tried.append((case, result))
        print(*map(printable, said_of(case, result)), sep="\n", flush=True)
        warning = warning_of(file, case, result)
        if warning:
            print(warning, file=sys.stderr, flush=True)
    counts = {it: sum(result.verdict is it for _, result in tried) for it in Verdict}
    each = ", ".join(f"{count} {it.value}" for it, count in counts.items() if count)
    print(f"{counted(len(tried), 'case')}: {each or 'none in this part'}", flush=True)
    if given.report is not None:
        took = sum(it.seconds for _, it in tried)
        with write_atomically(given.report) as out:
            made = [element(*it, warning_of(file, *it)) for it in tried]
            out.write(junit.document(file, made, time=f"{took:.3f}"))
    if counts[Verdict.REFUSED]:
        return NONE
    return OTHERWISE if counts[Verdict.WRONG] else AS_EXPECTED


def main(words: Sequence[str]) -> int:
    """Runs the cases of a folder."""
    return test(parser().parse_args(words))
