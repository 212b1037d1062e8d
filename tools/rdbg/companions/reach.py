"""Runs the search program, shows its answer, and stops it in time."""
import argparse
import contextlib
import os
import signal
import sys
from typing import Iterator, List, NoReturn, Optional, Sequence, Tuple

from rdbg import ending, program_help
from rdbg.atomic_file import STANDARD_OUTPUT, check_writable, write_atomically
from rdbg.driving.target import Unable
from rdbg.ending import ENDING
from rdbg.failure import Failure, of_words, trying, turned
from rdbg.files.definitions import definition
from rdbg.files.source import LINES, WRONG_TYPE, Source, load
from rdbg.goals.reading import NoGoal
from rdbg.goals.scope import Scope
from rdbg.goals.words import for_search
from rdbg.input_file import read_bounded
from rdbg.printable import printable
from rdbg.reaching import beside, running, said, vacuity
from rdbg.reaching.asking import DOOMED, LOST as LOST_AT, REACH, STOPPED, Question, program
from rdbg.reaching.handlers import handlers, told as told_of
from rdbg.reaching.said import UNTOLD, Answer
from rdbg.reaching.vacuity import Vacuous
from rdbg.reaching.words import DEFINE, ENGINE, LOST, OUTPUT, PACE, PAGE, PROGRESS, REPORT, WITHIN
from rdbg.reaching.words import Words, read
from rdbg.replies import Refused

# The program refuses such words in the same way.
NO_GOAL = f"no goal given (for the line protocol: reach FILE {ENGINE})"
GOAL_WITH_ENGINE = f"{ENGINE} takes no goal on the command line: it reads goals from standard input"
SUMMARY = "Search all interleavings for a state that satisfies a goal"


def question_of(asked: Words) -> Question:
    """Which question is asked of the goal."""
    return LOST_AT if asked.has(LOST) else DOOMED if asked.has(f"--{DOOMED.word}") else REACH


def check_output(asked: Words) -> None:
    """Raises `Failure` where the order, its page or the report couldn't be written."""
    if REPORT in asked.own and asked.has(LOST):
        raise Failure(f"{REPORT} cannot be combined with {LOST}", 2)
    for option, path in asked.own.items():
        if option == WITHIN:
            continue
        if path == STANDARD_OUTPUT:
            raise Failure(
                f"{option} needs a file (the run is printed on standard output anyway)", 2
            )
        check_writable(path)
        for file in filter(os.path.exists, asked.files()):
            if os.path.exists(path) and os.path.samefile(file, path):
                raise Failure(f"{option} {path}: refusing to overwrite the input file {file}", 2)


def with_remarks(asked: Words, output: str, answer: Answer, source: Source) -> str:
    """What the program answers as it is told: of a text in lines the instructions that no order
    came to stand there with their lines, and behind it what there is to say of it."""
    if not source.path.endswith(LINES):
        return output
    kept = [it for it in output.splitlines() if not said.MISSED.fullmatch(it)]
    texts, has_pace = asked.interrupts(), asked.value(PACE) is not None
    more = beside.remarks(answer, source, texts, has_pace, PACE)
    told = (*kept, *beside.missed(answer, source), *more)
    return "".join(f"{line}\n" for line in told)


def vacuous(asked: Words, answer: Answer, source: Source) -> Optional[Vacuous]:
    """Returns why an answer is vacuous, if it is."""
    return vacuity.find(Scope.of(source), asked.goal(), question_of(asked), answer)


def say(asked: Words, outcome: running.Outcome, source: Optional[Source]) -> int:
    """Says what came of a search for a goal, and answers the exit status."""
    output, status, is_reach = outcome.output, outcome.status, question_of(asked) is REACH
    known = said.stopped(outcome.last, asked.surprises(), STOPPED, is_reach)
    if not outcome.is_stopped:
        said.check(output, status, known)
    elif outcome.last is None:
        raise Failure("the search was stopped before it had a result", UNTOLD)
    else:
        output, status = "".join(f"{line}\n" for line in said.lines(known)), UNTOLD
    if not output or source is None:
        sys.stdout.write(output)
        return status
    answer = said.read(output.splitlines())
    try:
        if OUTPUT in asked.own and answer.has_order:
            with write_atomically(asked.own[OUTPUT]) as file:
                file.writelines(f"{line}\n" for line in answer.order)
    finally:
        # (what was found isn't lost where it can't be written)
        sys.stdout.write(with_remarks(asked, output, answer, source))
    sys.stdout.flush()
    found = vacuous(asked, answer, source)
    if found:
        print(found.note, file=sys.stderr)
    if not outcome.is_stopped:
        write_page(asked, answer, source)
    write_report(asked, answer, source)
    return status


def write_report(asked: Words, answer: Answer, source: Source) -> None:
    """Writes the report of an answer, where that was asked."""
    if REPORT not in asked.own:
        return
    from rdbg.hunting import reports  # (which takes its time)

    found = reports.of_answer(source, asked.goal(), answer)
    empty = vacuous(asked, answer, source)
    more = [reports.vacuous(source, asked.goal(), empty)] if empty else []
    reports.write(asked.own[REPORT], source.path, asked.goal(), [found, *more])


@contextlib.contextmanager
def in_its_words(asked: Words) -> Iterator[Tuple[Words, Optional[Source]]]:
    """The program's words, and the file: a text in lines as JSON, the goal as the program has it,
    and the interrupts that it names. Raises `Failure` where there is no goal in them. A file that
    can't be read is the program's to refuse."""
    file, *goal = asked.plain()
    try:
        with turned(of_words, argparse.ArgumentTypeError, of=DEFINE):
            source = load(file, dict(map(definition, asked.consts)))
    except Failure:
        if asked.consts:
            raise
        yield asked, None
        return
    if source.application is None:
        if file.endswith(LINES) or source.faults[0].kind == WRONG_TYPE:
            raise Failure(f"{file}:{source.faults[0]}; {file} {source.refused()}", UNTOLD)
        yield asked, None
        return
    with turned(of_words, NoGoal, of="goal"):
        told = for_search(goal, Scope.of(source))[1] if goal else ""
    application = source.application
    named = asked.with_interrupts(lambda texts: handlers(texts, application))
    with source.as_json() as path:
        yield named.put(path, told), source


def become_engine(asked: Words, words: Sequence[str]) -> NoReturn:
    """Replaces this process by the program, which answers the lines of standard input itself.

    Raises `Failure` if the program cannot be started, or if an option needs a goal.
    """
    if asked.own:
        raise Failure(f"{OUTPUT}, {WITHIN}, {PAGE} and {REPORT} need a goal", 2)
    found = program()
    sys.stdout.flush()
    signal.signal(signal.SIGPIPE, signal.SIG_DFL)
    with trying(f"start {found}"):
        os.execv(found, [found, *words])


def unlinked(asked: Words) -> List[str]:
    """Returns the program's words for an engine whose file is a .fw file or has -D constants.

    The program reads the JSON from a descriptor that it inherits, so no file has to be removed.
    """
    with in_its_words(asked) as (told, source):
        coming = told_of(asked.interrupts(), source.application if source else None)
        if coming:
            print(f"rdbg reach: {coming}", file=sys.stderr)
        made = os.memfd_create("application.json", 0)
        json = told.plain()[0]
        with trying(f"read {json}"), os.fdopen(os.dup(made), "wb") as file:
            file.write(read_bounded(json))
    return told.put(f"/proc/self/fd/{made}", "").program


def write_page(asked: Words, answer: Answer, source: Source) -> None:
    """Writes the page of the order in an answer, or of the run that was asked about, where that was
    asked; where there is none to show, it is said that none is written. Raises `Failure` where it
    can't be."""
    if PAGE not in asked.own:
        return
    from rdbg.tracing.command import lines_in, page_of, text_of  # (which take their time)
    from rdbg.tracing.page.asked import asked as asked_of

    path, goal, question = asked.own[PAGE], asked.goal(), question_of(asked)
    from_path = asked.value("--from")
    begin = [it.text for it in lines_in(text_of(from_path).text)] if from_path is not None else []
    lines = begin if question is LOST_AT else [*answer.order] or begin
    if not lines:
        print(f"rdbg reach: no run to show, so {printable(path)} is not written", file=sys.stderr)
        return
    order = answer.order if question is LOST_AT else ()
    try:
        told = told_of(asked.interrupts(), source.application)
        empty = vacuous(asked, answer, source)
        more = (told, empty.note if empty else "")
        page_of(source, lines, path, lambda at: asked_of(question, goal, answer, at, order, more))
    except Unable as unable:
        raise Failure(str(unable), 2) from None
    except Refused as refused:
        raise Failure(f"rdbg refused the run: no {refused}", 2) from None


def start_engine(asked: Words, words: Sequence[str]) -> NoReturn:
    """Becomes the engine that `words` ask for. Raises `Failure` if they have a goal too."""
    files, goal_words = asked.plain()[:1], asked.plain()[1:]
    if goal_words:
        raise Failure(GOAL_WITH_ENGINE, 2)
    is_made = files and (files[0].endswith(LINES) or asked.consts)
    become_engine(asked, unlinked(asked) if is_made else words)


def main(words: Sequence[str]) -> int:
    """Searches, prints the answer, and returns the exit status."""
    if {"-h", "--help"} & {*words}:
        print(program_help.OF["reach"])
        return 0
    asked = read(words)
    if asked.has(ENGINE) or not asked.plain():
        start_engine(asked, words)  # (without a file the program prints its usage)
    if not asked.goal().split():
        raise Failure(NO_GOAL, 2)
    check_output(asked)
    try:
        with in_its_words(asked) as (told, source):
            words = [program(), PROGRESS, *told.program]
            status = say(asked, running.run(words, asked.seconds), source)
        sys.stdout.flush()
        return status
    except OSError as error:
        ENDING.check()
        raise Failure(ending.give_up_output(error), UNTOLD) from None
    except MemoryError:
        raise Failure("out of memory", UNTOLD) from None
