"""Combines the answers of the parts of a divided search."""
import contextlib
import dataclasses
import sys
from typing import List, Sequence

from rdbg.driving.target import Unable
from rdbg.failure import Failure, of_words, trying, turned
from rdbg.files.definitions import take_definitions
from rdbg.files.source import without_faults
from rdbg.hunting.interrupts import handlers
from rdbg.hunting.stage import Stage
from rdbg.input_file import LARGEST_COMMANDS, read_bounded
from rdbg.options import APPLICATION, Parser
from rdbg.reaching import said
from rdbg.reaching.said import Answer, Bound, Kind

SUMMARY = "Combine the answers of the parts of a divided search"
EPILOG = (
    "Each ANSWER is a file with the output of `rdbg reach --part K/N`. The combined answer is"
    " printed in the same form. It is `found` if any part found a run, with the run that has the"
    " fewest surprises and, of these, the fewest moves. It is `never` or `not within N moves` only"
    " if all parts are given and none found a run. Missing parts are reported on standard"
    " error.\n\n"
    "Exit status: 0 the goal is never reached; 1 a run was found; 2 undecided (a part is missing or"
    " reached a limit) or an error.\n\n"
    "Example:\n  rdbg join jobs.fw part1.txt part2.txt"
)
# Why an answer is incomplete.
LACKING = "a part of the search is missing"


def parser() -> Parser:
    """The parser of the command line."""
    made = Parser("rdbg join", description=SUMMARY, epilog=EPILOG)
    made.word("file", "FILE", APPLICATION)
    made.word("answers", "ANSWER", "file with the output of one part", nargs="+")
    made.word(
        "--isr", "CALLS", "the same --isr options as for the parts", action="append", default=[]
    )
    take_definitions(made)
    return made


def read(path: str) -> Answer:
    """The answer in a file. Raises `Failure` where there is none of a part."""
    with trying(f"read {path}"):
        text = read_bounded(path, LARGEST_COMMANDS).decode("utf-8", "replace")
    with turned(of_words, Failure, of=path):
        answer = said.read(text.splitlines())
    if answer.part is None:
        raise Failure(f"{path}: not the output of a part: the first line names no part K/N", 2)
    return answer


def check(answers: Sequence[Answer]) -> List[int]:
    """The parts that aren't among these. Raises `Failure` where they aren't parts of one search."""
    numbers = [it.part for it in answers if it.part is not None]
    if len({count for _, count in numbers}) > 1:
        raise Failure("the answers belong to searches with different numbers of parts", 2)
    for part in {part for part, _ in numbers}:
        if sum(it[0] == part for it in numbers) > 1:
            raise Failure(f"part {part} is given twice", 2)
    return [part for part in range(1, numbers[0][1] + 1) if part not in {it for it, _ in numbers}]


def joined(answers: Sequence[Answer], stage: Stage) -> Answer:
    """What the answers of parts say together: an order where one has one, that with the fewest
    surprises and of those the fewest moves; else what all of them say."""
    found = [it for it in answers if it.kind is Kind.REACHED]
    counts = answers[0].counts
    for it in answers[1:]:
        counts = said.summed(counts, it.counts)
    if found:
        sizes = {it.order: stage.find(it.order).size for it in found}
        least = min(found, key=lambda it: sizes[it.order])
        return dataclasses.replace(least, counts=counts, part=None)
    together = said.together(answers)
    if check(answers):
        return dataclasses.replace(
            together, kind=Kind.UNTOLD, bound=Bound(), why=LACKING, missed=()
        )
    return dataclasses.replace(together, part=None)


def main(words: Sequence[str]) -> int:
    """Joins answers, and says what comes of it."""
    given = parser().parse_args(words)
    source, application = without_faults(given.file, dict(given.consts))
    answers = [read(path) for path in given.answers]
    lacking = check(answers)
    stage = Stage(source, handlers(given.isr, application))
    with turned(of_words, Unable), contextlib.closing(stage):
        answer = joined(answers, stage)
    for part in lacking:
        print(f"rdbg join: part {part} is missing", file=sys.stderr)
    print(*said.lines(answer), sep="\n")
    return answer.kind.value
