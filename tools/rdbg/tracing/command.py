"""What `rdbg trace` does, once its words are read: it writes a run as rows, events or a page."""
import argparse
import dataclasses
import functools
import os
import sys
import time
from typing import Callable, Dict, Iterable, Iterator, List, Optional, Sequence, Tuple

from rdbg import commands, record
from rdbg.application import Application
from rdbg.digits import is_digits
from rdbg.driving.opening import attach, builtin
from rdbg.driving.parts import AT_A_PORT, Part, Told, Trim, part_at
from rdbg.driving.target import Limits, Unable
from rdbg.effects import Move
from rdbg.atomic_file import write_atomically
from rdbg.failure import Failure, of_words, trying, turned
from rdbg.files.source import Source
from rdbg.goals.claims import Goal
from rdbg.goals.reading import NoGoal
from rdbg.goals.scope import Scope
from rdbg.goals.words import for_search, read
from rdbg.input_file import LARGEST_COMMANDS, read_bounded, read_standard_input
from rdbg.looks import Names
from rdbg.page.recorder import Recorder
from rdbg.printable import printable
from rdbg.reaching import losing, vacuity
from rdbg.reaching.asking import LOST, QUESTIONS, REACH, Question, ask_behind
from rdbg.reaching.handlers import told as told_of
from rdbg.reaching.said import Answer
from rdbg.replies import Refused
from rdbg.tracing.events import Events
from rdbg.tracing.page import ways
from rdbg.tracing.page.asked import Asked, asked
from rdbg.tracing.page.document import page
from rdbg.tracing.page.report import Report, Text
from rdbg.tracing.run import Line, Plan, Run, parts, plan
from rdbg.tracing.table import Row, Table, rows
from rdbg.wording import nearest, shown


# A question, its goal as it is typed, the answer, and the lines behind which it was asked.
Answered = Tuple[Question, str, Answer, List[str]]


@dataclasses.dataclass(frozen=True)
class Lost:
    """What is answered of a goal that a run may have lost, and the place of the move that did."""

    goal: str
    said: str
    place: Optional[int]

    def mark(self, row: Row) -> Row:
        """A row, or that of the move which lost it with this among its effects."""
        if self.place is None or row.cells[0] != str(self.place) or record.TRIM in row.about:
            return row
        *cells, effects = row.cells
        texts = [*([effects] if effects else []), f"loses '{self.goal}'"]
        return dataclasses.replace(row, cells=(*cells, ", ".join(texts)))


def ask(text: str, source: Optional[Source], told: Sequence[Told]) -> Answered:
    """The question that these words are, `reach` where they are a goal alone, of a run or at its
    end, with the answer. Raises `Failure` where it can't be asked."""
    question, words = QUESTIONS.get(text.partition(" ")[0], REACH), text.split()
    option = f"--{LOST.word}" if question is LOST else "--ask"
    if source is None:
        raise Failure(f"{option} needs a model: rdbg trace FILE", 2)
    goal = words[words[:1] == [question.word] :]
    with turned(of_words, NoGoal, of=option):
        _, words_asked = for_search(goal, Scope.of(source))
    lines = record.untrimmed(it.text for it in told)
    return question, " ".join(goal), ask_behind(source, lines, question, words_asked), lines


def remarks(question: Question, goal: str, answer: Answer, source: Optional[Source]) -> List[str]:
    """Returns the remarks on an answer. A note that it is vacuous goes to standard error as well."""
    found = vacuity.find(Scope.of(source), goal, question, answer)
    if found:
        print(found.note, file=sys.stderr)
    coming = told_of((), source.application if source else None)
    return [it for it in (coming, found.note if found else "") if it]


def of_page(text: str, source: Optional[Source], told: Sequence[Told]) -> Asked:
    """The answer as a page has it."""
    question, goal, answer, lines = ask(text, source, told)
    is_whole = question is LOST and answer.order
    order = (*lines, *answer.order) if is_whole else answer.order
    place = told[-1].place if told else 0
    return asked(question, goal, answer, place, order, remarks(question, goal, answer, source))


def lost_in(text: str, source: Optional[Source], told: Sequence[Told]) -> Lost:
    """The answer to `lost GOAL` as rows have it."""
    _, goal, answer, lines = ask(text, source, told)
    assert source is not None
    said, loss = losing.in_one(LOST, answer, source, lines), losing.loss_of(answer)
    beside = [f" ({it})" for it in remarks(LOST, goal, answer, source)]
    place = loss.place or None if loss else None
    return Lost(goal, said + "".join(beside), place)


STANDARD_INPUT = "-"
MOST_REFUSED = 10
# What stands in place of a task where no task did it. So many names are said at the most.
KINDS, FEW = ("tick", "edit", "isr", record.TRIM), 8
# Progress is said after so many seconds, and then as often.
PATIENCE = 2.0
# What leads to the places of a page, by what the page has.
Way = Callable[[Recorder], Dict[str, object]]


def lines_in(text: str) -> Tuple[Line, ...]:
    """The lines that are told: not empty, and no comments."""
    whole = enumerate(text.splitlines(), 1)
    return tuple(Line(at, it.strip()) for at, it in whole if it.strip() and it.strip()[0] != "#")


def text_of(path: Optional[str]) -> Text:
    """The text of a file, or of standard input."""
    if path is None or path == STANDARD_INPUT:
        return Text("", read_standard_input().decode("utf-8", "replace"))
    with trying(f"read {path}"):
        text = read_bounded(path, LARGEST_COMMANDS).decode("utf-8", "replace")
    return Text(path, text.replace("\r\n", "\n").replace("\r", "\n"))


def tell_refused(found: Plan, name: str) -> None:
    """Says which lines were refused."""
    name = printable(name)
    for line, reply in found.refused[:MOST_REFUSED]:
        print(f"{name}:{line.number}: {printable(line.text)}: {reply}", file=sys.stderr)
    left = len(found.refused) - MOST_REFUSED
    if left > 0:
        print(f"{name}: {left} more lines were refused", file=sys.stderr)


def with_progress(found: Iterable[Part], count: int) -> Iterator[Part]:
    """The parts, while it is said how many of so many moves were looked at."""
    seen, said = 0, time.monotonic()
    for part in found:
        seen += len(part.moves)
        if time.monotonic() - said > PATIENCE:
            said = time.monotonic()
            print(f"rdbg trace: {seen} of {count} moves", file=sys.stderr, flush=True)
        yield part


def write_events(found: Iterable[Part], trims: Sequence[Trim], path: str) -> None:
    """Writes the events of all parts."""
    with write_atomically(path) as file:
        events = Events(file.write)
        for part in found:
            events.add(part)
        events.end(trims)


def write_page(
    found: Iterable[Part],
    trims: Sequence[Trim],
    path: str,
    application: Optional[Application],
    way: Way,
    report: Report,
    other: Optional[Dict[str, object]] = None,
) -> None:
    """Writes the page of all parts, of which there is one at the least, and of another run."""
    recorder, seen = Recorder(application), None  # type: Recorder, Optional[int]
    with write_atomically(path) as file:
        for part in found:
            seen = report.seen_in(part) if seen is None else seen
            recorder.add(part)
        at = report.opens(seen, recorder.first, recorder.last)
        file.write(page(recorder.values(trims), way(recorder), report, at, other))


def wanted(only: Optional[str], names: Names, cores: int) -> Optional[List[str]]:
    """The names that rows are wanted of, none where all are. Raises `Failure` for others."""
    if only is None:
        return None
    numbers = [str(core) for core in range(cores)]
    known = [*names.tasks, *(name for _, name in names.objects), *numbers, *KINDS]
    found = [it.strip() for it in only.split(",")]
    for name in found:
        if name not in known:
            near = nearest(name, known)
            there = ", ".join(known[:FEW]) + (", .." if len(known) > FEW else "")
            hint = f"did you mean '{near}'?" if near else f"defined: {there}"
            raise Failure(f"--only: '{shown(name)}' is not a task, object or core ({hint})", 2)
    return found


def print_rows(found: Iterable[Row], table: Table, names: Optional[Sequence[str]]) -> None:
    """Prints a table, or the rows of it that concern these names."""
    print(table.head())
    for row in found:
        if names is None or not row.about.isdisjoint(names):
            print(table.row(row.cells))


def moves_in(found: Iterable[Part], goal: Optional[Goal]) -> Iterator[Move]:
    """The moves of all parts, or those alone behind which a goal holds."""
    seen = (pair for part in found for pair in zip(part.moves, part.looks))
    return (move for move, look in seen if goal is None or goal.is_so(look))


def goal_of(option: str, words: Optional[str], scope: Scope) -> Optional[Goal]:
    """The goal that an option is given, if it is. Raises `Failure` where words are none."""
    with turned(of_words, NoGoal, of=option):
        return None if words is None else read(words.split(), scope)


def report_of(given: argparse.Namespace, scope: Scope) -> Report:
    """What the words of the command line say beside the run."""
    note = "" if given.note is None else text_of(given.note).text
    at = given.at
    place = int(at) if at is not None and is_digits(at) else goal_of("--at", at, scope)
    return Report(title=given.title or "", note=note, at=place)


def page_of(source: Source, told: Sequence[str], path: str, asked: Callable[[int], Asked]) -> None:
    """Writes the page of a run that these lines make, of an application that has no faults, as the
    answer to a question, which is told how many moves it has."""
    assert source.application is not None
    lines = tuple(Line(at, text) for at, text in enumerate(told, 1))
    run = Run(source, lines, Limits(Limits.moves, commands.MOST_COUNT))
    whole = plan(run)
    way = ways.of_run(source, whole.told, None, whole.base)
    text = Text("", "".join(f"{line}\n" for line in told))
    report = Report(asked=asked(whole.done), source=source, lines=text)
    write_page(looked(run, whole), whole.trims, path, source.application, lambda _: way, report)


def looked(run: Run, plan: Plan, has_end: bool = True) -> Iterable[Part]:
    """Looks at a run, by as many programs as there are processors; at its end alone, where that is
    wanted, if no moves are to be looked at."""
    if has_end and not plan.pieces:
        return [Part(plan.end, (), ())]
    return parts(run, plan.pieces, len(os.sched_getaffinity(0)))


def other_run(
    given: argparse.Namespace, run: Run, text: Text, application: Application
) -> Dict[str, object]:
    """The run that these lines make beside another one, as a page has it."""
    other = dataclasses.replace(run, lines=lines_in(text.text))
    whole = plan(other)
    tell_refused(whole, text.name)
    found = whole.within(given.first or 1, given.last)
    recorder = Recorder(application)
    for part in looked(other, found):
        recorder.add(part)
    return {"name": os.path.basename(text.name), "run": recorder.values(found.trims)}


def trace_run(given: argparse.Namespace, source: Optional[Source]) -> None:
    """Traces commands that are told to programs of their own."""
    application = (source and source.application) or builtin()
    names = wanted(given.only, Names.of(application), application.cores)
    scope = Scope.of(source, application)
    goal = goal_of("--when", given.when, scope)
    report = report_of(given, scope)
    text = text_of(given.commands)
    lines = lines_in(text.text)
    run = Run(source, lines, Limits(given.moves or Limits.moves, commands.MOST_COUNT))
    whole = plan(run)
    tell_refused(whole, given.commands or STANDARD_INPUT)
    found = whole.within(given.first or 1, given.last)
    seen = with_progress(looked(run, found, has_end=bool(given.page)), found.count())
    if given.events:
        write_events(seen, found.trims, given.events)
        return
    if given.page:
        way = ways.of_run(source, whole.told, given.moves, whole.base)
        asked = None if given.ask is None else of_page(given.ask, source, whole.told)
        beside = None if given.against is None else text_of(given.against)
        other = other_run(given, run, beside, application) if beside else None
        report = dataclasses.replace(report, asked=asked, source=source, lines=text, other=beside)
        write_page(seen, found.trims, given.page, application, lambda _: way, report, other)
        return
    lost = None if given.ask is None else lost_in(given.ask, source, whole.told)
    table = Table.of(application, whole.done, whole.end.cores.tick, [it.text for it in lines])
    shown_rows = rows(moves_in(seen, goal), found.trims)
    print_rows(shown_rows if lost is None else map(lost.mark, shown_rows), table, names)
    if lost is not None:
        print(lost.said)


def trace_port(given: argparse.Namespace, source: Optional[Source]) -> None:
    """Traces the moves that are done at a server."""
    target = attach(given.port, source, anyone=given.anyone)
    with target.session:
        part, first = part_at(target, given.first, given.last)
        done = target.place
    scope = dataclasses.replace(Scope.of(source), names=target.names)
    if given.first is None and part.before.place >= first:
        print(
            f"rdbg trace: only the last {AT_A_PORT} moves are shown (use --from N for more)",
            file=sys.stderr,
        )
    if given.events:
        write_events([part], (), given.events)
        return
    if given.page:
        known = source.application if source else None
        way = functools.partial(ways.of_port, source, given.port, done)
        report = dataclasses.replace(report_of(given, scope), source=source, port=given.port)
        write_page([part], (), given.page, known, way, report)
        return
    found = list(rows(moves_in([part], goal_of("--when", given.when, scope))))
    names = wanted(given.only, target.names, len(part.before.cores.running))
    print_rows(found, Table.wide_enough(row.cells[:6] for row in found), names)


def trace(given: argparse.Namespace, source: Optional[Source]) -> None:
    """Traces a run, or what is done at a port. Raises `Failure` where it can't be looked at."""
    try:
        trace_run(given, source) if given.port is None else trace_port(given, source)
    except Unable as unable:
        raise Failure(str(unable)) from None
    except Refused as refused:
        raise Failure(f"the target refused a command: no {refused}") from None
