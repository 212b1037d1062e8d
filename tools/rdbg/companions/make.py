"""Converts between .fw and JSON models, and extracts a model from comments of C."""
import contextlib
import os
import sys
from typing import Iterable, Iterator, Optional, Sequence, Set, Tuple

from rdbg.application import Application, Instruction, Task
from rdbg.atomic_file import STANDARD_OUTPUT, write_atomically
from rdbg.failure import Failure
from rdbg.files.definitions import take_definitions
from rdbg.files.source import Given, source, without_faults
from rdbg.firmware.writer import jumps_of, text_of
from rdbg.from_c.lines import in_lines
from rdbg.json_layout import json_of
from rdbg.operands import to_text
from rdbg.options import Parser
from rdbg.printable import printable
from rdbg.tree import MOST_BYTES, Place

SUMMARY = "Convert between .fw and JSON models, or extract a model from C"
EPILOG = (
    "By default FILE.fw is converted to FILE.json in the same folder, and an existing FILE.json is"
    " replaced. Errors in FILE are printed on standard error as FILE:LINE:COLUMN: MESSAGE, and"
    " nothing is written then. Lines that expand to several instructions are listed with them.\n\n"
    "Exit status: 0 written; 1 FILE has errors; 2 a file cannot be read or written.\n\n"
    "Examples:\n"
    "  rdbg make jobs.fw\n"
    "  rdbg make --back jobs.json -o jobs.fw\n"
    "  rdbg make --from-c gateway.c -o gateway.fw"
)
TEXT, JSON, C = ".fw", ".json", ".c"


def parser() -> Parser:
    """The parser of the command line."""
    made = Parser("rdbg make", description=SUMMARY, epilog=EPILOG)
    file = "FILE.fw; with --back FILE.json, with --from-c FILE.c"
    made.word("file", "FILE", file)
    made.flag("--back", "convert JSON to .fw, on standard output unless -o is given")
    made.word("-o", "OUT", "output file; - for standard output", dest="output")
    lines = "extract the model from `// rdbg:` comments of FILE.c, to JSON or to OUT.fw"
    made.flag("--from-c", lines, dest="is_c")
    take_definitions(made)
    return made


def expansions(application: Application, made: Iterable[Tuple[int, str]]) -> Iterator[str]:
    """A line for each line of the text that becomes others than it is: its number, what is written,
    and of an object what stands for it (`made`), of a line of a task which instructions, with what
    these cost. Of tasks with one script it is told of the first."""
    yield from (f"{line}: {text}" for line, text in made)
    told: Set[Place] = set()
    for task in application.tasks:
        for number, it in enumerate(task.code):
            if it.part is not None and it.begins and it.place not in told:
                told.add(it.place)
                yield f"{it.place.line}: {it.written}: {becomes(task, number, it)}"


def becomes(task: Task, number: int, it: Instruction) -> str:
    """What an instruction's line becomes, the first of which it is."""
    assert it.part is not None
    end = number + it.part.count
    numbers = to_text(number, end - 1).replace(" to ", "-")
    texts = "; ".join(each.text for each in task.code[number:end])
    return f"{task.name} {numbers}, {it.part.cost}: {texts}"


def main(words: Sequence[str]) -> int:
    """Makes one from the other."""
    given = parser().parse_args(words)
    if given.back and given.consts:
        raise Failure("-D cannot be combined with --back: a JSON model has no constants", 2)
    if given.back and given.is_c:
        raise Failure("--back cannot be combined with --from-c", 2)
    if given.back:
        return back(given.file, given.output)
    check_form(given.file, given.is_c)
    if given.is_c and given.output is not None and given.output.endswith(TEXT):
        return make_lines(given.file, given.output, dict(given.consts))
    return make(given.file, given.output, dict(given.consts))


def check_form(path: str, is_c: bool) -> None:
    """Raises `Failure` if the name of the input file has the wrong ending."""
    if path.endswith(JSON):
        remedy = f"to convert it to .fw: rdbg make --back {path}"
        raise Failure(f"{path} is JSON already ({remedy})", 2)
    if path.endswith(C) and not is_c:
        remedy = f"to extract its model: rdbg make --from-c {path}"
        raise Failure(f"{path} is C ({remedy})", 2)
    ending = C if is_c else TEXT
    if not path.endswith(ending):
        raise Failure(f"the name of the input file must end in {ending}, found {path}", 2)


def make_lines(path: str, output: str, consts: Given) -> int:
    """Extracts the .fw model of a C file. An existing file is not overwritten."""
    if os.path.lexists(output):
        raise Failure(f"refusing to overwrite {output}", 2)
    found, application = without_faults(path, consts)
    with write_atomically(output) as file:
        file.write(in_lines(found.text))
    print(f"{printable(output)}: {', '.join(application.counts())}")
    return 0


def make(path: str, output: Optional[str], consts: Given) -> int:
    """Converts a model to JSON, with these constants."""
    chosen = os.path.splitext(path)[0] + JSON if output is None else output
    if chosen != STANDARD_OUTPUT and not chosen.endswith(JSON):
        raise Failure(f"the name of the output file must end in {JSON}, found {chosen}", 2)
    with contextlib.suppress(OSError):
        if os.path.samefile(path, chosen):
            raise Failure(f"the output file {chosen} is the input file {path}", 2)
    found, application = without_faults(path, consts)
    text = json_of(application)
    if len(text) > MOST_BYTES:
        size = f"{len(text):,} bytes, and rdbg reads at most {MOST_BYTES:,}"
        raise Failure(f"the JSON of {path} would have {size}")
    with write_atomically(chosen) as file:
        file.write(text)
    told = sys.stderr if chosen == STANDARD_OUTPUT else sys.stdout
    if chosen != STANDARD_OUTPUT:
        print(f"{printable(chosen)}: {', '.join(application.counts())}")
    for line in expansions(application, found.made):
        print(f"{found.name}:{line}", file=told)
    return 0


def back(path: str, output: Optional[str]) -> int:
    """Converts JSON to .fw. An existing file is not overwritten."""
    chosen = output or STANDARD_OUTPUT
    if path.endswith(TEXT):
        raise Failure(f"{path} is a .fw model already", 2)
    if chosen != STANDARD_OUTPUT and not chosen.endswith(TEXT):
        raise Failure(f"the name of the output file must end in {TEXT}, found {chosen}", 2)
    if os.path.lexists(chosen) and chosen != STANDARD_OUTPUT:
        raise Failure(f"refusing to overwrite {chosen}, which may have comments", 2)
    application = without_faults(path)[1]
    text = text_of(application)
    again = source("again.fw", text.encode()).application
    if again is None or json_of(again) != json_of(application):
        # (what was found of an `if` would become other instructions than there are)
        text = text_of(application, is_plain=True)
    with write_atomically(chosen) as file:
        file.write(text)
    jumps = [*jumps_of(application)]
    if jumps:
        said = "written as jumps to labels, not as loop, while or if"
        print(f"rdbg make: {said}: {'; '.join(jumps)}", file=sys.stderr)
    return 0
