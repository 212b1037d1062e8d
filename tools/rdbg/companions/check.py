"""Checks models: reports each error with its position and a suggested fix."""
import argparse
import json
import sys
from typing import Any, Dict, List, Sequence

from rdbg import kinds
from rdbg.checking.faults import MOST_FAULTS, remarks_of
from rdbg.failure import Failure
from rdbg.files.definitions import take_definitions
from rdbg.files.source import MOST_SHOWN, Source, load, source
from rdbg.input_file import LARGEST_SOURCE, read_standard_input
from rdbg.options import Parser, bounded
from rdbg.printable import printable
from rdbg.tree import Fault
from rdbg.wording import counted

SUMMARY = "Report errors in models, with suggestions"
STANDARD_INPUT, NOTE = "-", "note: "
Values = Dict[str, Any]
LARGEST = 999_999_999
EPILOG = (
    "Each error is one line on standard output, FILE:LINE:COLUMN: MESSAGE. The last line of a file"
    " says whether rdbg accepts it.\n\n"
    "Exit status: 0 all files are accepted; 1 a file is refused, or its C no longer matches its"
    " model; 2 a file cannot be read.\n\n"
    "Example:\n  rdbg check jobs.fw gateway.c"
)


def parser() -> Parser:
    """The parser of the command line."""
    made = Parser("rdbg check", description=SUMMARY, epilog=EPILOG)
    files = "model (.fw, .json, or .c with `// rdbg:` lines); - for standard input"
    made.word("files", "FILE", files, nargs="+")
    made.flag("--first", "print only the first error of each file")
    made.flag("--json", "print the errors as JSON (docs/check.schema.json)")
    most = f"print at most N errors per file [default: {MOST_SHOWN}]"
    made.word("--most", "N", most, type=bounded(0, LARGEST), default=MOST_SHOWN)
    made.word("--name", "FILE", "name of standard input, whose ending says how to read it")
    take_definitions(made)
    return made


def main(words: Sequence[str]) -> int:
    """Checks the files; the status of the worst."""
    given = parser().parse_args(words)
    values: List[Values] = []
    status = max(check(path, given, values) for path in given.files)
    if given.json:
        print(json.dumps({"files": values}, indent=1))
    return status


def check(path: str, given: argparse.Namespace, values: List[Values]) -> int:
    """Prints what there is to say of one file, or puts it to `values`, and answers its status."""
    try:
        consts = dict(given.consts)
        if path == STANDARD_INPUT:
            found = source(given.name or path, read_standard_input(LARGEST_SOURCE), consts)
        else:
            found = load(path, consts)
    except Failure as failure:
        sys.stdout.flush()
        name, why = printable(path), printable(str(failure))
        where = "" if name in why else f"{name}: "
        print(f"rdbg check: {where}{why}", file=sys.stderr)
        return failure.status
    apart = drifts(found)
    faults = [*found.faults, *apart][: given.most]
    remarks = [] if found.root is None else [*found.remarks, *remarks_of(found.root)]
    differs = f"; the C differs from it in {counted(len(apart), 'place')}" if apart else ""
    verdict = f"{said(found, given.most)}{differs}"
    if given.json:
        more = found.fault_count + len(apart) - len(faults)
        values.append(as_values(found, [*faults, *remarks[: given.most]], verdict, more))
    elif given.first:
        print("".join(f"{found.name}:{fault}\n" for fault in faults[:1]), end="")
    else:
        for fault in [*faults, *remarks[: given.most]]:
            print(f"{found.name}:{fault}")
        print(f"{found.name}: {verdict}")
    return 1 if found.faults or apart else 0


def as_values(found: Source, faults: Sequence[Fault], verdict: str, more: int) -> Values:
    """Returns what there is to say of one file, as docs/check.schema.json has it: these faults, and
    how many `more` there are."""
    said_of: List[Values] = []
    for it in faults:
        is_note = it.message.startswith(NOTE)
        value: Values = {"line": it.place.line, "column": it.place.column}
        value["severity"] = "note" if is_note else "error"
        value["message"] = it.message[len(NOTE) if is_note else 0 :]
        said_of.append(value if is_note else {**value, "kind": it.kind})
    is_accepted = found.application is not None
    value = {"file": found.path, "accepted": is_accepted, "verdict": verdict, "faults": said_of}
    return {**value, "more": more} if more else value


def drifts(found: Source) -> List[Fault]:
    """Where a C source and the model in it have gone apart; of one with faults, nothing."""
    named = found.named()
    if not found.is_c or found.application is None or named is None:
        return []
    from rdbg.from_c.drift import drifts as drifts_of

    names = {thing.name for kind in kinds.ALL for thing in found.application.of(kind)}
    return drifts_of(found.path, found.text, names, named.constants)


def said(found: Source, most: int) -> str:
    """What rdbg says of a file."""
    if found.application is not None:
        cores = counted(found.application.cores, "core")
        return "accepted: " + ", ".join([*found.application.counts(), cores])
    count, kept = found.fault_count, len(found.faults)
    faults = counted(count, "fault") + " or more" * (count == MOST_FAULTS)
    shown = f", {min(most, kept)} shown" if count > min(most, kept) else ""
    return f"{found.refusal() or 'makes no application'}; {faults}{shown}"
