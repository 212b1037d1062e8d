"""The report of a search in the form that its file's name asks for: JUnit's XML, in which it is one
case, or else SARIF, in which each order that was found is a result, whose moves are its code flow."""
import contextlib
import json
import os
import re
from typing import Any, Dict, Iterator, Optional, Sequence
from urllib.parse import quote
from xml.etree import ElementTree

from rdbg import junit
from rdbg.atomic_file import write_atomically
from rdbg.client import version
from rdbg.driving.parts import look_through
from rdbg.driving.trail import instruction_of
from rdbg.effects import Move
from rdbg.files.source import Source
from rdbg.hunting.stage import Stage
from rdbg.reaching.said import Answer, Kind
from rdbg.reaching.vacuity import Vacuous
from rdbg.tree import Place
from rdbg.wording import counted

Values = Dict[str, Any]
SCHEMA = "https://json.schemastore.org/sarif-2.1.0.json"
VERSION = "2.1.0"
# How what rdbg says of itself begins, where its version is known.
NUMBERED = re.compile(r"rdbg (\d+\.\d+\.\d+)\b")
RULE, VACUOUS = "goal-reached", "goal-vacuous"
RULES = [
    {
        "id": RULE,
        "shortDescription": {"text": "a run reaches the goal"},
        "fullDescription": {
            "text": "Some interleaving of tasks, ticks and interrupts reaches a state in which the"
            " goal holds. The code flow lists its moves."
        },
    },
    {
        "id": VACUOUS,
        "shortDescription": {"text": "the goal can never hold, whatever the tasks do"},
        "fullDescription": {
            "text": "The goal needs all tasks to rest, and some task never ends and never waits"
            " without a deadline. That no run reaches the goal says nothing about the application."
        },
    },
]
# So many moves of an order are told at the most.
MOST_MOVES = 1_000
# What is said where no order is found: that none leads there, or that it isn't known.
PASS, OPEN, FAIL = "pass", "open", "fail"


def physical(path: str, place: Optional[Place]) -> Values:
    """A place in a file."""
    uri = quote(os.path.relpath(path).replace(os.sep, "/"))
    found: Values = {"artifactLocation": {"uri": uri}}
    if place is not None:
        found["region"] = {"startLine": place.line, "startColumn": place.column}
    return found


def result(kind: str, level: str, text: str, place: Values, rule: str = RULE) -> Values:
    """What a search has come to, and where."""
    where = {"message": {"text": text}, "locations": [{"physicalLocation": place}]}
    return {"ruleId": rule, "kind": kind, "level": level, **where}


def step(source: Source, move: Move) -> Values:
    """A move as a place of a flow: where its instruction stands, if a task made it."""
    it = instruction_of(source.application, move)
    place = physical(source.path, it.place if it else None)
    where = {"physicalLocation": place, "message": {"text": move.row()}}
    return {"location": where, "executionOrder": move.place}


def found(
    source: Source, goal: str, stage: Stage, lines: Sequence[str], told: Sequence[str] = ()
) -> Values:
    """An order that was found, by the lines that make it from boot, with what is told of it."""
    stage.at_boot().tell_all(lines)
    count = stage.walk.place
    moves = look_through(stage.target, 1, min(count, MOST_MOVES)).moves if count else ()
    said = f"{goal}: reached after {counted(count, 'move')}"
    if told:
        said += f"; {'; '.join(told)}"
    steps = [step(source, move) for move in moves]
    last = steps[-1]["location"]["physicalLocation"] if steps else physical(source.path, None)
    properties = {"properties": {"lines": list(lines), "moves": count}}
    flows = {"codeFlows": [{"threadFlows": [{"locations": steps}]}]} if steps else {}
    return {**result(FAIL, "error", said, last), **properties, **flows}


def none(source: Source, goal: str, answer: Answer) -> Values:
    """That no order was found, which is a theorem where the answer is `never`."""
    kind = PASS if answer.kind is Kind.NONE else OPEN
    said = f"{goal}: {answer.head()}" + (f"; {answer.why}" if answer.why else "")
    return result(kind, "none", said, physical(source.path, None))


def vacuous(source: Source, goal: str, found: Vacuous) -> Values:
    """Returns the warning that a goal is vacuous, at the task that never rests."""
    place = physical(source.path, found.task.place)
    return result(FAIL, "warning", f"{goal}: {found.note}", place, VACUOUS)


def as_sarif(said: Sequence[Values]) -> str:
    """A report of these results as SARIF, made by rdbg, of which version, and whether it is proved."""
    whole = version()
    number = NUMBERED.match(whole)
    numbered = {"version": number[1]} if number else {}
    driver = {"name": "rdbg", "fullName": whole, **numbered, "rules": RULES}
    run = {"tool": {"driver": driver}, "results": list(said), "columnKind": "unicodeCodePoints"}
    return json.dumps({"$schema": SCHEMA, "version": VERSION, "runs": [run]}, indent=2) + "\n"


def of_answer(source: Source, goal: str, answer: Answer) -> Values:
    """What an answer to whether a goal can come is; its order is made by rdbg."""
    if not answer.has_order:
        return none(source, goal, answer)
    with contextlib.closing(Stage(source, ())) as stage:
        return found(source, goal, stage, answer.order)


XML = ".xml"
# What is expected of a search, where nothing is said of that.
NONE, FOUND = "none", "found"


def told(result: Values) -> Iterator[str]:
    """What came of a search, with the order and its lines where it has found one."""
    yield result["message"]["text"]
    if result["kind"] != FAIL:
        return
    for flow in result.get("codeFlows", ()):
        steps = flow["threadFlows"][0]["locations"]
        yield from (it["location"]["message"]["text"] for it in steps)
    yield from ("lines:", *result["properties"]["lines"])


def case(file: str, goal: str, results: Sequence[Values], expect: str) -> ElementTree.Element:
    """A search as a case: a failure where it isn't as expected, an error where it is open."""
    own = [it for it in results if it["ruleId"] == RULE]
    notes = [it["message"]["text"] for it in results if it["ruleId"] == VACUOUS]
    kinds = {it["kind"] for it in own}
    otherwise = junit.FAILURE if (FAIL in kinds) != (expect == FOUND) else junit.AS_EXPECTED
    what = junit.ERROR if kinds == {OPEN} else otherwise
    lines = [line for result in own for line in told(result)]
    made = junit.case(file, f"{goal}: {expect}", (what, own[0]["message"]["text"]), lines)
    return junit.with_notes(made, notes)


def write(
    path: str, file: str, goal: str, results: Sequence[Values], expect: Optional[str] = None
) -> None:
    """Writes the report to a path, of what a search for a goal in a file has come to."""
    with write_atomically(path) as report:
        if path.endswith(XML):
            report.write(junit.document(file, [case(file, goal, results, expect or NONE)]))
        else:
            report.write(as_sarif(results))
