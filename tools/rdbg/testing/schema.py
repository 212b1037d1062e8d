"""The JSON Schema (draft 7) of a file of cases, for editors: made from the table of its keys.
`python3 -m rdbg.testing.schema` prints it; docs/goals.schema.json is what it prints."""
from typing import Any, Callable, Dict

from rdbg.driving.pacing import PACE
from rdbg.reaching.asking import QUESTIONS
from rdbg.schema import Schema, document, record
from rdbg.testing import cases
from rdbg.testing.cases import CASES, FILE, KEYS, Between, Key
from rdbg.tree import Node

ABOUT = (
    f"A file {FILE}: models, their goals and the expected answers, for rdbg test"
    " (docs/COMPANIONS.md). rdbg also checks that the models, goals and interrupts exist."
)
TEXT: Schema = {"type": "string", "minLength": 1}
# What a value is by how it is read. Each is one row.
VALUES: Dict[Callable[[Node], Any], Schema] = {
    cases.text: TEXT,
    cases.texts: {"type": "array", "items": TEXT},
    cases.question: {"enum": list(QUESTIONS)},
    cases.expected: {"type": "string", "pattern": f"^({cases.EXPECTED.pattern})$"},
    cases.a_pace: {"type": "string", "pattern": f"^{PACE.pattern}$"},
    cases.consts: {"type": "array", "items": {"type": "string", "pattern": "^\\w+=."}},
    cases.limit: {"type": "number", "exclusiveMinimum": 0},
    cases.true_or_false: {"type": "boolean"},
}


def value_of(key: Key) -> Schema:
    """The schema of a key's value."""
    made: Schema = {"description": f"{key.says[0].upper()}{key.says[1:]}."}
    if isinstance(key.read, Between):
        return {**made, "type": "integer", "minimum": key.read.least, "maximum": key.read.most}
    return {**made, **VALUES[key.read]}


def case() -> Schema:
    """The schema of a case."""
    needed = [key.name for key in KEYS if key.is_needed]
    return record(needed, {key.name: value_of(key) for key in KEYS})


def text() -> str:
    """The schema of a file of cases."""
    cases_of = {"type": "array", "minItems": 1, "items": case()}
    return document("rdbg goals", ABOUT, record([CASES], {CASES: cases_of}))


if __name__ == "__main__":
    print(text(), end="")
