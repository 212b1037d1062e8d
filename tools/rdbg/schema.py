"""The JSON Schema (draft 7) of application files, for editors: made from the tables of keys and of
instructions. `python3 -m rdbg.schema` prints it; docs/application.schema.json is what it prints."""
import json
from typing import Any, Dict, List, Sequence

from rdbg.instructions import FORMS, InstructionForm
from rdbg.operands import NAME, PATTERN_OF
from rdbg.shapes import DEFAULTS, FILE, Key, Shape

Schema = Dict[str, Any]
ABOUT = (
    "An application for rdbg: FreeRTOS objects, and tasks as scripts. The schema accepts every file"
    " that rdbg accepts. rdbg also requires that numbers have no decimal point, that names are unique"
    " within their kind and defined, that a trigger level is at most the size, that jumps stay within"
    " the script, and that a script ends with end or jump. `rdbg check FILE` reports all errors."
)


def value_of(key: Key) -> Schema:
    """The schema of a key's value."""
    sentence = key.text[0].upper() + key.text[1:]
    named = f" ({key.freertos})" if key.freertos else ""
    made: Schema = {"description": f"{sentence}{named}."}
    if key.name in DEFAULTS:
        made["default"] = DEFAULTS[key.name]
    if key.holds == "number":
        return {**made, "type": "integer", "minimum": key.least, "maximum": key.most}
    if key.holds == "name":
        return {**made, "type": "string", "pattern": f"^{NAME}$"}
    made["type"] = "array"
    if key.holds == "members":
        items: Schema = {"type": "string", "pattern": f"^{NAME}$"}
        return {**made, "uniqueItems": True, "items": items}
    bounds = {"minItems": key.least, "maxItems": key.most}
    if key.of is not None:
        return {**made, **bounds, "items": object_of(key.of)}
    return {**made, **bounds, "items": {"$ref": "#/definitions/instruction"}}


def record(needed: Sequence[str], properties: Schema) -> Schema:
    """The schema of an object with these keys, some of which each has."""
    closed = {"type": "object", "additionalProperties": False}
    return {**closed, "required": list(needed), "properties": properties}


def object_of(shape: Shape) -> Schema:
    """The schema of an object."""
    needed = [key.name for key in shape.keys if key.is_needed]
    return record(needed, {key.name: value_of(key) for key in shape.keys})


def bounded(key: Key) -> List[Schema]:
    """What the profiles say of a key whose bound hangs on them."""
    mosts = [(it, most) for it, most in enumerate(key.most_by_profile, 1) if most < key.most]
    return [
        {
            "if": {"properties": {"profile": {"const": profile}}, "required": ["profile"]},
            "then": {"properties": {key.name: {"maximum": most}}},
        }
        for profile, most in mosts
    ]


def line_of(form: InstructionForm) -> Schema:
    """What goes for the instructions with a form's word."""
    patterns = [PATTERN_OF[symbol].pattern for symbol in form.symbols]
    grouped = [f"({pattern})" if "|" in pattern else pattern for pattern in patterns]
    effect = ", ".join(form.freertos) + ": " + form.does if form.freertos else form.does
    return {
        "if": {"pattern": f"^ *{form.word}( |$)"},
        "then": {
            "title": " or ".join(form.texts()),
            "description": f"{effect}. In r0: {form.answer}.",
            "pattern": "^ *" + " +".join([form.word, *grouped]) + " *$",
        },
    }


def instruction() -> Schema:
    """The schema of an instruction."""
    words = "|".join(form.word for form in FORMS)
    return {
        "description": "An instruction, as described in docs/reference/calls.md.",
        "type": "string",
        "pattern": f"^ *({words})( |$)",
        "allOf": [line_of(form) for form in FORMS],
    }


def document(title: str, about: str, whole: Schema) -> str:
    """The schema of a file, as a text."""
    head = {"$schema": "http://json-schema.org/draft-07/schema#", "title": title}
    return json.dumps({**head, "description": about, **whole}, indent=2) + "\n"


def text() -> str:
    """The schema of an application's file."""
    bounds = [each for key in FILE.keys for each in bounded(key)]
    more = {"allOf": bounds, "definitions": {"instruction": instruction()}}
    return document("rdbg application", ABOUT, {**object_of(FILE), **more})


if __name__ == "__main__":
    print(text(), end="")
