"""Holds messages against the protocol's own schema, as Debian's package python3-pydevd has it.

Run as a script, by Debian's Python, it reads a list of messages as JSON and prints what is wrong.
"""
import importlib
import inspect
import json
import subprocess
import sys
import unittest
from typing import Any, Dict, Iterator, List, Optional, Sequence

DEBIAN = "/usr/bin/python3"
FOLDER = "_pydevd_bundle._debug_adapter"
BASIC = {
    "string": str,
    "integer": int,
    "number": (int, float),
    "boolean": bool,
    "array": list,
    "object": dict,
    "null": type(None),
}


class Schema:
    """The classes of the schema."""

    def __init__(self) -> None:
        self._base: Any = importlib.import_module(f"{FOLDER}.pydevd_base_schema")
        self._all: Any = importlib.import_module(f"{FOLDER}.pydevd_schema")

    def faults(self, message: Dict[str, Any]) -> Iterator[str]:
        """What is wrong with a message."""
        kind = message.get("type")
        if kind == "event":
            known, name = self._base._event_to_types, message.get("event")
        elif kind == "response":
            known, name = self._base._responses_to_types, message.get("command")
            if not message.get("success"):
                known, name = self._base._responses_to_types, "error"
        else:
            yield f"the type is {kind}"
            return
        if name not in known:
            yield f"there is no {kind} {name}"
            return
        yield from self._of_class(message, known[name], f"{name}", name == "error")

    def _of_class(self, value: Any, of: Any, at: str, is_error: bool = False) -> Iterator[str]:
        """What is wrong with an object of a class."""
        if not isinstance(value, dict):
            yield f"{at} is no object"
            return
        parameters = inspect.signature(of.__init__).parameters.values()
        needed = [
            it.name
            for it in parameters
            if it.default is it.empty and it.name not in ("self", "kwargs")
        ]
        props = of.__props__
        if is_error:
            props = {**props, "command": {"type": "string"}}
        yield from self._of_keys(value, props, needed, at)

    def _of_keys(
        self, value: Dict[str, Any], props: Dict[str, Any], needed: Sequence[str], at: str
    ) -> Iterator[str]:
        """What is wrong with the keys of an object."""
        for name in needed:
            if name not in value:
                yield f"{at} lacks {name}"
        for name, each in value.items():
            if name not in props:
                yield f"{at}: {name} is none of its keys"
            else:
                yield from self._of_kind(each, props[name], f"{at}.{name}")

    def _of_kind(self, value: Any, spec: Dict[str, Any], at: str) -> Iterator[str]:
        """What is wrong with a value."""
        kind = spec.get("type")
        name = spec.get("$ref", "").split("/")[-1] or (kind if isinstance(kind, str) else "")
        if name and name not in BASIC:
            of = getattr(self._all, name)
            if hasattr(of, "__props__") and of.__props__:
                yield from self._of_class(value, of, at)
            return
        kinds = [kind] if isinstance(kind, str) else kind or []
        if kinds and not any(self._is(value, each) for each in kinds):
            yield f"{at} is {value!r}, and not {' or '.join(kinds)}"
            return
        if "enum" in spec and value not in spec["enum"]:
            yield f"{at} is {value!r}, and not one of {spec['enum']}"
        if isinstance(value, list) and "items" in spec:
            for number, each in enumerate(value):
                yield from self._of_kind(each, spec["items"], f"{at}[{number}]")
        if isinstance(value, dict) and "properties" in spec:
            yield from self._of_keys(value, spec["properties"], spec.get("required", ()), at)

    @staticmethod
    def _is(value: Any, kind: str) -> bool:
        if isinstance(value, bool):
            return kind == "boolean"
        return isinstance(value, BASIC[kind])  # type: ignore[arg-type]


def faults_of(messages: Sequence[Any]) -> List[str]:
    """What is wrong with messages, by the schema; what is said where it can't be had."""
    ran = subprocess.run(
        [DEBIAN, "-B", __file__],
        input=json.dumps(messages).encode(),
        stdout=subprocess.PIPE,
        stderr=subprocess.STDOUT,
    )
    said = ran.stdout.decode("utf-8", "replace").splitlines()
    return said if said or not ran.returncode else ["the schema can't be had"]


class Held(unittest.TestCase):
    """Tests whose clients have all that they were told held against the schema."""

    @classmethod
    def tearDownClass(cls) -> None:
        from tests.dap_client import ALL

        messages = [message for client in ALL for message in client.told]
        ALL.clear()
        found = faults_of(messages)
        if found:
            raise AssertionError("\n".join(found[:20]))


def main(text: Optional[str] = None) -> int:
    """Prints what is wrong with the messages of standard input."""
    schema = Schema()
    for number, message in enumerate(json.loads(text or sys.stdin.read())):
        for fault in schema.faults(message):
            print(f"message {number}: {fault}")
    return 0


if __name__ == "__main__":
    sys.exit(main())
