"""The rooms of the package: each imports those below it alone, and of those the ones that stand here."""
import ast
import pathlib
import unittest
from typing import Dict, Iterator, Set, Tuple

import rdbg

TOP = pathlib.Path(rdbg.__file__).resolve().parent
# The modules that are in no room.
BASE = "base"
# Each room with those that it may import beside the base, from top to bottom: no room stands in
# the row of one below it.
ROOMS: Tuple[Tuple[str, str], ...] = (
    (
        "companions",
        "rooms adapter testing completing hunting shell tracing reaching goals driving files from_c"
        " firmware checking",
    ),
    ("rooms", "shell page reaching goals driving files"),
    ("adapter", "shell reaching goals driving files from_c firmware"),
    ("testing", "hunting reaching goals driving files"),
    ("completing", ""),
    ("hunting", "tracing reaching goals driving files"),
    ("shell", "reaching goals driving files from_c checking"),
    ("tracing", "page reaching goals driving files"),
    ("page", "driving"),
    ("reaching", "goals driving files"),
    ("goals", "driving files"),
    ("driving", "files"),
    ("files", "from_c firmware checking"),
    ("from_c", "firmware checking"),
    ("firmware", "checking"),
    ("checking", ""),
    (BASE, ""),
)


def room_of(module: str) -> str:
    """The room of a module."""
    first = module.split(".")[1:2]
    return first[0] if first and (TOP / first[0]).is_dir() else BASE


def imported(file: pathlib.Path) -> Iterator[str]:
    """The modules of the package that a file imports, wherever in it."""
    for node in ast.walk(ast.parse(file.read_text(encoding="utf-8"))):
        if isinstance(node, ast.Import):
            yield from (it.name for it in node.names if it.name.split(".")[0] == "rdbg")
        elif isinstance(node, ast.ImportFrom):
            assert node.level == 0 and node.module is not None, f"{file}: a relative import"
            if node.module == "rdbg":
                yield from (f"rdbg.{it.name}" for it in node.names)
            elif node.module.startswith("rdbg."):
                yield node.module


def imports() -> Dict[str, Set[str]]:
    """Which rooms each room imports, others than itself and the base."""
    found: Dict[str, Set[str]] = {}
    for file in TOP.rglob("*.py"):
        parts = file.relative_to(TOP).parts
        room = parts[0] if len(parts) > 1 else BASE
        others = {room_of(it) for it in imported(file)} - {room, BASE}
        found.setdefault(room, set()).update(others)
    return found


class Rooms(unittest.TestCase):
    """Who imports whom."""

    def test_each_imports_what_stands_in_its_row(self) -> None:
        rows = {room: {*others.split()} for room, others in ROOMS}
        self.assertEqual(imports(), rows)

    def test_a_room_imports_those_below_it(self) -> None:
        above: Set[str] = set()
        for room, others in ROOMS:
            above.add(room)
            self.assertEqual({*others.split()} & above, set(), room)


if __name__ == "__main__":
    unittest.main()
