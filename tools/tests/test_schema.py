"""docs/application.schema.json accepts what rdbg accepts, and refuses what it refuses as L2 and L3,
as far as a schema can say.

The validator is jsonschema, of Debian's package python3-jsonschema: where this interpreter hasn't
got it, the tests are run by the one that Debian's packages are for."""
import contextlib
import importlib
import io
import json
import os
import pathlib
import subprocess
import tempfile
import unittest
from typing import Any, List

from rdbg import schema
from rdbg.companions import check
from tests import broken
from tests.paths import DOCS, TOP
from tests.test_check_agrees import ACCEPTED, UNREADABLE, check_says


def module(name: str) -> Any:
    """A module of this interpreter, or none where it hasn't got it."""
    try:
        return importlib.import_module(name)
    except ImportError:
        return None


jsonschema = module("jsonschema")
FILE, CHECKED = DOCS / "application.schema.json", DOCS / "check.schema.json"
DEBIAN = "/usr/bin/python3"
OTHER = "RDBG_OTHER_PYTHON"
COUNT = 800
# (a validator takes its time for each instruction of a large file)
MOST_BYTES = 1200
SHAPES = ("L2 Shape", "L3 Limit")


def numbers_with_points(value: Any) -> bool:
    """Whether there is a whole number that is written with a point, an exponent or a sign, which a
    schema takes for an integer."""
    if isinstance(value, dict):
        return any(map(numbers_with_points, value.values()))
    if isinstance(value, list):
        return any(map(numbers_with_points, value))
    return isinstance(value, float) and value.is_integer()


def triggers_above_sizes(value: Any) -> bool:
    """Whether a trigger level is above its stream buffer's size."""
    streams = value.get("streams", []) if isinstance(value, dict) else []
    objects = [it for it in streams if isinstance(it, dict)] if isinstance(streams, list) else []
    pairs = [(it.get("trigger"), it.get("size")) for it in objects]
    return any(isinstance(a, int) and isinstance(b, int) and a > b for a, b in pairs)


class Schema(unittest.TestCase):
    """The file as it is."""

    def test_is_made_from_the_tables(self) -> None:
        self.assertEqual(schema.text(), FILE.read_text(), "python3 -m rdbg.schema makes it anew")

    @unittest.skipIf(jsonschema, "this interpreter has jsonschema")
    def test_by_the_other_interpreter(self) -> None:
        self.assertNotIn(OTHER, os.environ, "jsonschema isn't there: install python3-jsonschema")
        modules = ("tests.test_schema", "tests.test_report", "tests.test_vscode")
        words = [DEBIAN, "-B", "-m", "unittest", *modules]
        done = subprocess.run(
            words,
            cwd=str(TOP / "tools"),
            env={**os.environ, OTHER: "yes"},
            stdout=subprocess.PIPE,
            stderr=subprocess.STDOUT,
            universal_newlines=True,
        )
        self.assertEqual(0, done.returncode, done.stdout)


@unittest.skipUnless(jsonschema, "the other interpreter has jsonschema")
class Validator(unittest.TestCase):
    """What a validator says by it."""

    def setUp(self) -> None:
        self.validator = jsonschema.Draft7Validator(json.loads(FILE.read_text()))

    def accepts(self, content: bytes) -> bool:
        return bool(self.validator.is_valid(json.loads(content)))

    def test_is_a_schema(self) -> None:
        jsonschema.Draft7Validator.check_schema(json.loads(FILE.read_text()))

    def test_accepts_each_application(self) -> None:
        refused = [path.name for path in broken.sources() if not self.accepts(path.read_bytes())]
        self.assertEqual([], refused)

    def test_what_check_prints(self) -> None:
        found = json.loads(CHECKED.read_text())
        jsonschema.Draft7Validator.check_schema(found)
        said = io.StringIO()
        with tempfile.TemporaryDirectory() as folder, contextlib.redirect_stdout(said):
            paths = [os.path.join(folder, f"{at}.json") for at in range(COUNT // 10)]
            for path, content in zip(paths, broken.files(len(paths))):
                pathlib.Path(path).write_bytes(content)
            check.main(["--json", *paths, *map(str, broken.sources())])
        printed = json.loads(said.getvalue())
        self.assertGreater(len(printed["files"]), COUNT // 10)
        jsonschema.Draft7Validator(found).validate(printed)

    def test_says_what_rdbg_says_of_broken_files(self) -> None:
        wrong: List[bytes] = []
        count = int(os.environ.get("RDBG_MANY", COUNT))
        for content in broken.files(count):
            said = check_says(content)
            if said in ("L1 NotJson", UNREADABLE) or len(content) > MOST_BYTES:
                continue
            value = json.loads(content)
            cannot_say = numbers_with_points(value) or triggers_above_sizes(value)
            accepts = self.accepts(content)
            if said == ACCEPTED and not accepts:
                wrong.append(content)
            if said in SHAPES and accepts and not cannot_say:
                wrong.append(content)
        self.assertEqual([], wrong[:5])


if __name__ == "__main__":
    unittest.main()
