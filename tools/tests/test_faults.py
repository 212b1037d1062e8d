"""examples/faults: each fault is found, each right mend holds, and no wrong one passes for it; and
the C of each is what its lines say."""
import contextlib
import io
import json
import os
import pathlib
import re
import shutil
import tempfile
import unittest
from typing import Any, Dict, Iterator, List, Tuple

from rdbg.companions import check
from rdbg.files.source import source
from rdbg.from_c.calls import TEMPLATES, Call, blocks, calls_in
from rdbg.from_c.lexer import pieces
from tests.paths import EXAMPLES
from tests.trials import listing, tested

FAULTS = EXAMPLES / "faults"
WRONG = "wrong_mend*.c"
# What is expected of a right one.
RIGHT = ("never", "not within")


def listed(folder: pathlib.Path = FAULTS) -> List[Dict[str, Any]]:
    """The cases of the folder, as they are written."""
    found: List[Dict[str, Any]] = json.loads((folder / "goals.json").read_text())["cases"]
    return found


def pairs() -> Iterator[Tuple[Dict[str, Any], pathlib.Path]]:
    """The case of each right mend, with each wrong one beside that."""
    for case in listed():
        if case["expect"].startswith(RIGHT):
            for wrong in sorted((FAULTS / case["file"]).parent.glob(WRONG)):
                yield case, wrong


def calls_of_tasks() -> Iterator[Tuple[pathlib.Path, List[str], Call]]:
    """The calls of FreeRTOS that the tasks of the faults make, by themselves or by another function
    of theirs: with the file and its rows."""
    for file in (FAULTS / name / f"{name}.c" for name in sorted(os.listdir(FAULTS))):
        text = file.read_text() if file.exists() else ""
        for block in blocks([it for it in pieces(text) if it.is_code]):
            if not re.search("_start$|_IRQHandler$|^reader$|^store$", block.name):
                for call in calls_in(block.pieces):
                    if call.name in TEMPLATES:
                        yield file, text.split("\n"), call


def order_of(output: List[str], head: str) -> List[str]:
    """The line that begins so, and what is told below it."""
    first = next(at for at, line in enumerate(output) if line.startswith(head))
    after = [at for at, line in enumerate(output) if at > first and not line.startswith(" ")]
    return output[first : after[0]]


class Folder(unittest.TestCase):
    """The folder as it is."""

    def test_all_is_as_expected(self) -> None:
        status, output, errors = tested(str(FAULTS))
        self.assertEqual((0, []), (status, errors), output)
        count = len(listed())
        self.assertEqual(f"{count} cases: {count} ok", output[-1])

    def test_each_model_has_a_case(self) -> None:
        models = {str(file.relative_to(FAULTS)) for file in FAULTS.glob("*/*.c")}
        self.assertEqual(models, {case["file"] for case in listed()})

    def test_the_c_is_the_source(self) -> None:
        for folder in filter(pathlib.Path.is_dir, FAULTS.iterdir()):
            self.assertTrue((folder / f"{folder.name}.c").exists(), folder)
        for file in FAULTS.glob("*/*"):
            self.assertIn(file.suffix, (".c", ".h", ".commands"))
            with self.subTest(file.name), contextlib.redirect_stdout(io.StringIO()) as told:
                self.assertEqual(0, check.main([str(file)]) if file.suffix == ".c" else 0)
                self.assertNotIn("differs", told.getvalue())


class Drift(unittest.TestCase):
    """The C of a fault, or of a mend, that goes another way than the lines in it."""

    def told(self, file: pathlib.Path, rows: List[str], row: int, text: str) -> List[str]:
        """What `check` tells of it with this text in a row."""
        changed = "\n".join([*rows[:row], text, *rows[row + 1 :]])
        return [*map(str, check.drifts(source(str(file), changed.encode())))]

    def test_each_call_taken_out(self) -> None:
        for file, rows, call in calls_of_tasks():
            row = call.place.line - 1
            before, behind = rows[row][: call.place.column - 1], rows[row][call.place.column - 1 :]
            told = self.told(file, rows, row, before + behind.replace(call.name, "nothing", 1))
            with self.subTest(file=file.name, call=call):
                self.assertTrue(told)
                for it in told:
                    line, _, message = it.partition(":")
                    self.assertRegex(message, "(no call of|makes no call of) ")
                    word = message.partition(": ")[2].partition(" ")[0]
                    self.assertRegex(rows[int(line) - 1], rf"[:*] +{word} ")

    def test_each_block_time_changed(self) -> None:
        count = 0
        for file, rows, call in calls_of_tasks():
            operands = [it for form in TEMPLATES[call.name] for it in form.operands]
            times = {it.argument for it in operands if it.kind == "T"}
            if not times:
                continue
            count += 1
            row = call.place.line - 1
            before, behind = rows[row][: call.place.column - 1], rows[row][call.place.column - 1 :]
            self.assertEqual({len(call.arguments) - 1}, times)
            other = re.sub(r"[^(,]+?(\))", r" 77\1", behind, 1)
            told = self.told(file, rows, row, before + other)
            with self.subTest(file=file.name, call=call):
                self.assertTrue(told)
                for it in told:
                    where = f"{call.name} in line {row + 1} has 77 as its block time"
                    self.assertTrue(it.endswith(where), it)
        self.assertGreater(count, 12)


class Mends(unittest.TestCase):
    """A wrong mend in the place of a right one."""

    def test_each_fault_has_both(self) -> None:
        folders = {folder.name for folder in FAULTS.iterdir() if folder.is_dir()}
        self.assertEqual(folders, {wrong.parent.name for _, wrong in pairs()})

    def test_a_wrong_mend_fails_the_folder(self) -> None:
        # (in one folder for all, so that they are tried side by side)
        with tempfile.TemporaryDirectory() as made:
            cases = []
            for at, (case, wrong) in enumerate(pairs()):
                name = f"{at}_{wrong.parent.name}.c"
                shutil.copy(str(wrong), os.path.join(made, name))
                cases.append({**case, "file": name})
            status, output, errors = tested(listing(made, *cases))
        self.assertEqual((1, []), (status, errors), output)
        self.assertEqual(f"{len(cases)} cases: {len(cases)} wrong", output[-1])
        for case in cases:
            told = order_of(output, f"wrong  {case['file']}: ")
            self.assertRegex(told[0], "expected .*, got found")
            self.assertIn(["place", "tick"], [line.split()[:2] for line in told])
            self.assertIn("lines:", [line.strip() for line in told])


if __name__ == "__main__":
    unittest.main()
