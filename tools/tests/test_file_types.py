"""Files that hold no model: every tool says so, and a text with many faults says how many."""
import contextlib
import io
import json
import os
import pathlib
import shutil
import tempfile
import unittest
from typing import List, Tuple

from rdbg.main import main
from tests.paths import EXAMPLES

C = "#include <stdio.h>\n/* rdbg is fine */\nint main(void) { return 0; }\n"
LINES = "cores 1\ntask a priority 1\n  end\n"
ACCEPTED = "(a model is a .json file, a .fw file, or a .c file with '// rdbg:' lines)"


class InFolder(unittest.TestCase):
    """Tests in a folder with such files."""

    def setUp(self) -> None:
        folder = tempfile.TemporaryDirectory()
        self.addCleanup(folder.cleanup)
        self.addCleanup(os.chdir, os.getcwd())
        os.chdir(folder.name)
        for name, text in (("main.c", C), ("main.cpp", C), ("app.FW", LINES)):
            pathlib.Path(name).write_text(text)

    def said(self, *words: str) -> Tuple[int, List[str]]:
        """The status of a tool, and the lines of its two outputs."""
        output = io.StringIO()
        with contextlib.redirect_stdout(output), contextlib.redirect_stderr(output):
            status = main([*words])
        return status, output.getvalue().splitlines()


class Types(InFolder):
    """What is said of a file that holds no model."""

    def test_check(self) -> None:
        for file, why in (
            ("main.c", "no '// rdbg:' lines in main.c"),
            ("main.cpp", f"unknown file type '.cpp' {ACCEPTED}"),
            ("app.FW", f"unknown file type '.FW' {ACCEPTED}"),
        ):
            wanted = [f"{file}:1:1: {why}", f"{file}: makes no application; 1 fault"]
            self.assertEqual((1, wanted), self.said("check", file))

    def test_every_tool(self) -> None:
        run = pathlib.Path("run.commands")
        run.write_text("")
        for file, why in (("main.c", "no '// rdbg:' lines in main.c"), ("app.FW", ACCEPTED)):
            for words in (
                ("reach", file, "asleep"),
                ("hunt", file, "asleep"),
                ("sh", file),
                ("trace", file, str(run)),
                ("room", file, "--port", "1"),
                ("join", file, str(run)),
            ):
                with self.subTest(words):
                    status, lines = self.said(*words)
                    self.assertNotEqual(0, status)
                    self.assertIn(why, "\n".join(lines))
                    self.assertNotIn("cores", "\n".join(lines))

    def test_json_of_any_name(self) -> None:
        for name in ("app.txt", "tmp.Ab12", "app", "app.JSON"):
            shutil.copy(EXAMPLES / "lost_item.json", name)
            self.assertEqual(0, self.said("check", name)[0], name)

    def test_c_with_lines(self) -> None:
        text = "".join(f"// rdbg: {it}\n" for it in LINES.splitlines())
        pathlib.Path("main.c").write_text(text)
        self.assertEqual(0, self.said("check", "main.c")[0])


class ManyFaults(InFolder):
    """A text with more faults than are described."""

    def setUp(self) -> None:
        super().setUp()
        wrong = "".join(f"  sned q{at} 5\n" for at in range(1500))
        pathlib.Path("many.fw").write_text(f"cores 1\ntask a priority 1\n{wrong}")

    def test_all_are_counted(self) -> None:
        status, lines = self.said("check", "many.fw")
        self.assertEqual((1, 101), (status, len(lines)))
        self.assertEqual("many.fw: makes no application; 1500 faults, 100 shown", lines[-1])
        lines = self.said("check", "--most", "2000", "many.fw")[1]
        self.assertEqual("many.fw: makes no application; 1500 faults, 500 shown", lines[-1])

    def test_as_json(self) -> None:
        _, lines = self.said("check", "--json", "--most", "3", "many.fw")
        found = json.loads("\n".join(lines))["files"][0]
        self.assertEqual((3, 1497), (len(found["faults"]), found["more"]))
        self.assertIn("1500 faults, 3 shown", found["verdict"])

    def test_others_show_as_many(self) -> None:
        _, lines = self.said("sh", "many.fw")
        self.assertEqual(102, len(lines))
        self.assertEqual("many.fw: 1400 more faults", lines[100])
        self.assertIn("1500 faults", lines[101])

    def test_constants_alone(self) -> None:
        wrong = "".join(f"const A{at} B{at}\n" for at in range(700))
        pathlib.Path("many.fw").write_text(f"{wrong}cores 1\ntask a priority 1\n  edn\n")
        self.assertIn(" 701 faults", self.said("check", "many.fw")[1][-1])


if __name__ == "__main__":
    unittest.main()
