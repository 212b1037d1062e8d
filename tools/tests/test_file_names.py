"""File names with characters that control a terminal or change the direction of text."""
import contextlib
import io
import os
import pathlib
import shutil
import subprocess
import sys
import tempfile
import unittest
from typing import Tuple

from rdbg.main import main
from rdbg.printable import printable
from tests.paths import COMPANION, EXAMPLES
from tests.shell_talk import example, said

# The end of a line, a sequence that colours a terminal, a reversal of direction, and a byte that is
# not UTF-8.
BAD = os.fsdecode(b"a\nb\x1b[31m\xe2\x80\xae\xff")
SHOWN = r"a\nb\x1b[31m\u202e\udcff"
CONTROLS = {"\x1b", "\u202e", "\udcff"}


def run(*words: str) -> Tuple[int, str]:
    """Runs a tool as a process, and returns its status and all that it prints, with each byte that
    is not UTF-8 as it is."""
    command = [sys.executable, "-B", str(COMPANION), *words]
    pipe, none = subprocess.PIPE, subprocess.DEVNULL
    ran = subprocess.run(command, stdin=none, stdout=pipe, stderr=subprocess.STDOUT, timeout=60)
    return ran.returncode, os.fsdecode(ran.stdout)


class FileNames(unittest.TestCase):
    """Each tool that names a file."""

    def setUp(self) -> None:
        folder = tempfile.TemporaryDirectory()
        self.addCleanup(folder.cleanup)
        self.addCleanup(os.chdir, os.getcwd())
        os.chdir(folder.name)

    def check(self, *words: str, status: int = 2) -> str:
        """Checks that a tool prints the name escaped, and returns all that it prints."""
        found, printed = run(*words)
        with self.subTest(words[0], words=words[1:]):
            self.assertEqual(status, found, printed)
            self.assertIn(SHOWN, printed)
            self.assertFalse(CONTROLS & {*printed}, printed)
        return printed

    def test_files_that_do_not_exist(self) -> None:
        for word in ("check", "trace", "hunt", "test"):
            goal = ["asleep"] if word == "hunt" else []
            self.check(word, BAD, *goal)
        for name in (f"{BAD}.fw", f"{BAD}.json", BAD):
            self.check("make", name)
        self.check("reach", f"{BAD}.fw", "asleep", "-DN=1")
        self.check("trace", str(EXAMPLES / "turns.json"), BAD)

    def test_arguments(self) -> None:
        self.check("check", "x", f"--{BAD}")
        self.check(BAD)

    def test_output_files(self) -> None:
        turns = str(EXAMPLES / "turns.json")
        self.check("trace", turns, "--page", f"none/{BAD}")
        self.check("hunt", turns, "asleep", "-o", f"none/{BAD}")

    def test_files_with_faults(self) -> None:
        pathlib.Path(f"{BAD}.json").write_text("{}")
        pathlib.Path(f"{BAD}.fw").write_text("cores 0\n")
        for file in (f"{BAD}.json", f"{BAD}.fw"):
            self.check("check", file, status=1)
            self.check("check", "--first", file, status=1)
            self.check("trace", file, status=1)
        self.check("make", f"{BAD}.fw", status=1)
        shutil.copy(f"{BAD}.json", "goals.json")
        os.mkdir(BAD)
        shutil.copy("goals.json", BAD)
        self.check("test", BAD)

    def test_files_that_are_accepted(self) -> None:
        shutil.copy(EXAMPLES / "turns.json", f"{BAD}.json")
        self.check("check", f"{BAD}.json", status=0)
        self.check("make", "--back", f"{BAD}.json", "-o", f"{BAD}")
        page = pathlib.Path("page.html")
        pathlib.Path(f"{BAD}.commands").write_text("fly\n")
        self.check("trace", f"{BAD}.json", f"{BAD}.commands", "--page", str(page), status=0)
        title = page.read_text("utf-8").partition("<title>")[2].partition("</title>")[0]
        self.assertTrue(title.startswith(SHOWN), title)
        self.assertFalse(CONTROLS & {*title})

    def test_at_the_prompt(self) -> None:
        # (a line is text in UTF-8, and has no line end)
        name, escaped = "\x1b[31m\u202e", r"\x1b[31m\u202e"
        with example("lost_item") as shell:
            for line in (f"source {name}", f"save {name}.commands", f"save none/{name}.commands"):
                with self.subTest(line):
                    printed = "".join(said(shell, line))
                    self.assertIn(escaped, printed)
                    self.assertFalse(CONTROLS & {*printed}, printed)

    def test_letters_of_all_languages_stay(self) -> None:
        for name in ("Ünïcode 文件.fw", "ملف.json"):
            self.assertEqual(name, printable(name))


if __name__ == "__main__":
    unittest.main()
