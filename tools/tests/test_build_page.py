"""docs/BUILD.md: its files have the form that they should, and its lines have words that there
are."""
import importlib
import importlib.util
import pathlib
import re
import shutil
import subprocess
import tempfile
import unittest
from typing import Dict, List

from rdbg.completing.table import words
from tests.paths import DOCS

PAGE = (DOCS / "BUILD.md").read_text()
BLOCK = re.compile(r"^## ([^\n]*)\n(?:(?!^## ).)*?^```\n(.*?)^```$", re.MULTILINE | re.DOTALL)
LINE = re.compile(r"\brdbg ([a-z]+)((?: [^\n`|;&]+)?)")
OPTION = re.compile(r"(?<!\S)(--?[a-z][\w-]*)")


def blocks() -> Dict[str, str]:
    """The first block of each section."""
    return {found[1]: found[2] for found in BLOCK.finditer(PAGE)}


class Files(unittest.TestCase):
    """The files of the page, by their sections."""

    def run_on(self, title: str, name: str, *command: str) -> "subprocess.CompletedProcess[str]":
        """What a command says of a file in a folder of its own."""
        with tempfile.TemporaryDirectory() as folder:
            (pathlib.Path(folder) / name).write_text(blocks()[title])
            (pathlib.Path(folder) / "model").mkdir()
            (pathlib.Path(folder) / "model/goals.json").write_text("{}")
            (pathlib.Path(folder) / "model/a.fw").write_text("cores 1\n")
            pipe = subprocess.PIPE
            return subprocess.run(
                command, cwd=folder, stdout=pipe, stderr=pipe, universal_newlines=True
            )

    @unittest.skipIf(shutil.which("make") is None, "make isn't there")
    def test_the_rule(self) -> None:
        ran = self.run_on("Makefile", "Makefile", "make", "-n", "model")
        self.assertEqual((ran.returncode, ran.stderr), (0, ""))
        self.assertIn("rdbg check model/a.fw\n", ran.stdout)
        self.assertIn("rdbg test model --strict --report out/model.xml\n", ran.stdout)

    def test_the_script(self) -> None:
        ran = self.run_on("Shell script", "script", "sh", "-n", "script")
        self.assertEqual((ran.returncode, ran.stderr), (0, ""))

    def test_the_files_of_servers(self) -> None:
        for title in ("GitHub Actions", "GitLab"):
            lines = blocks()[title].split("\n")
            self.assertEqual([it for it in lines if "\t" in it], [])
            indents = [len(it) - len(it.lstrip()) for it in lines if it.strip()]
            self.assertEqual({it % 2 for it in indents}, {0})
            if importlib.util.find_spec("yaml") is not None:
                yaml = importlib.import_module("yaml")
                self.assertIn("model", str(yaml.safe_load(blocks()[title])))


class Lines(unittest.TestCase):
    """The lines that the page has servers run."""

    def test_words(self) -> None:
        table = {it.name: {name for one in it.options for name in one.names} for it in words()}
        seen: List[str] = []
        for word, rest in LINE.findall(PAGE):
            if word in table:
                seen.append(word)
                self.assertEqual({*OPTION.findall(rest)} - table[word], set(), (word, rest))
        self.assertLessEqual({"check", "hunt", "reach"}, {*seen})


if __name__ == "__main__":
    unittest.main()
