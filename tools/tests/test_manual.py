"""The help, the manual pages and what the program says of itself agree."""
import pathlib
import re
import shutil
import subprocess
import tempfile
import unittest
from typing import Set

from rdbg import main, manual, manual_pages
from rdbg.client import program
from rdbg.completing import table
from tests.paths import DOCS

OPTION = re.compile(r"--[a-z]+")
OF_THE_WRAPPER = {"--version", "--build", "--proved", "--unproved"}


def said(*words: str) -> str:
    """What the program prints on these words."""
    return subprocess.run([program(), *words], stdout=subprocess.PIPE, check=True).stdout.decode()


def words_of(text: str) -> Set[str]:
    """A text's words, however they are broken into lines."""
    plain = re.sub(r"\\f[BR]|\\&", "", text).replace("\\-", "-")
    return set(re.findall(r"[\w.()/-]+", plain))


class Manual(unittest.TestCase):
    """`rdbg --help` and rdbg(1)."""

    def setUp(self) -> None:
        self.help = manual.help_text(main.entries())
        self.page = manual.page(main.entries())

    def test_options_are_the_programs(self) -> None:
        options = OPTION.findall(said("--help") + said("run", "--help") + said("serve", "--help"))
        self.assertEqual(set(options), set(OPTION.findall(self.help)) - OF_THE_WRAPPER)

    def test_limits_are_the_programs(self) -> None:
        programs = said("run", "--help") + said("serve", "--help")
        for number in re.findall(r"\d+", programs):
            self.assertIn(number, self.help)

    def test_commands_are_the_programs(self) -> None:
        listed = said("--help").partition("Commands:\n")[2].partition("\n\n")[0]
        commands = {line.split()[0] for line in listed.splitlines()}
        self.assertEqual(commands, {"run", "serve", "help"})
        for command in commands | set(main.names()):
            self.assertIn(f"  rdbg {command} ", self.help)

    def test_the_page_has_what_the_help_has(self) -> None:
        shown = [it.title.capitalize() for it in manual.sections(main.entries()) if it.is_brief]
        frame = words_of("Usage: COMMAND OPTIONS Run rdbg help COMMAND for details.")
        frame |= words_of("New here See docs/tutorials/first-fault.md.")
        missing = words_of(self.help) - words_of(self.page)
        self.assertEqual(missing - {*shown} - frame, set())

    def test_the_pages_are_there(self) -> None:
        named = {name for entry in manual.PAGES for name in re.findall(r"[\w/-]+\.md", entry.words)}
        self.assertEqual({name for name in named if not (DOCS / name).is_file()}, set())

    @unittest.skipIf(shutil.which("man") is None, "man isn't there")
    def test_the_page_is_without_warnings(self) -> None:
        words = ["man", "--warnings", "-E", "UTF-8", "-l", "-Tutf8", "-Z", "-"]
        shown = subprocess.run(words, input=self.page.encode(), capture_output=True)
        self.assertEqual(shown.stderr.decode(), "")


class ToolPages(unittest.TestCase):
    """The page of each tool, as rdbg-sh(1)."""

    def setUp(self) -> None:
        folder = tempfile.TemporaryDirectory()
        self.addCleanup(folder.cleanup)
        manual_pages.write_all(folder.name, "1.2.3")
        self.pages = {it.name: it.read_text("utf-8") for it in pathlib.Path(folder.name).iterdir()}

    def test_each_word_of_an_installed_rdbg_has_one(self) -> None:
        words = {*main.names(), "run", "serve"}
        self.assertEqual({"rdbg.1", *(f"rdbg-{it}.1" for it in words)}, {*self.pages})
        self.assertEqual(manual.page(main.entries(), "1.2.3"), self.pages["rdbg.1"])

    def test_it_has_all_options(self) -> None:
        for word in table.words():
            if f"rdbg-{word.name}.1" in self.pages:
                page = self.pages[f"rdbg-{word.name}.1"].replace("\\-", "-")
                for option in word.options:
                    self.assertIn(option.names[-1], page, word.name)

    def test_its_synopsis(self) -> None:
        for name, synopsis in (
            ("trace", "rdbg trace [OPTIONS] [FILE] [COMMANDS]"),
            ("serve", "rdbg serve [OPTIONS] --app <FILE> --port <PORT> --sessions <COUNT>"),
        ):
            lines = self.pages[f"rdbg-{name}.1"].replace("\\-", "-").split("\n")
            self.assertEqual(f"\\fB{synopsis}\\fR", lines[lines.index(".SH SYNOPSIS") + 1])

    @unittest.skipIf(shutil.which("man") is None, "man isn't there")
    def test_they_are_without_warnings(self) -> None:
        for name, page in self.pages.items():
            words = ["man", "--warnings", "-E", "UTF-8", "-l", "-Tutf8", "-Z", "-"]
            shown = subprocess.run(words, input=page.encode(), capture_output=True)
            self.assertEqual(shown.stderr.decode(), "", name)


if __name__ == "__main__":
    unittest.main()
