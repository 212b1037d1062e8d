"""The scripts by which shells complete rdbg's words, and the table that they are made of."""
import contextlib
import io
import pathlib
import shutil
import subprocess
import tempfile
import unittest
from typing import List

from rdbg import main
from rdbg.completing.scripts import bash, zsh
from rdbg.completing.table import words
from rdbg.companions import completion
from rdbg.program_help import OF

# Prints what bash would offer behind words, the last of which was begun.
ASK_BASH = 'COMP_WORDS=("$@"); COMP_CWORD=$(($# - 1)); _rdbg; printf "%s\\n" "${COMPREPLY[@]}"'
# Prints what zsh is told there.
ASK_ZSH = """
compdef() { : }
_describe() { print -rl -- ${(P)2} }
_arguments() { print -rl -- $CURRENT $words[1] "$@" }
. $1
shift
words=("$@")
CURRENT=$#
_rdbg
"""


class Table(unittest.TestCase):
    """All words are there, with their options."""

    def test_each_word(self) -> None:
        names = [it.name for it in words()]
        self.assertEqual(names, sorted({*OF, *main.names(), "help"}))

    def test_what_the_helps_have(self) -> None:
        of = {it.name: it for it in words()}
        reach = {name for it in of["reach"].options for name in it.names}
        self.assertLessEqual({"--lost", "--isr", "-o", "-D", "--within", "--help"}, reach)
        values = {name: it.value for it in of["run"].options for name in it.names}
        self.assertEqual((values["--app"], values["--moves"]), ("FILE", "COUNT"))
        self.assertTrue(of["check"].has_files and of["reach"].has_files)
        self.assertFalse(of["dap"].has_files)


class Bash(unittest.TestCase):
    """What bash offers."""

    def setUp(self) -> None:
        folder = tempfile.TemporaryDirectory()
        self.addCleanup(folder.cleanup)
        self.folder = pathlib.Path(folder.name)
        (self.folder / "script").write_text(bash(words()))
        for name in ("a task.json", "b.fw"):
            (self.folder / name).touch()

    def offered(self, *line: str) -> List[str]:
        """What is offered behind these words."""
        asked = ["bash", "--norc", "-c", f". ./script; {ASK_BASH}", "bash", *line]
        ran = subprocess.run(asked, cwd=self.folder, check=True, stdout=subprocess.PIPE)
        return ran.stdout.decode().split("\n")[:-1]

    def test_words(self) -> None:
        self.assertEqual(self.offered("rdbg", "h"), ["help", "hunt"])
        for choice in ("--proved", "--unproved"):
            self.assertEqual(self.offered("rdbg", choice, "ro"), ["room"])
        self.assertEqual(self.offered("rdbg", "help", "tr"), ["trace"])
        self.assertEqual(self.offered("rdbg", "completion", ""), ["bash", "zsh"])

    def test_options(self) -> None:
        self.assertEqual(self.offered("rdbg", "hunt", "--ex"), ["--exhaustive", "--expect"])
        self.assertEqual(self.offered("rdbg", "hunt", "x", "--expect", ""), ["none", "found"])
        self.assertEqual(self.offered("rdbg", "reach", "--d"), ["--doomed"])

    def test_files(self) -> None:
        self.assertEqual(self.offered("rdbg", "check", "a"), ["a task.json"])
        self.assertEqual(self.offered("rdbg", "run", "--app", "b"), ["b.fw"])
        self.assertEqual(self.offered("rdbg", "run", "--moves", ""), [""])


@unittest.skipIf(shutil.which("zsh") is None, "zsh isn't there")
class Zsh(unittest.TestCase):
    """What zsh is told."""

    def told(self, *line: str) -> List[str]:
        """What it is told behind these words."""
        with tempfile.NamedTemporaryFile("w") as script:
            script.write(zsh(words()))
            script.flush()
            asked = ["zsh", "-f", "-c", ASK_ZSH, "zsh", script.name, *line]
            ran = subprocess.run(asked, check=True, stdout=subprocess.PIPE, stderr=subprocess.PIPE)
        self.assertEqual(ran.stderr, b"")
        return ran.stdout.decode().split("\n")[:-1]

    def test_words(self) -> None:
        told = self.told("rdbg", "")
        self.assertIn(f"check:{main.summary('check')}", told)
        self.assertEqual(len(told), len(words()) + 5)

    def test_options(self) -> None:
        for choice in ("--proved", "--unproved"):
            told = self.told("rdbg", choice, "hunt", "")
            self.assertEqual(told[:2], ["2", "hunt"])
        self.assertIn(
            "--expect[result with exit status 0 \\[default\\: none\\]]:EXPECT:(none found)", told
        )
        self.assertIn("*:word:_files", told)


class Companion(unittest.TestCase):
    """`rdbg completion`."""

    def test_each_shell(self) -> None:
        for shell, made in (("bash", bash), ("zsh", zsh)):
            said = io.StringIO()
            with contextlib.redirect_stdout(said):
                self.assertEqual(completion.main([shell]), 0)
            self.assertEqual(said.getvalue(), made(words()))

    def test_another(self) -> None:
        with contextlib.redirect_stderr(io.StringIO()), self.assertRaises(SystemExit) as ended:
            completion.main(["fish"])
        self.assertEqual(ended.exception.code, 2)


if __name__ == "__main__":
    unittest.main()
