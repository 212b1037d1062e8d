"""What is said of a command line is wrong with it exactly where the program refuses it."""
import subprocess
import unittest
from typing import List

from rdbg.client import program
from rdbg.command_line import OF_COMMAND, OPTIONS, unknown, why
from rdbg.manual import help_text

WRONG = (
    ("run rx.json", "unexpected 'rx.json' (to name a model, use --app FILE)"),
    ("run --ap rx.json", "run has no option --ap (did you mean --app?)"),
    ("run --port 7000", "run has no option --port"),
    ("run --moves 0", "--moves must be 1 to 1000000, found '0'"),
    ("run --moves=many", "--moves must be 1 to 1000000, found 'many'"),
    ("run --moves \u00b2", "--moves must be 1 to 1000000, found '\u00b2'"),
    ("run --moves \u0665", "--moves must be 1 to 1000000, found '\u0665'"),
    ("run --moves " + "5" * 5_000, f"--moves must be 1 to 1000000, found '{'5' * 58}..'"),
    ("serve --app x.json --port \u00b9", "--port must be 1 to 65535, found '\u00b9'"),
    ("run --history 1", "--history must be 2 to 1000000, found '1'"),
    ("run --moves 5 --moves 6", "--moves is given twice"),
    ("run --app", "--app needs a value FILE"),
    ("serve", "serve needs --app, --port, --sessions"),
    ("serve --app x.json --sessions 2", "serve needs --port"),
    ("serve --app x.json --port 80000 --sessions 2", "--port must be 1 to 65535, found '80000'"),
    ("serve --app x.json --port 1 --sessions 65", "--sessions must be 1 to 64, found '65'"),
)
RIGHT = (
    "run",
    "run --moves 5",
    "run --moves=+5 --history 05",
    f"run --moves {'0' * 5_000}5",
    "run --app=no_such_file.json",
)


def is_refused(words: List[str]) -> bool:
    """Whether the program calls the words a bad command line."""
    silent = subprocess.DEVNULL
    ran = subprocess.run([program(), *words], stdin=silent, stdout=silent, stderr=silent)
    return ran.returncode == 2


class CommandLine(unittest.TestCase):
    """`rdbg.command_line`."""

    def test_wrong_words(self) -> None:
        for line, message in WRONG:
            with self.subTest(line):
                self.assertEqual(why(line.split()), message)
                self.assertTrue(is_refused(line.split()))

    def test_right_words(self) -> None:
        for line in RIGHT:
            with self.subTest(line):
                self.assertIsNone(why(line.split()))
                self.assertFalse(is_refused(line.split()))

    def test_unknown_words(self) -> None:
        self.assertEqual(
            unknown("chekc", ["check", "run"]), "unknown command 'chekc' (did you mean 'check'?)"
        )
        self.assertIn("see ./rdbg --help", unknown("xyz", ["check", "run"]))

    def test_options_are_those_of_the_help(self) -> None:
        for option, (name, limits) in OPTIONS.items():
            self.assertIn(f"{option} {name}", help_text([]))
            for limit in limits or ():
                self.assertIn(str(limit), help_text([]))
        self.assertEqual(set(OF_COMMAND["serve"]), set(OPTIONS))


if __name__ == "__main__":
    unittest.main()
