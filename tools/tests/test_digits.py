"""Numbers are digits of ASCII, and not thousands of them, wherever they stand."""
import contextlib
import io
import pathlib
import tempfile
import unittest
from typing import List, Tuple

from rdbg import commands
from rdbg.digits import is_digits, natural, number
from rdbg.main import main
from rdbg.tree import Number
from tests.paths import EXAMPLES

LOST = str(EXAMPLES / "lost_item.json")
MANY = "5" * 5_000
# (a superscript, Arabic, wide and circled digits: of each `str.isdigit` is true, or `int` reads it)
NONE = ("", "\u00b2", "1\u00b2", "\u0665", "\uff15", "\u2460", "-1", "+1", "1_0", " 1", "1.0", MANY)


def said(*words: str) -> Tuple[int, List[str]]:
    """The status of a companion, and the lines on standard error."""
    errors = io.StringIO()
    with contextlib.redirect_stderr(errors), contextlib.redirect_stdout(io.StringIO()):
        try:
            status = main(words)
        except SystemExit as ended:
            status = int(str(ended.code))
    return status, errors.getvalue().splitlines()


class Digits(unittest.TestCase):
    """What is a number, and what isn't."""

    def test_numbers(self) -> None:
        most = (1 << 64) - 1
        for text, value in (("0", 0), ("007", 7), (str(most), most), ("0" * 5_000 + "7", 7)):
            self.assertEqual(value, natural(text, most))
        self.assertIsNone(natural(str(most + 1), most))
        self.assertEqual((7, None), (number("0000000007", 9), number("00000000007", 9)))
        self.assertEqual(
            (None, 2, None), (number("1", 9, 2), number("2", 9, 2), number("10", 9, 2))
        )

    def test_what_is_none(self) -> None:
        for text in NONE:
            with self.subTest(text[:9]):
                self.assertEqual(text == MANY, is_digits(text))
                self.assertIsNone(natural(text, 1 << 64))
                self.assertFalse(commands.is_number(text) or commands.is_count(text))
                self.assertIsNone(Number(text).natural())

    def test_words_of_companions(self) -> None:
        for words in (
            ["sh", LOST, "--moves"],
            ["sh", "--port"],
            ["trace", LOST, "--from"],
            ["trace", "--port"],
            ["check", LOST, "--most"],
            ["hunt", LOST, "stuck", "--moves"],
            ["room", LOST, "--port"],
            ["dap", "--port"],
        ):
            for text in ("\u00b2", "\u0665", MANY):
                with self.subTest(words, text=text[:9]):
                    status, lines = said(*words, text)
                    self.assertEqual(2, status)
                    self.assertIn(f"argument {words[-1]}", lines[-1])
                    self.assertLess(len(lines[-1]), 200)

    def test_files(self) -> None:
        with tempfile.TemporaryDirectory() as folder:
            json, text = pathlib.Path(folder) / "a.json", pathlib.Path(folder) / "a.fw"
            for number_text in ("\u00b2", "\u0665", MANY):
                code = '"tasks": [{"name": "t", "priority": 1, "code": ["set r1 %s", "end"]}]'
                for cores in (number_text, f'"{number_text}"', "1"):
                    json.write_text('{"profile": 1, "cores": %s, %s}' % (cores, code % number_text))
                    self.assertEqual((1, []), said("check", str(json)))
                for line in ("cores {}", "const A {}", "queue q length {} item 1"):
                    text.write_text(f"{line.format(number_text)}\ntask t priority 1\n    end\n")
                    self.assertEqual((1, []), said("check", str(text)))
                    self.assertEqual(1, said("make", str(text))[0])

    def test_a_text_of_other_digits_is_told_of_no_quotes(self) -> None:
        with tempfile.TemporaryDirectory() as folder:
            file = pathlib.Path(folder) / "a.json"
            for digits, is_told in (("2", True), ("\u00b2", False)):
                file.write_text('{"profile": 1, "cores": "%s", "tasks": []}' % digits)
                with contextlib.redirect_stdout(io.StringIO()) as output:
                    main(["check", str(file)])
                self.assertEqual(is_told, "remove the quotes" in output.getvalue())


if __name__ == "__main__":
    unittest.main()
