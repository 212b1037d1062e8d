"""The words of `rdbg reach`: which are the program's, and which those of what starts it."""
import unittest

from rdbg.failure import Failure
from rdbg.reaching.words import PROGRESS, read


class Own(unittest.TestCase):
    """`-o OUT` and `--within SECONDS`, wherever they stand."""

    def test_none_of_them(self) -> None:
        words = ["a.json", "count", "q", "=", "2", "--moves", "5", "--exact", "--pace=2..4"]
        for given in (words, [*words, PROGRESS], [PROGRESS, *words]):
            asked = read(given)
            self.assertEqual((words, {}, None, ()), (asked.program, *asked[1:]))

    def test_each_way_to_write_them(self) -> None:
        for line in (
            "a.json asleep -o out --within 2.5 --moves 5",
            "-o out --within=2.5 a.json asleep --moves 5",
            "--within 2.5 a.json -oout asleep --moves 5",
            "a.json asleep --moves 5 --within 2.5 -o=out",
        ):
            with self.subTest(line):
                asked = read(line.split())
                self.assertEqual("a.json asleep --moves 5".split(), asked.program)
                self.assertEqual(("out", 2.5), (asked.own["-o"], asked.seconds))

    def test_behind_two_dashes_there_are_none(self) -> None:
        words = "a.json --moves 5 -- asleep -o --within".split()
        asked = read(words)
        self.assertEqual((words, {}, None, ()), (asked.program, *asked[1:]))

    def test_a_report(self) -> None:
        for line in ("a.json asleep --report r", "--report=r a.json asleep"):
            asked = read(line.split())
            self.assertEqual(("a.json asleep".split(), "r"), (asked.program, asked.own["--report"]))

    def test_what_is_wrong(self) -> None:
        for line, why in (
            ("a.json asleep -o", "-o needs a value (OUT)"),
            ("a.json asleep --within", "--within needs a value (SECONDS)"),
            ("a.json asleep --report", "--report needs a value (FILE)"),
            ("a.json asleep -o one -otwo", "duplicate option -o"),
            ("--within 1 a.json asleep --within=2", "duplicate option --within"),
            ("a.json asleep --within 0", "--within must be a number of seconds above 0, found '0'"),
            ("a.json asleep --within=", "found ''"),
            ("a.json asleep --within -1", "found '-1'"),
            ("a.json asleep --within nan", "found 'nan'"),
            ("a.json asleep --within 1e99", "found '1e99'"),
            ("a.json asleep --within \u0665", "found '\u0665'"),
        ):
            with self.subTest(line):
                with self.assertRaises(Failure) as failed:
                    read(line.split())
                self.assertEqual(2, failed.exception.status)
                self.assertIn(why, str(failed.exception))


class Programs(unittest.TestCase):
    """What is read of the program's own words."""

    def test_surprises(self) -> None:
        for line, asked in (
            ("a.json asleep", None),
            ("a.json asleep --surprises 2", 2),
            ("--surprises=03 a.json asleep", 3),
            ("a.json -- --surprises 2", None),
            ("a.json asleep --surprises", None),
            ("a.json asleep --exact --surprises 4", 4),
        ):
            with self.subTest(line):
                self.assertEqual(asked, read(line.split()).surprises())

    def test_a_goal(self) -> None:
        for line, has_goal in (
            ("a.json asleep", True),
            ("--moves 5 a.json --pace=1..2 asleep", True),
            ("a.json -- asleep", True),
            ("-- a.json asleep", True),
            ("", False),
            ("a.json", False),
            ("-- a.json", False),
            ("a.json --", False),
            ("a.json --isr tick --times any --after 0 --apart 1 --from x --surprises 1", False),
            ("--progress --states 5 --memory 6 a.json --moves", False),
        ):
            with self.subTest(line):
                self.assertEqual(has_goal, read(line.split()).plain()[1:] != [])

    def test_files(self) -> None:
        files = read("a.json asleep --exact --from one --from=two -o out".split()).files()
        self.assertLessEqual({"a.json", "one", "two"}, {*files})
        self.assertNotIn("out", files)


if __name__ == "__main__":
    unittest.main()
