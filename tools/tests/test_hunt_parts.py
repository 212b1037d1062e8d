"""One of several parts of a search, and the answers of all of them as one."""
import contextlib
import io
import pathlib
import subprocess
import tempfile
import unittest
from typing import List, Tuple

from rdbg.main import main
from rdbg.reaching.asking import program
from tests import searches
from tests.hunts import path, said

LOST = path("lost_item")
COUNTS = "states 5 moves 9 deepest 4"
# From boot core 1 sends, and goes on to the poller, which receives (docs/tutorials/lost-item.md).
QUICK = "\n".join(["step 1"] * 4)
SLOW = "\n".join(["step 0", "step 1", "tick", "step 0", "step 1"])


def joined(*words: str) -> Tuple[int, List[str], List[str]]:
    """The status of `rdbg join` on these words, and the lines of its two outputs."""
    output, errors = io.StringIO(), io.StringIO()
    with contextlib.redirect_stdout(output), contextlib.redirect_stderr(errors):
        status = main(["join", *words])
    return status, output.getvalue().splitlines(), errors.getvalue().splitlines()


def has_parts() -> bool:
    """Whether the program that searches goes through parts."""
    ran = subprocess.run([program(), "--help"], stdout=subprocess.PIPE, check=True, text=True)
    return "--part" in ran.stdout


class AnswersOf(unittest.TestCase):
    """Answers in files of a folder."""

    def setUp(self) -> None:
        folder = tempfile.TemporaryDirectory()
        self.addCleanup(folder.cleanup)
        self.folder = pathlib.Path(folder.name)

    def written(self, *answers: str) -> List[str]:
        """The paths of files with these answers."""
        for at, answer in enumerate(answers):
            (self.folder / str(at)).write_text(answer + "\n")
        return [str(self.folder / str(at)) for at in range(len(answers))]

    def join(self, *answers: str) -> Tuple[int, List[str], List[str]]:
        """What these are as one."""
        return joined(LOST, *self.written(*answers))


class Joined(AnswersOf):
    """`rdbg join`."""

    def test_found_is_the_least(self) -> None:
        # (an order of `forward` has no surprise, and more moves; in the other one core 1 is ahead)
        one = f"found, part 1 of 3\n{QUICK}\n{COUNTS}"
        other = f"found, part 3 of 3\n{SLOW}\n{COUNTS}"
        none = f"never, part 2 of 3\n{COUNTS}"
        status, lines, errors = self.join(one, none, other)
        wanted = ["found", *SLOW.splitlines(), "states 15 moves 27 deepest 4"]
        self.assertEqual((1, wanted, []), (status, lines, errors))
        # (where others are lacking, too)
        status, lines, errors = self.join(one)
        self.assertEqual((1, "found"), (status, lines[0]))
        lacking = [f"rdbg join: part {part} is missing" for part in (2, 3)]
        self.assertEqual(lacking, errors)

    def test_never_and_not_within_are_said_of_all(self) -> None:
        for heads, wanted in (
            (["never", "never"], "never"),
            (["not within 7 moves", "not within 7 moves"], "not within 7 moves"),
            (["not within 2 surprises", "not within 2 surprises"], "not within 2 surprises"),
            (["never", "not within 7 moves"], "not within 7 moves"),
            (["not within 9 moves and 1 surprises"] * 2, "not within 9 moves and 1 surprises"),
        ):
            answers = [f"{head}, part {at} of 2\n{COUNTS}" for at, head in enumerate(heads, 1)]
            status, lines, errors = self.join(*answers)
            self.assertEqual((0, wanted, []), (status, lines[0], errors))

    def test_full_else(self) -> None:
        full = f"full: not within 5 moves, part 2 of 2\nas much memory as may be taken\n{COUNTS}"
        status, lines, errors = self.join(f"never, part 1 of 2\n{COUNTS}", full)
        self.assertEqual((2, "full: not within 5 moves", []), (status, lines[0], errors))
        self.assertEqual("as much memory as may be taken", lines[1])

    def test_a_part_that_is_lacking_is_told(self) -> None:
        status, lines, errors = self.join(f"never, part 1 of 2\n{COUNTS}")
        self.assertEqual((2, "full"), (status, lines[0]))
        self.assertEqual("a part of the search is missing", lines[1])
        self.assertEqual(["rdbg join: part 2 is missing"], errors)

    def test_instructions_that_no_part_came_to(self) -> None:
        one = (
            f"never, part 1 of 2\n{COUNTS}\nno order came to worker 0 1\nno order came to poller 1"
        )
        other = f"never, part 2 of 2\n{COUNTS}\nno order came to worker 1"
        _, lines, _ = self.join(one, other)
        self.assertEqual(["no order came to worker 1"], lines[2:])

    def test_what_are_no_parts(self) -> None:
        part = f"never, part 1 of 2\n{COUNTS}"
        for answers, why in (
            ([f"never\n{COUNTS}"], "the first line names no part K/N"),
            (["nothing"], "unexpected answer of the search program: 'nothing'"),
            ([""], "unexpected answer"),
            ([part, part], "part 1 is given twice"),
            ([part, f"never, part 2 of 3\n{COUNTS}"], "with different numbers of parts"),
            (["never, part 1 of 2"], "is incomplete"),
        ):
            status, lines, errors = self.join(*answers)
            self.assertEqual((2, []), (status, lines))
            self.assertIn(why, errors[0])
        self.assertIn("cannot read", joined(LOST, "/none")[2][0])


class Passed(AnswersOf):
    """`--part` of a hunt goes to the program that searches."""

    def test_it_is_passed_on(self) -> None:
        answer = f"ok\n\nnever, part 2 of 3\n{COUNTS}\n\n"
        with searches.program(answer) as fake:
            status, _, errors = said(LOST, "failed", "--part", "2/3", "--moves", "9")
            self.assertIn("--part 2/3", fake.words())
        self.assertEqual((0, "never, part 2 of 3"), (status, errors[1]))

    def test_the_parts_together_are_the_whole(self) -> None:
        if not has_parts():
            self.skipTest("the program that searches goes through no parts")
        for goal in ("reg poller 0 = 1", "reg poller 7 = 1", "count jobs > 0", "failed"):
            answers = []
            for part in (1, 2, 3):
                words = [program(), LOST, goal, "--part", f"{part}/3"]
                ran = subprocess.run(words, stdout=subprocess.PIPE, text=True)
                answers.append(ran.stdout.rstrip("\n"))
            whole = subprocess.run([program(), LOST, goal], stdout=subprocess.PIPE, text=True)
            status, lines, _ = self.join(*answers)
            self.assertEqual(whole.returncode, status, goal)
            self.assertEqual(whole.stdout.splitlines()[0], lines[0])


if __name__ == "__main__":
    unittest.main()
