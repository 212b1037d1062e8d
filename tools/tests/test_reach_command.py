"""`rdbg reach`: what becomes of the program's answer, its end by time and by signals, and `-o`."""
import contextlib
import os
import pathlib
import re
import signal
import subprocess
import sys
import tempfile
import time
import unittest
from typing import List
from unittest import mock

from tests import searches
from tests.paths import COMPANION, EXAMPLES
from tests.rooms import until
from tests.searches import FAR, FOUND, FURTHER, KILLED, NEVER, SAID_FURTHER, SLEEPS, program, said
from tests.started import Started, unread

LOST = str(EXAMPLES / "lost_item.json")
ASKED = (LOST, "failed")
LINES = """
cores 1
const STOP 1 << 0
group flags
task logger priority 1
again:
    gwait flags STOP any clear 10
    jumpz r0 again
    end
"""


class InFolder(unittest.TestCase):
    """Tests in a folder of their own."""

    def setUp(self) -> None:
        folder = tempfile.TemporaryDirectory()
        self.addCleanup(folder.cleanup)
        self.addCleanup(os.chdir, os.getcwd())
        os.chdir(folder.name)


class Answers(InFolder):
    """What the program answers is passed on, as it is."""

    def test_with_its_status(self) -> None:
        full = "full: not within 7 moves\nthere is no more memory\nstates 1 moves 2 deepest 3\n"
        rest = "no order came to these instructions:\n  worker 3 jump 0\n"
        for status, answer in ((0, NEVER), (1, FOUND), (2, full), (1, FOUND + rest)):
            with self.subTest(answer), program(answer, FAR, f"exit {status}"):
                self.assertEqual((status, answer, []), said(*ASKED))

    def test_it_has_all_words_but_those_of_its_starter(self) -> None:
        with program(FOUND, end="exit 1") as it:
            words = ("--within", "50", "--exact", "--pace", "2..4", "-o", "out")
            said(*ASKED, *words, "--", "and failed")
            wanted = f"--progress {LOST} failed and failed --exact --pace 2..4 --"
            self.assertEqual(wanted, it.words())

    def test_a_text_in_lines(self) -> None:
        pathlib.Path("logger.fw").write_text(LINES)
        over = "(ended logger or failed logger)"
        for goal, told in (
            ("at logger again", "at logger 0"),
            ("bits flags & STOP = STOP", "bits flags & 1 = 1"),
            ("stuck", f"(asleep or {over})"),
        ):
            with self.subTest(goal), program(FOUND, end="exit 1") as it:
                said("logger.fw", goal)
                self.assertRegex(it.words(), f"^--progress .*json {re.escape(told)}$")

    def test_what_is_no_goal(self) -> None:
        pathlib.Path("logger.fw").write_text(LINES)
        for file, goal, why in (
            (LOST, "asleap", "word 1, 'asleap': expected an atom, .*did you mean `asleep`"),
            (LOST, "sleeps worker", "the search does not support `sleeps`"),
            (
                "logger.fw",
                "at logger agian",
                "word 3, 'agian': expected the number of an instruction",
            ),
        ):
            with self.subTest(goal), program(FOUND) as it:
                status, output, errors = said(file, goal)
                self.assertEqual((2, "", 1, ""), (status, output, len(errors), it.words()))
                self.assertRegex(errors[0], f"^rdbg reach: goal: {why}")

    def test_a_refusal(self) -> None:
        for errors in ("none.json: cannot read the file\n", "one\ntwo\n", "no line end"):
            with self.subTest(errors), program("", errors, "exit 2"):
                self.assertEqual((2, "", errors.splitlines()), said(*ASKED))

    def test_what_goes_with_a_goal(self) -> None:
        for words in (("-o", "out"), ("--within", "5"), ("--page", "o.html"), ("--report", "r")):
            with self.subTest(words), program("ok\n\n") as it:
                wanted = (2, "", ["rdbg reach: -o, --within, --page and --report need a goal"])
                self.assertEqual(wanted, said(LOST, "--engine", *words))
                self.assertEqual("", it.words())

    def refuse_engine(self) -> None:
        """Makes the start of an engine, which would replace this process, an error."""
        started = mock.patch("os.execv", side_effect=AssertionError("an engine was started"))
        started.start()
        self.addCleanup(started.stop)

    def test_no_goal(self) -> None:
        self.refuse_engine()
        pathlib.Path("logger.fw").write_text(LINES)
        why = "rdbg reach: no goal given (for the line protocol: reach FILE --engine)"
        rows: List[List[str]] = [[], [""], [" "], ["", ""], ["--moves", "5"], ["-o", "out"]]
        for words in rows:
            for file in (LOST, "logger.fw"):
                with self.subTest(words, file=file), program(NEVER) as it:
                    self.assertEqual((2, "", [why]), said(file, *words))
                    self.assertEqual("", it.words())

    def test_a_goal_for_an_engine(self) -> None:
        self.refuse_engine()
        why = "--engine takes no goal on the command line: it reads goals from standard input"
        for words in ([LOST, "asleep", "--engine"], ["--engine", LOST, ""]):
            with self.subTest(words), program("ok\n\n") as it:
                self.assertEqual((2, "", [f"rdbg reach: {why}"]), said(*words))
                self.assertEqual("", it.words())

    def test_its_help(self) -> None:
        with program("", end="exit 2") as it:
            for word in ("--help", "-h"):
                status, output, errors = said(word)
                self.assertEqual((0, []), (status, errors))
                for option in ("--within <SECONDS>", "--moves <N>", "--exact"):
                    self.assertIn(option, output)
            self.assertEqual("", it.words())


class Dead(unittest.TestCase):
    """A program that ends in another way than by an answer."""

    def check(self, why: str, answer: str = "", errors: str = "", end: str = KILLED) -> None:
        """That it is said why, in one line."""
        with program(answer, errors, end):
            self.assertEqual((2, "", [f"rdbg reach: {why}"]), said(*ASKED))

    def test_a_signal(self) -> None:
        self.check("the search program was killed by SIGKILL")
        self.check("the search program was killed by SIGABRT", end="kill -6 $$")
        self.check(
            "the search program was killed by SIGKILL (known so far: not within 12 moves)", "", FAR
        )

    def test_in_the_midst_of_its_answer(self) -> None:
        # (an order that is cut off leads elsewhere)
        self.check("the search program was killed by SIGKILL", "found\nstep 0\n")
        self.check("the search program ended before it answered", "found\nstep 0\n", end="exit 1")
        self.check("the search program ended before it answered", end="exit 0")

    def test_another_status(self) -> None:
        self.check("the search program ended with status 101", end="exit 101")

    def test_none_to_start(self) -> None:
        with mock.patch.dict(os.environ, {"RDBG_REACH": "/none/rdreach"}):
            why = "cannot start /none/rdreach: No such file or directory"
            self.assertEqual((2, "", [f"rdbg reach: {why}"]), said(*ASKED))


class Untaken(unittest.TestCase):
    """An output that nobody takes: the status isn't that of an answer which nobody has."""

    def test_it(self) -> None:
        command = [sys.executable, "-B", str(COMPANION), "reach", *ASKED]
        for path, why in (("/dev/full", "No space left on device"), ("", "Broken pipe")):
            with self.subTest(why), program(FOUND, FAR, "exit 1"), contextlib.ExitStack() as ends:
                output = ends.enter_context(open(path, "wb")).fileno() if path else broken(ends)
                ran = subprocess.run(command, stdout=output, stderr=subprocess.PIPE)
                wanted = f"rdbg reach: cannot write standard output: {why}\n"
                self.assertEqual((2, wanted), (ran.returncode, ran.stderr.decode()))


def broken(ends: contextlib.ExitStack) -> int:
    """A pipe that nobody reads."""
    reading, writing = os.pipe()
    os.close(reading)
    ends.callback(os.close, writing)
    return writing


class Ended(InFolder):
    """A search that is ended from here."""

    def test_by_time(self) -> None:
        began = time.monotonic()
        with program("", FAR + FURTHER, SLEEPS):
            self.assertEqual((2, SAID_FURTHER, []), said(*ASKED, "--within", "1"))
        self.assertLess(time.monotonic() - began, 20)

    def test_with_a_bound_of_surprises(self) -> None:
        both = FURTHER.replace(" states", " and 1 surprises states")
        for errors, surprises in ((FURTHER, 2), (both, 1)):
            with self.subTest(errors), program("", errors, SLEEPS):
                _, output, _ = said(*ASKED, "--within", "1", "--surprises", "2")
                head = f"full: not within 13 moves and {surprises} surprises\n"
                self.assertTrue(output.startswith(head), output)

    def test_what_is_lost_or_doomed_has_no_bound(self) -> None:
        wanted = SAID_FURTHER.replace("full: not within 13 moves", "full")
        for option in ("--lost", "--doomed"):
            with self.subTest(option), program("", FURTHER, SLEEPS):
                self.assertEqual((2, wanted, []), said(*ASKED, option, "--within", "1"))

    def test_half_a_line_says_nothing(self) -> None:
        for half in (FURTHER[:-8], FURTHER[:20], FURTHER[:3]):
            with self.subTest(half), program("", FAR + half, SLEEPS):
                status, output, errors = said(*ASKED, "--within", "1")
                self.assertEqual((2, []), (status, errors))
                self.assertTrue(output.startswith("full: not within 12 moves\n"), output)

    def test_before_anything_is_known(self) -> None:
        why = "rdbg reach: the search was stopped before it had a result"
        for answer in ("", "found\nstep 0\n"):
            with self.subTest(answer), program(answer, "", SLEEPS):
                self.assertEqual((2, "", [why]), said(*ASKED, "--within", "1", "-o", "out"))
        self.assertFalse(os.path.exists("out"))

    def test_a_limit_that_isnt_met(self) -> None:
        with program(FOUND, FAR, "exit 1"):
            self.assertEqual((1, FOUND, []), said(*ASKED, "--within", "60"))


class Signals(unittest.TestCase):
    """Ctrl-C and other signals, at a companion of its own process."""

    def started(self, it: searches.Fake) -> Started:
        """One that has heard from its program how far it is, and hears nothing more."""
        started = Started("reach", *ASKED)
        until(it.has_printed)
        (searching,) = {*started.family()} - {started.process.pid}
        until(lambda: unread(searching) == 0)
        return started

    def test_ctrl_c(self) -> None:
        with program("", FURTHER, SLEEPS) as it:
            started = self.started(it)
            started.process.send_signal(signal.SIGINT)
            assert started.process.stdout is not None
            output = started.process.stdout.read().decode()
            self.assertEqual(["", 2], started.end(0))
            self.assertEqual(SAID_FURTHER, output)

    def test_others_end_it_and_the_program(self) -> None:
        terminated: List[object] = ["rdbg reach: ended by SIGTERM\n", 143]
        for number, wanted in ((signal.SIGTERM, terminated), (signal.SIGKILL, ["", -9])):
            with self.subTest(number), program("", FURTHER, SLEEPS) as it:
                self.assertEqual(wanted, self.started(it).end(number))


class Files(InFolder):
    """Where the order goes."""

    def setUp(self) -> None:
        super().setUp()
        self.file = pathlib.Path("found.commands")

    def test_the_order(self) -> None:
        more = "found\npoke reg a 0 = 1\nstep 0\nstates 1 moves 1 deepest 1\nno order came to:\n"
        none = "found\nstates 0 moves 0 deepest 0\n"
        for answer, lines in (
            (FOUND, "step 0\ntick\n"),
            (more, "poke reg a 0 = 1\nstep 0\n"),
            (none, ""),
        ):
            with self.subTest(answer), program(answer, end="exit 1"):
                self.assertEqual((1, answer, []), said(*ASKED, "-o", "found.commands"))
                self.assertEqual(lines, self.file.read_text())

    def test_only_where_one_is_found(self) -> None:
        self.file.write_text("tick\n")
        for answer, end in ((NEVER, "exit 0"), ("found\nstep 0\n", KILLED), ("", "exit 2")):
            with self.subTest(answer), program(answer, FAR, end):
                said(*ASKED, "-o", "found.commands")
                self.assertEqual("tick\n", self.file.read_text())
        self.assertEqual(["found.commands"], os.listdir("."))

    def test_not_where_a_goal_could_never_come(self) -> None:
        self.file.write_text("tick\n")
        with program("lost at 0\nstates 5 moves 9 deepest 4\n"):
            self.assertEqual(0, said(*ASKED, "--lost", "-o", "found.commands")[0])
        self.assertEqual("tick\n", self.file.read_text())

    def test_a_place_where_it_cant_be_written_is_refused_before_the_search(self) -> None:
        os.mkdir("folder")
        pathlib.Path("application.json").symlink_to(LOST)
        for path, why in (
            ("/none/out", "cannot write /none/out: No such file or directory"),
            ("folder", "cannot write folder: Is a directory"),
            ("-", "-o needs a file (the run is printed on standard output anyway)"),
            (
                "application.json",
                f"-o application.json: refusing to overwrite the input file {LOST}",
            ),
        ):
            with self.subTest(path), program(FOUND, end="exit 1") as it:
                wanted = (2, "", [f"rdbg reach: {why}"])
                self.assertEqual(wanted, said(*ASKED, "-o", path))
                self.assertEqual("", it.words())

    def test_where_it_cant_be_written_any_more_it_is_said_all_the_same(self) -> None:
        os.mkdir("folder")
        with program(FOUND, end=f"rmdir {os.path.abspath('folder')}; exit 1"):
            status, output, errors = said(*ASKED, "-o", "folder/out")
        self.assertEqual((2, FOUND), (status, output))
        self.assertEqual(["rdbg reach: cannot write folder/out: No such file or directory"], errors)


if __name__ == "__main__":
    unittest.main()
