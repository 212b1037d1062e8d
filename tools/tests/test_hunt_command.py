"""`rdbg hunt`: its words, what it says, its statuses, Ctrl-C and limits."""
import os
import pathlib
import re
import signal
import subprocess
import sys
import tempfile
import time
import unittest
from typing import List

from tests import searches
from tests.fake import program
from tests.hunts import path, replayed, said, written
from tests.paths import COMPANION, TOP
from tests.rooms import until
from tests.started import unread

LOST = path("lost_item")
# A search that takes longer than anybody waits: a goal of the tick has each tick told apart.
LONG = (path("soak"), "tick = 4294967295")
QUICK = ("--moves", "12", "--surprises", "1")


class Said(unittest.TestCase):
    """What it prints, in a folder of its own."""

    def setUp(self) -> None:
        folder = tempfile.TemporaryDirectory()
        self.addCleanup(folder.cleanup)
        self.addCleanup(os.chdir, os.getcwd())
        os.chdir(folder.name)

    def test_a_find(self) -> None:
        # At boot core 1 has the producer, which sends, and the poller after it (docs/tutorials/lost-item.md).
        status, lines, errors = said(LOST, "reg poller 0 = 1", *QUICK)
        self.assertEqual(1, status)
        wanted = ["watch reg poller 0 = 1", *["step 1"] * 4, "show watches", "show task poller"]
        self.assertEqual(wanted, lines)
        self.assertEqual("found: reg poller 0 = 1, at 4, with 1 surprise", errors[0])
        self.assertEqual("  at 0: core 1 is 4 moves ahead", errors[1])
        self.assertEqual("place  tick  core  who       pc  does                effects", errors[2])
        self.assertIn("recv jobs 0 -> 1    data 41, jobs 0/1", errors[6])
        self.assertRegex(errors[7], r"searched: \d+ states, \d+ moves, longest run \d+ moves")

    def test_into_a_file(self) -> None:
        status, lines, errors = said(LOST, "reg poller 0 = 1", *QUICK, "-o", "found.commands")
        self.assertEqual((1, []), (status, errors))
        self.assertEqual("found: reg poller 0 = 1, at 4, with 1 surprise", lines[0])
        written_lines = pathlib.Path("found.commands").read_text().splitlines()
        self.assertEqual("watches 0:holds", replayed(LOST, written_lines)[-2])

    def test_a_file_has_no_find_of_an_earlier_hunt(self) -> None:
        file = pathlib.Path("found.commands")
        for words, status in (
            (QUICK, 0),
            (("--states", "5", *QUICK), 2),
            (("--exhaustive", "--moves", "5"), 0),
        ):
            file.write_text("step 0\n")
            self.assertEqual(status, said(LOST, "reg poller 7 = 1", *words, "-o", str(file))[0])
            self.assertEqual("", file.read_text())
        # (words that are refused leave it as it is, and none is made where there was none)
        file.write_text("step 0\n")
        self.assertEqual(2, said(LOST, "stuk", "-o", str(file))[0])
        self.assertEqual("step 0\n", file.read_text())
        file.unlink()
        self.assertEqual(0, said(LOST, "reg poller 7 = 1", *QUICK, "-o", str(file))[0])
        self.assertFalse(file.exists())

    def test_the_application_is_no_place_for_it(self) -> None:
        text = pathlib.Path(LOST).read_text()
        written(".", text)
        words = ["application.json", "stuck", *QUICK, "-o", "./application.json"]
        status, _, errors = said(*words)
        self.assertEqual(2, status)
        self.assertIn("-o ./application.json: refusing to overwrite the model", errors[0])
        self.assertEqual(text, pathlib.Path("application.json").read_text())

    def test_it_is_emptied_before_the_search(self) -> None:
        file = pathlib.Path("found.commands")
        file.write_text("step 0\n")
        with program([], "rdbg: no memory\n", 1):
            self.assertEqual(2, said(LOST, "reg poller 0 = 1", "-o", str(file))[0])
        self.assertEqual("", file.read_text())

    def test_the_usage_has_one_goal(self) -> None:
        status, lines, _ = said("--help")
        self.assertEqual(0, status)
        usage = " ".join(" ".join(lines).split())
        self.assertIn("FILE GOAL Search for", usage)
        self.assertNotIn("GOAL [GOAL ...]", usage)

    def test_none_found_says_of_which_orders(self) -> None:
        status, lines, errors = said(LOST, "reg poller 7 = 1", *QUICK)
        self.assertEqual((0, []), (status, lines))
        self.assertEqual("none found: reg poller 7 = 1", errors[0])
        self.assertEqual("not within 12 moves and 1 surprises", errors[1])
        self.assertRegex(errors[2], r"searched: \d+ states, \d+ moves, longest run 12 moves")
        self.assertEqual(3, len(errors))
        self.assertFalse(os.path.exists("found.commands"))

    def test_never(self) -> None:
        alone = """{"profile": 1, "cores": 1, "queues": [{"name": "q", "length": 1, "item": 1}],
        "tasks": [{"name": "a", "priority": 1, "code": ["recv q max", "end"]}]}"""
        file = written(".", alone)
        status, _, errors = said(file, "failed", "--expect", "none")
        self.assertEqual((0, "never"), (status, errors[1]))
        # (there are no longer orders, and none with more surprises, that were left out: but these
        # alone were asked for)
        _, _, errors = said(file, "failed", "--surprises", "9")
        self.assertEqual("not within 9 surprises", errors[1])

    def test_the_page_of_a_find(self) -> None:
        status, _, _ = said(
            LOST, "reg poller 0 = 1", "--page", "found.html", "-o", "found.commands"
        )
        self.assertEqual(1, status)
        page = pathlib.Path("found.html").read_text()
        self.assertTrue(page.startswith("<!DOCTYPE html>"), page[:40])
        self.assertIn("recv jobs 0", page)
        # (where none is found there is none)
        self.assertEqual(0, said(LOST, "reg poller 7 = 1", *QUICK, "--page", "none.html")[0])
        self.assertFalse(os.path.exists("none.html"))

    def test_lines_and_all(self) -> None:
        pathlib.Path("pair.fw").write_text(
            "cores 2\nqueue q length 1 item 1\n"
            "task a priority 1\n    recv q 0\n    end\n"
            "task b priority 1\n    send q 0\n    end\n"
        )
        status, lines, errors = said("pair.fw", "reg a 0 = 1")
        self.assertEqual(1, status)
        self.assertEqual(["watch reg a 0 = 1", "step 1", "forward 2"], lines[:3])
        status, lines, errors = said("pair.fw", "differs", "--all", "3")
        self.assertEqual(1, status)
        # (in forward's order a finds nothing; and where b is first a has it)
        self.assertIn("end states of the first run (<) and of this one (>):", errors)
        ends = [it for it in errors if re.match(r"[<>] task a ", it)]
        self.assertEqual(2, len(ends))
        self.assertIn("regs 0,", ends[0])
        self.assertIn("regs 1,", ends[1])

    def test_smallest(self) -> None:
        words = ["reg worker 0 = 1", "--surprises", "1", "--smallest"]
        status, lines, errors = said(LOST, *words)
        # forward's order comes to it at 7 (docs/tutorials/lost-item.md: at 5 the job is there, then a tick)
        self.assertEqual(
            (1, "found: reg worker 0 = 1, at 7, without surprises"), (status, errors[0])
        )

    def test_none_is_smaller(self) -> None:
        status, _, errors = said(path("frames"), "stuck", "--smallest")
        self.assertEqual((1, "found: stuck, at 25, with 1 surprise"), (status, errors[0]))
        self.assertEqual(
            "no shorter run: not within 24 moves and 1 surprises; not within 0 surprises",
            errors[-1],
        )

    def test_a_pace(self) -> None:
        # (of two moves a tick core 1 makes no four before core 0 has made one)
        status, _, errors = said(LOST, "reg poller 0 = 1", "--pace", "1..2", "--smallest")
        self.assertEqual(1, status)
        self.assertNotIn("  at 0: core 1 is 4 moves ahead", errors)
        self.assertEqual(2, said(LOST, "reg poller 0 = 1", "--pace", "2..1")[0])


class Statuses(unittest.TestCase):
    """What a build looks at."""

    def test_expectations(self) -> None:
        found, none = "reg poller 0 = 1", "reg poller 7 = 1"
        for goal, expected, status in (
            (found, "none", 1),
            (found, "found", 0),
            (none, "none", 0),
            (none, "found", 1),
        ):
            self.assertEqual(status, said(LOST, goal, *QUICK, "--expect", expected)[0])

    def test_differs_ends_with_its_time(self) -> None:
        # (sixteen tasks that go on for ever are left at many places, each of which is asked of)
        kernel = str(TOP / "bench" / "kernel.json")
        began = time.monotonic()
        status, _, errors = said(kernel, "differs", "--within", "0.5")
        self.assertLess(time.monotonic() - began, 60)
        self.assertEqual((2, "incomplete: the time limit was reached"), (status, errors[-1]))

    def test_a_limit_of_time(self) -> None:
        words = [*LONG, "--within", "1"]
        began = time.monotonic()
        expectations: List[List[str]] = [[], ["--expect", "none"], ["--expect", "found"]]
        for expected in expectations:
            status, _, errors = said(*words, *expected)
            self.assertEqual((2, "incomplete: the time limit was reached"), (status, errors[-1]))
            self.assertRegex(errors[1], "full")
        self.assertLess(time.monotonic() - began, 60)

    def test_a_limit_of_states(self) -> None:
        why = "incomplete: as many states as may be kept (--states)"
        asked: List[List[str]] = [[], ["--exhaustive"], ["--expect", "none"]]
        for words in asked:
            status, _, errors = said(LOST, "reg poller 7 = 1", "--states", "20", *words)
            self.assertEqual((2, why), (status, errors[-1]))
            self.assertRegex(errors[1], r"full: not within \d+ moves")
            self.assertRegex(errors[2], "searched: 20 states, ")

    def test_goals_that_are_none(self) -> None:
        for goal, why in (
            ("stuk", " (did you mean `stuck`?)"),
            ("count jobs>0", " (did you mean `count jobs > 0`?)"),
            (
                "count job > 0",
                "word 2, 'job': expected the name of a queue (did you mean `count jobs > 0`",
            ),
            ("note worker 1 = 0", "word 3, '1': expected the index of a notification entry"),
            ("count jobs", "it ends too early: expected '=', '<' or '>'"),
            ("jobs", "word 1, 'jobs': expected an atom, 'not' or '('"),
            ("w0", "word 1, 'w0': expected an atom, 'not' or '('"),
            ("wakes worker", "word 1, 'wakes': this condition is about a move"),
            ("", "it ends too early: expected an atom, 'not' or '('"),
        ):
            with self.subTest(goal):
                status, lines, errors = said(LOST, goal)
                self.assertEqual((2, [], 1), (status, lines, len(errors)))
                self.assertIn("rdbg hunt: goal: ", errors[0])
                self.assertIn(why, errors[0])

    def test_goals_that_are_joined(self) -> None:
        goal = "count jobs = 1 and not (waits worker or runs poller)"
        status, lines, errors = said(LOST, goal)
        self.assertEqual((1, f"found: {goal}, at 5, without surprises"), (status, errors[0]))
        # (at the end are the tasks, and the objects of which the goal speaks)
        views = [f"show task {name}" for name in ("worker", "producer", "poller")]
        self.assertEqual(["forward 5", "show cores", *views, "show queue jobs"], lines)

    def test_two_goals(self) -> None:
        status, _, errors = said(LOST, "stuck", "failed")
        self.assertEqual(2, status)
        self.assertIn(
            "word 2, 'failed': expected 'and', 'or', ')' or the end of the goal", errors[0]
        )
        # (the words of one may be apart)
        self.assertEqual(1, said(LOST, "reg", "poller", "0", "=", "1", *QUICK)[0])

    def test_words_that_cant_be(self) -> None:
        for words, why in (
            ([LOST, "stuk"], "(did you mean `stuck`?)"),
            ([LOST, "reg worker 8 = 0"], "expected a register number, 0 to 7"),
            (["none.json", "stuck"], "cannot read none.json"),
            ([LOST, "stuck", "--part", "3/2"], "K/N with K from 1 to N"),
            ([LOST, "stuck", "--within", "0"], "a positive number of seconds"),
            (
                [LOST, "stuck", "--exhaustive", "--surprises", "1"],
                "--exhaustive cannot be combined with --surprises",
            ),
            ([LOST, "stuck", "--surprises", "256"], "--surprises is a number, 0 to 255"),
            ([LOST, "stuck", "--states", "0"], "invalid value"),
            (
                [LOST, "differs", "--pace", "1..2"],
                "--pace cannot be combined with the goal differs",
            ),
            (
                [LOST, "stuck", "--exhaustive", "--smallest"],
                "--exhaustive cannot be combined with --smallest",
            ),
            (
                [LOST, "stuck", "--smallest", "--all", "2"],
                "--smallest cannot be combined with --all",
            ),
            ([LOST, "differs", "--smallest"], "with the goal differs"),
            ([LOST, "stuck", "-o", "/none/found.commands"], "cannot write /none/found.commands"),
            ([LOST, "stuck", "--moves", "-1"], "0 to 1000000, found '-1'"),
            ([LOST], "the following arguments are required"),
        ):
            with self.subTest(why):
                status, lines, errors = said(*words)
                self.assertEqual((2, []), (status, lines))
                self.assertIn(why, "\n".join(errors))

    def test_a_program_that_ends(self) -> None:
        with program([], "rdbg: no memory\n", 1):
            status, lines, errors = said(LOST, "reg poller 0 = 1")
        self.assertEqual((2, [], ["rdbg hunt: rdbg: no memory"]), (status, lines, errors))

    def test_a_search_that_ends(self) -> None:
        with searches.program("", end=searches.KILLED):
            status, lines, errors = said(LOST, "stuck")
        self.assertEqual((2, []), (status, lines))
        self.assertEqual(["rdbg hunt: the search program was killed by SIGKILL"], errors)
        with searches.program("", "rdreach: no such option\n", "exit 2"):
            status, lines, errors = said(LOST, "stuck")
        self.assertEqual((2, [], ["rdbg: no such option"]), (status, lines, errors))

    def test_a_refused_application(self) -> None:
        with tempfile.TemporaryDirectory() as folder:
            status, _, errors = said(written(folder, "{}"), "stuck")
        self.assertEqual(2, status)
        self.assertIn("is refused as L2 Shape", errors[-1])

    def test_the_end_of_ticks(self) -> None:
        # (three ticks are left; then there is no further move)
        late = """{"profile": 1, "cores": 1, "tick": 4294967292,
        "tasks": [{"name": "a", "priority": 1, "code": ["set r1 1", "jump 0"]}]}"""
        with tempfile.TemporaryDirectory() as folder:
            file = written(folder, late)
            status, _, errors = said(file, "reg a 2 = 1")
            self.assertEqual((0, "none found: reg a 2 = 1"), (status, errors[0]))
            status, _, errors = said(file, "tick = 4294967295")
            self.assertEqual(1, status)
            status, _, errors = said(file, "reg a 2 = 1", "--exhaustive")
            self.assertEqual((0, "never"), (status, errors[1]))


class Questions(unittest.TestCase):
    """Questions of the program that searches, each a row of one table."""

    def test_one_more(self) -> None:
        answer = "found\nstep 0\nstates 5 moves 9 deepest 2\n\n"
        with searches.program(answer):
            status, lines, errors = said(LOST, "doomed", "reg worker 0 = 1")
        # (the goal needn't hold behind the order)
        head = "found: doomed reg worker 0 = 1, at 1, without surprises"
        self.assertEqual((1, head, "forward 1"), (status, errors[0], lines[0]))

    def test_those_that_there_are(self) -> None:
        self.assertEqual(1, said(LOST, "reach", "reg poller 0 = 1")[0])
        self.assertEqual(1, said(LOST, "doomed", "at worker 1")[0])
        # (where a run lost a goal is no order)
        self.assertEqual(2, said(LOST, "lost", "at worker 1")[0])

    def test_doomed_by_none(self) -> None:
        # (within how many moves it comes is no reason why not all was gone through)
        status, _, errors = said(path("stolen_answer_mended"), "doomed", "ended client")
        self.assertEqual((0, "never"), (status, errors[1]))
        self.assertEqual("within 11 moves it comes from anywhere", errors[-1])


def has_written(process: int) -> bool:
    """Whether a process has written something."""
    counts = pathlib.Path(f"/proc/{process}/io").read_text()
    return int(counts.partition("wchar: ")[2].split()[0]) > 0


class Interrupted(unittest.TestCase):
    """Ctrl-C."""

    def test_it_says_what_was_gone_through(self) -> None:
        ran = subprocess.Popen(
            [sys.executable, "-B", str(COMPANION), "hunt", *LONG],
            stdout=subprocess.PIPE,
            stderr=subprocess.PIPE,
            text=True,
        )
        # (once it has heard from the program that it starts, something was gone through)
        children = pathlib.Path(f"/proc/{ran.pid}/task/{ran.pid}/children")
        until(lambda: bool(children.read_text().strip()))
        searching = int(children.read_text())
        until(lambda: has_written(searching) and unread(searching) == 0)
        ran.send_signal(signal.SIGINT)
        _, errors = ran.communicate(timeout=60)
        self.assertEqual(130, ran.returncode, errors)
        self.assertRegex(errors, "none found: tick = 4294967295\nfull: not within")
        self.assertIn("incomplete: stopped by Ctrl-C", errors)
        self.assertNotIn("Traceback", errors)


if __name__ == "__main__":
    unittest.main()
