"""A goal that can never hold, since some task never rests: every way to ask reports that."""
import contextlib
import io
import json
import os
import pathlib
import tempfile
import unittest
from typing import Any, List, Tuple
from xml.etree import ElementTree

from rdbg.application import Task
from rdbg.files.source import load, source
from rdbg.goals.reading import plain
from rdbg.goals.scope import Scope
from rdbg.main import main
from rdbg.reaching import vacuity
from rdbg.rooms.room import Room
from rdbg.rooms.web_pages import Pages
from tests import hunts, shell_talk, trials
from tests.dap_client import editor
from tests.searches import real, said as reached
from tests.test_dap_breakpoints import named

POLLER = """cores 1
queue q length 1 item 1
task user priority 1
recv q max
end
task poller priority 1
loop
    recv q 3
end
"""
REASON = "vacuous: task poller never waits without a deadline"
NOTE = f"note: {REASON}"
APPLICATION = (
    "cores 1\nqueue q length 1 item 1\ntask u priority 1\nrecv q max\nend\ntask t priority 1\n"
)


class Rests(unittest.TestCase):
    """Which tasks never rest, and which goals are vacuous beside them."""

    def task(self, script: str) -> Task:
        """A task of this script."""
        found = source("x.fw", f"{APPLICATION}{script}\n".encode())
        assert found.application is not None, found.faults
        return found.application.tasks[1]

    def test_a_task_that_never_rests(self) -> None:
        for script, wanted in (
            ("loop\nrecv q 20\nend", True),
            ("loop\nwait 3\nend", True),
            ("loop\nadd r1 1\nend", True),
            ("loop\nrecv q 20\nrecv q max\nend", False),
            ("loop\nrecv q 4294967295\nend", False),
            ("loop\nrecv q 4294967294\nend", True),
            ("loop\nrecv q 20\nif r0\nend task\nend\nend", False),
            ("loop\ntake 0 clear max\nend", False),
            # (what is behind a jump isn't come to)
            ("x: recv q 20\njump x\nrecv q max\nend", True),
            ("wait 3..6\nend", False),
        ):
            with self.subTest(script):
                self.assertEqual(wanted, vacuity.never_rests(self.task(script)))

    def test_a_block_time_in_a_register(self) -> None:
        for script, wanted in (
            ("loop\nrecv q r1\nend", True),
            ("set r1 20\nloop\nrecv q r1\nend", True),
            ("set r1 4294967295\nloop\nrecv q r1\nend", False),
            ("set r2 4294967295\nloop\nrecv q r1\nend", True),
            ("loop\nadd r1 1\nrecv q r1\nend", False),
            ("loop\nmove r1 r2\nrecv q r1\nend", False),
            ("loop\nnwait 0 0 0 5\nrecv q r1\nend", False),
            ("loop\nrecv q r0\nend", False),
        ):
            with self.subTest(script):
                self.assertEqual(wanted, vacuity.never_rests(self.task(script)))

    def test_goals(self) -> None:
        found = source("x.fw", POLLER.encode())
        scope = Scope.of(found)
        for goal, wanted in (
            ("asleep", True),
            ("stuck", True),
            ("asleep and count q > 0", True),
            ("asleep or stuck", True),
            ("asleep or finished", True),
            ("asleep or ended poller", True),
            ("not not asleep", True),
            ("asleep or ended user", False),
            ("asleep or failed", False),
            ("not asleep", False),
            ("not (asleep or failed)", False),
            ("failed", False),
            # (this says nothing of waiting)
            ("finished", False),
        ):
            with self.subTest(goal):
                is_vacuous = vacuity.vacuous(plain(goal.split(), scope), scope.application)
                self.assertEqual(wanted, is_vacuous is not None)


def traced(*words: str) -> Tuple[int, List[str], List[str]]:
    """The status of `rdbg trace` on these words, and the lines of its two outputs."""
    output, errors = io.StringIO(), io.StringIO()
    with contextlib.redirect_stdout(output), contextlib.redirect_stderr(errors):
        status = main(["trace", *words])
    return status, output.getvalue().splitlines(), errors.getvalue().splitlines()


class InFolder(unittest.TestCase):
    """A folder with the application in lines and as JSON, and with one where all tasks rest."""

    def setUp(self) -> None:
        folder = tempfile.TemporaryDirectory()
        self.addCleanup(folder.cleanup)
        self.folder = pathlib.Path(folder.name)
        self.lines, self.json = str(self.folder / "poller.fw"), str(self.folder / "poller.json")
        self.resting = str(self.folder / "resting.fw")
        pathlib.Path(self.lines).write_text(POLLER)
        pathlib.Path(self.resting).write_text(POLLER.replace("recv q 3", "recv q max\nrecv q 0"))
        with load(self.lines).as_read() as path:
            pathlib.Path(self.json).write_text(pathlib.Path(path).read_text())


@unittest.skipUnless(real(), "no program that searches")
class Reported(InFolder):
    """Each way to ask."""

    def test_reach(self) -> None:
        for file in (self.lines, self.json):
            status, output, errors = reached(file, "asleep")
            self.assertEqual((0, "never"), (status, output.splitlines()[0]), file)
            self.assertEqual([NOTE], errors, file)
            self.assertNotIn("vacuous", output)
            self.assertEqual([NOTE], reached(file, "asleep", "--moves", "3")[2], file)
            self.assertEqual([NOTE], reached(file, "asleep", "--doomed")[2], file)
            self.assertEqual([], reached(file, "failed")[2], file)
        self.assertEqual([], reached(self.resting, "asleep and count q > 0")[2])

    def test_hunt(self) -> None:
        for file in (self.lines, self.json):
            self.assertEqual(NOTE, hunts.said(file, "asleep")[2][-1], file)
        self.assertNotIn(NOTE, hunts.said(self.lines, "failed")[2])

    def test_reports(self) -> None:
        path = str(self.folder / "report.sarif")
        for ask in (reached, hunts.said):
            ask(self.json, "asleep", "--report", path)
            results = json.loads(pathlib.Path(path).read_text())["runs"][0]["results"]
            self.assertEqual(["goal-reached", "goal-vacuous"], [it["ruleId"] for it in results])
            self.assertEqual("warning", results[1]["level"])
            self.assertIn(REASON, results[1]["message"]["text"])
        for ask in (reached, hunts.said):
            ask(self.json, "asleep", "--report", f"{path}.xml")
            case = ElementTree.parse(f"{path}.xml").getroot()[0][0]
            self.assertIsNone(case.find("failure"))
            self.assertIn(NOTE, case.findtext("system-err", ""))

    def test_the_prompt(self) -> None:
        with shell_talk.opened(load(self.json)) as shell:
            for line in ("reach asleep", "doomed stuck", "lost asleep"):
                self.assertEqual(f"#   {NOTE}", shell_talk.said(shell, line)[-1], line)
            self.assertNotIn(f"#   {NOTE}", shell_talk.said(shell, "reach failed"))

    def test_a_page_of_a_room(self) -> None:
        room = Room(load(self.json), sessions=4)
        self.addCleanup(room.close)
        pages = Pages(room)
        page = pages.open("ada")
        self.addCleanup(pages.close, page)
        self.assertEqual(f"never; {NOTE}", page.ask("reach asleep"))
        self.assertEqual("never", page.ask("reach failed"))

    def test_a_page_of_a_run(self) -> None:
        run, page = str(self.folder / "run.commands"), self.folder / "run.html"
        pathlib.Path(run).write_text("forward 2\n")
        asked = ("--ask", "asleep", "--page", str(page))
        status, _, errors = traced(self.json, run, *asked)
        self.assertEqual((0, [NOTE]), (status, errors))
        self.assertIn(f"({NOTE})", page.read_text())
        status, output, errors = traced(self.json, run, "--lost", "asleep")
        self.assertEqual((0, [NOTE]), (status, errors))
        self.assertIn(f"({NOTE})", output[-1])

    def test_an_editor(self) -> None:
        with editor() as client:
            client.begin(pathlib.Path(self.json))
            self.assertIn(NOTE, client.typed("reach asleep"))
            found = named(client, "lost asleep")[0]
            self.assertFalse(found["verified"])
            self.assertIn(NOTE, found["message"])


@unittest.skipUnless(real(), "no program that searches")
class Cases(InFolder):
    """`rdbg test`."""

    def try_case(self, *words: str, **more: Any) -> List[str]:
        """Returns the status, the case's line up to its time, and the lines of errors."""
        case: Any = {"file": "poller.json", "goal": "asleep", "expect": "never", **more}
        trials.listing(str(self.folder), case)
        status, output, errors = trials.tested(str(self.folder), *words)
        return [str(status), output[0].rpartition(" (")[0], *errors]

    def test_a_warning(self) -> None:
        status, said, warning = self.try_case()
        self.assertEqual(("0", "ok     poller.json: reach asleep: never"), (status, said))
        place = os.path.join(str(self.folder), "goals.json:3:3: warning: ")
        self.assertTrue(warning.startswith(place), warning)
        self.assertIn(NOTE, warning)
        self.assertIn('"vacuous": true', warning)

    def test_strict(self) -> None:
        said = f"wrong  poller.json: reach asleep: never, but {REASON}"
        self.assertEqual(["1", said], self.try_case("--strict")[:2])
        self.assertEqual("0", self.try_case("--strict", goal="failed")[0])

    def test_what_is_expected(self) -> None:
        for words in ((), ("--strict",)):
            said = "ok     poller.json: reach asleep: never, vacuous as expected"
            self.assertEqual(["0", said], self.try_case(*words, vacuous=True))
        said = "wrong  poller.json: reach failed: never, but expected a vacuous answer"
        self.assertEqual(["1", said], self.try_case(goal="failed", vacuous=True))

    def test_junit(self) -> None:
        path = str(self.folder / "report.xml")
        for words, is_failure in (((), False), (("--strict",), True)):
            self.try_case("--report", path, *words)
            case = ElementTree.parse(path).getroot()[0][0]
            self.assertEqual(is_failure, case.find("failure") is not None)
            self.assertIn(NOTE, case.findtext("system-err", ""))
        self.try_case("--report", path, "--strict", vacuous=True)
        case = ElementTree.parse(path).getroot()[0][0]
        self.assertIsNone(case.find("failure"))
        self.assertEqual(NOTE, case.findtext("system-err"))

    def test_no_truth_value(self) -> None:
        status, output, errors = trials.tested(
            trials.listing(
                str(self.folder),
                {"file": "poller.json", "goal": "asleep", "expect": "never", "vacuous": "yes"},
            )
        )
        self.assertEqual((2, []), (status, output))
        self.assertIn("vacuous must be true or false", errors[0])


if __name__ == "__main__":
    unittest.main()
