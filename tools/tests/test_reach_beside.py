"""What is told beside an answer about a text in lines, and that the interrupts that it declares
come to each search of which nothing else is said."""
import contextlib
import io
import os
import pathlib
import tempfile
import unittest
from typing import List, Tuple

from rdbg.files.source import load, source
from rdbg.main import main
from rdbg.reaching import beside
from rdbg.reaching.said import Answer, Kind, read
from rdbg.rooms.room import Room
from rdbg.rooms.web_pages import Pages
from tests import hunts, shell_talk, trials
from tests.dap_client import editor
from tests.searches import real

STOP = """cores 1
queue cmds length 1 item 1
task motor priority 1
loop
    recv cmds 20
    if r0
        set r7 1
    end
end
interrupt button: send cmds 02
"""
GOAL = "reg motor 7 = 1"
WITH, WITHOUT = "with interrupt button", "without interrupt button"


class InFolder(unittest.TestCase):
    """A folder with the text."""

    def setUp(self) -> None:
        folder = tempfile.TemporaryDirectory()
        self.addCleanup(folder.cleanup)
        self.folder = folder.name
        self.file = os.path.join(folder.name, "stop.fw")
        pathlib.Path(self.file).write_text(STOP)

    def said(self, *words: str) -> Tuple[int, List[str]]:
        """The status of a companion, and what it prints."""
        output = io.StringIO()
        with contextlib.redirect_stdout(output), contextlib.redirect_stderr(output):
            status = main([*words])
        return status, output.getvalue().splitlines()


@unittest.skipUnless(real(), "no program that searches")
class Come(InFolder):
    """Interrupts that are declared."""

    def test_hunt(self) -> None:
        status, _, errors = hunts.said(self.file, GOAL)
        self.assertEqual((1, WITH), (status, errors[-1]))
        status, _, errors = hunts.said(self.file, GOAL, "--isr", "none")
        self.assertEqual((0, WITHOUT), (status, errors[-1]))
        status, _, errors = hunts.said(self.file, "doomed ended motor", "--isr", "button")
        self.assertEqual(1, status)
        self.assertNotIn(WITH, errors)

    def test_differs_begins_where_they_have_come(self) -> None:
        pathlib.Path(self.file).write_text(STOP.replace("button:", "button apart 3:"))
        status, _, errors = hunts.said(self.file, "differs")
        self.assertEqual(2, status)
        self.assertTrue(errors[0].endswith("(write their calls, or use --isr none)"), errors)
        self.assertNotIn("write their calls", hunts.said(self.file, "differs", "--isr", "none")[2])

    def test_a_folder(self) -> None:
        case = {"file": "stop.fw", "goal": GOAL}
        cases = [
            {**case, "expect": "found"},
            {**case, "expect": "never", "isr": ["none"]},
            {**case, "expect": "found", "isr": ["button"]},
        ]
        status, output, errors = trials.tested(trials.listing(self.folder, *cases))
        self.assertEqual((0, []), (status, errors), output)
        asked = f"ok     stop.fw: reach {GOAL}: "
        wanted = [f"{asked}found, {WITH}", f"{asked}never, {WITHOUT}", f"{asked}found"]
        self.assertEqual(wanted, [it.rpartition(" (")[0] for it in output[:3]])

    def test_an_application_without_any(self) -> None:
        pathlib.Path(self.file).write_text(STOP.split("interrupt")[0])
        for words in ((), ("--isr", "none")):
            status, _, errors = hunts.said(self.file, GOAL, *words)
            self.assertEqual((0, "never"), (status, errors[1]))
            self.assertFalse([it for it in errors if it in (WITH, WITHOUT)])

    def test_a_page_of_a_room(self) -> None:
        room = Room(load(self.file), sessions=4)
        try:
            pages = Pages(room)
            page = pages.open("ada")
            try:
                first, *_, again = (
                    page.ask(it) for it in (f"reach {GOAL}", "isr send cmds 02", f"reach {GOAL}")
                )
                self.assertRegex(first, f"^found: isr send cmds 02; .*; {WITH}$")
                # (it has come, once, and the item is there)
                self.assertNotIn("isr", again.replace("interrupt", ""))
                self.assertRegex(page.ask("reach count cmds = 2"), f"^never; {WITH}$")
            finally:
                pages.close(page)
        finally:
            room.close()

    def test_questions_of_a_trace(self) -> None:
        lines = os.path.join(self.folder, "run.commands")
        pathlib.Path(lines).write_text("forward 2\n")
        status, said = self.said("trace", self.file, lines, "--lost", GOAL)
        self.assertEqual(0, status)
        self.assertRegex(said[-1], rf"^still: .*isr send cmds 02.* \({WITH}\)$")
        page = os.path.join(self.folder, "x.html")
        self.assertEqual(0, self.said("trace", self.file, lines, "--ask", GOAL, "--page", page)[0])
        self.assertIn(f"({WITH})", pathlib.Path(page).read_text())
        self.assertEqual(1, self.said("reach", self.file, GOAL, "--page", page)[0])
        self.assertIn(f"({WITH})", pathlib.Path(page).read_text())

    def test_an_editor(self) -> None:
        for coming, wanted in (([], "found"), (["none"], "never")):
            with editor() as client:
                client.begin(pathlib.Path(self.file), interrupts=coming)
                self.assertIn(wanted, client.typed(f"reach {GOAL}"))


class Told(unittest.TestCase):
    """What is said of an answer."""

    def remarks(self, answer: Answer, has_pace: bool = False) -> List[str]:
        """What is said of an answer about the text."""
        found = source("stop.fw", STOP.encode())
        return [*beside.remarks(answer, found, ["button"], has_pace, "--pace")]

    def test_an_order_of_many_ticks(self) -> None:
        note = "note: 6 of the 22 lines are ticks (`--pace 20..` makes ticks rarer)"
        for steps, ticks, has_pace, wanted in (
            (16, 6, False, [note]),
            (16, 6, True, []),
            (17, 5, False, []),
            (10, 10, False, []),
        ):
            answer = Answer(Kind.REACHED, order=("step 0",) * steps + ("tick",) * ticks)
            self.assertEqual(wanted, self.remarks(answer, has_pace))

    def test_instructions_that_no_order_came_to(self) -> None:
        found = source("stop.fw", STOP.encode())
        answer = Answer(Kind.NONE, missed=(("motor", (0, 2)),))
        told = [*beside.missed(answer, found)]
        self.assertEqual(["no order came to motor 0 2 (stop.fw:5, 7)"], told)
        # (`join` reads it again)
        again = read(["never", "states 1 moves 2 deepest 3", *told])
        self.assertEqual(answer.missed, again.missed)
        self.assertEqual("3-5, 7", beside.in_ranges([3, 4, 5, 7]))


@unittest.skipUnless(real(), "no program that searches")
class Printed(InFolder):
    """Where it stands."""

    def test_reach(self) -> None:
        status, said = self.said("reach", self.file, GOAL, "--isr", "none")
        self.assertEqual((0, "never"), (status, said[0]))
        self.assertEqual([f"no order came to motor 2 ({self.file}:7)", WITHOUT], said[2:])
        said = self.said("reach", self.file, "asleep")[1]
        note = "note: vacuous: task motor never waits without a deadline"
        self.assertEqual(["never", WITH, note], [said[0], *said[2:]])

    def test_the_prompt(self) -> None:
        with shell_talk.opened(load(self.file)) as shell:
            said = shell_talk.said(shell, "interrupts none", "pace 20..", f"reach {GOAL}")
        self.assertEqual(
            ["# never", "#   no order came to motor 2 (stop.fw:7)", f"#   {WITHOUT}"],
            [it.replace(f"{self.folder}/", "") for it in said[2:]],
        )


if __name__ == "__main__":
    unittest.main()
