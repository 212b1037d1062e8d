"""Goals at a room's page: what can still come from where the target stands, and what is no goal."""
import unittest
from typing import List

from rdbg.files.source import load
from rdbg.rooms.room import Room
from rdbg.rooms.web_pages import Pages
from tests.paths import EXAMPLES
from tests.rooms import LOST
from tests.searches import real


class Goals(unittest.TestCase):
    """Lines of a page."""

    def said(self, file: str, *lines: str) -> List[str]:
        """The replies to lines that somebody types at a page."""
        room = Room(load(file), sessions=4)
        try:
            pages = Pages(room)
            page = pages.open("ada")
            try:
                return [page.ask(line) for line in lines]
            finally:
                pages.close(page)
        finally:
            room.close()

    @unittest.skipUnless(real(), "no program that searches")
    def test_what_can_still_come(self) -> None:
        lines = ("reach failed", "forward 3", "trim 1", "reach failed", "reach reg poller 0 = 1")
        meeting, *_ = self.said(str(EXAMPLES / "meeting.json"), "reach asleep")
        self.assertRegex(meeting, "^found: step 0; .*step [01]$")
        first, _, _, never, found = self.said(LOST, *lines)
        self.assertEqual(("never", "never"), (first, never))
        self.assertRegex(found, "^found: ")

    @unittest.skipUnless(real(), "no program that searches")
    def test_where_it_was_lost(self) -> None:
        run = (
            "until count jobs > 0 50",
            "step 1",
            "step 1",
            "step 1",
            "step 0",
            "back 1",
            "redo 1",
        )
        lines = (*run, "lost at worker 1", "doomed", "reach", "trim 3", "lost failed", "lost")
        *_, lost, doomed, never, _, nowhere, again = self.said(LOST, *lines)
        move = "8  core 1  poller 0 recv jobs 0 -> 1, data 41, jobs 0/1"
        way = "`back 2` returns to before this move, and this run from there reaches the goal: tick; step 0"
        self.assertEqual(f"lost at 8: {move}; {way}", lost)
        self.assertEqual(("found: no run from here reaches the goal", "never"), (doomed, never))
        self.assertEqual("lost at 0: no run from boot reaches the goal", nowhere)
        self.assertEqual(nowhere, again)

    @unittest.skipUnless(real(), "no program that searches")
    def test_the_goal_before(self) -> None:
        first, *_, stepped, moved, of_way = self.said(
            LOST, "lost", "until count jobs > 0 50", "lost", "step 1", "back until tick = 0", "lost"
        )
        self.assertEqual(
            "no: lost needs a goal, for example `lost finished`, `lost at worker 1`", first
        )
        self.assertEqual(("ok at 6", "ok at 2 met"), (stepped, moved))
        self.assertEqual("still: the goal holds here", of_way)

    def test_what_is_no_goal(self) -> None:
        for line, why in (
            ("reach asleap", "no: word 1, 'asleap': expected an atom, .*did you mean `asleep`"),
            ("reach sleeps worker", "no: the search does not support `sleeps`"),
            (
                "until count jobs>0 9",
                "no Syntax: word 2, .jobs>0.: .*did you mean `count jobs > 0`",
            ),
            (
                "back until count jobs == 0",
                "no Syntax: word 3, '==': .*did you mean `count jobs = 0`",
            ),
            ("until! asleap", "no Syntax: word 1, 'asleap': .*did you mean `asleep`"),
            ("rc! sleeps nobody", "no Syntax: word 2, 'nobody': expected the name of a task"),
            ("rc", "no Syntax: expected a goal, for example `rc asleep`"),
            ("fly", "no Syntax: unknown command .fly."),
        ):
            with self.subTest(line):
                self.assertRegex(self.said(LOST, line)[0], f"^{why}")

    def test_runs_to_goals(self) -> None:
        found = self.said(
            LOST,
            "until! count jobs = 1 and not waits worker",
            "rc! waits worker recv jobs",
            "rc waits worker",
            "until asleep 9",
            "until! wakes worker",
            "back until not waits worker",
            "show moves",
        )
        expected = [
            "at 5 met: count jobs = 1 and not waits worker",
            "at 1 met: waits worker recv jobs",
            "no: 'waits worker' was not met before; still at 1",
            "no: 'asleep' was not met in 9 moves; still at 1",
            "at 5 met: wakes worker",
            "at 0 met: not waits worker",
            "moves 0 undone 5 kept 0",
        ]
        self.assertEqual(expected, found)

    def test_others_are_told_of_one_line(self) -> None:
        room = Room(load(LOST), sessions=4)
        try:
            heard: List[str] = []
            other = room.join("bo", heard.append)
            pages = Pages(room)
            page = pages.open("ada")
            try:
                page.ask("until! wakes worker")
                told = [it for it in heard if it.startswith("# ada: ")]
                self.assertEqual(["# ada: until! wakes worker -> ok at 5 met: wakes worker"], told)
                self.assertEqual("ok wheel", other.ask("wheel take"))
                self.assertEqual("no Held 1", page.ask("rc! waits worker"))
                self.assertEqual("ok at 6", other.ask("step 1"))
                other.ask("wheel give")
                self.assertEqual("ok wheel", page.ask("wheel take"))
                self.assertEqual("at 4 met: waits worker", page.ask("rc waits worker"))
                self.assertEqual("no Held 2", other.ask("step 1"))
            finally:
                pages.close(page)
        finally:
            room.close()


if __name__ == "__main__":
    unittest.main()
