"""`rdbg trace --lost`: the move that lost a goal, marked in rows and in a page, and told in
words."""
import unittest

from tests.page_shown import RUN, Shown
from tests.searches import real
from tests.test_trace_rows import ROWS, Traced

MOVE = "8  core 1  poller 0 recv jobs 0 -> 1, data 41, jobs 0/1"
SAID = f"lost at 8: {MOVE}; `back 2` returns to before this move, and this run from there reaches the goal: tick; step 0"


@unittest.skipUnless(real(), "no program that searches")
class Rows(Traced):
    """What it prints."""

    def test_the_row_is_marked(self) -> None:
        marked = f"{ROWS[7]}, loses 'at worker 1'"
        for question in (("--lost", "at worker 1"), ("--ask", "lost at worker 1")):
            status, lines, _ = self.traced(RUN, *question)
            self.assertEqual((0, [*ROWS[:7], marked, ROWS[8], SAID]), (status, lines[1:]))
        for words, rows in (
            (("--from", "8", "--to", "8"), [marked]),
            (("--from", "9"), [ROWS[8]]),
            (("--only", "jobs", "--to", "6"), [ROWS[0], ROWS[3], ROWS[4]]),
        ):
            with self.subTest(words):
                _, lines, _ = self.traced(RUN, "--lost", "at worker 1", *words)
                self.assertEqual([*rows, SAID], lines[1:])

    def test_behind_a_trim_and_lines_that_are_refused(self) -> None:
        lines = [*RUN[:-1], "trim 1", "step 7", "show cores", RUN[-1]]
        _, rows, errors = self.traced(lines, "--lost", "at worker 1", "--from", "8")
        self.assertEqual(f"{ROWS[7]}, loses 'at worker 1'", rows[1])
        self.assertIn("trim 1", rows[2])
        self.assertEqual(SAID, rows[-1])
        self.assertIn("step 7: no NoSuch", errors[0])

    def test_what_wasnt_lost(self) -> None:
        _, lines, _ = self.traced(RUN[:3], "--lost", "at worker 1", "--from", "7")
        self.assertEqual([ROWS[6], "still: tick; step 0"], lines[1:])
        _, lines, _ = self.traced(RUN, "--lost", "failed", "--from", "9")
        nowhere = "lost at 0: no run from boot reaches the goal"
        self.assertEqual([ROWS[8], nowhere], lines[1:])
        _, lines, _ = self.traced(RUN, "--lost", "waits worker", "--from", "9")
        self.assertEqual([ROWS[8], "still: the goal holds here"], lines[1:])

    def test_what_cant_be_asked(self) -> None:
        for words, why in (
            (("--lost", "faild"), "--lost: word 1, 'faild': .* .did you mean `failed`"),
            (("--lost", "sleeps worker"), "--lost: the search does not support"),
            (("--lost", "failed", "--events", "x"), "--lost cannot be combined with"),
            (("--ask", "lost faild"), "--lost: word 1, 'faild'"),
            (
                ("--ask", "reach failed"),
                "--ask requires --page",
            ),
        ):
            with self.subTest(words):
                status, lines, errors = self.traced(RUN, *words)
                self.assertEqual((2, []), (status, lines))
                self.assertRegex(errors[0], f"^rdbg trace: {why}")
        _, _, errors = self.said("--port", "7", "--lost", "failed")
        self.assertIn("cannot be combined with --port", errors[0])


@unittest.skipUnless(real(), "no program that searches")
class Page(Shown):
    """The page of a run."""

    def test_its_lanes_are_marked(self) -> None:
        self.show(RUN, link="#3")
        plain = self.reader.picture()
        self.assertTrue(self.browser.value("document.querySelector('#loss').hidden"))
        self.show(RUN, "--lost", "at worker 1", link="#3")
        said = self.browser.text("#asked p")
        self.assertIn("lost at worker 1? Lost at 8: from place 8 on, no run", said)
        label = self.browser.value("document.querySelector('#canvas').getAttribute('aria-label')")
        self.assertTrue(label.endswith("at 3; lost at 8"), label)
        self.assertNotEqual(plain, self.reader.picture())
        self.browser.key("x")
        self.assertEqual(8, self.reader.place())
        self.assertEqual(RUN[:4], self.reader.lines())

    def test_what_wasnt_lost_is_said(self) -> None:
        self.show(RUN[:3], "--lost", "at worker 1")
        said = self.browser.text("#asked p")
        self.assertIn("Still: the goal can be reached from the last place of the run.", said)
        place = self.reader.place()
        self.browser.key("x")
        self.assertEqual(place, self.reader.place())


if __name__ == "__main__":
    unittest.main()
