"""The page of a room: where a goal was lost, by its buttons, by what is typed there, and in its lanes."""
import unittest
from typing import List

from tests.pages import Reader
from tests.searches import real
from tests.web_rooms import OnPage, WebRoom, session, web_room

# A run in which the poller takes the item, and the worker waits again.
RUN = ("until count jobs > 0 50", "step 1", "step 1", "step 1", "step 0")
MOVE = "8  core 1  poller 0 recv jobs 0 -> 1, data 41, jobs 0/1"
MARKED = "document.querySelector('#to-loss').textContent === 'lost at 8'"
GONE = "document.querySelector('#loss').hidden"
LABEL = "document.querySelector('#canvas').getAttribute('aria-label')"


@unittest.skipUnless(real(), "no program that searches")
class Lost(OnPage):
    """`lost`, `reach` and `doomed`."""

    def begin(self, room: WebRoom) -> None:
        """Opens the page, at the end of the run."""
        with session(room, "left") as left:
            for line in RUN:
                left.tell(line)
        self.visit(room)
        self.at(9)

    def talk(self) -> List[str]:
        """What was answered to questions."""
        return self.browser.texts("#talk .reply")

    def test_the_button_marks_the_move(self) -> None:
        with web_room() as room:
            self.begin(room)
            plain = Reader(self.browser).picture()
            self.assertTrue(self.value(GONE))
            self.fill("#goal", "at worker 1")
            self.click("#ask-lost")
            self.browser.until(MARKED)
            self.said(
                f"lost at worker 1 -> lost at 8: {MOVE}; `back 2` returns to before this move"
            )
            self.assertIn(
                "this run from there reaches the goal: tick; step 0", self.browser.text("#loss")
            )
            self.browser.settle()
            self.assertIn("; lost at 8", self.value(LABEL))
            self.assertNotEqual(plain, Reader(self.browser).picture())
            # (the target stays where it is; the page goes to the move, by a key too)
            self.click("#to-loss")
            self.browser.settle()
            self.assertTrue(self.browser.text("#readout").startswith("8: core 1: poller 0 recv"))
            self.browser.key(".")
            self.browser.key("x")
            self.browser.settle()
            self.assertIn("(the target is at 9)", self.browser.text("#readout"))

    def test_other_moves_in_its_place(self) -> None:
        with web_room() as room, session(room, "bo") as other:
            self.begin(room)
            self.fill("#line", "lost at worker 1")
            self.browser.key("Enter")
            self.browser.until(MARKED)
            self.assertEqual("at worker 1", self.value("document.querySelector('#goal').value"))
            other.tell("back 1")
            self.at(8)
            other.tell("tick")
            self.at(9)
            self.assertFalse(self.value(GONE))
            other.tell("back 2")
            self.at(7)
            self.assertFalse(self.value(GONE))
            other.tell("tick")
            self.browser.until(GONE)
            self.browser.until(f"!{LABEL}.includes('lost at')")
            # (the way that is told leads there)
            other.tell("step 0")
            self.at(9)
            self.click("#ask-lost")
            self.said("lost at worker 1 -> still: the goal holds here")
            self.assertTrue(self.value(GONE))

    def test_the_goal_before(self) -> None:
        with web_room() as room:
            self.begin(room)
            self.click("#ask-lost")
            self.said(
                "lost -> no: lost needs a goal, for example `lost finished`, `lost at worker 1`"
            )
            self.assertEqual("goal", self.value("document.activeElement.id"))
            self.fill("#goal", "count jobs > 0")
            self.click("#back-until")
            self.said("web: back until count jobs > 0 -> ok at 7 met")
            self.at(7)
            self.click("#ask-lost")
            self.said("lost count jobs > 0 -> still: the goal holds here")
            self.fill("#goal", "reg worker 0 = 1")
            self.click("#ask-reach")
            self.said("reach reg worker 0 = 1 -> found: ")
            self.click("#ask-doomed")
            self.said("doomed reg worker 0 = 1 -> found: ")
            self.fill("#goal", "failed")
            self.click("#ask-lost")
            self.said("lost failed -> lost at 0: no run from boot reaches the goal")
            self.assertTrue(self.value(GONE))
            self.fill("#goal", "at worker one")
            self.click("#ask-lost")
            self.said(
                "lost at worker one -> no: word 3, 'one': expected the number of an instruction"
            )

    def test_runs_to_goals(self) -> None:
        with web_room() as room:
            self.visit(room)
            self.browser.key("l")
            goal = "count jobs = 1 and not waits worker"
            for line, said in (
                (f"until! {goal}", f"until! {goal} -> at 5 met: {goal}"),
                ("rc! waits worker", "rc! waits worker -> at 1 met: waits worker"),
                (
                    "rc! wait worker",
                    "rc! wait worker -> no Syntax: word 1, 'wait': expected an atom",
                ),
            ):
                self.browser.call("Input.insertText", text=line)
                self.browser.key("Enter")
                self.said(said)
            self.at(1)
            self.assertEqual("waits worker", self.value("document.querySelector('#goal').value"))


if __name__ == "__main__":
    unittest.main()
