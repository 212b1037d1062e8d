"""`rdbg hunt` finds the losing order of each example that has one, and the program by itself comes
to the same end. What must be found was found by hand, from the rules of docs/MODEL.md."""
import unittest
from typing import List, Sequence

from tests.hunts import path, replayed, said


# The handler of docs/tutorials/lost-wakeup.md.
RADIO = "send in 72; notify gate 0 0 inc"


class Finds(unittest.TestCase):
    """The lines of each find, and the views at its end."""

    def hunt(self, name: str, *words: str) -> List[str]:
        """The answers to the lines of a find, when the program has replayed them."""
        status, lines, errors = said(path(name), *words)
        self.assertEqual(1, status, errors)
        answers = replayed(path(name), lines)
        self.assertFalse([it for it in answers if it.startswith("no ")])
        return answers

    def check_end(self, answers: Sequence[str], *words: str) -> None:
        """Each of these stands in the last answers."""
        for word in words:
            self.assertTrue(any(word in it for it in answers), f"{word} in {answers}")

    def test_the_lost_item(self) -> None:
        # (the poller has the job, and the worker waits beside an empty queue)
        answers = self.hunt("lost_item", "reg poller 0 = 1")
        self.assertEqual("watches 0:holds", answers[-2])
        self.check_end(answers[-1:], "task poller", "regs 1,", "data 41")

    def test_the_order_of_the_page_of_the_lost_item(self) -> None:
        # docs/tutorials/lost-item.md: at 5 core 1 makes three moves, then the worker waits again
        answers = self.hunt("lost_item", "differs", "--all", "2")
        self.check_end(answers, "task worker core - pc 0 phase wait:recv:jobs:max regs 0,0")

    def test_the_wrong_waiting_order(self) -> None:
        # The display has the planner's order where the motor had the stop first, and then that.
        answers = self.hunt("waiting_order", "differs", "--all", "3")
        displays = [it for it in answers if it.startswith("task display")]
        motors = [it for it in answers if it.startswith("task motor")]
        self.assertEqual(4, len(displays))
        self.check_end(displays[:1], "data ff")  # (what forward comes to)
        ends = [(one.split()[11], other.split()[11]) for one, other in zip(displays, motors)]
        self.assertIn(("01", "01"), ends)

    def test_the_lost_notification(self) -> None:
        # The handler comes twice before the worker looks: one signal, and a count of two.
        handler = "notify worker 1 0 inc; notify worker 0 1 set"
        words = ["reg worker 0 = 2", "--moves", "24", "--isr", handler]
        answers = self.hunt("lost_notification", *words, "--isr", handler)
        self.assertEqual("watches 0:holds", answers[-2])
        self.check_end(answers[-1:], "task worker", "pc 3 phase run regs 2,1,")
        status, _, errors = said(path("lost_notification"), *words)
        self.assertEqual((0, "none found: reg worker 0 = 2"), (status, errors[0]))

    def test_a_lost_wake_up(self) -> None:
        # docs/tutorials/lost-wakeup.md: the ring is cleared that came behind the look
        answers = self.hunt("lost_wakeup", "stuck", "--isr", RADIO)
        self.check_end(answers[-5:], "cores -,-,-,-", "task gate core - pc 7 phase wait:note:0:max")
        self.check_end(answers[-5:], "task console core - pc 1 phase wait:send:in:max")

    def test_a_barrier_by_hand(self) -> None:
        answers = self.hunt("meeting", "stuck")
        self.check_end(answers[-3:], "cores -,-")
        self.check_end(answers[-2:-1], "task left", "phase wait:group:there:max")
        self.check_end(answers[-1:], "task right", "phase wait:group:there:max")

    def test_a_trigger_level_that_is_never_reached(self) -> None:
        answers = self.hunt("frames", "stuck")
        self.check_end(answers[-3:], "cores -,-", "phase wait:sread:rx:max", "wait:recv:acks:max")

    def test_a_stale_handle(self) -> None:
        # (where the server makes a move each tick it is at the receive when the reset comes)
        answers = self.hunt("stale", "failed", "--pace", "1..4")
        self.check_end(answers[-2:-1], "task server", "phase wait:recv:rx:max")
        self.check_end(answers[-1:], "task uart", "phase failed:SetFull")

    def test_a_count_without_its_data(self) -> None:
        answers = self.hunt("early_count", "stuck")
        self.check_end(answers[-3:], "cores -,-", "wait:recv:acks:max", "wait:note:0:max")


class Mended(unittest.TestCase):
    """The mended applications: with one surprise none is found, by `--expect none`."""

    def test_one_surprise(self) -> None:
        for name, goal in (
            ("meeting_mended", "stuck"),
            ("frames_mended", "stuck"),
            ("stale_mended", "failed"),
            ("early_count_mended", "stuck"),
        ):
            with self.subTest(name):
                words = [path(name), goal, "--expect", "none", "--surprises", "1", "--moves", "24"]
                status, lines, errors = said(*words)
                self.assertEqual((0, []), (status, lines), errors)
                self.assertEqual(f"none found: {goal}", errors[0])

    def test_an_interrupt(self) -> None:
        words = ["stuck", "--expect", "none", "--surprises", "1", "--moves", "24"]
        hunts: List[List[str]] = [["lost_wakeup"], ["lost_wakeup_mended", "--isr", RADIO]]
        for name, *isr in hunts:
            status, lines, errors = said(path(name), *words, *isr)
            self.assertEqual((0, []), (status, lines), errors)

    def test_every_order(self) -> None:
        for name in ("meeting_mended", "early_count_mended"):
            with self.subTest(name):
                words = [path(name), "stuck", "--exhaustive", "--expect", "none"]
                status, _, errors = said(*words)
                self.assertEqual(0, status)
                self.assertEqual("never", errors[1])


if __name__ == "__main__":
    unittest.main()
