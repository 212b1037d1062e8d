"""Numbers out of range: the prompt and the editor say what the range is; and what a run says where
there are no more moves."""
import unittest

from rdbg.driving.target import Limits
from tests import hunts
from tests.dap_client import editor
from tests.paths import EXAMPLES
from tests.searches import real, said as reached
from tests.shell_talk import both, example, said

LOST = EXAMPLES / "lost_item.json"
RANGE = "COUNT is 1 to 1000000, found '5000000'"


class Prompt(unittest.TestCase):
    """The prompt."""

    def test_counts(self) -> None:
        with example("lost_item") as shell:
            for line in (
                "go 5000000",
                "s 5000000",
                "rs 5000000",
                "tick 5000000",
                "moves 5000000",
                "step worker 5000000",
            ):
                self.assertIn(f"# {RANGE}; ", said(shell, line)[0], line)
            self.assertIn(
                "COUNT must be 1 to 1000000", said(shell, "until! at worker 0 5000000")[0]
            )
            # (what is no number has no range)
            self.assertNotIn("1000000", said(shell, "go far")[0])

    def test_instructions(self) -> None:
        with example("lost_item") as shell:
            for line in ("until at worker 9", "until! at worker 9 5", "reach at worker 9"):
                self.assertIn("(worker has 0 to 1)", said(shell, line)[0], line)

    def test_run_says_where_the_target_is(self) -> None:
        with example("lost_item", Limits(20, 1_000)) as shell:
            self.assertIn("is already at boot", both(shell, "run")[1][0])
            for word in ("run", "start"):
                hint = both(shell, "goto 0", "forward 5", word)[1][0]
                self.assertIn("the target is at 5; ", hint)
            hint = both(shell, "forward 15", "run")[1][0]
            self.assertEqual(
                "hint: the target is at 20, the last place that --moves 20 allows; `goto 0` goes back to"
                " boot",
                hint,
            )


@unittest.skipUnless(real(), "no program that searches")
class Editor(unittest.TestCase):
    """The editor."""

    def test_a_register(self) -> None:
        with editor() as client:
            client.begin(LOST)
            for number in ("99999999999", "9" * 5_000, "0x123456789"):
                message = client.refused("setExpression", expression="worker.r0", value=number)
                self.assertIn("is out of range: 0 to 4294967295", message)

    def test_questions_send_no_events(self) -> None:
        with editor() as client:
            client.begin(LOST)
            client.typed("until count jobs > 0 50\nstep 1\nstep 1\nstep 1\nstep 0")
            client.ask("threads")
            before = len(client.told)
            for line in ("reach failed", "lost at worker 1", "doomed at worker 1", "moves 3"):
                client.typed(line)
            client.ask("threads")
            events = [it.get("event") for it in client.told[before:]]
            self.assertEqual([], [it for it in events if it in ("continued", "stopped")])
            before = len(client.told)
            client.typed("back 1\nstep 0")
            client.ask("threads")
            events = [it.get("event") for it in client.told[before:]]
            self.assertEqual(1, events.count("stopped"), events)


@unittest.skipUnless(real(), "no program that searches")
class NoMoves(unittest.TestCase):
    """`--moves 0` asks about the start alone."""

    def test_reach_and_hunt(self) -> None:
        for goal, head, status in (("failed", "not within 0 moves", 0), ("tick = 0", "found", 1)):
            reach = reached(str(LOST), goal, "--moves", "0")
            self.assertEqual((status, head), (reach[0], reach[1].splitlines()[0]), goal)
            hunt = hunts.said(str(LOST), goal, "--moves", "0")
            self.assertEqual(status, hunt[0], hunt)
            self.assertTrue(any(it.startswith(head) for it in hunt[2]), hunt)


if __name__ == "__main__":
    unittest.main()
