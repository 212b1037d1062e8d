"""`rdbg dap`: where a goal is lost, as a word of the console and as a breakpoint by name."""
import pathlib
import tempfile
import unittest

from tests.dap_client import editor
from tests.dap_schema import Held
from tests.paths import EXAMPLES
from tests.searches import real
from tests.test_dap_breakpoints import named
from tests.test_shell_port import server

LOST = EXAMPLES / "lost_item.json"
# What the run of Continue makes of the job: the worker has it, and never the poller.
GOAL, AT = "reg poller 0 = 1", "at 7: lost reg poller 0 = 1"
MOVE = "worker 0 recv jobs max -> 1, data 41, jobs 0/1"
WAY = "`goto 6` returns to before this move, and this run from there reaches the goal:"
# A run in which the poller takes the item, and the worker waits again.
RUN = "until count jobs > 0 50\nstep 1\nstep 1\nstep 1\nstep 0"


@unittest.skipUnless(real(), "no program that searches")
class Words(Held):
    """`lost`, `reach` and `doomed` in the console."""

    def test_the_move_that_lost_it(self) -> None:
        with editor() as client:
            client.begin(LOST)
            self.assertIn("lost needs a goal, for example `lost finished`", client.typed("lost"))
            client.typed(RUN)
            said = client.typed("lost at worker 1").splitlines()
            move = "poller 0 recv jobs 0 -> 1, data 41, jobs 0/1"
            self.assertEqual(["lost at 8", f"  8  core 1  {move}"], said[:2])
            way = (
                "  `goto 7` returns to before this move, and this run from there reaches the goal:"
            )
            self.assertEqual([way, "  tick", "  step 0"], said[2:])
            # (a line of output is that instruction's, to which an editor goes)
            told = [it["body"] for it in client.told if it.get("event") == "output"][-1]
            self.assertEqual(f"lost at 8: {move}\n", told["output"])
            self.assertEqual((8, str(LOST)), (told["line"], told["source"]["path"]))
            self.assertEqual(client.place(), 9)
            self.assertIn("found", client.typed("doomed"))
            client.typed("goto 7\ntick\nstep 0")
            self.assertIn("still\n  the goal holds here", client.typed("lost"))
            self.assertEqual(1, client.output().count(f"lost at 8: {move}"))

    def test_at_a_port(self) -> None:
        with server() as (port, _), editor() as client:
            client.ask("initialize", adapterID="rdbg")
            client.ask("attach", port=port, program=str(LOST))
            client.event("initialized")
            client.stopped("configurationDone")
            client.typed(RUN)
            self.assertEqual("lost at 8", client.typed("lost at worker 1").splitlines()[0])
            found = named(client, "lost at worker 1")[0]
            self.assertIn("needs a launched target", found["message"])


@unittest.skipUnless(real(), "no program that searches")
class Stops(Held):
    """A breakpoint `lost GOAL`."""

    def test_a_run_stops_there_and_so_does_the_way_back(self) -> None:
        with editor() as client:
            client.begin(LOST, limit=50)
            self.assertEqual(named(client, f"lost {GOAL}")[0]["message"], f"lost {GOAL}")
            stop = client.stopped("continue", threadId=2)
            self.assertEqual((stop["reason"], stop["description"]), ("function breakpoint", AT))
            self.assertEqual(stop["threadId"], client.thread("worker"))
            self.assertEqual(f"7  core 0  {MOVE}", client.output()[-2])
            self.assertEqual(f"lost {GOAL}; {WAY} step 1; step 1; step 1", client.output()[-1])
            stop = client.stopped("continue", threadId=2)
            self.assertIn("no breakpoint was hit in 50 moves", stop["description"])
            self.assertEqual(AT, client.stopped("reverseContinue", threadId=2)["description"])
            # (what was taken back is made again, and it is met there once more)
            client.stopped("stepBack", threadId=2)
            client.stopped("stepBack", threadId=2)
            self.assertEqual(AT, client.stopped("continue", threadId=2)["description"])
            stop = client.stopped("reverseContinue", threadId=2)
            self.assertIn("the start: no breakpoint was hit before", stop["description"])

    def test_of_an_order_of_ones_own(self) -> None:
        with editor() as client:
            client.begin(LOST)
            client.typed(RUN)
            client.event("stopped")
            named(client, "lost at worker 1", "changes jobs")
            stops = [client.stopped("reverseContinue", threadId=2) for _ in range(2)]
            texts = ["at 8: lost at worker 1; changes jobs", "at 5: changes jobs"]
            self.assertEqual(texts, [it["description"] for it in stops])

    def test_the_file_as_it_is_now(self) -> None:
        with tempfile.TemporaryDirectory() as folder, editor() as client:
            file = pathlib.Path(folder) / "app.json"
            file.write_text(LOST.read_text())
            client.begin(file, limit=50)
            named(client, f"lost {GOAL}")
            self.assertEqual(AT, client.stopped("continue", threadId=2)["description"])
            client.typed("reload")
            client.event("stopped")
            self.assertEqual("moves 7 undone 0 kept 7", client.typed("show moves"))
            client.typed("goto 3")
            client.event("stopped")
            self.assertEqual(AT, client.stopped("continue", threadId=2)["description"])
            client.ask("restart")
            client.event("stopped")
            self.assertEqual(AT, client.stopped("continue", threadId=2)["description"])

    def test_what_is_none(self) -> None:
        with editor() as client:
            client.begin(LOST)
            client.typed("reach failed")
            self.assertEqual("lost failed", named(client, "lost")[0]["message"])
            for name, why in (
                ("lost at worker 7", "word 3, '7': expected the number of an instruction"),
                ("lost asleap", "did you mean `asleep`?"),
                ("lost sleeps worker", "the search does not support `sleeps`"),
            ):
                found = named(client, name)[0]
                self.assertFalse(found["verified"])
                self.assertIn(why, found["message"])
            asked = [{"name": "lost failed", "hitCondition": "2"}]
            found = client.ask("setFunctionBreakpoints", breakpoints=asked)["breakpoints"][0]
            self.assertIn("takes neither a condition nor a hit count", found["message"])


if __name__ == "__main__":
    unittest.main()
