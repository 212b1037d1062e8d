"""`rdbg dap`: log points, the ends that an editor asks for, and what it shows of all tasks."""
import contextlib
import pathlib
import tempfile
import threading
import time
import unittest
from typing import List
from unittest import mock

from rdbg.adapter.debugger import Progress
from rdbg.adapter.messages import Arguments
from rdbg.adapter.server import Server
from tests.dap_client import PATIENCE, Client, editor, held_run
from tests.dap_schema import Held
from tests.paths import EXAMPLES
from tests.test_dap_breakpoints import LOOP

LOST = EXAMPLES / "lost_item.json"


class InFile(Held):
    """What is asked of a file in lines."""

    def setUp(self) -> None:
        folder = tempfile.TemporaryDirectory()
        self.addCleanup(folder.cleanup)
        self.file = pathlib.Path(folder.name) / "loop.fw"
        self.file.write_text(LOOP)

    def logged(self, client: Client) -> List[str]:
        """What log points have said so far."""
        return [line for line in client.output() if line.startswith("log")]


class Logs(InFile):
    """Log points."""

    def test_they_say_and_stop_nothing(self) -> None:
        with editor() as client:
            client.begin(self.file, limit=30)
            text = "log {r2} of {maker.r3 + 1}, {count jobs > 0}, {jobs}, {tick}"
            found = client.lines(self.file, 14, logMessage=text)
            self.assertTrue(found[0]["verified"])
            stop = client.stopped("continue", threadId=2)
            self.assertEqual(stop["description"], "at 30: no breakpoint was hit in 30 moves")
            said = self.logged(client)
            self.assertEqual(said[0], "log 0 of 1, fails, 0/3 -, 1")
            self.assertEqual([it.split()[1] for it in said], [str(at) for at in range(len(said))])
            self.assertGreater(len(said), 2)
            events = [it["body"] for it in client.told if it.get("event") == "output"]
            at = [it.get("line") for it in events if it["output"].startswith("log")]
            self.assertEqual(at, [14] * len(said))
            # (backwards nothing is said, and nothing stops it)
            self.assertEqual(
                client.stopped("reverseContinue", threadId=2)["description"][:4], "at 0"
            )
            self.assertEqual(self.logged(client), said)
            # (moves that are made again are logged again)
            client.stopped("continue", threadId=2)
            self.assertEqual(self.logged(client)[: 2 * len(said)], [*said, *said])

    def test_with_conditions_and_stops(self) -> None:
        with editor() as client:
            client.begin(self.file, limit=60)
            asked = [
                {"line": 14, "logMessage": "log {taker.r2}", "hitCondition": "% 2"},
                {"line": 14, "condition": "reg taker 2 = 4"},
            ]
            client.ask("setBreakpoints", source={"path": str(self.file)}, breakpoints=asked)
            stop = client.stopped("continue", threadId=2)
            self.assertEqual(stop["hitBreakpointIds"], [2])
            self.assertEqual(self.logged(client), ["log 1", "log 3"])

    def test_a_step_says_it_too(self) -> None:
        with editor() as client:
            client.begin(self.file)
            client.lines(self.file, 8, logMessage="log {maker.pc}")
            stop = client.stopped("next", threadId=client.thread("maker"))
            self.assertEqual((stop["reason"], self.logged(client)), ("step", ["log 1"]))

    def test_what_has_no_value(self) -> None:
        with editor() as client:
            client.begin(self.file, limit=9)
            client.lines(self.file, 14, logMessage="log {4 / taker.r2}")
            client.stopped("continue", threadId=2)
            self.assertEqual(self.logged(client)[0], "log {4 / taker.r2} (division by 0)")


class Ends(InFile):
    """`terminate` and `cancel`."""

    def test_terminate(self) -> None:
        with editor() as client:
            client.begin(LOST)
            client.ask("terminate")
            self.assertEqual(client.event("exited")["exitCode"], 0)
            client.event("terminated")
            self.assertIn("no debug session yet", client.refused("next", threadId=2))
            client.ask("disconnect")

    def test_terminate_ends_a_run(self) -> None:
        with editor() as client:
            client.begin(EXAMPLES / "turns.json", limit=1_000_000)
            client.lines(EXAMPLES / "turns.json", 1, condition="tick = 4000000000")
            client.ask("continue", threadId=2)
            client.ask("terminate")
            client.event("terminated")

    def test_a_long_continue_is_shown_and_cancelled(self) -> None:
        with mock.patch("rdbg.adapter.debugger.MOMENT", 0.0), editor() as client:
            client.ask("initialize", adapterID="rdbg", supportsProgressReporting=True)
            client.ask("launch", program=str(EXAMPLES / "turns.json"), limit=1_000_000)
            client.event("initialized")
            client.stopped("configurationDone")
            client.ask("setFunctionBreakpoints", breakpoints=[{"name": "tick = 4000000000"}])
            for way in ("progressId", "requestId"):
                number = client.send("continue", threadId=2)
                shown = client.event("progressStart")
                self.assertTrue(shown["cancellable"])
                self.assertRegex(shown["message"], r"^at \d+$")
                client.event("progressUpdate")
                named = {"progressId": shown["progressId"], "requestId": number}
                client.ask("cancel", {way: named[way]})
                self.assertEqual(client.event("progressEnd")["progressId"], shown["progressId"])
                self.assertIn("paused", client.event("stopped")["description"])

    def test_what_waits_is_cancelled(self) -> None:
        with editor() as client:
            client.begin(EXAMPLES / "turns.json", limit=1_000_000)
            client.ask("setFunctionBreakpoints", breakpoints=[{"name": "tick = 4000000000"}])
            with held_run():
                client.ask("continue", threadId=2)
                waiting = client.send("evaluate", expression="where", context="repl")
                client.ask("cancel", requestId=waiting)
                client.ask("pause", threadId=2)
                self.assertEqual(client.answer(waiting)["message"], "cancelled")

    def test_what_waits_is_cancelled_before_the_run_has_begun(self) -> None:
        begin, cancel, is_read = Progress.begin, Server._cancel, threading.Event()

        def begin_late(progress: Progress) -> None:
            is_read.wait(PATIENCE)
            begin(progress)

        def read(server: Server, given: Arguments) -> None:
            cancel(server, given)
            is_read.set()

        with editor() as client, contextlib.ExitStack() as stack:
            client.begin(EXAMPLES / "turns.json", limit=1_000_000)
            client.ask("setFunctionBreakpoints", breakpoints=[{"name": "tick = 4000000000"}])
            stack.enter_context(mock.patch.object(Progress, "begin", begin_late))
            stack.enter_context(mock.patch.object(Server, "_cancel", read))
            client.ask("continue", threadId=2)
            waiting = client.send("evaluate", expression="where", context="repl")
            client.ask("cancel", requestId=waiting)
            client.ask("pause", threadId=2)
            self.assertEqual(client.answer(waiting).get("message"), "cancelled")

    def test_something_typed_is_cancelled(self) -> None:
        with editor() as client:
            client.begin(EXAMPLES / "turns.json")
            lines = ["until! tick > 900000 400000", "goto 0"] * 40
            number = client.send("evaluate", expression="\n".join(lines))
            time.sleep(0.3)
            client.ask("cancel", requestId=number)
            answer = client.answer(number)
            said = answer["body"]["result"] if answer["success"] else answer["message"]
            self.assertRegex(said, "paused|cancelled")  # (as it was at work already, or not yet)
            client.typed("where")


class Shows(InFile):
    """What an editor shows of cores, the ready list and other tasks."""

    def test_watches_of_cores_and_of_who_is_ready(self) -> None:
        with editor() as client:
            client.begin(LOST)
            for text, value in (
                ("core 0", "worker"),
                ("core 1", "producer"),
                ("ready", "poller"),
                ("turn", "0"),
                ("worker.r0 + count jobs", "0"),
                ("r0 + 1", "1"),
            ):
                said = client.ask("evaluate", expression=text, context="watch", frameId=2)
                self.assertEqual((text, said["result"]), (text, value))
            self.assertEqual(client.ask("dataBreakpointInfo", name="ready")["dataId"], "ready")

    def test_stops_where_a_core_or_the_ready_list_changes(self) -> None:
        with editor() as client:
            client.begin(LOST)
            seats = {}
            for place in range(12):
                seats[place] = [
                    client.ask("evaluate", expression=text, context="watch")["result"]
                    for text in ("core 0", "ready")
                ]
                client.typed("forward 1")
                client.event("stopped")
            client.typed("goto 0")
            client.event("stopped")
            for at, name in enumerate(("core 0", "ready")):
                places = [it for it in range(1, 12) if seats[it][at] != seats[it - 1][at]]
                client.ask("setDataBreakpoints", breakpoints=[{"dataId": name}])
                stops = [client.stopped("continue", threadId=2) for _ in places]
                self.assertEqual(stops[0]["description"], f"at {places[0]}: {name} changes")
                self.assertEqual([int(it["description"].split(":")[0][3:]) for it in stops], places)
                back = [client.stopped("reverseContinue", threadId=2) for _ in places]
                found = [int(it["description"].split(":")[0][3:]) for it in back]
                self.assertEqual(found, [*reversed(places[:-1]), 0])
            asked = [{"dataId": "core 7"}, {"dataId": "core"}]
            for it in client.ask("setDataBreakpoints", breakpoints=asked)["breakpoints"]:
                self.assertIn("is not a core: expected core 0 to core 1, or ready", it["message"])

    def test_where_each_task_stands(self) -> None:
        with editor() as client:
            client.begin(self.file)
            names = [it["name"] for it in client.ask("threads")["threads"]]
            said = ["time: tick 0", "maker: core 0, line 7", "taker: core 1, line 13"]
            self.assertEqual(names, said)
            client.stopped("next", threadId=client.thread("taker"))
            names = [it["name"] for it in client.ask("threads")["threads"]]
            self.assertEqual(names[2], "taker: waits recv:jobs, line 13")

    def test_a_temporary_breakpoint_that_is_typed(self) -> None:
        with editor() as client:
            client.begin(LOST)
            client.typed("tbreak count jobs > 0")
            self.assertIn("count jobs > 0", client.stopped("continue", threadId=2)["description"])
            self.assertIn("no watches", client.typed("info watches"))


if __name__ == "__main__":
    unittest.main()
