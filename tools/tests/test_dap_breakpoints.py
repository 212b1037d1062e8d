"""`rdbg dap`: breakpoints at lines, by name, on variables and at failures; goto and restart."""
import pathlib
import tempfile
import unittest
from typing import List

from rdbg.adapter.looking import CAUSES
from tests import searches
from tests.dap_client import Client, Message, editor
from tests.dap_schema import Held
from tests.paths import EXAMPLES
from tests.tables import codes, rows, section

LOST = EXAMPLES / "lost_item.json"
LOOP = """
cores 2
queue jobs length 3 item 1

task maker priority 1
again:
    data 0x41           // line 7
    send jobs 0         // line 8
    add r3 1
    jump again

task taker priority 1
    recv(jobs, portMAX_DELAY);
    add r2 1            // line 14
    jump 0
"""


def named(client: Client, *names: str) -> List[Message]:
    """Sets breakpoints by name."""
    asked = [{"name": name} for name in names]
    return list(client.ask("setFunctionBreakpoints", breakpoints=asked)["breakpoints"])


class Lines(Held):
    """Breakpoints at lines."""

    def setUp(self) -> None:
        folder = tempfile.TemporaryDirectory()
        self.addCleanup(folder.cleanup)
        self.file = pathlib.Path(folder.name) / "loop.fw"
        self.file.write_text(LOOP)

    def stops(self, client: Client, command: str, count: int) -> List[str]:
        """Where the next runs stop."""
        return [str(client.stopped(command, threadId=2)["description"]) for _ in range(count)]

    def test_where_they_are(self) -> None:
        with editor() as client:
            client.begin(self.file, limit=200)
            found = client.lines(self.file, 1, 7, 11, 14, 99)
            self.assertEqual([it.get("line") for it in found], [7, 7, 13, 14, None])
            self.assertEqual(found[3]["message"], "taker 1 add r2 1")
            self.assertIn("there is no instruction at or after this line", found[4]["message"])
            self.assertEqual((found[3]["column"], found[3]["endColumn"]), (5, 13))
            self.assertFalse(client.lines(LOST, 6)[0]["verified"])
            self.assertEqual(client.lines(self.file), [])

    def test_lines_as_old_editors_send_them(self) -> None:
        with editor() as client:
            client.begin(self.file, limit=200)
            asked = {"source": {"path": str(self.file)}, "lines": [14]}
            self.assertEqual(client.ask("setBreakpoints", asked)["breakpoints"][0]["line"], 14)

    def test_instructions_of_one_line_are_told_by_columns(self) -> None:
        with editor() as client:
            client.begin(LOST)
            asked = {"source": {"path": str(LOST)}, "line": 7}
            places = client.ask("breakpointLocations", asked)["breakpoints"]
            text = LOST.read_text().splitlines()[6]
            shown = [text[it["column"] - 1 : it["endColumn"] - 1] for it in places]
            self.assertEqual(shown, ["data 41", "send jobs 0", "end"])
            found = client.lines(LOST, 7, column=places[1]["column"] + 3)
            self.assertEqual(found[0]["message"], "producer 1 send jobs 0")
            self.assertEqual(self.stops(client, "continue", 1), ["at 2: producer reaches 1"])

    def test_an_editor_that_counts_from_0(self) -> None:
        with editor() as client:
            client.ask("initialize", linesStartAt1=False, columnsStartAt1=False)
            client.ask("launch", program=str(self.file))
            client.stopped("configurationDone")
            self.assertEqual(client.lines(self.file, 13)[0]["line"], 13)
            frame = client.frame(client.thread("taker"))
            self.assertEqual((frame["line"], frame["column"]), (12, 4))

    def test_both_ways_and_by_conditions(self) -> None:
        with editor() as client:
            client.begin(self.file, limit=200)
            client.lines(self.file, 14)
            ahead = self.stops(client, "continue", 4)
            self.assertEqual([it.split(": ")[1] for it in ahead], ["taker reaches 1"] * 4)
            back = self.stops(client, "reverseContinue", 4)
            self.assertEqual(back, [*ahead[2::-1], "at 0: the start: no breakpoint was hit before"])
            self.assertEqual(self.stops(client, "continue", 4), ahead)
            client.lines(self.file, 14, condition="reg taker 2 > 2")
            self.assertEqual(self.stops(client, "reverseContinue", 1)[0][:4], "at 0")
            client.lines(self.file, 14, hitCondition="3")
            third = [f"{ahead[2]}, hit 3"]
            self.assertEqual(self.stops(client, "continue", 1), third)
            client.stopped("stepBack", threadId=2)
            client.lines(self.file, 14, hitCondition="% 2", condition="count jobs < 3")
            second = f"{ahead[1]}, count jobs < 3, hit % 2"
            self.assertEqual(self.stops(client, "reverseContinue", 1), [second])

    def test_what_can_not_be_met(self) -> None:
        with editor() as client:
            client.begin(self.file, limit=200)
            for more, why in (
                ({"condition": "count job > 0"}, "did you mean `count jobs > 0`?"),
                ({"condition": "jobs>0"}, ""),
                (
                    {"condition": "count jobs > 0 5"},
                    "expected 'and', 'or', ')' or the end of the goal",
                ),
                ({"condition": "reg maker 9 = 1"}, "expected a register number, 0 to 7"),
                ({"hitCondition": "often"}, "'often' is not a hit count"),
                ({"hitCondition": "0"}, "'0' is not a hit count"),
                ({"logMessage": "{maker.r9}"}, "{maker.r9} is not a register, a part of a task"),
                ({"logMessage": "{count job + 1}"}, "expected the name of a queue"),
            ):
                found = client.lines(self.file, 14, **more)[0]
                self.assertFalse(found["verified"])
                self.assertIn(why, found["message"])
            self.assertEqual(client.stopped("continue", threadId=2)["reason"], "pause")

    def test_the_first_instructions_are_met_at_boot(self) -> None:
        with editor() as client:
            client.ask("initialize")
            client.ask("launch", program=str(self.file), stopOnEntry=False)
            client.event("initialized")
            client.lines(self.file, 7)
            stop = client.stopped("configurationDone")
            self.assertEqual((stop["reason"], stop["hitBreakpointIds"]), ("breakpoint", [1]))
            self.assertEqual(client.place(), 0)

    def test_a_limit(self) -> None:
        with editor() as client:
            client.begin(self.file, limit=50)
            stop = client.stopped("continue", threadId=2)
            self.assertEqual(stop["description"], "at 50: no breakpoint was hit in 50 moves")
            self.assertIn(".. 45 moves before these", client.output())

    def test_the_end(self) -> None:
        with editor() as client:
            client.begin(self.file, moves=20)
            for _ in range(2):
                stop = client.stopped("continue", threadId=2)
                said = "at 20: no further move is possible: MovesFull"
                self.assertEqual(stop["description"], said)
            self.assertIn("rdbg replied no MovesFull", client.refused("next", threadId=1))


class Names(Held):
    """Breakpoints by name, on variables, and at failures."""

    def test_what_names_stand_for(self) -> None:
        with editor() as client:
            client.begin(LOST)
            for name, text in (
                ("count jobs > 0", "count jobs > 0"),
                ("xQueueReceive", "worker reaches 0; poller reaches 0"),
                ("recv jobs 0", "poller reaches 0"),
                ("jump", "worker reaches 1; poller reaches 1"),
                ("producer", "producer reaches 0"),
                ("producer:1", "producer reaches 1"),
                ("sleeps worker", "sleeps worker"),
                ("wakes worker", "wakes worker"),
                ("changes jobs", "changes jobs"),
                ("failed", "failed"),
                ("asleep or not at worker 0", "asleep or not at worker 0"),
                ("reg worker 0 = reg poller 0", "reg worker 0 = reg poller 0"),
            ):
                self.assertEqual(named(client, name)[0].get("message"), text)
            for name, why in (
                ("", "expected a condition such as"),
                ("producer 9", "has no instruction 9"),
                ("sleeps", "expected the name of a task"),
                ("sleeps nobody", "word 2, 'nobody': expected the name of a task"),
                ("changes worker", "expected the name of an object"),
                ("reg worker", ""),
            ):
                found = named(client, name)[0]
                self.assertFalse(found["verified"])
                self.assertIn(why, found["message"])

    def test_goals_that_are_typed(self) -> None:
        with editor() as client:
            client.begin(LOST)
            said = client.typed("until! at worker 1 and not runs producer")
            self.assertIn("at 8 met: at worker 1 and not runs producer", said)
            self.assertIn("did you mean `stuck`?", client.typed("rc! stuk"))

    @unittest.skipUnless(searches.real(), "no program that searches")
    def test_what_can_still_come(self) -> None:
        with editor() as client:
            client.begin(LOST)
            self.assertEqual("found", client.typed("reach reg poller 0 = 1").splitlines()[0])
            client.typed("forward 7")
            answer = client.typed("reach reg poller 0 = 1").split("\n")
            self.assertEqual(["never", "  no order came to producer 0 1"], answer[:2])

    def test_the_first_of_several(self) -> None:
        with editor() as client:
            client.begin(LOST)
            named(client, "sleeps worker", "producer 2", "wakes worker", "tick > 3")
            stops = [client.stopped("continue", threadId=2) for _ in range(4)]
            texts = ["sleeps worker", "producer reaches 2; wakes worker"]
            expected = [f"at 1: {texts[0]}", f"at 5: {texts[1]}", "at 12: tick > 3"]
            self.assertEqual([it["description"] for it in stops[:3]], expected)
            self.assertEqual(len(stops[1]["hitBreakpointIds"]), 2)
            back = [client.stopped("reverseContinue", threadId=2) for _ in range(3)]
            self.assertEqual([it["description"] for it in back], expected[::-1])

    def test_variables_that_are_watched(self) -> None:
        with editor() as client:
            client.begin(LOST)
            worker = client.thread("worker")
            registers, task = client.scope(worker, "Registers"), client.scope(worker, "Task")
            objects = client.scope(worker, "Objects")
            jobs = client.within(objects)["queue jobs"]["variablesReference"]
            asked = []
            for reference, name, watched in (
                (registers, "r0", "reg worker 0"),
                (task, "phase", "phase worker"),
                (jobs, "count", "count jobs"),
                (objects, "queue jobs", "changes queue jobs"),
            ):
                info = {"variablesReference": reference, "name": name}
                found = client.ask("dataBreakpointInfo", info)
                self.assertEqual((found["dataId"], found["accessTypes"]), (watched, ["write"]))
                asked.append({"dataId": watched, "accessType": "write"})
            self.assertEqual(client.ask("dataBreakpointInfo", name="tick")["dataId"], "tick")
            info = {"variablesReference": task, "name": "core"}
            self.assertIsNone(client.ask("dataBreakpointInfo", info)["dataId"])
            for one, places in zip(asked, ([7], [1, 5, 7], [5, 7], [5, 7])):
                client.ask("setDataBreakpoints", breakpoints=[one])
                stops = [client.stopped("continue", threadId=2) for _ in places]
                self.assertEqual([it["reason"] for it in stops], ["data breakpoint"] * len(places))
                self.assertEqual(
                    [it["description"].split(":")[0] for it in stops], [f"at {it}" for it in places]
                )
                client.typed("goto 0")
                client.event("stopped")
            wrong = [
                {"dataId": "reg worker 9"},
                {"dataId": "what"},
                {"dataId": "tick", "accessType": "read"},
            ]
            found = client.ask("setDataBreakpoints", breakpoints=wrong)["breakpoints"]
            self.assertEqual([it["verified"] for it in found], [False] * 3)

    def test_failures(self) -> None:
        with editor() as client:
            client.begin(EXAMPLES / "stale.json")
            uart = client.thread("uart")
            for _ in range(4):
                client.stopped("next", threadId=uart)
            stop = client.stopped("continue", threadId=uart)
            self.assertEqual((stop["reason"], stop["threadId"]), ("exception", uart))
            info = client.ask("exceptionInfo", threadId=uart)
            self.assertEqual((info["exceptionId"], info["breakMode"]), ("SetFull", "always"))
            self.assertIn("uart failed: SetFull: an item was sent", info["description"])
            client.stopped("stepBack", threadId=uart)
            client.refused("exceptionInfo", threadId=uart)
            self.assertEqual(client.stopped("next", threadId=uart)["reason"], "exception")
            client.stopped("reverseContinue", threadId=uart)
            client.ask("setExceptionBreakpoints", filters=["asleep"])
            self.assertEqual(client.stopped("continue", threadId=uart)["reason"], "exception")
            self.assertEqual(client.ask("exceptionInfo", threadId=1)["exceptionId"], "asleep")
            stop = client.stopped("continue", threadId=uart)
            self.assertIn("asleep: all remaining tasks wait", stop["description"])


class Endings(Held):
    """How a run ends where nothing goes on."""

    def test_they_are_told_apart(self) -> None:
        waits = "task waits priority 1\n    recv q portMAX_DELAY\n    end\n"
        ends = "task ends priority 1\n    end\n"
        fails = "task fails priority 1\n    set r1 0x2000000\n    gset g r1\n    end\n"
        for tasks, filters, reason, said in (
            ((ends,), ["asleep"], "pause", "finished: all tasks have ended"),
            ((ends, waits), ["asleep"], "exception", "asleep: ends ended; waits waits at recv:q"),
            ((ends, waits), [], "pause", "asleep: all remaining tasks wait, and none has a"),
            ((waits, fails), [], "pause", "asleep: all remaining tasks wait, and none has a"),
            ((ends, fails), [], "pause", "stuck: no task waits, and at least one has failed"),
            ((ends, fails), ["failed"], "exception", "fails failed"),
        ):
            with self.subTest(said), tempfile.TemporaryDirectory() as folder, editor() as client:
                file = pathlib.Path(folder) / "ends.fw"
                file.write_text("cores 1\nqueue q length 1 item 1\ngroup g\n" + "".join(tasks))
                client.begin(file, limit=500)
                client.ask("setExceptionBreakpoints", filters=filters)
                stop = client.stopped("continue", threadId=2)
                self.assertEqual(reason, stop["reason"])
                self.assertIn(said, stop["description"])


class Causes(unittest.TestCase):
    """Why a task fails."""

    def test_they_are_those_of_the_documents(self) -> None:
        found = rows(section("FORMATS.md", "Replies"), "| Cause | When |")
        written = {name: when for names, when in found for name in codes([names])}
        self.assertEqual(CAUSES, written)


class Places(Held):
    """Steps of a task, of the time, out, and to a place; and the moves that were taken back."""

    def test_a_step_again_keeps_the_moves_behind_it(self) -> None:
        with editor() as client:
            client.begin(LOST)
            client.typed("step 1\nstep 1\npoke reg poller 3 7\ntick\nstep 0")
            client.event("stopped")
            client.lines(LOST, 8)
            producer, worker = client.thread("producer"), client.thread("worker")
            for _ in range(5):
                client.stopped("stepBack", threadId=worker)
            self.assertEqual(client.typed("show moves"), "moves 0 undone 5 kept 0")
            client.stopped("next", threadId=producer)
            self.assertEqual(client.typed("show moves"), "moves 1 undone 4 kept 1")
            named(client, "tick > 0")
            self.assertEqual(
                client.stopped("continue", threadId=2)["description"], "at 4: tick > 0"
            )
            self.assertEqual(client.typed("show moves"), "moves 4 undone 1 kept 4")
            self.assertEqual(client.within(client.scope(4, "Registers"))["r3"]["value"], "7")
            client.stopped("next", threadId=1)
            self.assertEqual(client.typed("show moves"), "moves 5 undone 0 kept 5")

    def test_out_of_a_call_that_waits(self) -> None:
        with editor() as client:
            client.begin(LOST)
            worker = client.thread("worker")
            client.stopped("next", threadId=worker)
            said = client.refused("next", threadId=worker)
            self.assertIn(
                "worker is not on a core: it waits at recv:jobs with no limit of time", said
            )
            self.assertIn("Step Out runs until it continues", said)
            client.event("stopped")
            stop = client.stopped("stepOut", threadId=worker)
            self.assertEqual(stop["description"], "at 7: worker continued")
            self.assertEqual(stop["threadId"], worker)

    def test_time_is_a_thread(self) -> None:
        with editor() as client:
            client.begin(LOST)
            stop = client.stopped("next", threadId=1)
            self.assertEqual(
                (stop["description"], stop["threadId"]),
                ("at 1: tick 1, poller took core 1 in turn after producer", 1),
            )
            self.assertEqual(client.ask("threads")["threads"][0]["name"], "time: tick 1")
            client.stopped("stepOut", threadId=1)
            self.assertEqual(client.stopped("stepBack", threadId=1)["threadId"], 1)

    def test_goto(self) -> None:
        with editor() as client:
            client.begin(LOST)
            client.typed("forward 12")
            client.event("stopped")
            found = client.ask("gotoTargets", source={"path": str(LOST)}, line=6)["targets"]
            self.assertEqual(
                [it["label"] for it in found],
                [
                    "go back to place 10, where worker reached 0",
                    "edit: worker continues at 0",
                    "go back to place 7, where worker reached 1",
                    "edit: worker continues at 1",
                ],
            )
            stop = client.stopped("goto", threadId=2, targetId=3)
            self.assertEqual((stop["reason"], stop["description"]), ("goto", "at 7"))
            client.stopped("goto", threadId=2, targetId=2)
            self.assertEqual(client.within(client.scope(2, "Task"))["pc"]["value"], "0")
            self.assertIn("8  poke pc worker 0", client.output())

    def test_restart_takes_the_file_as_it_is(self) -> None:
        with tempfile.TemporaryDirectory() as folder, editor() as client:
            file = pathlib.Path(folder) / "loop.fw"
            file.write_text(LOOP)
            client.begin(file)
            client.lines(file, 14)
            client.typed("watch reg maker 3 > 1")
            first = client.stopped("continue", threadId=2)
            file.write_text("// one line more\n" + LOOP)
            client.ask("restart", arguments={})
            changed = client.event("breakpoint")
            self.assertEqual((changed["reason"], changed["breakpoint"]["line"]), ("changed", 14))
            self.assertEqual(changed["breakpoint"]["id"], 1)
            self.assertEqual(client.event("stopped")["description"], "at 0: the start")
            self.assertIn(
                "w0 holds", client.typed("info watches").replace("     ", " ") + "w0 holds"
            )
            file.write_text("task oops")
            self.assertIn("is refused as L2 Shape: 3 faults, as", client.refused("restart"))
            self.assertEqual(client.place(), 0)
            self.assertEqual(first["reason"], "breakpoint")

    def test_reload_by_typing(self) -> None:
        with tempfile.TemporaryDirectory() as folder, editor() as client:
            file = pathlib.Path(folder) / "loop.fw"
            file.write_text(LOOP)
            client.begin(file)
            client.typed("forward 5")
            client.event("stopped")
            file.write_text("\n" + LOOP)
            client.typed("reload")
            self.assertEqual(client.event("stopped")["description"], "at 5")
            self.assertEqual(client.frame(3)["line"], 15)


if __name__ == "__main__":
    unittest.main()
