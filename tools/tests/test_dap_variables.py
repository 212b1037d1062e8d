"""`rdbg dap`: what is shown as variables, what is set, and what an expression says."""
import pathlib
import tempfile
import unittest
from typing import Dict

from tests.dap_client import Client, Message, editor
from tests.dap_schema import Held
from tests.paths import EXAMPLES

ALL = """
cores 2
notes 2
queue jobs length 2 item 2
set inputs length 2 members jobs
stream rx size 8 trigger 1
message mail size 32
group flags

task maker priority 2
    data 0x4142
    send jobs 0
    swrite rx 0
    mwrite mail 0
    gset flags 5
    notify taker 1 7 set
    recv never 0
    end
task taker priority 1
    gwait flags 8 all clear max
    end
"""


def objects(client: Client, thread: int) -> Dict[str, Message]:
    """The objects, by kind and name."""
    return client.within(client.scope(thread, "Objects"))


class Shown(Held):
    """What is shown, and set."""

    def setUp(self) -> None:
        folder = tempfile.TemporaryDirectory()
        self.addCleanup(folder.cleanup)
        self.file = pathlib.Path(folder.name) / "all.fw"
        self.file.write_text(ALL.replace("queue jobs", "queue never length 1 item 1\nqueue jobs"))

    def at_the_end(self, client: Client) -> int:
        """Begins, and lets the maker do its work."""
        client.begin(self.file)
        client.typed("forward 40")
        return client.thread("taker")

    def test_all_kinds_of_objects(self) -> None:
        with editor() as client:
            found = objects(client, self.at_the_end(client))
            values = {name: it["value"] for name, it in found.items()}
            self.assertEqual(
                values,
                {
                    "queue never": "0/1 -",
                    "queue jobs": "1/2 4142",
                    "set inputs": "1/2 handles jobs",
                    "stream rx": "2/8 bytes 4142",
                    "message mail": "1 message, 6/32 bytes 4142",
                    "group flags": "0x000005, waits: bits: taker:8:all",
                },
            )
            group = client.within(found["group flags"]["variablesReference"])
            self.assertEqual(group["[0]"]["value"], "taker: all of 0x000008, then cleared")
            stream = client.within(found["stream rx"]["variablesReference"])
            self.assertEqual([stream["[0]"]["value"], stream["[1]"]["value"]], ["0x41", "0x42"])
            handles = client.within(found["set inputs"]["variablesReference"])
            self.assertEqual(handles["[0]"]["value"], "jobs")
            mail = client.within(found["message mail"]["variablesReference"])
            self.assertEqual(mail["[0]"]["value"], '4142 ("AB")')

    def test_parts_of_a_list(self) -> None:
        with editor() as client:
            found = objects(client, self.at_the_end(client))["stream rx"]
            number = found["variablesReference"]
            self.assertEqual((found["indexedVariables"], found["namedVariables"]), (2, 5))
            only = client.within(number, filter="indexed", start=1, count=5)
            self.assertEqual(list(only), ["[1]"])
            self.assertEqual(len(client.within(number, filter="named")), 5)

    def test_what_is_set_is_an_edit(self) -> None:
        with editor() as client:
            thread = self.at_the_end(client)
            places = [client.place()]
            registers = client.scope(thread, "Registers")
            task, own = client.scope(thread, "Task"), objects(client, thread)
            for reference, name, value, shown in (
                (registers, "r3", "-1", "4294967295"),
                (registers, "r3", "0x1F", "31"),
                (task, "data", '"hi"', '6869 ("hi")'),
                (task, "data", "0xFF 00", "ff00"),
                (task, "data", "-", "-"),
                (task, "note 1", "9 (received)", "9 (received)"),
                (own["queue jobs"]["variablesReference"], "[0]", "4344", '4344 ("CD")'),
                (own["stream rx"]["variablesReference"], "[1]", "7", "0x07"),
                (own["group flags"]["variablesReference"], "bits", "0x3", "0x000003"),
            ):
                asked = {"variablesReference": reference, "name": name, "value": value}
                self.assertEqual(client.ask("setVariable", asked)["value"], shown, name)
                self.assertEqual(client.event("invalidated"), {"areas": ["variables"]})
                places.append(client.place())
            self.assertEqual(places, list(range(places[0], places[0] + 10)))
            self.assertIn(f"{places[-1]}  poke group flags 3", client.output())
            client.stopped("stepBack", threadId=thread)
            self.assertEqual(objects(client, thread)["group flags"]["value"][:8], "0x000005")

    def test_what_can_not_be_set(self) -> None:
        with editor() as client:
            thread = self.at_the_end(client)
            registers, task = client.scope(thread, "Registers"), client.scope(thread, "Task")
            group = objects(client, thread)["group flags"]["variablesReference"]
            queue = objects(client, thread)["queue jobs"]["variablesReference"]
            for reference, name, value, why in (
                (registers, "r3", "many", "'many' is not a number"),
                (registers, "r3", "4294967296", "is out of range"),
                (registers, "r9", "1", "there is no variable 'r9'"),
                (task, "core", "1", "core is read-only"),
                (task, "phase", "run", "phase is read-only"),
                (task, "pc", "1", "rdbg replied no BadEdit"),
                (task, "data", "xyz", "is not a byte string"),
                (group, "bits", "0x1000000", "is out of range: 0 to 16777215"),
                (queue, "[0]", "41", "rdbg replied no BadEdit"),
            ):
                asked = {"variablesReference": reference, "name": name, "value": value}
                self.assertIn(why, client.refused("setVariable", asked))

    def test_hexadecimal(self) -> None:
        with editor() as client:
            thread = self.at_the_end(client)
            registers = client.scope(thread, "Registers")
            client.ask("setVariable", variablesReference=registers, name="r1", value="255")
            found = client.within(registers, format={"hex": True})
            self.assertEqual(found["r1"]["value"], "0xff")

    def test_expressions(self) -> None:
        with editor() as client:
            thread = self.at_the_end(client)
            client.ask("setExpression", expression="maker.r2", value="5", frameId=thread)
            for text, value in (
                ("maker.r2", "5"),
                ("r2", "0"),
                ("jobs", "1/2 4142"),
                ("jobs.count", "1"),
                ("flags.bits", "0x000005"),
                ("maker", "ended, at 7"),
                ("count jobs > 0", "holds"),
                ("count jobs > 1", "fails"),
                ("show queue jobs", "queue jobs 1/2 items 4142 recv - send - set inputs"),
            ):
                for context in ("hover", "watch"):
                    asked = {"expression": text, "context": context, "frameId": thread}
                    self.assertEqual(client.ask("evaluate", asked)["result"], value)
            inner = client.ask("evaluate", expression="jobs", context="watch")
            self.assertIn("[0]", client.within(inner["variablesReference"]))

    def test_the_time(self) -> None:
        with editor() as client:
            thread = self.at_the_end(client)
            found = client.within(client.scope(thread, "Time"))
            self.assertEqual((found["place"]["value"], found["core 0"]["value"]), ("40", "-"))
            names = [it["name"] for it in client.ask("scopes", frameId=1)["scopes"]]
            self.assertEqual(names, ["Objects", "Time"])
            self.assertIn("at place 40", client.frame(1)["name"])


class Typed(Held):
    """Lines that are typed in the editor."""

    def test_lines_of_rdbg_and_of_sh(self) -> None:
        with editor() as client:
            client.begin(EXAMPLES / "lost_item.json")
            self.assertEqual(client.typed("show moves"), "moves 0 undone 0 kept 0")
            said = client.typed("step 1").splitlines()
            self.assertEqual(said, ["ok at 1", "producer 0 data 41"])
            self.assertEqual(client.event("continued")["allThreadsContinued"], True)
            stop = client.event("stopped")
            self.assertEqual(
                (stop["reason"], stop["threadId"]), ("goto", client.thread("producer"))
            )
            said = client.typed("until! count jobs > 0\nwhere").splitlines()
            self.assertIn("at 6 met: count jobs > 0", said[0])
            self.assertTrue(any(line.startswith("core 0") for line in said))
            self.assertIn("did you mean 'jobs'?", client.typed("show queue job"))
            self.assertIn("no Syntax", client.typed("until count jobs>=1"))
            self.assertEqual(client.typed("goto 1").splitlines()[0], "ok at 1")

    def test_breakpoints_and_runs_by_typing(self) -> None:
        with editor() as client:
            client.begin(EXAMPLES / "lost_item.json")
            self.assertEqual(client.typed("watch count jobs > 0").splitlines()[0], "ok watch 0")
            client.typed("continue")
            self.assertEqual(client.event("stopped")["description"], "at 5: w0, count jobs > 0")
            client.typed("forward 3")
            client.event("stopped")
            client.typed("rc")
            self.assertEqual(client.event("stopped")["description"], "at 5: w0, count jobs > 0")

    def test_completions(self) -> None:
        with editor() as client:
            client.begin(EXAMPLES / "lost_item.json")
            found = client.ask("completions", text="show task po", column=13)["targets"]
            self.assertEqual(found, [{"label": "poller", "start": 11, "length": 2}])
            found = client.ask("completions", text="un", column=3)["targets"]
            self.assertIn("until", [it["label"] for it in found])
            many = client.ask("completions", text="tick\nstep wor", column=9, line=2)["targets"]
            self.assertEqual([it["label"] for it in many], ["worker"])


if __name__ == "__main__":
    unittest.main()
