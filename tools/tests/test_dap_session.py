"""`rdbg dap`: a session with an editor, from launch to disconnect."""

import unittest
from typing import List

from tests.dap_client import Message, editor, started
from tests.dap_schema import Held, faults_of
from tests.paths import EXAMPLES

LOST = EXAMPLES / "lost_item.json"


class Sessions(Held):
    """What an editor does in a session."""

    def test_from_launch_to_disconnect(self) -> None:
        with started() as client:
            first = client.begin(LOST)
            self.assertEqual((first["reason"], first["description"]), ("entry", "at 0: the start"))
            producer = client.thread("producer")
            self.assertEqual([it["line"] for it in client.lines(LOST, 8)], [8])
            stop = client.stopped("continue", threadId=producer)
            self.assertEqual(stop["description"], "at 11: poller reaches 0")
            self.assertEqual(stop["threadId"], client.thread("poller"))
            self.assertEqual(stop["hitBreakpointIds"], [1])
            self.assertEqual(client.frame(stop["threadId"])["line"], 8)
            self.assertEqual(client.stopped("stepBack", threadId=2)["reason"], "step")
            client.ask("disconnect")
            self.assertEqual(client.process.wait(30), 0)
            self.assertEqual(client.process.stderr.read(), b"")  # type: ignore[union-attr]

    def test_the_built_in_application_has_a_text(self) -> None:
        with editor() as client:
            stop = client.begin(None)
            frame = client.frame(stop["threadId"])
            reference = frame["source"]["sourceReference"]
            text = client.ask("source", source=frame["source"], sourceReference=reference)
            lines = text["content"].splitlines()
            self.assertEqual(lines[frame["line"] - 1].strip(), "data 0x41")
            asked = {
                "source": {"sourceReference": reference},
                "breakpoints": [{"line": len(lines)}],
            }
            self.assertTrue(client.ask("setBreakpoints", asked)["breakpoints"][0]["verified"])
            self.assertEqual(
                client.stopped("continue", threadId=2)["description"], "at 7: t0 reaches 4"
            )

    def test_the_end_of_the_input_is_the_end(self) -> None:
        with started() as client:
            client.begin(LOST)
            client._lines.close()
            self.assertEqual(client.process.wait(30), 0)


class Schema(unittest.TestCase):
    """The schema that messages are held against."""

    def test_it_says_what_is_wrong(self) -> None:
        event: Message = {"seq": 1, "type": "event", "event": "stopped"}
        wrong: List[Message] = [
            {**event, "body": {"reason": 3}},
            {**event, "body": {}},
            {**event, "event": "stopping", "body": {}},
            {**event, "body": {"reason": "step", "thread": 3}},
            {"seq": 1, "type": "response", "command": "threads", "success": True, "request_seq": 1},
        ]
        found = faults_of([*wrong, {**event, "body": {"reason": "step"}}])
        self.assertEqual(
            [it.split(": ", 1)[1] for it in found],
            [
                "stopped.body.reason is 3, and not string",
                "stopped.body lacks reason",
                "there is no event stopping",
                "stopped.body: thread is none of its keys",
                "threads lacks body",
            ],
        )


if __name__ == "__main__":
    unittest.main()
