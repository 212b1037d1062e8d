"""`rdbg dap` where what comes is broken: each gets an answer that says so, and what follows is
served."""
import json
import random
import socket
import unittest
from typing import Any, List, Tuple

from rdbg.adapter.server import REQUESTS
from tests.dap_client import Client, Message, editor, started
from tests.dap_schema import Held
from tests.paths import EXAMPLES

LOST = EXAMPLES / "lost_item.json"
REQUEST: Message = {"seq": 7, "type": "request", "command": "threads"}


def told(client: Client, number: int = 0) -> str:
    """Why something isn't answered as it was asked."""
    answer = client.answer(number)
    if answer["success"]:
        raise AssertionError(f"it is done: {answer}")
    return str(answer["message"])


class Frames(Held):
    """Bytes that are no frames, and frames that are no requests."""

    def wrong(self, content: bytes, *expected: str) -> None:
        """What is said of some bytes; then the session goes on."""
        with editor() as client:
            client.bytes(content)
            client.send("initialize")
            said = []
            while True:
                message = client._next()
                if message["type"] == "response" and message["success"]:
                    break
                said.append(message["message"])
            self.assertEqual(len(said), len(expected), said)
            for one, other in zip(said, expected):
                self.assertIn(other, one)

    def test_headers(self) -> None:
        self.wrong(b"Content-Length: many\r\n\r\n", "Content-Length is not a number of bytes")
        self.wrong(b"Content-Length: -3\r\n\r\n", "Content-Length is not a number of bytes")
        self.wrong(b"hello\r\n\r\n", "not a header line: expected Content-Length")
        self.wrong(b"hello\r\n", "not a header line: expected Content-Length")
        self.wrong(b"\r\n\r\n\n")
        self.wrong(b"x" * 100_000 + b"\r\n", "not a header line: expected Content-Length")
        self.wrong(
            b"Content-Length: 99999999999\r\n\r\n{}",
            "is too long: the limit is",
            "not a header line",
        )
        body = json.dumps(REQUEST).encode()
        self.wrong(
            b"Content-Length: %d\r\n\r\n%s" % (len(body) - 3, body), "not JSON", "not a header line"
        )

    def test_a_type_beside_the_length_is_taken(self) -> None:
        with editor() as client:
            body = json.dumps({**REQUEST, "command": "initialize"}).encode()
            head = b"content-type: json\r\ncontent-length:%d\r\n\r\n" % len(body)
            client.bytes(head + body)
            self.assertTrue(client.answer(7)["success"])

    def test_a_browser_gets_no_answer(self) -> None:
        body = json.dumps(REQUEST).encode()
        for head in (b"POST / HTTP/1.1\r\n", b"Host: 127.0.0.1:4711\r\n", b"Origin: null\r\n"):
            with editor() as client:
                client.bytes(head + b"Content-Length: %d\r\n\r\n%s" % (len(body), body))
                self.assertIsNone(client.receive())

    def test_messages(self) -> None:
        for body, text in (
            (b"", "not JSON"),
            (b"{", "not JSON"),
            (b"\xff\xfe", "not JSON"),
            (b"[" * 50_000, "not JSON"),
            (b'{"seq": 1%s}' % (b"0" * 5_000), "its seq is a number of more"),
            (b'{"seq": NaN}', "not JSON"),
            (b"3", "not a JSON object"),
            (b"{}", "its type must be"),
            (b'{"type": "event", "event": "stopped"}', "its type must be"),
            (b'{"type": "request", "command": "threads"}', "a number as seq"),
            (b'{"type": "request", "seq": "1", "command": "threads"}', "a number as seq"),
            (b'{"type": "request", "seq": true, "command": "threads"}', "a number as seq"),
        ):
            with self.subTest(body[:50]), editor() as client:
                client.raw(body)
                self.assertIn(text, told(client))
                client.ask("initialize")

    def test_messages_whose_number_is_known(self) -> None:
        with editor() as client:
            wrong: List[Tuple[Message, str]] = [
                ({"arguments": 3}, "arguments must be an object"),
                ({"command": ""}, "a string as command"),
                ({"command": "dance"}, "request 'dance' is not supported"),
                ({"command": "d" * 100_000}, "is not supported"),
                ({"command": "\ud800{}"}, "is not supported"),
            ]
            for more, text in wrong:
                client.raw(json.dumps({**REQUEST, **more}).encode())
                self.assertIn(text, told(client, 7))
                client.told.clear()
                client._read = 0


class Numbers(Held):
    """Numbers of many digits, and what isn't one."""

    LARGE = (10**18, 1234567890123456789, 2**53 + 1, 2**63, -(2**63) - 1, 10**40 + 7)

    def test_a_large_seq_is_answered_as_it_is(self) -> None:
        with editor() as client:
            for number in self.LARGE:
                client.raw(json.dumps({**REQUEST, "seq": number}).encode())
                self.assertTrue(client.answer(number)["success"])
            self.assertEqual([it["request_seq"] for it in client.told], list(self.LARGE))

    def test_a_large_seq_of_what_is_refused(self) -> None:
        with editor() as client:
            wrong: List[Message] = [{"command": "dance"}, {"arguments": 3}, {"type": "event"}]
            for more in wrong:
                client.raw(json.dumps({**REQUEST, "seq": 2**64, **more}).encode())
                self.assertFalse(client.answer(2**64)["success"])
                client.told.clear()
                client._read = 0

    def test_large_numbers_are_refused_as_what_is_not_there(self) -> None:
        with editor() as client:
            client.begin(LOST)
            for number in self.LARGE:
                wrong: List[Tuple[str, Message, str]] = [
                    ("stackTrace", {"threadId": number}, f"there is no thread {number}"),
                    ("scopes", {"frameId": number}, f"there is no thread {number}"),
                    ("next", {"threadId": number}, f"there is no thread {number}"),
                    ("variables", {"variablesReference": number}, f"no variables {number}"),
                    ("goto", {"threadId": 2, "targetId": number}, f"no target {number}"),
                    ("source", {"sourceReference": number}, f"there is no source {number}"),
                ]
                for command, asked, text in wrong:
                    self.assertIn(text, client.refused(command, asked))
            found = client.lines(LOST, 1234567890123456789)
            self.assertIn("there is no instruction at or after this line", found[0]["message"])
            asked = {"threadId": 2, "startFrame": 10**19, "levels": 10**19}
            self.assertEqual(client.ask("stackTrace", asked)["stackFrames"], [])
            self.assertEqual(client.place(), 0)

    def test_what_is_no_whole_number_is_refused_as_what_it_is(self) -> None:
        with editor() as client:
            client.begin(LOST)
            for text, said in (
                ("1e19", "a whole number, not 1e+19"),
                ("2.0", "a whole number, not 2.0"),
                ("true", "a number, not true"),
                ('"2"', "a number, not a string"),
                ("[]", "a number, not a list"),
                ("1" * 5_000, "a number, not a number of more than 1000 digits"),
                ("-" + "1" * 100_000, "a number, not a number of more than 1000 digits"),
            ):
                client._sent += 1
                head, last = '"type": "request", "command": "next"', '"arguments": {"threadId": '
                client.raw(f'{{"seq": {client._sent}, {head}, {last} {text}}}}}'.encode())
                self.assertIn(f"next: threadId must be {said}", told(client, client._sent))
                client.raw(f'{{"seq": {text}, {head}, {last} 2}}}}'.encode())
                self.assertIn(said.split(", not ")[1], told(client))
                client.told.clear()
                client._read = 0

    def test_digits_that_are_none(self) -> None:
        with editor() as client:
            client.begin(LOST)
            reference = client.scope(2, "Registers")
            for text in ("\u00b2", "\u0663", "1" * 5_000, "1" * 11, "0x" + "f" * 5_000):
                asked = {"variablesReference": reference, "name": "r0", "value": text}
                client.refused("setVariable", asked)
                for key, value in (("hitCondition", text), ("condition", f"tick > {text}")):
                    self.assertFalse(client.lines(LOST, 6, **{key: value})[0]["verified"])
                for name in (
                    f"worker {text}",
                    f"reg worker {text} = 0",
                    f"w{text}",
                    f"tick > {text}",
                ):
                    made = client.ask("setFunctionBreakpoints", breakpoints=[{"name": name}])
                    self.assertFalse(made["breakpoints"][0]["verified"])
                made = client.ask(
                    "setDataBreakpoints", breakpoints=[{"dataId": f"reg worker {text}"}]
                )
                self.assertFalse(made["breakpoints"][0]["verified"])
                for context in ("hover", "watch"):
                    expression = f"reg worker {text} = 0"
                    client.refused("evaluate", expression=expression, context=context)
            faults = [line for line in client.output() if "internal error in rdbg" in line]
            self.assertEqual(faults, [])
            with started("--port", "\u00b2") as program:
                self.assertEqual(program.process.wait(30), 2)


class Arguments(Held):
    """Arguments that aren't as they should be."""

    def test_before_anything_is_debugged(self) -> None:
        with editor() as client:
            for command in sorted(set(REQUESTS) - {"initialize", "launch", "attach", "disconnect"}):
                if command not in ("threads", "loadedSources", "pause", "setExceptionBreakpoints"):
                    asked = {"source": {}, "breakpoints": [{"line": 1}], "text": "", "column": 1}
                    answer = client.answer(client.send(command, asked, name="x", expression="x"))
                    self.assertNotIn("Traceback", json.dumps(answer))
            self.assertIn("no debug session yet", client.refused("evaluate", expression="tick"))

    def test_files_that_can_not_be_debugged(self) -> None:
        for program, text in (
            ("/nowhere/x.json", "cannot read"),
            ("/nowhere\0x", "embedded null"),
            ("\ud800", "cannot read"),
            (str(EXAMPLES), "cannot read"),
            (str(EXAMPLES / "lost_item.commands"), "unknown file type '.commands'"),
            (3, "program must be a string"),
        ):
            with self.subTest(program), editor() as client:
                client.ask("initialize")
                self.assertIn(text, client.refused("launch", program=program))
                client.ask("launch")

    def test_what_counts_later_is_refused_at_launch(self) -> None:
        with editor() as client:
            client.ask("initialize")
            wrong: List[Tuple[Message, str]] = [
                ({"program": None}, "launch: program must be a string, not null"),
                ({"stopOnEntry": "yes"}, "stopOnEntry must be true or false, not a string"),
                ({"stopOnEntry": 1}, "stopOnEntry must be true or false, not a number"),
                ({"stopOnEntry": 0.0}, "stopOnEntry must be true or false, not 0.0"),
                ({"unproved": "yes"}, "unproved must be true or false, not a string"),
                ({"limit": 2.5}, "limit must be a whole number, not 2.5"),
            ]
            for more, what in wrong:
                self.assertIn(what, client.refused("launch", {"program": str(LOST), **more}))
            client.ask("launch", program=str(LOST), stopOnEntry=True)
            client.event("initialized")
            self.assertEqual(client.stopped("configurationDone")["reason"], "entry")
            said = client.refused("restart", {"arguments": {"program": None}})
            self.assertIn("program must be a string, not null", said)

    def test_limits(self) -> None:
        with editor() as client:
            client.ask("initialize")
            wrong: List[Message] = [{"moves": 0}, {"history": 1}, {"limit": 2_000_000}]
            for more in [*wrong, {"moves": True}]:
                said = client.refused("launch", {"program": str(LOST), **more})
                self.assertIn(list(more)[0], said)
            for port in (0, 65_536, -1):
                self.assertIn("1 to 65535", client.refused("attach", port=port))
            with socket.socket() as free:
                free.bind(("127.0.0.1", 0))
                port = free.getsockname()[1]
            self.assertIn("cannot attach to port", client.refused("attach", port=port))

    def test_what_is_not_there(self) -> None:
        with editor() as client:
            client.begin(LOST)
            wrong: List[Tuple[str, Message, str]] = [
                ("launch", {}, "a debug session is already running"),
                ("stackTrace", {"threadId": 99}, "there is no thread 99"),
                ("stackTrace", {}, "threadId is missing"),
                ("next", {"threadId": "2"}, "threadId must be a number"),
                ("continue", {"threadId": 9}, "there is no thread 9"),
                ("scopes", {"frameId": 0}, "there is no thread 0"),
                ("variables", {"variablesReference": 77}, "there are no variables 77"),
                ("goto", {"threadId": 2, "targetId": 5}, "there is no target 5"),
                ("source", {"sourceReference": 5}, "there is no source 5"),
                ("exceptionInfo", {"threadId": 2}, "nothing has failed"),
                ("setExceptionBreakpoints", {"filters": ["all"]}, "unknown filter 'all'"),
                ("setExceptionBreakpoints", {"filters": [3]}, "a list of strings"),
                ("setBreakpoints", {"source": {}, "breakpoints": [3]}, "a list of objects"),
                ("evaluate", {"expression": "quit"}, "Disconnect"),
                ("evaluate", {"expression": "x\n" * 2_000}, "2000 lines at once"),
                ("evaluate", {"expression": "x", "context": "hover"}, "is not a register"),
                (
                    "evaluate",
                    {"expression": "reg nobody 0 = 1", "context": "watch"},
                    "word 2, 'nobody'",
                ),
                ("evaluate", {"expression": "step 0", "context": "hover"}, "is not a register"),
                ("stepInTargets", {"frameId": 2}, "is not supported"),
            ]
            for command, asked, text in wrong:
                with self.subTest(command, asked=str(asked)[:60]):
                    self.assertIn(text, client.refused(command, asked))
            self.assertEqual(client.place(), 0)

    def test_any_arguments_get_an_answer(self) -> None:
        chance = random.Random(5)
        values: List[Any] = [
            None,
            True,
            -1,
            2,
            1e9,
            "",
            "r0",
            "0",
            [],
            [{}],
            {},
            {"path": str(LOST)},
        ]
        keys = ["threadId", "frameId", "variablesReference", "name", "value", "source", "line"]
        keys += ["breakpoints", "filters", "expression", "text", "column", "targetId", "start"]
        ending = {"disconnect", "terminate", "restart", "launch", "attach"}
        commands = sorted(set(REQUESTS) - ending)
        with editor() as client:
            client.begin(LOST, limit=50)
            for _ in range(250):
                asked = {key: chance.choice(values) for key in chance.sample(keys, 5)}
                answer = client.answer(client.send(chance.choice(commands), asked))
                self.assertIsInstance(answer["success"], bool)
            self.assertGreaterEqual(client.place(), 0)


if __name__ == "__main__":
    unittest.main()
