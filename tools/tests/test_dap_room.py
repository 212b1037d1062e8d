"""`rdbg dap` in a room: what others do is told at once, under names."""
import contextlib
import socket
import subprocess
import sys
import unittest
from typing import Any, Callable, Iterator, List

from rdbg import main
from rdbg.client import Session
from tests.dap_client import editor
from tests.dap_schema import Held
from tests.paths import COMPANION, EXAMPLES

LOST = str(EXAMPLES / "lost_item.json")
attach: Callable[..., Session] = Session.attach


@contextlib.contextmanager
def room() -> Iterator[int]:
    """The port of a room on the example."""
    with socket.socket() as free:
        free.bind(("127.0.0.1", 0))
        port = free.getsockname()[1]
    words = [sys.executable, "-B", str(COMPANION), "room", LOST, "--port", str(port)]
    process = subprocess.Popen(words, stdout=subprocess.PIPE)
    assert process.stdout is not None
    try:
        assert process.stdout.readline().startswith(b"listening")
        yield port
    finally:
        process.terminate()
        process.wait(60)
        process.stdout.close()


@unittest.skipUnless("room" in main.names(), "rdbg room isn't a companion here")
class Rooms(Held):
    """An editor beside a terminal in a room."""

    def test_what_another_does_is_told_at_once(self) -> None:
        heard: List[str] = []
        with room() as port, attach(port, "left") as left, editor() as client:
            there: Any = left
            there.on_notice = heard.append
            client.ask("initialize")
            client.ask("attach", {"port": port, "program": LOST, "as": "ed"})
            client.stopped("configurationDone")
            client.stopped("next", threadId=client.thread("producer"))
            left.tell("step 0")
            stop = client.event("stopped")
            self.assertEqual(stop["description"].split(",")[0], "left: step 0 -> ok at 2")
            self.assertEqual(client.place(), 2)
            self.assertTrue(any(it.startswith("# ed: step 1 -> ok at 1") for it in heard), heard)
            client.typed("# say here it was")
            left.tell("wheel take")
            self.assertIn("# ed says: here it was", heard)
            self.assertIn("no Held", client.refused("next", threadId=3))
            left.tell("wheel give")
            asked = [{"name": "count jobs > 0"}]
            client.ask("setFunctionBreakpoints", breakpoints=asked)
            client.send("continue", threadId=3)
            while client.event("stopped")["reason"] != "function breakpoint":
                pass
            self.assertEqual(left.tell("show wheel"), "wheel -")
            client.ask("disconnect")


if __name__ == "__main__":
    unittest.main()
