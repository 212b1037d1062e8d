"""`rdbg dap --port` where the system says of nobody who it is: a token lets an editor in."""
import contextlib
import os
import pathlib
import re
import signal
import stat
import unittest
from typing import Iterator, Tuple

from rdbg.adapter.listening import MOST, MOST_SILENT, SECONDS
from tests.adapter_port import INITIALIZE, PATIENCE, Port, framed, listening, rest
from tests.paths import EXAMPLES
from tests.strangers import IS_ROOT, UNTOLD, Clock, before, told_nobody

LOST = str(EXAMPLES / "lost_item.json")
SAID = re.compile(
    "rdbg dap: this system does not tell which user made a connection:"
    r" `launch` and `attach` need as `token` the contents of (\S+)\n"
)
WANTED = "`launch` or `attach` must pass the `token` that `rdbg dap` named when it started"


@contextlib.contextmanager
def asking(*more: str) -> Iterator[Tuple[Port, pathlib.Path]]:
    """An adapter that asks for a token, and the file that has it."""
    with listening(head=before("; ".join([UNTOLD, *more]))) as port:
        assert port.process.stderr is not None
        said = SAID.fullmatch(port.process.stderr.readline().decode())
        assert said is not None
        yield port, pathlib.Path(said[1])


class Token(unittest.TestCase):
    """Who says it is let in, and nobody else."""

    def test_it_stands_in_a_file_of_the_user_alone(self) -> None:
        with asking() as (port, file):
            self.assertEqual(port.listening, f"listening {port.number}\n")
            self.assertEqual(0o600, stat.S_IMODE(file.stat().st_mode))
            self.assertEqual(0o700, stat.S_IMODE(file.parent.stat().st_mode))
            self.assertRegex(file.read_text(), r"^[\w-]{24}\n$")
            port.process.send_signal(signal.SIGTERM)
            port.process.wait(PATIENCE)
            self.assertFalse(file.parent.exists())

    def test_nothing_is_answered_before_it(self) -> None:
        with asking() as (port, file), port.editor() as client:
            token = file.read_text().strip()
            self.assertTrue(client.ask("initialize")["supportsStepBack"])
            for command in ("threads", "configurationDone", "restart", "disconnect", "nothing"):
                self.assertEqual(WANTED, client.refused(command, token=token))
            for wrong in ("", token[:-1], f"{token}x", "\u00e9", None):
                self.assertEqual(WANTED, client.refused("launch", program=LOST, token=wrong))
            self.assertEqual(WANTED, client.refused("launch", program=LOST))
            self.assertEqual(WANTED, client.refused("attach", port=port.number))
            number = "launch: token must be a string, not a number"
            self.assertEqual(number, client.refused("launch", token=1))
            said = client.refused("evaluate", expression="save made.commands", context="repl")
            self.assertEqual(WANTED, said)
            client.ask("initialize")
            client.ask("launch", program=LOST, token=token)
            client.event("initialized")
            client.stopped("configurationDone")
            self.assertEqual("ok at 1", client.typed("tick").splitlines()[0])
            # (another one has to say it itself)
            with port.editor() as other:
                self.assertEqual(WANTED, other.refused("threads"))

    def test_attach_says_it_too(self) -> None:
        with asking() as (port, file), port.editor() as client:
            client.ask("initialize")
            said = client.refused("attach", port=1, token=file.read_text().strip())
            self.assertEqual("cannot attach to port 1: nobody listens there", said)
            # (it was said)
            client.ask("launch", program=LOST)

    def test_others_are_not_asked_for_it(self) -> None:
        with listening() as port, port.editor() as client:
            client.ask("initialize")
            client.ask("launch", program=LOST, token="whatever")

    def test_who_does_not_say_it_takes_no_place(self) -> None:
        with asking() as (port, file), contextlib.ExitStack() as stack:
            token = file.read_text().strip()
            for _ in range(MOST + MOST_SILENT):
                client = stack.enter_context(port.editor())
                client.ask("initialize")
            with port.editor() as client:
                client.ask("initialize")
                client.ask("launch", program=LOST, token=token)

    def test_who_does_not_say_it_soon_is_closed(self) -> None:
        with Clock("rdbg.door") as clock, contextlib.ExitStack() as stack:
            port, file = stack.enter_context(asking(clock.action))
            other = stack.enter_context(port.connect())
            client = stack.enter_context(port.editor())
            client.ask("launch", program=LOST, token=file.read_text().strip())
            other.sendall(framed(INITIALIZE))
            self.assertIn(b"Content-Length", other.recv(20))
            clock.move(SECONDS + 1)
            self.assertEqual(1, rest(other).count(b'"success": true'))
            client.event("initialized")
            client.stopped("configurationDone")

    @IS_ROOT
    def test_another_user_does_nothing(self) -> None:
        launch = {"seq": 2, "type": "request", "command": "launch", "arguments": {}}
        with asking() as (port, file):
            answer = told_nobody(port.number, framed(INITIALIZE, launch))
            self.assertEqual(1, answer.count(b'"success": true'))
            self.assertEqual(1, answer.count(b'"success": false'))
            self.assertEqual(0, os.stat(file).st_uid)


if __name__ == "__main__":
    unittest.main()
