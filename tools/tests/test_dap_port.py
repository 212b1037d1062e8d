"""`rdbg dap` attached to a server that others move too, at a port of its own, and paused."""
import contextlib
import socket
import subprocess
import sys
import time
import unittest
from typing import Iterator, List, Tuple

from rdbg.client import Session
from tests.dap_client import ALL, Client, Message, editor, held_run, started
from tests.dap_schema import Held
from tests.paths import COMPANION, EXAMPLES
from tests.rooms import free_port
from tests.started import processor_seconds
from tests.test_shell_port import server

LOST = EXAMPLES / "lost_item.json"


@contextlib.contextmanager
def two(file: bool = True) -> Iterator[Tuple[Client, Session]]:
    """An editor, and another session at one server."""
    with server() as (port, _), Session.attach(port) as other, editor() as client:
        other.tell("show moves")
        client.ask("initialize")
        client.ask("attach", port=port, program=str(LOST) if file else None)
        client.event("initialized")
        yield client, other


class Attached(Held):
    """An editor beside another session."""

    def test_moves_by_both(self) -> None:
        with two() as (client, other):
            other.tell("step 1")
            stop = client.stopped("configurationDone")
            self.assertEqual((stop["reason"], stop["description"]), ("entry", "attached at 1"))
            stop = client.stopped("next", threadId=client.thread("producer"))
            self.assertEqual(stop["description"].split(",")[0], "at 2: producer 1 send jobs 0 -> 1")
            other.tell("step 0")
            stop = client.stopped("stepBack", threadId=2)
            self.assertIn("another session moved the target from 2 to 3", client.output())
            self.assertEqual(stop["description"][:30], "at 2, before: worker 0 recv jo")
            self.assertEqual(other.tell("show wheel"), "wheel -")
            self.assertEqual(other.tell("show moves"), "moves 2 undone 1 kept 2")
            client.lines(LOST, 8)
            stop = client.stopped("continue", threadId=2)
            self.assertEqual(stop["hitBreakpointIds"], [1])
            self.assertEqual(other.tell("show wheel"), "wheel -")
            place = client.place()
            client.ask("disconnect")
            self.assertEqual(other.tell("tick"), f"ok at {place + 1}")

    def test_restart_moves_no_target_of_others(self) -> None:
        with server() as (port, _), Session.attach(port) as other, editor() as client:
            offered = client.ask("initialize")
            self.assertTrue(offered["supportsRestartRequest"])
            client.ask("attach", port=port, program=str(LOST))
            told = client.event("capabilities")["capabilities"]
            off = {"supportsRestartRequest": False, "supportsTerminateRequest": False}
            self.assertEqual(told, off)
            self.assertIn("cannot end a target at a port", client.refused("terminate"))
            client.stopped("configurationDone")
            other.tell("forward 5")
            arguments: List[Message] = [{}, {"arguments": {"program": str(LOST)}}]
            for more in arguments:
                said = client.refused("restart", more)
                self.assertIn("because others share it", said)
                self.assertIn("Reverse goes back to its start", said)
            self.assertEqual(other.tell("show moves"), "moves 5 undone 0 kept 5")
            self.assertEqual(other.tell("show wheel"), "wheel -")

    def test_restart_behind_an_attach_that_was_refused(self) -> None:
        with editor() as client:
            client.ask("initialize")
            client.refused("attach", port=free_port())
            client.ask("launch", program=str(LOST))
            client.event("initialized")
            client.stopped("configurationDone")
            client.stopped("next", threadId=client.thread("producer"))
            self.assertEqual(client.stopped("restart")["description"], "at 0: the start")
            self.assertEqual(client.typed("show moves"), "moves 0 undone 0 kept 0")

    def test_a_wheel_that_another_has_is_told(self) -> None:
        with two() as (client, other):
            client.stopped("configurationDone")
            other.tell("wheel take")
            for command in ("next", "continue", "reverseContinue", "stepBack", "stepOut"):
                said = client.refused(command, threadId=2)
                self.assertIn("rdbg replied no Held 1: session 1 holds the wheel", said)
                self.assertEqual(client.event("stopped")["description"], "still at 0")
            reference = client.scope(2, "Registers")
            asked = {"variablesReference": reference, "name": "r0", "value": "3"}
            self.assertIn("no Held 1", client.refused("setVariable", asked))
            self.assertIn("no Held 1", client.typed("step 0"))
            self.assertEqual(client.within(reference)["r0"]["value"], "0")
            other.tell("wheel give")
            self.assertEqual(client.stopped("next", threadId=2)["reason"], "step")

    def test_without_a_file_there_is_no_source(self) -> None:
        with two(file=False) as (client, other):
            stop = client.stopped("configurationDone")
            frame = client.frame(stop["threadId"])
            self.assertEqual((frame["name"], frame["line"]), ("worker 0", 0))
            self.assertFalse(client.lines(LOST, 6)[0]["verified"])
            asked = {"breakpoints": [{"name": "count jobs > 0"}]}
            client.ask("setFunctionBreakpoints", asked)
            self.assertIn("count jobs > 0", client.stopped("continue", threadId=2)["description"])
            self.assertIn(
                "poller", [it["name"].split(":")[0] for it in client.ask("threads")["threads"]]
            )

    def test_a_file_of_another_application(self) -> None:
        with server() as (port, _), editor() as client:
            client.ask("initialize")
            turns = str(EXAMPLES / "turns.json")
            said = client.refused("attach", port=port, program=turns)
            self.assertIn("is not the model of the server", said)

    def test_a_server_that_ends(self) -> None:
        with server() as (port, process), editor() as client:
            client.ask("initialize")
            client.ask("attach", port=port)
            client.stopped("configurationDone")
            process.kill()
            process.wait()
            client.event("terminated")
            self.assertIn("has closed the connection", " ".join(client.output()))
            self.assertIn("no debug session yet", client.refused("next", threadId=2))


class Ports(Held):
    """A port at which editors connect."""

    def test_two_editors_at_one_port(self) -> None:
        with socket.socket() as free:
            free.bind(("127.0.0.1", 0))
            port = free.getsockname()[1]
        words = [sys.executable, "-B", str(COMPANION), "dap", "--port", str(port)]
        with subprocess.Popen(words, stdout=subprocess.PIPE) as process:
            assert process.stdout is not None
            self.assertEqual(process.stdout.readline(), b"listening %d\n" % port)
            with contextlib.ExitStack() as stack:
                clients = []
                for _ in range(2):
                    here = stack.enter_context(socket.create_connection(("127.0.0.1", port)))
                    lines = stack.enter_context(here.makefile("wb"))
                    clients.append(Client(stack.enter_context(here.makefile("rb")), lines))
                ALL.extend(clients)
                for client in clients:
                    client.begin(LOST)
                clients[0].stopped("next", threadId=2)
                self.assertEqual([client.place() for client in clients], [1, 0])
                self.assertEqual(clients[1].typed("step 1").splitlines()[0], "ok at 1")
            process.kill()

    def test_a_port_that_is_taken(self) -> None:
        with socket.socket() as taken:
            taken.bind(("127.0.0.1", 0))
            taken.listen()
            port = taken.getsockname()[1]
            with started("--port", str(port)) as client:
                self.assertEqual(client.process.wait(30), 2)
                assert client.process.stderr is not None
                said = client.process.stderr.read().decode()
                self.assertIn(f"cannot listen at port {port}: Address already in use", said)


class Pauses(Held):
    """A run that would be long."""

    def test_a_pause_is_answered_soon(self) -> None:
        with editor() as client:
            client.begin(EXAMPLES / "turns.json", limit=1_000_000, moves=1_000_000)
            names = [it["name"] for it in client.ask("threads")["threads"]][1:]
            asked = [{"name": f"reg {it.split(':')[0]} 7 > 1"} for it in names for _ in range(30)]
            client.ask("setFunctionBreakpoints", breakpoints=asked)
            client.ask("continue", threadId=2)
            time.sleep(0.02)
            self.assertEqual(
                client.refused("stackTrace", threadId=2), "the target is running: pause it first"
            )
            self.assertIn("time", client.ask("threads")["threads"][0]["name"])
            began = processor_seconds()
            client.ask("pause", threadId=2)
            stop = client.event("stopped")
            self.assertLess(processor_seconds() - began, 5)
            self.assertEqual(stop["reason"], "pause")
            self.assertIn("paused", stop["description"])
            self.assertLess(client.place(), 1_000_000)

    def test_breakpoints_that_are_set_meanwhile_count(self) -> None:
        with editor() as client:
            client.begin(EXAMPLES / "turns.json", limit=1_000_000, moves=1_000_000)
            with held_run() as goes_on:
                client.ask("continue", threadId=2)
                client.ask("setFunctionBreakpoints", breakpoints=[{"name": "tick = 2000"}])
                goes_on.set()
                stop = client.event("stopped")
            self.assertEqual(stop["reason"], "function breakpoint")

    def test_the_end_comes_while_it_runs(self) -> None:
        with started() as client:
            client.begin(EXAMPLES / "turns.json", limit=1_000_000, moves=1_000_000)
            client.ask("continue", threadId=2)
            client.ask("disconnect")
            self.assertEqual(client.process.wait(30), 0)


if __name__ == "__main__":
    unittest.main()
