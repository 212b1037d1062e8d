"""Who started a room frees the wheel of one who is idle, by what is typed there."""
import contextlib
import os
import pathlib
import signal
import subprocess
import time
import unittest
from typing import Sequence

from tests.rooms import LOST, Caller, Process, free_port, room, rows, talk
from tests.shell_terminal import Terminal
from tests.strangers import Clock, before

IDLE = "the room's owner freed the wheel: ada has been idle for {}"
AWAY = "the room's owner freed the wheel: ada is away"


# The module of a room that tells who is idle.
IDLE_CLOCK = "rdbg.rooms.member"


def says(here: Process, *lines: str) -> str:
    """What a room says to lines of its standard input: the next line that it prints."""
    assert here.process.stdin is not None and here.process.stdout is not None
    here.process.stdin.write("".join(f"{line}\n" for line in lines))
    here.process.stdin.flush()
    return here.process.stdout.readline().rstrip("\n")


def resident(process: int) -> int:
    """How many KiB of memory a process has."""
    status = pathlib.Path(f"/proc/{process}/status").read_text()
    return int(status.partition("VmRSS:")[2].split()[0])


class Free(unittest.TestCase):
    """`free`, by a pipe."""

    def test_one_who_is_idle(self) -> None:
        pipe = subprocess.PIPE
        with contextlib.ExitStack() as stack:
            file, clock = stack.enter_context(talk()), stack.enter_context(Clock(IDLE_CLOCK))
            words = ["--talk", str(file), "--idle", "1"]
            here = stack.enter_context(room(*words, keys=pipe, head=before(clock.action)))
            with Caller(here.port, "ada") as ada, Caller(here.port, "bo") as bo:
                self.assertEqual(says(here, "free"), "# no: nobody has the wheel")
                ada.ask("wheel take")
                bo.ask("watch count jobs > 0")
                refused = "ada has the wheel and is not idle: its last line came 0 seconds ago"
                self.assertEqual(says(here, "free"), f"# no: {refused}, and the limit is 1 second")
                self.assertEqual(bo.ask("step 0"), "no Held 1")
                self._wait_with_looks(ada, clock)
                told = IDLE.format("1 second")
                self.assertEqual(says(here, "free"), f"# {told}")
                for each in (ada, bo):
                    self.assertEqual(each.expect("# the room's"), f"# {told}")
                self.assertEqual(bo.ask("step 0"), "ok at 1")
                self.assertEqual(ada.ask("step 1"), "ok at 2")
            self.assertEqual(here.end(), 0)
            kept = [(line, reply) for who, line, reply in rows(file) if who == "room"]
            self.assertIn(("# free", told), kept)
            self.assertIn(("# free", f"no: {refused}, and the limit is 1 second"), kept)

    def _wait_with_looks(self, ada: Caller, clock: Clock) -> None:
        """Lets more than a second pass, while a prompt looks by itself: who is at it is idle."""
        for _ in range(4):
            clock.move(0.3)
            ada.send("# does")
            ada.ask("show cores")
            ada.send("# did")

    def test_one_who_says_something(self) -> None:
        with Clock(IDLE_CLOCK) as clock, contextlib.ExitStack() as stack:
            words, pipe = ["--idle", "2"], subprocess.PIPE
            here = stack.enter_context(room(*words, keys=pipe, head=before(clock.action)))
            ada = stack.enter_context(Caller(here.port, "ada"))
            bo = stack.enter_context(Caller(here.port, "bo"))
            ada.ask("wheel take")
            for line, hears, answer in (
                ("show cores", ada, "cores "),
                ("# who", ada, "# here: ada"),
                ("x", ada, "no "),
                ("# say still here", bo, "# ada says: still here"),
            ):
                clock.move(0.8)
                ada.send(line)
                hears.expect(answer)
                self.assertRegex(says(here, "free"), "^# no: ada has the wheel and is not idle: ")

    def test_a_minute_where_nothing_else_is_said(self) -> None:
        with room(keys=subprocess.PIPE) as here, Caller(here.port, "ada") as ada:
            ada.ask("wheel take")
            self.assertRegex(says(here, "free"), "came 0 seconds ago, and the limit is 60 seconds$")

    def test_one_who_is_away(self) -> None:
        with room(keys=subprocess.PIPE) as here, Caller(here.port, "bo") as bo:
            with Caller(here.port, "ada") as ada:
                ada.ask("wheel take")
            bo.expect("# ada is away and still has the wheel")
            self.assertEqual(says(here, "# free"), f"# {AWAY}")
            self.assertEqual(bo.expect("# the room's"), f"# {AWAY}")
            self.assertEqual(bo.ask("tick"), "ok at 1")

    def test_a_pipe_that_says_something_else_and_ends(self) -> None:
        with room(keys=subprocess.PIPE) as here, Caller(here.port, "ada") as ada:
            self.assertEqual(says(here, "", "fly", "quit", "free"), "# no: nobody has the wheel")
            assert here.process.stdin is not None
            here.process.stdin.close()
            here.process.stdin = None
            time.sleep(0.2)
            self.assertEqual(ada.ask("tick"), "ok at 1")
            self.assertEqual(here.end(), 0)
            self.assertRegex(here.output, r"^(# .*\n)*closed \d+\n$")

    def test_no_standard_input(self) -> None:
        for instead in ("&-", "/dev/null", LOST):
            head = ["bash", "-c", f'exec "$@" <{instead}', "room"]
            with self.subTest(instead), room(head=head) as here, Caller(here.port, "ada") as ada:
                self.assertEqual(ada.ask("tick"), "ok at 1")
                self.assertEqual(here.end(), 0)

    def test_a_standard_input_without_end(self) -> None:
        for source in ("yes", "cat /dev/zero"):
            head = ["bash", "-c", f'exec "$@" < <(exec {source})', "room"]
            with self.subTest(source), room(head=head) as here, Caller(here.port, "ada") as ada:
                began = resident(here.process.pid)
                time.sleep(1.0)
                self.assertEqual(ada.ask("tick"), "ok at 1")
                self.assertLess(resident(here.process.pid), began + 8_192)
                self.assertEqual(here.end(), 0)

    def test_nobody_is_called_as_the_room(self) -> None:
        with room() as here, Caller(here.port, "ada") as ada:
            ada.send("# name room")
            ada.expect("# no: 'room' is not a valid name: the room uses this word itself")


class AtATerminal(unittest.TestCase):
    """`free`, where a terminal is the room's."""

    def terminal(self, *words: str, head: Sequence[str]) -> Terminal:
        """A terminal with a room, once that listens."""
        found = Terminal(
            LOST, "--port", str(self.port), *words, environment={}, head=head, name="room"
        )
        self.addCleanup(found.kill)
        self.before = found.expect(f"listening {self.port}\n")
        return found

    def setUp(self) -> None:
        self.port = free_port()

    def test_what_is_typed(self) -> None:
        clock = Clock(IDLE_CLOCK)
        self.addCleanup(clock.__exit__)
        terminal = self.terminal("--idle", "1", head=before(clock.action))
        usage = "# type `free` to free the wheel if its holder is away, or idle for 1 second\n"
        terminal.expect(usage)
        with Caller(self.port, "ada") as ada:
            ada.ask("wheel take")
            terminal.type("fly\n")
            terminal.expect(usage)
            clock.move(1.1)
            terminal.type("free\n")
            terminal.expect(f"# {IDLE.format('1 second')}\n")
            ada.expect("# the room's owner freed the wheel: ada")
            terminal.type("\x04")
            self.assertEqual(ada.ask("tick"), "ok at 1")
            terminal.type("\x03")
            terminal.expect(r"closed \d+\n")
            self.assertEqual(terminal.end(), 0)

    def test_in_the_background_of_a_terminal(self) -> None:
        head = ["bash", "-c", 'set -m; "$@" & echo "process $!"; wait', "room"]
        terminal = self.terminal(head=head)
        process = int(self.before.split()[1])
        try:
            terminal.type("free\n")
            time.sleep(0.5)
            with Caller(self.port, "ada") as ada:
                self.assertEqual(ada.ask("tick"), "ok at 1")
        finally:
            os.kill(process, signal.SIGTERM)
        terminal.expect(r"closed \d+\n")


if __name__ == "__main__":
    unittest.main()
