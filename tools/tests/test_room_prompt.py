"""`rdbg sh --port P --name NAME`: terminals and filters in a room."""
import os
import signal
import subprocess
import sys
import tempfile
import unittest

from tests.paths import COMPANION
from tests.rooms import LOST, Caller, room
from tests.shell_terminal import PROMPT, Terminal
from tests.test_shell_port import server


class Prompts(unittest.TestCase):
    """`rdbg sh --port P --name NAME`."""

    def test_two_terminals(self) -> None:
        with room() as here, tempfile.TemporaryDirectory() as folder:
            environment = {"RDBG_HISTORY": os.path.join(folder, "history")}
            words = ["--port", str(here.port), LOST, "--name"]
            left = Terminal(*words, "left", environment=environment)
            left.expect(PROMPT)
            right = Terminal(*words, "right", environment=environment)
            try:
                left.expect(r"# right joined, session 2\n" + PROMPT)
                right.expect(PROMPT)
                right.type("show mo")
                right.expect("show mo")
                self.assertIn("# producer 0 data 41\n", left.ask("step 1"))
                # (the other's move comes above what is typed, which stays, behind the new place)
                right.expect(r"# left: step 1 -> ok at 1, producer 0 data 41\n\(rdbg 1\) show mo")
                self.assertIn("moves 1 undone 0 kept 1", right.ask("ves"))
                left.ask("step 1")
                right.expect(r"# left: step 1 -> ok at 2, .*\n\(rdbg 2\) ")
                self.assertRegex(right.ask(""), r"\(rdbg 2\) $")
                left.ask("wheel take")
                right.expect(r"# left: wheel take -> ok wheel\n" + PROMPT)
                self.assertIn("# left has the wheel: '# wheel' asks for it", right.ask("step 0"))
                self.assertIn("# right asks for the wheel", right.ask("# wheel"))
                left.expect(r"# right asks for the wheel\n" + PROMPT)
                left.ask("wheel give")
                right.expect(r"# left: wheel give -> ok wheel\n" + PROMPT)
                self.assertIn("ok wheel", right.ask("wheel take"))
                for terminal in (left, right):
                    terminal.type("\x04")
                    self.assertEqual(terminal.end(), 0)
            finally:
                left.kill()
                right.kill()
            self.assertEqual(here.end(), 0)

    def test_the_prompt_has_the_place_that_others_moved_to(self) -> None:
        with room() as here, Caller(here.port, "left") as left:
            words = ["--port", str(here.port), LOST, "--name", "right"]
            right = Terminal(*words, environment={"RDBG_HISTORY": ""})
            try:
                right.expect(PROMPT)
                right.type("ow wheel")
                right.expect("ow wheel")
                # (a number with one more digit leaves what is typed where readline knows it)
                for line, place in (("forward 9", 9), ("tick", 10), ("back 8", 2), ("redo 1", 3)):
                    left.ask(line)
                    right.expect(rf"# left: {line} -> ok at {place}\b")
                    right.expect(rf"\n\(rdbg {place}\) ow wheel")
                right.type("\x01sh\x05\n")
                right.expect(r"\nwheel -\n")
            finally:
                right.kill()

    def test_no_line_is_lost_while_others_move(self) -> None:
        with room() as here, Caller(here.port, "left") as left:
            words = ["--port", str(here.port), LOST, "--name", "right"]
            right = Terminal(*words, environment={"RDBG_HISTORY": ""})
            try:
                right.expect(PROMPT)
                for number in range(20):
                    left.send("tick", "back 1")
                    for key in f"watch tick = {number}\n":
                        right.type(key)
                        left.send("show cores")
                    left.send("tick", "back 1")
                right.expect("ok watch 15\n")
                right.expect("no WatchesFull")
            finally:
                right.kill()

    def test_a_terminal_ends_with_the_room(self) -> None:
        ends = (
            (signal.SIGINT, r"closed \d+"),
            (signal.SIGKILL, "the server at port .* has closed"),
        )
        for number, how in ends:
            with self.subTest(number), room() as here:
                words = ["--port", str(here.port), LOST, "--name", "left"]
                left = Terminal(*words, environment={"RDBG_HISTORY": ""})
                try:
                    left.expect(PROMPT)
                    left.type("show mo")
                    left.expect("show mo")
                    here.end(number)
                    said = left.expect(rf"\x1b\[Krdbg sh: the room has ended: {how}.*\n")
                    self.assertEqual(said.count("ended"), 1)
                    self.assertNotIn("(rdbg", said)
                    self.assertEqual(left.end(), 1)
                    self.assertEqual(left.screen, "")
                finally:
                    left.kill()

    def test_a_filter_ends_with_the_room(self) -> None:
        for number in (signal.SIGTERM, signal.SIGKILL):
            with self.subTest(number), room() as here, Caller(here.port, "right") as right:
                words = ["sh", "--port", str(here.port), "--name", "left", LOST]
                pipe = subprocess.PIPE
                left = subprocess.Popen(
                    [sys.executable, "-B", str(COMPANION), *words],
                    stdin=pipe,
                    stdout=pipe,
                    stderr=pipe,
                    text=True,
                )
                assert left.stdin is not None and left.stdout is not None
                left.stdin.write("step 1\nshow wheel")
                left.stdin.flush()
                self.assertIn("# you are left, ", left.stdout.readline())
                self.assertEqual(left.stdout.readline(), "ok at 1\n")
                # (what others do is printed while no line comes)
                right.ask("step 1")
                self.assertIn("# right: step 1 -> ok at 2, ", left.stdout.readline())
                here.end(number)
                self.assertEqual(left.wait(30), 1)
                _, errors = left.communicate()
                self.assertRegex(errors, r"^rdbg sh: the room has ended: .*\n$")

    def test_a_lost_terminal_comes_back(self) -> None:
        with room() as here, Caller(here.port, "right") as right:
            environment = {"RDBG_HISTORY": ""}
            words = ["--port", str(here.port), LOST, "--name", "left"]
            left = Terminal(*words, environment=environment)
            try:
                left.expect(PROMPT)
                self.assertIn("ok wheel", left.ask("wheel take"))
                self.assertIn("ok watch 0", left.ask("break count jobs > 0"))
            finally:
                left.kill()
            right.expect("# left is away and still has the wheel")
            self.assertEqual(right.ask("step 0"), "no Held 2")
            again = Terminal(*words, environment=environment)
            try:
                again.expect(PROMPT)
                self.assertIn("watches 0:fails", again.ask("show watches"))
                self.assertIn("ok at 1", again.ask("step producer"))
            finally:
                again.kill()

    def test_a_server_that_is_no_room(self) -> None:
        with server() as (port, _):
            words = ["sh", "--port", str(port), "--name", "left"]
            ran = subprocess.run(
                [sys.executable, "-B", str(COMPANION), *words], stderr=subprocess.PIPE, text=True
            )
            self.assertEqual(ran.returncode, 2)
            why = f"the server at port {port} knows no names: it isn't of rdbg room"
            self.assertEqual(ran.stderr, f"rdbg sh: {why}\n")

    def test_a_filter(self) -> None:
        lines = (
            "set moves on\nstep producer\n# core 1 is faster\n# who\nforward 2\nback 1\nmoves 1\n"
        )
        with room() as here:
            words = ["sh", "--port", str(here.port), "--name", "left", LOST]
            ran = subprocess.run(
                [sys.executable, "-B", str(COMPANION), *words],
                input=lines,
                stdout=subprocess.PIPE,
                stderr=subprocess.PIPE,
                text=True,
            )
            self.assertEqual(ran.stderr, "")
            self.assertEqual(
                [line.partition(" (")[0].partition(",")[0] for line in ran.stdout.splitlines()],
                [
                    "# you are left",
                    "ok at 1",
                    "# producer 0 data 41",
                    "# here: left",
                    "ok at 3",
                    "# 2  tick 1",
                    "# 3  core 0  worker 0 recv jobs max",
                    "ok at 2",
                    "# at 2",
                    "# .. 1 move before these",
                    "# 2  tick 1",
                    "# at 2; `redo` can repeat 1 undone move",
                ],
            )

    def test_a_name_that_is_here(self) -> None:
        with room() as here, Caller(here.port, "left"):
            words = [sys.executable, "-B", str(COMPANION), "sh", "--port", str(here.port), "--name"]
            for name, why in (("left", "left is already here"), ("L", "'L' is not a valid name: ")):
                ran = subprocess.run([*words, name], stderr=subprocess.PIPE, text=True)
                self.assertEqual(ran.returncode, 2)
                self.assertIn(f"rdbg sh: the server at port {here.port}: {why}", ran.stderr)


if __name__ == "__main__":
    unittest.main()
