"""`rdbg sh --port P`: others move the target too."""
import contextlib
import io
import os
import pathlib
import random
import socket
import subprocess
import tempfile
import unittest
from typing import Iterator, List, Optional, Tuple
from unittest import mock

from rdbg.client import Session, program
from rdbg.failure import Failure
from rdbg.main import main
from rdbg.driving.interrupt import Interrupt
from rdbg.driving.opening import attach
from rdbg.shell.shell import Shell
from rdbg.files.source import load
from tests.paths import EXAMPLES
from tests.shell_talk import both, example, said

LOST = str(EXAMPLES / "lost_item.json")


@contextlib.contextmanager
def server(sessions: int = 2, path: str = LOST) -> "Iterator[Tuple[int, subprocess.Popen[bytes]]]":
    """A port at which the example is served, and the process that does."""
    with socket.socket() as free:
        free.bind(("127.0.0.1", 0))
        port = free.getsockname()[1]
    words = ["serve", "--app", path, "--port", str(port), "--sessions", str(sessions)]
    process = subprocess.Popen([program(), *words], stdout=subprocess.PIPE)
    assert process.stdout is not None
    try:
        assert process.stdout.readline().startswith(b"listening")
        yield port, process
    finally:
        process.kill()
        process.wait()
        process.stdout.close()


@contextlib.contextmanager
def two(path: Optional[str] = LOST) -> Iterator[Tuple[Shell, Session]]:
    """A shell and another session at one server."""
    source = load(path) if path else None
    with server(path=path or LOST) as (port, _):
        shell = Shell(attach(port, source), source, Interrupt())
        with shell.target.session, Session.attach(port) as other:
            yield shell, other


class Attached(unittest.TestCase):
    """A shell beside another session."""

    def test_single_moves_by_looks_alone(self) -> None:
        with two() as (shell, other):
            answers = said(shell, "set moves on", "set echo on", "step 1", "set echo off")
            self.assertEqual(answers[-1], "# producer 0 data 41")
            self.assertFalse([line for line in answers if "back" in line or "wheel" in line])
            other.tell("step 0")
            self.assertEqual(
                said(shell, "step 1")[-1].split(",")[0], "# producer 1 send jobs 0 -> 1"
            )
            self.assertEqual(said(shell, "show moves"), ["moves 3 undone 0 kept 3"])

    def test_runs_with_the_wheel_for_as_long(self) -> None:
        with two() as (shell, other):
            answers = said(shell, "set moves on", "forward 5")
            self.assertEqual(len(answers), 6)
            self.assertEqual(other.tell("show wheel"), "wheel -")
            other.tell("step 1")
            answers = said(shell, "until! phase producer ended", "moves 2", "show wheel")
            self.assertEqual(answers[-1], "wheel -")
            self.assertRegex(answers[-2], "^# at ")

    def test_only_what_a_move_can_change_is_looked_at(self) -> None:
        with two() as (shell, other):
            said(shell, "set moves on", "where")
            lines = shell.target.lines
            self.assertEqual(said(shell, "step 1")[-1], "# producer 0 data 41")
            self.assertEqual(shell.target.lines - lines, 9)
            self.assertEqual(said(shell, "poke reg poller 2 5")[-1], "# poke reg poller 2 5")
            # (others have moved core 1 since: all is looked at)
            other.tell("step 1")
            moved = "# another session moved the target: 2 -> 3"
            ended = "# producer 2 end, left core 1 (ended), poller took core 1"
            self.assertEqual(said(shell, "step 1"), [moved, "ok at 4", ended])
            self.assertEqual(said(shell, "tick"), ["ok at 5", "# tick 1"])

    def test_what_is_told_is_what_whole_looks_tell(self) -> None:
        chance = random.Random(3)
        for name in ("lost_item", "pipeline", "barrier", "uart", "lost_notification"):
            path = str(EXAMPLES / f"{name}.json")
            with self.subTest(name), two(path) as (shell, _), example(name) as own:
                said(shell, "set moves on", "where")
                said(own, "set moves on", "where")
                for _ in range(25):
                    line = chance.choice(["step 0", "step 1", "tick", "s 1", "back 1", "s 2"])
                    self.assertEqual(both(shell, line), both(own, line))

    def test_moves_by_others_are_told(self) -> None:
        moved = "# another session moved the target: {} -> {}"
        with two() as (shell, other):
            list(other.tell_all(["step 0", "step 1", "tick"]))
            self.assertEqual(said(shell, "step 0"), [moved.format(0, 3), "ok at 4"])
            self.assertEqual(said(shell, "step 1"), ["ok at 5"])
            other.tell("back 2")
            self.assertEqual(said(shell, "where")[0], moved.format(5, 3))
            self.assertEqual(said(shell, "show cores")[1:], [])
            shell.is_terminal = True
            other.tell("tick")
            self.assertEqual(said(shell, "show cores")[1:], [moved.format(3, 4)])
            other.tell("tick")
            shell.shows_moves = True
            answers = said(shell, "tick", "until! tick = 5")
            self.assertEqual(answers[:2], [moved.format(4, 5), "ok at 6"])
            here = shell.target.place
            other.tell("back 1")
            answers = said(shell, "until! tick = 6")
            self.assertEqual(answers[0], moved.format(here, here - 1))

    def test_another_has_the_wheel(self) -> None:
        with two() as (shell, other):
            said(shell, "forward 3")
            other.tell("wheel take")
            output, hints = both(shell, "set moves on", "step 0", "forward 5000", "until stuck")
            self.assertEqual(output, ["no Held 2", "no Held 2", "# rdbg refused it: no Held 2"])
            self.assertTrue(all("session 2 holds the wheel" in hint for hint in hints), hints)
            self.assertEqual(said(shell, "moves"), ["# rdbg refused it: no Held 2"])
            self.assertEqual(len(said(shell, "info tasks")), 4)
            other.tell("wheel give")
            self.assertEqual(said(shell, "step 0")[0], "ok at 4")

    def test_a_wheel_of_its_own_is_kept(self) -> None:
        with two() as (shell, other):
            said(shell, "wheel take", "set moves on", "forward 3", "until! count jobs > 0")
            self.assertEqual(other.tell("step 0"), "no Held 1")
            self.assertEqual(said(shell, "wheel give"), ["ok wheel"])

    def test_names_are_learnt(self) -> None:
        with two(None) as (shell, other):
            self.assertEqual(len(said(shell, "info tasks")), 4)
            list(other.tell_all(["step 0", "step 1"]))
            rows = said(shell, "info objects")
            self.assertEqual(rows[0], "# another session moved the target: 0 -> 2")
            self.assertEqual(rows[2].split()[:3], ["#", "queue", "jobs"])
            self.assertIn("is not known", said(shell, "list worker")[0])
            answers = said(shell, "set moves on", "step worker", "step producer")
            self.assertIn("# cannot step worker: it waits at recv:jobs", answers[0])
            self.assertRegex(answers[2], "^# producer 1, r0 = 1, jobs 1/1, woke worker ")

    def test_names_that_were_not_told_are_asked(self) -> None:
        with server() as (port, _), Session.attach(port) as other:
            other.tell("step 0")
            shell = Shell(attach(port, None), None, Interrupt())
            with shell.target.session:
                self.assertIn("on no core, waits at recv:jobs", said(shell, "info worker")[0])
                self.assertIn("queue jobs", said(shell, "info jobs")[0])
                self.assertIn("there is no task or object", said(shell, "info nobody")[0])

    def test_tasks_that_only_wait_are_learnt_for_goals(self) -> None:
        with server() as (port, _), Session.attach(port) as other:
            other.tell("step 0")
            shell = Shell(attach(port, None), None, Interrupt())
            with shell.target.session:
                self.assertNotIn("worker", shell.target.names.tasks)
                said(shell, "until stuck 5")
                self.assertIn("worker", shell.target.names.tasks)
                self.assertEqual(said(shell, "show moves"), ["moves 6 undone 0 kept 6"])

    def test_how_far_back_leads_where_another_trims(self) -> None:
        with two() as (shell, other):
            said(shell, "forward 5")
            other.tell("trim 0")
            output, hints = both(shell, "back 1")
            self.assertEqual(output, ["no TooFar 0"])
            self.assertIn("`trim` dropped the records before place 5", hints[-1])

    def test_edits_by_others_are_saved(self) -> None:
        with two() as (shell, other), tempfile.TemporaryDirectory() as folder:
            file = pathlib.Path(folder) / "x.commands"
            said(shell, "step 1", "step 1")
            list(other.tell_all(["poke reg poller 3 7", "poke item jobs 0 42", "tick"]))
            answers = said(shell, f"save {file}")
            self.assertIn("replays them", answers[-1])
            self.assertEqual(answers[0], "# another session moved the target: 2 -> 5")
            edits = ["poke reg poller 3 7", "poke item jobs 0 42"]
            self.assertEqual(file.read_text().splitlines()[2:4], edits)
            self.assertEqual(said(shell, "moves")[2], f"# 3  {edits[0]}")
            self.assertIn("`rdbg sh FILE`", said(shell, "reload")[0])


class Ports(unittest.TestCase):
    """Ports that aren't as they should be."""

    def test_a_file_of_another_application(self) -> None:
        with server() as (port, _):
            turns = load(str(EXAMPLES / "turns.json"))
            with self.assertRaisesRegex(Failure, "is not the model of the server"):
                attach(port, turns)

    def test_a_server_that_ends(self) -> None:
        with server() as (port, process):
            reading, writing = os.pipe()
            errors = io.StringIO()
            with os.fdopen(reading, "rb") as lines, os.fdopen(writing, "wb", 0) as keys:
                keys.write(b"step 0\nshow moves\n")
                standard = mock.Mock(buffer=Ending(lines, process, 2), isatty=lambda: False)
                keys.write(b"step 0\n")
                with mock.patch("sys.stdin", standard), contextlib.redirect_stderr(errors):
                    with contextlib.redirect_stdout(io.StringIO()):
                        status = main(["sh", "--port", str(port)])
            self.assertEqual(status, 1)
            closed = f"rdbg sh: the server at port {port} has closed the connection\n"
            self.assertEqual(errors.getvalue(), closed)

    def test_a_port_where_nobody_listens(self) -> None:
        with socket.socket() as free:
            free.bind(("127.0.0.1", 0))
            port = free.getsockname()[1]
        words: Tuple[List[str], ...] = ([], ["--name", "ada"], [LOST])
        for more in words:
            errors = io.StringIO()
            with contextlib.redirect_stderr(errors):
                self.assertEqual(main(["sh", "--port", str(port), *more]), 2)
            why = f"rdbg sh: cannot attach to port {port}: nobody listens there\n"
            self.assertEqual(errors.getvalue(), why)

    def test_a_server_that_does_not_answer(self) -> None:
        with socket.socket() as listening, mock.patch("rdbg.driving.opening.PATIENCE", 0.01):
            listening.bind(("127.0.0.1", 0))
            listening.listen()
            errors = Waiting(listening)
            with contextlib.redirect_stderr(errors), self.assertRaisesRegex(Failure, "closed"):
                attach(listening.getsockname()[1], None)
            self.assertIn("the server does not answer", errors.getvalue())

    def test_a_server_that_lets_nobody_in(self) -> None:
        listening = socket.socket()
        with listening:
            listening.bind(("127.0.0.1", 0))
            listening.listen()
            port = listening.getsockname()[1]
            session = mock.Mock()
            session.tell.return_value = "no Full"
            with mock.patch("rdbg.driving.opening.Session.attach", return_value=session):
                with self.assertRaisesRegex(Failure, "accepts no more sessions: no Full"):
                    attach(port, None)


class Waiting(io.StringIO):
    """A standard error; once something stands there a connection is taken and closed."""

    def __init__(self, listening: socket.socket) -> None:
        super().__init__()
        self._listening = listening

    def flush(self) -> None:
        """Closes the connection."""
        self._listening.accept()[0].close()


class Ending:
    """Lines of a file, before one of which a process is ended."""

    def __init__(self, lines: "io.BufferedReader", process: "subprocess.Popen[bytes]", at: int):
        self._lines, self._process, self._left = lines, process, at

    def readline(self) -> bytes:
        """The next line."""
        if not self._left:
            self._process.kill()
            self._process.wait()
        self._left -= 1
        return self._lines.readline()


if __name__ == "__main__":
    unittest.main()
