"""How a room ends, and what is left of the talk then."""
import contextlib
import ctypes
import datetime
import io
import os
import pathlib
import signal
import socket
import time
import unittest
from typing import List, Tuple

from rdbg.main import main
from tests.rooms import LOST, PATIENCE, Caller, Process, free_port, room, rows, talk, until


# The number by which Linux is asked to send a signal to one thread (x86-64).
TGKILL = 234


def parent_of(process: str) -> str:
    """The process that has started a process; none where that has ended."""
    try:
        status = pathlib.Path(f"/proc/{process}/stat").read_text()
    except OSError:
        return ""
    return status.rpartition(")")[2].split()[1]


def child_of(process: int) -> str:
    """The process that a process has started, once it has."""
    found: List[str] = []

    def is_there() -> bool:
        them = [it for it in os.listdir("/proc") if it.isdigit()]
        found[:] = [it for it in them if parent_of(it) == str(process)]
        return len(found) == 1

    until(is_there)
    return found[0]


class Ends(unittest.TestCase):
    """How a room ends, and what is left of the talk."""

    def test_signals(self) -> None:
        hangup = [] if signal.getsignal(signal.SIGHUP) is signal.SIG_IGN else [signal.SIGHUP]
        for number in (signal.SIGINT, signal.SIGTERM, *hangup):
            with self.subTest(number), talk() as file:
                with room("--talk", str(file), sessions=2) as here:
                    with Caller(here.port, "left") as left:
                        left.ask("tick")
                        status = here.end(number)
                        # (2 sessions come and leave; a line and two looks at 5 things)
                        closed = f"closed {2 * 2 + 1 + 2 * 5}"
                        did = "left: 1 move"
                        self.assertEqual((status, here.output), (0, f"# {did}\n{closed}\n"))
                        self.assertEqual(
                            left.rest()[-2:], [f"# {did}", f"# the room has ended: {closed}"]
                        )
                self.assertEqual(
                    rows(file)[-3:],
                    [["left", "tick", "ok at 1"], ["room", "#", did], ["room", "#", closed]],
                )

    def test_a_signal_that_another_thread_gets(self) -> None:
        with room("--web", "0", sessions=2) as here:
            number = here.process.pid

            def is_told() -> bool:
                others = set(os.listdir(f"/proc/{number}/task")) - {str(number)}
                tell = ctypes.CDLL(None).syscall
                return any(tell(TGKILL, number, int(it), int(signal.SIGTERM)) == 0 for it in others)

            time.sleep(0.2)  # (the room waits for somebody to come)
            until(is_told)
            self.assertEqual(0, here.end(0))

    def test_a_talk_is_complete_however_it_ends(self) -> None:
        for number in (signal.SIGTERM, signal.SIGKILL):
            with self.subTest(number), talk() as file:
                with room("--talk", str(file), sessions=2) as here:
                    with Caller(here.port, "left") as left:
                        left.send(*["tick", "show cores", "x", "back 1"] * 200)
                        for _ in range(100):
                            left.read()
                            if len(left.lines) > 50:
                                break
                        here.end(number)
                        said = [line for line in left.rest() if line[0] != "#"]
                self.assertTrue(file.read_bytes().endswith(b"\n"))
                kept = [row[1:] for row in rows(file) if row[1][:1] != "#"]
                # (what was answered last may be on its way to who asked)
                self.assertGreater(len(said), 20)
                self.assertEqual([reply for _, reply in kept][: len(said)], said)
                asked = ["tick", "show cores", "x", "back 1"] * 200
                self.assertEqual([line for line, _ in kept], asked[: len(kept)])

    def test_a_talk_goes_on_behind_another(self) -> None:
        with talk() as file:
            began = datetime.datetime.utcnow()
            for name in ("left", "right"):
                with room("--talk", str(file), sessions=1) as here:
                    with Caller(here.port, name) as caller:
                        caller.ask("tick")
                        here.end()
            whens = [line.split("\t")[0] for line in file.read_text().splitlines()[1:]]
            times = [datetime.datetime.strptime(it, "%Y-%m-%dT%H:%M:%S.%fZ") for it in whens]
            moment = datetime.timedelta(milliseconds=1)
            self.assertEqual(sorted(times), times)
            self.assertLess(began - moment, times[0])
            self.assertLess(times[-1], datetime.datetime.utcnow() + moment)
            opens = [row for row in rows(file) if row[2].startswith("opens")]
            self.assertEqual(opens, [["room", "#", f"opens {LOST}"]] * 2)
            self.assertEqual(rows(file)[0], opens[0])
            lines = [row for row in rows(file) if row[1] == "tick"]
            self.assertEqual(lines, [["left", "tick", "ok at 1"], ["right", "tick", "ok at 1"]])

    def test_what_can_not_be_had(self) -> None:
        with socket.socket() as taken:
            taken.bind(("127.0.0.1", 0))
            port = taken.getsockname()[1]
            file = ["room", LOST, "--port"]
            refused: Tuple[Tuple[List[str], str], ...] = (
                ([str(port)], f"cannot listen at port {port}: Address already in use"),
                (["7", "--history", "200"], "--history must be at least 256 for 64 sessions"),
                (
                    [str(free_port()), "--talk", "/nowhere/talk"],
                    "cannot write /nowhere/talk: No su",
                ),
                (
                    [str(free_port()), "--talk", "/dev/full"],
                    "cannot write /dev/full: No space left",
                ),
            )
            for words, why in refused:
                errors = io.StringIO()
                with contextlib.redirect_stderr(errors):
                    self.assertEqual(main([*file, *words]), 2, why)
                self.assertIn(f"rdbg room: {why}", errors.getvalue())

    def test_one_that_is_ended_before_it_listens(self) -> None:
        found = Process([], LOST)
        child = child_of(found.process.pid)
        status = found.end(signal.SIGTERM)
        # (on a busy machine it may listen by now, and then it ends well)
        self.assertEqual(status == 0, "closed" in found.output, found.output)
        until(lambda: not os.path.exists(f"/proc/{child}"))

    def test_one_whose_program_answers_no_more(self) -> None:
        for line in ("tick", None):
            with self.subTest(line), room(sessions=2) as here, Caller(here.port, "left") as left:
                child = child_of(here.process.pid)
                os.kill(int(child), signal.SIGSTOP)
                if line is not None:
                    left.send(line)

                def is_over() -> bool:
                    here.process.send_signal(signal.SIGINT)
                    time.sleep(0.2)
                    return here.process.poll() is not None

                until(is_over)
                # (a signal more can come when Python has ended)
                self.assertIn(here.end(0), (130, -signal.SIGINT), here.errors)
                until(lambda: not os.path.exists(f"/proc/{child}"))

    def test_a_program_that_ends_before(self) -> None:
        with room(sessions=2) as here, Caller(here.port, "left") as left:
            child = child_of(here.process.pid)
            os.kill(int(child), signal.SIGKILL)
            # (nobody says a line)
            left.expect("# rdbg has ended: killed by SIGKILL")
            here.process.wait(PATIENCE)
            self.assertEqual(here.end(0), 1)
            self.assertIn("rdbg has ended without its audit: killed by SIGKILL\n", here.errors)


if __name__ == "__main__":
    unittest.main()
