"""`rdbg dap`, driven by a client that isn't ours: Emacs with dap-mode, in batch.

The hunts of docs/tutorials/lost-item.md and docs/HUNTING.md are gone through in an editor's words."""
import dataclasses
import os
import pathlib
import subprocess
import tempfile
import unittest
from typing import List, Sequence, Tuple

from rdbg.client import Session
from tests.paths import EXAMPLES
from tests.test_dap_breakpoints import LOOP
from tests.test_shell_port import server

DRIVER = pathlib.Path(__file__).with_name("dap_driver.el")


@dataclasses.dataclass(frozen=True)
class Hunt:
    """A fault of a page: its example, a session that comes to it, and what that tells."""

    example: str
    text: str
    tells: Sequence[str]


# Those of docs/tutorials/lost-item.md, with its mend by an edit, of docs/HUNTING.md, and of frames.json.
HUNTS = (
    Hunt(
        "lost_item",
        """
(drive-launch)
(drive-stop-where "changes jobs")
(drive-continue)
(drive-show "Objects" "queue jobs")
(drive-step "producer")
(drive-step "poller")
(drive-step "poller")
(drive-step "worker")
(drive-show "Task" "phase")
(drive-reverse)
(drive-back)
(drive-show "Objects" "queue jobs")
(drive-step "worker")
(drive-show "Registers" "r0")
(drive-show "Task" "data")
(drive-back)
(drive-thread "poller")
(drive-put "Task" "pc" "1")
(drive-step "poller")
(drive-step "worker")
(drive-show "Registers" "r0")
""",
        (
            "entry | at 0: the start",
            "function breakpoint | at 5: changes jobs",
            "queue jobs = 1/1 41",
            "step | at 6: producer 2 end, left core 1 (ended), poller took core 1",
            "step | at 7: poller 1 jump 0",
            "step | at 8: poller 0 recv jobs 0 -> 1, data 41, jobs 0/1",
            "step | at 9: worker 0 recv jobs max, left core 0 (waits with no limit of time)",
            "phase = waits at recv:jobs with no limit of time",
            "function breakpoint | at 8: changes jobs",
            "step | at 7, before: poller 0 recv jobs 0 -> 1, data 41, jobs 0/1",
            "queue jobs = 1/1 41",
            "step | at 8: worker 0 recv jobs max -> 1, data 41, jobs 0/1",
            "r0 = 1",
            'data = 41 ("A")',
            "step | at 7, before: worker 0 recv jobs max -> 1, data 41, jobs 0/1",
            "step | at 9: poller 1 jump 0",
            "step | at 10: worker 0 recv jobs max -> 1, data 41, jobs 0/1",
            "r0 = 1",
        ),
    ),
    # (the run of Continue gives the item to the worker: then the poller can have it no more)
    Hunt(
        "lost_item",
        """
(drive-launch)
(drive-stop-where "lost reg poller 0 = 1")
(drive-continue)
(drive-back)
""",
        (
            "entry | at 0: the start",
            "function breakpoint | at 7: lost reg poller 0 = 1",
            "step | at 6, before: worker 0 recv jobs max -> 1, data 41, jobs 0/1",
        ),
    ),
    Hunt(
        "meeting",
        """
(drive-launch)
(drive-step "left")
(drive-step "right")
(drive-step "left")
(drive-step "left")
(drive-continue)
(drive-stop-where "changes there")
(drive-reverse)
(drive-reverse)
(drive-show "Objects" "group there")
(drive-back)
(drive-show "Objects" "group there")
(drive-step "right")
(drive-show "Registers" "r0")
""",
        (
            "entry | at 0: the start",
            "step | at 1: left 0 gset there 1 -> 1, there bits 1",
            "step | at 2: right 0 gset there 2 -> 3, there bits 3",
            "step | at 3: left 1 gwait there 3 all keep max -> 3",
            "step | at 4: left 2 gclear there 3 -> 3, there bits 0",
            "exception | at 11: asleep: left waits at group:there with no limit of time;"
            " right waits at group:there with no limit of time",
            "function breakpoint | at 9: changes there",
            "function breakpoint | at 4: changes there",
            "group there = 0x000000",
            "step | at 3, before: left 2 gclear there 3 -> 3, there bits 0",
            "group there = 0x000003",
            "step | at 4: right 1 gwait there 3 all keep max -> 3",
            "r0 = 3",
        ),
    ),
    Hunt(
        "frames",
        """
(drive-launch)
(drive-step "host")
(drive-step "host")
(drive-continue)
(drive-show "Objects" "stream rx")
(drive-stop-where "changes rx")
(drive-reverse)
(drive-reverse)
(drive-thread "parser")
(drive-show "Registers" "r0")
(drive-show "Task" "data")
""",
        (
            "entry | at 0: the start",
            "step | at 1: host 0 data 4142",
            "step | at 2: host 1 swrite rx 0 -> 2, rx 2/8 bytes",
            "exception | at 26: asleep: parser waits at sread:rx with no limit of time;"
            " host waits at recv:acks with no limit of time",
            "stream rx = 2/8 bytes 4344, waits: read: parser",
            "function breakpoint | at 24: changes rx",
            "function breakpoint | at 4: changes rx",
            "r0 = 2",
            'data = 4142 ("AB")',
        ),
    ),
    Hunt(
        "stale",
        """
(drive-launch)
(drive-step "uart")
(drive-step)
(drive-step)
(drive-step)
(drive-continue)
(drive-show "Objects" "set inputs")
(drive-stop-where "qreset")
(drive-stop-where "sleeps server")
(drive-reverse)
(drive-reverse)
(drive-show "Objects" "queue rx")
(drive-reverse)
""",
        (
            "entry | at 0: the start",
            "step | at 1: uart 0 data 41",
            "step | at 2: uart 1 send rx 0 -> 1, rx 1/1, inputs 1/1 handles",
            "step | at 3: uart 2 set r1 1, r1 = 1",
            "step | at 4: uart 3 jumpz r1 0, goes on at 4",
            "exception | at 26: uart failed: SetFull",
            "set inputs = 1/1 handles rx",
            "function breakpoint | at 18: uart reaches 4",
            "function breakpoint | at 9: sleeps server",
            "queue rx = 0/1 -, waits: receive: server",
            "function breakpoint | at 4: uart reaches 4",
        ),
    ),
    Hunt(
        "early_count",
        """
(drive-launch)
(drive-stop-where "worker 1")
(drive-continue)
(drive-step)
(drive-continue)
(drive-show "Objects" "queue items")
(drive-stop-where "changes items")
(drive-reverse)
(drive-reverse)
(drive-step "sender")
(drive-step "worker")
(drive-show "Registers" "r0")
""",
        (
            "entry | at 0: the start",
            "function breakpoint | at 5: worker reaches 1",
            "step | at 6: worker 1 recv items 0 -> 0",
            "exception | at 12: asleep: sender waits at recv:acks with no limit of time;"
            " worker waits at note:0 with no limit of time",
            "queue items = 1/4 41",
            "function breakpoint | at 8: changes items",
            "function breakpoint | at 5: worker reaches 1",
            "step | at 6: sender 2 send items 0 -> 1, items 1/4",
            "step | at 7: worker 1 recv items 0 -> 1, data 41, items 0/4",
            "r0 = 1",
        ),
    ),
)


def driven(text: str, file: str) -> List[str]:
    """What a session says that is driven so, on one of the examples."""
    return driven_all([(text, file)])[0]


def driven_all(sessions: Sequence[Tuple[str, str]]) -> List[List[str]]:
    """What sessions say that are driven so, one behind the other in one Emacs."""
    with tempfile.TemporaryDirectory() as scratch:
        script = pathlib.Path(scratch) / "session.el"
        opened = [
            f'(drive-open "{EXAMPLES / file}")\n{text}\n(drive-end)\n' for text, file in sessions
        ]
        script.write_text("".join(opened))
        environment = {**os.environ, "HOME": scratch, "RDBG_SCRATCH": scratch}
        ran = subprocess.run(
            ["emacs", "--batch", "-l", str(DRIVER), "-l", str(script)],
            env=environment,
            stdin=subprocess.DEVNULL,
            stdout=subprocess.PIPE,
            stderr=subprocess.PIPE,
            timeout=240,
        )
        parts = ran.stdout.decode().split("terminated\n")
        if ran.returncode or len(parts) != len(sessions) + 1 or parts[-1]:
            raise AssertionError("\n".join([*parts, ran.stderr.decode()[-4_000:]]))
        return [part.splitlines() for part in parts[:-1]]


class Emacs(unittest.TestCase):
    """Sessions of dap-mode."""

    def told(self, text: str, file: str, *expected: str) -> None:
        """Drives a session, of which these lines come, each up to the text of the line at point."""
        said = [line.rsplit(" | ", 1)[0] for line in driven(text, file)]
        self.assertEqual(said, list(expected))


class Sessions(Emacs):
    """What dap-mode can do."""

    def test_launch_break_continue_variables_step_back_disconnect(self) -> None:
        self.told(
            """
(drive-break "\\"poller\\"" "count jobs = 0")
(drive-launch)
(drive-continue)
(drive-show "Registers" "r0")
(drive-put "Registers" "r0" "0x2a")
(drive-show "Registers" "r0")
(drive-step)
(drive-back)
(drive-reverse)
(drive-tick)
(drive-thread "producer")
(drive-refused (drive-step))
(drive-thread "worker")
(drive-out)
(drive-restart)
""",
            "lost_item.json",
            "entry | at 0: the start",
            "breakpoint | at 11: poller reaches 0, count jobs = 0",
            "r0 = 0",
            "r0 = 42",
            "step | at 13: poller 0 recv jobs 0 -> 0",
            "step | at 12, before: poller 0 recv jobs 0 -> 0",
            "breakpoint | at 11: poller reaches 0, count jobs = 0",
            "step | at 12: tick 4",
            "pause | still at 12",
            "refused: producer is not on a core: it has ended",
            "breakpoint | at 16: poller reaches 0, count jobs = 0",
            "entry | at 0: the start",
        )

    def test_log_points_and_where_other_tasks_stand(self) -> None:
        with tempfile.TemporaryDirectory() as folder:
            file = pathlib.Path(folder) / "loop.fw"
            file.write_text(LOOP)
            said = driven(
                """
(drive-log "add r2 1" "log {r2} of {jobs.count + r2}")
(drive-launch :limit 20)
(drive-step "taker")
(drive-step "maker")
(drive-marks)
(drive-continue)
(drive-output)
""",
                str(file),
            )
        marks = [line for line in said if "  < " in line]
        self.assertEqual(marks, ["recv(jobs, portMAX_DELAY);  < taker: waits recv:jobs"])
        logs = [line for line in said if line.startswith("log")]
        self.assertEqual(logs[:2], ["log 0 of 0", "log 1 of 1"])


class Attached(Emacs):
    """dap-mode beside another session."""

    def test_a_wheel_that_another_has_is_told(self) -> None:
        with server() as (port, _), Session.attach(port) as other:
            other.tell("wheel take")
            self.told(
                f"""
(drive-attach {port})
(drive-refused (drive-step))
(drive-line "show wheel")
(drive-line "show moves")
""",
                "lost_item.json",
                "entry | attached at 0",
                "pause | still at 0",
                "refused: rdbg replied no Held 1: session 1 holds the wheel; you can look, but not move,"
                " until it gives the wheel back",
                "wheel 1",
                "moves 0 undone 0 kept 0",
            )


class Hunts(unittest.TestCase):
    """The faults of the pages about faults, found with an editor's buttons, all in one Emacs."""

    def test_hunts(self) -> None:
        told = iter(driven_all([(it.text, f"{it.example}.json") for it in HUNTS]))
        for it in HUNTS:
            with self.subTest(it.example):
                said = [line.rsplit(" | ", 1)[0] for line in next(told)]
                self.assertEqual(said, list(it.tells))


if __name__ == "__main__":
    unittest.main()
