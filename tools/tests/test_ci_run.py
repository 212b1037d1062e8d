"""`.ci/run` in a small repository, whose parts are scripts of this module: what it runs, what it
prints, and that nothing of it is left when it has ended."""
import contextlib
import os
import pathlib
import re
import signal
import subprocess
import tempfile
import time
import unittest
from typing import List

from tests.paths import TOP
from tests.started import MARK, marked

PATIENCE = 60.0
BESIDE = ("must-not-compile", "refused", "planted")
BEFORE = ("documents", "uncalled")
AFTER = ("examples", "limits", "memory", "together", "reach", "companions")
PARTS = (*BEFORE, *BESIDE, "rt", *AFTER)
# Notes its name and arguments.
PASSES = """#!/bin/sh
echo "$(basename "$0") $*" >> "$CALLS"
"""
# Starts a process that ends by SIGTERM, and one that ignores it, and then waits for both.
LASTS = """#!/bin/sh
sleep 1000 &
(trap '' TERM; touch "$STARTED/$(basename "$0")"; sleep 1000) &
wait
"""
# Fails once the parts beside it have started all their processes.
FAILS = """#!/bin/sh
for name in must-not-compile refused planted; do
    until [ -e "$STARTED/$name" ]; do sleep 0.02; done
done
echo "rd_wait: not proved"
exit 1
"""
# Ends, and leaves a process that holds none of its streams.
LEAVES = """#!/bin/sh
(trap '' TERM; exec sleep 1000) > /dev/null 2>&1 < /dev/null &
"""
# (so that the parts beside `rt ci` aren't kept waiting by what else the machine does)
NICE = """#!/bin/sh
shift 2
exec "$@"
"""
GIT = """#!/bin/sh
echo 1234567
"""


class Gate(unittest.TestCase):
    """A copy of `.ci/run` with parts that take no time."""

    def setUp(self) -> None:
        folder = tempfile.TemporaryDirectory()
        self.addCleanup(folder.cleanup)
        self.top = pathlib.Path(folder.name)
        for name in (".ci", "ci", "path", "started", "temporary"):
            (self.top / name).mkdir()
        text = (TOP / ".ci/run").read_text()
        self.write(".ci/run", text)
        for name in {*PARTS, *re.findall(r"\bci/([\w.-]+)", text)}:
            self.write(f"ci/{name}", PASSES)
        self.write("path/rt", PASSES)
        self.write("path/git", GIT)
        self.write("path/nice", NICE)
        self.mark = f"{os.getpid()}-{time.monotonic_ns()}"
        self.addCleanup(self.end_what_is_left)

    def write(self, name: str, text: str) -> None:
        """Writes a script."""
        (self.top / name).write_text(text)
        (self.top / name).chmod(0o755)

    def start(self) -> "subprocess.Popen[str]":
        """Starts the gate, which gives its processes a second to end after SIGTERM."""
        environment = {
            **os.environ,
            MARK: self.mark,
            "PATH": f"{self.top}/path:{os.environ['PATH']}",
            "CALLS": str(self.top / "calls"),
            "STARTED": str(self.top / "started"),
            "TMPDIR": str(self.top / "temporary"),
            "GATE_GRACE_SECONDS": "1",
        }
        return subprocess.Popen(
            [str(self.top / ".ci/run")],
            env=environment,
            stdout=subprocess.PIPE,
            stderr=subprocess.STDOUT,
            universal_newlines=True,
        )

    def end(self, process: "subprocess.Popen[str]") -> List[str]:
        """Returns the lines that the gate printed, once it has ended."""
        output, _ = process.communicate(timeout=PATIENCE)
        return output.splitlines()

    def end_what_is_left(self) -> None:
        """Ends what a gate that fails its test has left."""
        for number in marked(self.mark):
            with contextlib.suppress(ProcessLookupError):
                os.kill(number, signal.SIGKILL)

    def calls(self) -> List[str]:
        """Returns the names of the parts that have passed, of those that matter here."""
        names = [line.split()[0] for line in (self.top / "calls").read_text().splitlines()]
        return [name for name in names if name in PARTS]

    def check_nothing_is_left(self) -> None:
        """Checks that neither processes nor files of the gate are left."""
        self.assertEqual(marked(self.mark), [])
        self.assertEqual(list((self.top / "temporary").iterdir()), [])

    def test_all_parts_pass(self) -> None:
        process = self.start()
        lines = self.end(process)
        self.assertEqual(process.returncode, 0, lines)
        self.assertRegex(lines[-1], r"^\.ci/run: \d+ seconds in all, status 0$")
        calls = self.calls()
        self.assertEqual(sorted(calls), sorted(PARTS))
        self.assertEqual([it for it in calls if it not in BESIDE], [*BEFORE, "rt", *AFTER])
        took = r"\.ci/run: \d+ seconds, of processors \d+ and \d+ in the kernel, for: env .* rt ci$"
        self.assertRegex("\n".join(lines), f"(?m)^{took}")
        self.check_nothing_is_left()

    def test_the_rest_runs_after_a_failure(self) -> None:
        self.write("ci/uncalled", "#!/bin/sh\necho 'nobody calls this'\nexit 1\n")
        self.write("ci/refused", "#!/bin/sh\necho 'a refusal is lost'\nexit 1\n")
        process = self.start()
        lines = self.end(process)
        self.assertEqual(process.returncode, 1)
        passed = ["documents", "must-not-compile", "planted", "rt", *AFTER]
        self.assertEqual(sorted(self.calls()), sorted(passed))
        last = lines[lines.index(".ci/run: failed: uncalled, which said last:") :]
        self.assertIn("nobody calls this", last)
        self.assertIn("a refusal is lost", last)
        self.check_nothing_is_left()

    def test_no_process_is_left_if_rt_ci_fails(self) -> None:
        for name in BESIDE:
            self.write(f"ci/{name}", LASTS)
        self.write("path/rt", FAILS)
        process = self.start()
        lines = self.end(process)
        self.assertEqual(process.returncode, 1, lines)
        last = lines[lines.index(".ci/run: failed: ci, which said last:") :]
        self.assertIn("rd_wait: not proved", last)
        self.assertEqual(self.calls(), list(BEFORE))
        self.check_nothing_is_left()

    def test_no_process_is_left_after_a_signal(self) -> None:
        for name in BESIDE:
            self.write(f"ci/{name}", LASTS)
        self.write("path/rt", LASTS)
        for number in (signal.SIGINT, signal.SIGTERM, signal.SIGHUP):
            with self.subTest(number.name):
                process = self.start()
                self.wait_for_all(*BESIDE, "rt")
                process.send_signal(number)
                self.end(process)
                self.assertEqual(process.returncode, 128 + number)
                self.check_nothing_is_left()

    def wait_for_all(self, *names: str) -> None:
        """Waits until these parts have started all their processes."""
        end = time.monotonic() + PATIENCE
        files = [self.top / "started" / name for name in names]
        while not all(file.exists() for file in files):
            self.assertLess(time.monotonic(), end)
            time.sleep(0.02)
        for file in files:
            file.unlink()

    def test_no_process_is_left_by_a_part_that_passes(self) -> None:
        self.write("ci/examples", LEAVES)
        process = self.start()
        lines = self.end(process)
        self.assertEqual(process.returncode, 0, lines)
        self.check_nothing_is_left()


if __name__ == "__main__":
    unittest.main()
