"""`ci/companions` itself, over a few modules of tests of its own."""
import os
import pathlib
import signal
import subprocess
import sys
import tempfile
import textwrap
import time
import unittest
from typing import Dict, List

from tests.paths import TOP
from tests.started import MARK, marked

PATIENCE = 60.0
# Passes the second time.
SECOND = """
    class Second(unittest.TestCase):
        def test_it(self):
            seen = pathlib.Path("seen")
            was_there = seen.exists()
            seen.touch()
            self.assertTrue(was_there)
        def test_another(self):
            pass
"""
INTERRUPTED = """
    class Interrupted(unittest.TestCase):
        def test_it(self):
            self.assertRaises(KeyboardInterrupt, signal.raise_signal, signal.SIGINT)
            self.assertEqual(signal.SIG_DFL, signal.getsignal(signal.SIGHUP))
"""
SKIPPED = """
    class Each(unittest.TestCase):
        def test_done(self):
            pass
        @unittest.skip("no printer")
        def test_left_out(self):
            pass
        def test_in_part(self):
            for number in (1, 2):
                with self.subTest(number):
                    if number == 2:
                        self.skipTest("no second one")
    class Together(unittest.TestCase):
        @classmethod
        def setUpClass(cls):
            raise unittest.SkipTest("needs root, to act as another user")
        def test_one(self):
            pass
        def test_two(self):
            pass
"""
WRONG = """
    class Parts(unittest.TestCase):
        def test_of_many(self):
            for number in range(3):
                with self.subTest(number):
                    self.assertEqual(1, number)
    class Setup(unittest.TestCase):
        @classmethod
        def setUpClass(cls):
            raise OSError
        def test_one(self):
            pass
        def test_two(self):
            pass
"""
# Leaves a process of a session of its own, which holds the output of the test.
LEAVES = """
    import subprocess
    class Leaves(unittest.TestCase):
        def test_it(self):
            subprocess.Popen(["sleep", "1000"], start_new_session=True)
            pathlib.Path("started").touch()
"""
LASTS = f"""{LEAVES}
            signal.pause()
"""
# Says twice that another one has the lock; writes down how it was called.
APT_GET = """#!/bin/sh
echo "$*" >> "$APT_CALLS"
[ "$(wc -l < "$APT_CALLS")" -gt 2 ] && exit 0
echo "E: Could not get lock /var/lib/dpkg/lock-frontend. It is held by process 7 (apt)" >&2
exit 100
"""
# (the layout and the types of these modules are wrong, and there is no JavaScript)
CHECKS = 3


class Companions(unittest.TestCase):
    """What it runs how often, what it counts, and what it leaves."""

    def setUp(self) -> None:
        folder = tempfile.TemporaryDirectory()
        self.addCleanup(folder.cleanup)
        self.top = pathlib.Path(folder.name)
        (self.top / "ci").mkdir()
        (self.top / "tools/tests").mkdir(parents=True)
        (self.top / "tools/tests/__init__.py").touch()
        (self.top / "tools/rdbg").mkdir()
        (self.top / "tools/rdbg/__init__.py").touch()
        for name in ("companions", "module_tests.py", "packages.py", "repository.py"):
            (self.top / "ci" / name).write_bytes((TOP / "ci" / name).read_bytes())

    def write_module(self, name: str, text: str) -> None:
        """Writes a module of tests. It is no module of ours, whose layout is looked at."""
        head = "import pathlib\nimport signal\nimport unittest\n"
        (self.top / f"tools/tests/test_{name}.py").write_text(head + textwrap.dedent(text))

    def start(self, *words: str, **more: str) -> "subprocess.Popen[str]":
        """Starts it."""
        self.mark = f"{os.getpid()}-{time.monotonic_ns()}"
        environment: Dict[str, str] = {**os.environ, MARK: self.mark, **more}
        return subprocess.Popen(
            [sys.executable, "-B", str(self.top / "ci/companions"), *words, "rdbg", "rdreach"],
            env=environment,
            stdout=subprocess.PIPE,
            stderr=subprocess.STDOUT,
            universal_newlines=True,
        )

    def run_it(self, *words: str, **more: str) -> str:
        """Returns what it prints."""
        output, _ = self.start(*words, **more).communicate()
        return output

    def summary(self, *words: str) -> List[str]:
        """Returns its last lines: what passed only on retry, what was skipped, and the counts."""
        lines = self.run_it(*words).splitlines()
        first = next(at for at, it in enumerate(lines) if it.endswith(" passed only on retry"))
        return [it.replace("ci/companions: ", "") for it in lines[first:]]

    def test_what_passes_only_on_retry_has_failed(self) -> None:
        self.write_module("second", SECOND)
        self.assertEqual(
            self.summary(),
            [
                "1 passed only on retry",
                "passed only on retry: test_second.Second.test_it",
                "0 skipped",
                f"1 passed, {CHECKS + 1} failed",
            ],
        )

    def test_what_is_skipped_has_not_passed(self) -> None:
        self.write_module("skipped", SKIPPED)
        each, together = "test_skipped.Each", "test_skipped.Together"
        others = [
            f"skipped: {each}.test_in_part: no second one",
            f"skipped: {each}.test_left_out: no printer",
        ]
        ones_of_root = [
            f"skipped: {together}.{it}: needs root, to act as another user"
            for it in ("test_one", "test_two")
        ]
        zero, *told, counts = self.summary()
        self.assertEqual(zero, "0 passed only on retry")
        self.assertEqual(told, ["4 skipped", *others, *ones_of_root])
        self.assertEqual(counts, f"1 passed, {CHECKS} failed, 4 skipped")
        _, *told, counts = self.summary("--gate")
        self.assertEqual(told, ["2 skipped", *others])
        self.assertEqual(counts, f"1 passed, {CHECKS + 2} failed, 2 skipped")

    def test_what_fails_is_counted_by_tests(self) -> None:
        self.write_module("wrong", WRONG)
        self.write_module("empty", "")
        self.write_module("broken", "import nothing_of_this_name")
        self.write_module("dead", "import os\nos.kill(os.getpid(), 9)")
        self.assertEqual(self.summary()[-1], f"0 passed, {CHECKS + 6} failed")

    def test_nothing_is_left_by_a_module(self) -> None:
        self.write_module("leaves", LEAVES)
        self.assertIn("test_leaves: 1 passed, 0 failed", self.run_it())
        self.assertEqual(marked(self.mark), [])

    def test_nothing_is_left_after_a_signal(self) -> None:
        self.write_module("lasts", LASTS)
        process = self.start()
        end = time.monotonic() + PATIENCE
        while not (self.top / "tools/started").exists():
            self.assertLess(time.monotonic(), end)
            time.sleep(0.02)
        process.send_signal(signal.SIGTERM)
        process.communicate(timeout=PATIENCE)
        self.assertEqual((process.returncode, marked(self.mark)), (128 + signal.SIGTERM, []))

    def test_ignored_signals(self) -> None:
        self.write_module("interrupted", INTERRUPTED)
        numbers = (signal.SIGINT, signal.SIGHUP)
        before = [signal.signal(number, signal.SIG_IGN) for number in numbers]
        try:
            said = self.run_it()
        finally:
            for number, handler in zip(numbers, before):
                signal.signal(number, handler)
        self.assertIn("test_interrupted: 1 passed, 0 failed", said)

    def test_a_lock_is_waited_for(self) -> None:
        tools = self.top / "path"
        tools.mkdir()
        (tools / "apt-get").write_text(APT_GET)
        (tools / "apt-get").chmod(0o755)
        calls = self.top / "calls"
        # (with no other program on the path but these, something is always missing)
        for name in ("sh", "wc"):
            (tools / name).symlink_to(f"/bin/{name}")
        self.run_it(PATH=str(tools), APT_CALLS=str(calls))
        updates = [line for line in calls.read_text().splitlines() if "update" in line]
        self.assertEqual(len(updates), 3)


if __name__ == "__main__":
    unittest.main()
