"""How a companion starts and ends: signals, modules that are missing, byte code, and its help."""
import os
import pathlib
import shutil
import signal
import subprocess
import sys
import tempfile
import time
import unittest
from typing import List, Optional
from unittest import mock

from rdbg import main
from rdbg.client import Session
from tests.paths import COMPANION, EXAMPLES, TOP
from tests.rooms import free_port
from tests.started import Started, at_import, seconds_of, sleeper, trace_processes
from tests.strangers import IS_ROOT
from tests.test_shell_port import server

LOST = str(EXAMPLES / "lost_item.json")
TURNS = str(EXAMPLES / "turns.json")
SAID = {signal.SIGINT: ("interrupted", 130), signal.SIGTERM: ("ended by SIGTERM", 143)}
# Seconds of a processor that the start of a companion may take.
QUICK = 0.3


class Starting(unittest.TestCase):
    """A signal while the modules are imported."""

    def test_one_line(self) -> None:
        for module in ("rdbg.main", "argparse", "rdbg.companions.trace", "rdbg.tracing.command"):
            for number, (said, status) in SAID.items():
                with self.subTest(module, signal=number):
                    ran = at_import(module, str(int(number)), "trace", LOST)
                    self.assertEqual(
                        (f"rdbg trace: {said}\n", status), (ran.stderr, ran.returncode)
                    )

    def test_before_it_takes_signals_over(self) -> None:
        for module in ("rdbg.start", "rdbg.caches", "rdbg.ending"):
            with self.subTest(module):
                ran = at_import(module, str(int(signal.SIGINT)), "trace", LOST)
                self.assertEqual(("rdbg: interrupted\n", 130), (ran.stderr, ran.returncode))


class Running(unittest.TestCase):
    """A signal while a companion is at work, and what it leaves behind."""

    def setUp(self) -> None:
        folder = tempfile.TemporaryDirectory()
        self.addCleanup(folder.cleanup)
        self.sleeper = sleeper(folder.name)
        self.scratch = pathlib.Path(folder.name) / "scratch"
        self.scratch.mkdir()
        patched = mock.patch.dict(os.environ, {"TMPDIR": str(self.scratch)})
        patched.start()
        self.addCleanup(patched.stop)

    def check(self, started: Started, name: str, number: signal.Signals) -> None:
        """It ends with one line, and leaves nothing behind."""
        said, status = SAID[number]
        self.assertEqual([f"rdbg {name}: {said}\n", status], started.end(number))
        self.assertEqual([], os.listdir(self.scratch))

    def test_a_program_that_never_answers(self) -> None:
        for name in ("sh", "trace"):
            with self.subTest(name):
                started = Started(name, LOST, program=self.sleeper)
                started.give("forward 3\n")
                started.wait_for(2)
                self.check(started, name, signal.SIGTERM)

    def test_a_room_that_has_no_port_yet(self) -> None:
        for number in SAID:
            with self.subTest(number):
                started = Started("room", LOST, "--port", str(free_port()), program=self.sleeper)
                started.wait_for(2)
                self.check(started, "room", number)

    def test_a_hunt(self) -> None:
        started = Started("hunt", LOST, "stuck", reach=self.sleeper)
        started.wait_for(2)
        self.check(started, "hunt", signal.SIGTERM)

    def test_a_hunt_that_makes_its_find_again(self) -> None:
        started = Started("hunt", LOST, "tick = 0", program=self.sleeper)
        started.wait_for(2)
        self.check(started, "hunt", signal.SIGTERM)

    def test_processes_of_a_trace(self) -> None:
        for number in SAID:
            with self.subTest(number):
                started = Started("trace", TURNS, "--page", str(self.scratch / "page.html"))
                started.give("forward 100000\n")
                started.wait_for(trace_processes())
                self.check(started, "trace", number)

    def test_a_filter(self) -> None:
        for number in SAID:
            with self.subTest(number):
                started = Started("sh", LOST)
                started.wait_for(2)
                self.assertEqual("ok at 1\n", started.ask("step 1\n"))
                self.check(started, "sh", number)

    def test_a_server_is_left_as_it_was(self) -> None:
        with server(path=TURNS) as (port, _), Session.attach(port) as other:
            other.tell("forward 9000")
            other.tell("back 100")
            before = other.tell("show moves")
            started = Started("trace", TURNS, "--port", str(port), "--from", "1")
            while other.tell("show wheel") == "wheel -":
                time.sleep(0.005)  # (each look takes a place of the history)
            self.check(started, "trace", signal.SIGTERM)
            self.assertEqual("wheel -", other.tell("show wheel"))
            self.assertEqual(before, other.tell("show moves"))

    def test_an_ignored_interrupt_stays_so(self) -> None:
        started = Started("sh", LOST, ignored=signal.SIGINT)
        self.assertEqual("ok at 1\n", started.ask("step 1\n"))
        started.process.send_signal(signal.SIGINT)
        self.assertEqual("ok at 2\n", started.ask("tick\n"))
        self.assertEqual(["", 0], started.end(0))

    def test_a_group_that_is_ended(self) -> None:
        # (as `timeout` and a shell do: the program that searches has the signal, too)
        started = Started("hunt", str(EXAMPLES / "soak.json"), "tick = 4294967295")
        started.wait_for(2)
        self.check(started, "hunt", signal.SIGTERM)


class Lacking(unittest.TestCase):
    """A Python that has a part of its library alone."""

    def test_one_line(self) -> None:
        for words in (
            ["--help"],
            ["--why", "fly"],
            ["check", LOST],
            ["trace", LOST, "--page", "-"],
        ):
            with self.subTest(words):
                ran = at_import("dataclasses,json,difflib,multiprocessing", "hide", *words)
                lacks = "rdbg: this Python lacks dataclasses, difflib, json, multiprocessing"
                self.assertEqual(
                    (f"{lacks}: install python3\n", "", 2), (ran.stderr, ran.stdout, ran.returncode)
                )

    def test_what_is_not_needed(self) -> None:
        ran = at_import("readline", "hide", "check", LOST)
        self.assertEqual(("", 0), (ran.stderr, ran.returncode))

    def test_debians_own(self) -> None:
        # Of these modules python3-minimal has none.
        modules = "base64,dataclasses,difflib,email,html,http,json"
        ran = at_import(modules, "hide", "sh", LOST)
        self.assertEqual(2, ran.returncode)
        self.assertRegex(
            ran.stderr, r"\Ardbg: this Python lacks base64, dataclasses, difflib, .*\n\Z"
        )


class Full(unittest.TestCase):
    """Memory that ends while the modules are imported."""

    def test_one_line(self) -> None:
        for module in ("rdbg.start", "rdbg.main", "rdbg.companions.reach", "selectors"):
            with self.subTest(module):
                ran = at_import(module, "fill", "reach", LOST, "asleep")
                self.assertEqual(("rdbg: there is no memory\n", 2), (ran.stderr, ran.returncode))


class Copy:
    """The companions in a folder of their own, as a checkout or as they are installed."""

    def __init__(self, case: unittest.TestCase, is_checkout: bool) -> None:
        folder = tempfile.TemporaryDirectory()
        case.addCleanup(folder.cleanup)
        self.top = pathlib.Path(folder.name)
        self.tools = self.top / "tools"
        hidden = shutil.ignore_patterns("__pycache__")
        shutil.copytree(TOP / "tools" / "rdbg", self.tools / "rdbg", ignore=hidden)
        shutil.copy(COMPANION, self.tools)
        if is_checkout:
            (self.top / "crates.txt").touch()

    def run(self, *words: str, told: Optional[List[str]] = None) -> int:
        """Runs a companion, and answers its status."""
        environment = {**os.environ}
        environment.pop("PYTHONDONTWRITEBYTECODE", None)
        python = [sys.executable] if told is None else told
        ran = subprocess.run(
            [*python, str(self.tools / "companion"), *words],
            env=environment,
            stdout=subprocess.PIPE,
            stderr=subprocess.PIPE,
        )
        assert ran.stderr == b"", ran.stderr
        return ran.returncode

    def cached(self) -> List[str]:
        """The byte code that there is, by the folder below the top, each folder once."""
        found = {it.relative_to(self.top).parts[:2] for it in self.top.rglob("*.pyc")}
        return sorted("/".join(parts) for parts in found)


class Caches(unittest.TestCase):
    """Where the byte code of the companions is kept."""

    def test_a_checkout(self) -> None:
        by_itself: List[str] = []
        for told in ([sys.executable], [sys.executable, "-B"], by_itself):
            with self.subTest(told):
                copy = Copy(self, is_checkout=True)
                for _ in range(2):
                    self.assertEqual(0, copy.run("check", LOST, told=told))
                self.assertEqual(["out/pycache"], copy.cached())
                # (what Python has in its own folders isn't kept a second time)
                made = [it.name for it in copy.top.rglob("*.pyc")]
                self.assertTrue(any(it.startswith("main.") for it in made))
                self.assertFalse(any(it.startswith("argparse.") for it in made))

    def test_where_it_is_installed(self) -> None:
        copy = Copy(self, is_checkout=False)
        self.assertEqual(0, copy.run("check", LOST))
        self.assertEqual(["tools/rdbg"], copy.cached())
        asked_not_to = Copy(self, is_checkout=False)
        self.assertEqual(0, asked_not_to.run("check", LOST, told=[sys.executable, "-B"]))
        self.assertEqual([], asked_not_to.cached())

    def test_where_nothing_can_be_written(self) -> None:
        copy = Copy(self, is_checkout=True)
        (copy.top / "out").write_text("in the way of a folder")
        self.assertEqual(0, copy.run("check", LOST))
        self.assertEqual([], copy.cached())

    @IS_ROOT
    def test_a_folder_of_somebody_else(self) -> None:
        for is_checkout in (True, False):
            copy = Copy(self, is_checkout)
            os.chown(copy.tools, 65_534, 65_534)
            self.assertEqual(0, copy.run("check", LOST))
            self.assertEqual([], copy.cached())

    def test_a_source_that_has_changed(self) -> None:
        copy = Copy(self, is_checkout=True)
        self.assertEqual(0, copy.run("check", LOST))
        check = copy.tools / "rdbg" / "companions" / "check.py"
        check.write_text(check.read_text().replace("or apart else 0\n", "or apart else 7\n"))
        self.assertEqual(7, copy.run("check", LOST))

    def test_many_that_start_at_a_time(self) -> None:
        copy = Copy(self, is_checkout=True)
        words = [sys.executable, str(copy.tools / "companion"), "check", LOST]
        silent = subprocess.DEVNULL
        started = [subprocess.Popen(words, stdout=silent) for _ in range(8)]
        self.assertEqual([0] * 8, [it.wait() for it in started])
        self.assertEqual([], [it.name for it in copy.top.rglob("*.pyc.*")])
        self.assertEqual(0, copy.run("check", LOST))


def seconds(*words: str) -> float:
    """How many seconds of a processor a companion takes, the fewest of a few starts."""
    return seconds_of([sys.executable, "-B", str(COMPANION), *words])


class Help(unittest.TestCase):
    """The help is there at once."""

    def test_however_it_is_started(self) -> None:
        for told in (["-I"], ["-B"], ["-S", "-E"]):
            command = [sys.executable, *told, str(COMPANION), "--help"]
            said = subprocess.run(command, stdout=subprocess.PIPE, check=True).stdout
            self.assertIn(b"rdbg trace ..", said)

    def test_it_is_quick(self) -> None:
        self.assertLess(seconds("--help"), QUICK)
        self.assertLess(seconds("trace", "--help"), QUICK)

    def test_what_it_imports(self) -> None:
        for words in (["--help"], ["trace", "--help"]):
            command = [sys.executable, "-X", "importtime", str(COMPANION), *words]
            ran = subprocess.run(command, stdout=subprocess.PIPE, stderr=subprocess.PIPE, text=True)
            heavy = ("rdbg.replies", "rdbg.companions.hunt", "multiprocessing", "rdbg.shell.shell")
            for module in heavy:
                self.assertNotIn(f" {module}\n", ran.stderr)

    def test_what_companions_are_for(self) -> None:
        for entry in main.entries():
            with self.subTest(entry.words):
                self.assertEqual(main.companion(entry.words).SUMMARY, entry.text)


if __name__ == "__main__":
    unittest.main()
