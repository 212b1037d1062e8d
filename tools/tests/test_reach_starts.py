"""How `./rdbg reach` starts the program: by itself, or listened to where somebody has to."""
import os
import pathlib
import re
import signal
import subprocess
import tempfile
import time
import unittest
from typing import List, Tuple

from rdbg.program_help import OF
from rdbg.reaching.words import VALUED
from tests import searches
from tests.paths import EXAMPLES, WRAPPER
from tests.searches import FAR, FOUND, FURTHER, KILLED, SLEEPS
from tests.started import seconds_of
from tests.test_wrapper import at_terminal, run

LOST = str(EXAMPLES / "lost_item.json")
OPTION = re.compile(r"--[a-z]+")
# The same, where a value stands behind it.
VALUE = re.compile(r"(--[a-z]+) <(.+?)>")
# Seconds of a processor that a small search may take from its start to its end.
QUICK = 0.05
FAR_SHOWN = "searching: all runs of 12 moves, longest 24: 345 states, "


class Starts(unittest.TestCase):
    """With which words the program is started, and what becomes of its answer."""

    def test_by_itself(self) -> None:
        with searches.program(FOUND, end="exit 1") as it:
            ran = run(WRAPPER, "reach", LOST, "failed", "--moves", "5")
            self.assertEqual((1, FOUND, ""), (ran.returncode, ran.stdout, ran.stderr))
            self.assertEqual(f"{LOST} failed --moves 5", it.words())

    def test_a_vacuous_goal_is_reported(self) -> None:
        with searches.program(searches.NEVER) as it:
            ran = run(WRAPPER, "reach", LOST, "asleep")
            note = "note: vacuous: task poller never waits without a deadline\n"
            self.assertEqual((0, searches.NEVER, note), (ran.returncode, ran.stdout, ran.stderr))
            self.assertEqual(f"--progress {LOST} asleep", it.words())

    def test_the_message_of_the_tool(self) -> None:
        wrong = (
            (["nosuch.json", "asleep"], "rdbg reach: nosuch.json: cannot read the file\n"),
            ([LOST, "at", "pollr", "1"], "(did you mean `at poller 1`?)\n"),
            ([LOST, "asleep", "--lots"], "rdbg reach: error: unexpected argument '--lots' found\n"),
        )
        for words, why in wrong:
            with self.subTest(words):
                ran = run(WRAPPER, "reach", *words)
                self.assertEqual((2, ""), (ran.returncode, ran.stdout))
                self.assertIn(why, ran.stderr)
                self.assertNotIn("rdreach", ran.stderr)
                alone = run(WRAPPER, "reach", *words, "--within", "60")
                self.assertEqual(alone.stderr, ran.stderr)

    def test_an_answer_that_cannot_be_written(self) -> None:
        with searches.program("", "rdreach: cannot write the answer\n", "exit 2"):
            ran = run(WRAPPER, "reach", LOST, "asleep")
        self.assertEqual((2, "rdbg reach: cannot write the answer\n"), (ran.returncode, ran.stderr))

    def test_its_end_by_a_signal(self) -> None:
        for number, status, told in (
            (signal.SIGINT, 2, "rdbg reach: interrupted; with --within SECONDS"),
            (signal.SIGTERM, 143, ""),
            (signal.SIGKILL, -9, ""),
        ):
            with self.subTest(number), searches.program("", end=SLEEPS) as it:
                process = subprocess.Popen(
                    [str(WRAPPER), "reach", LOST, "failed"],
                    stdin=subprocess.DEVNULL,
                    stdout=subprocess.PIPE,
                    stderr=subprocess.PIPE,
                    universal_newlines=True,
                    preexec_fn=lambda: signal.signal(signal.SIGINT, signal.SIG_DFL) and None,
                )
                while not it.words():
                    time.sleep(0.02)
                process.send_signal(number)
                out, err = process.communicate()
                self.assertEqual((status, ""), (process.returncode, out))
                self.assertIn(told, err)

    def test_listened_to(self) -> None:
        with tempfile.TemporaryDirectory() as folder, searches.program(FOUND, FAR, "exit 1") as it:
            file = pathlib.Path(folder) / "out"
            for words in (["-o", str(file)], [f"-o{file}"], ["--within", "60"], ["--within=60"]):
                with self.subTest(words):
                    ran = run(WRAPPER, "reach", LOST, "asleep", *words)
                    self.assertEqual((1, FOUND, ""), (ran.returncode, ran.stdout, ran.stderr))
                    self.assertEqual(f"--progress {LOST} asleep", it.words())
            self.assertEqual("step 0\ntick\n", file.read_text())

    def test_an_engine(self) -> None:
        with searches.program("ok\n\n") as it:
            ran = run(WRAPPER, "reach", LOST, "--engine", "--moves", "5")
            self.assertEqual((0, "ok\n\n", ""), (ran.returncode, ran.stdout, ran.stderr))
            self.assertEqual(f"{LOST} --engine --moves 5", it.words())

    def test_help(self) -> None:
        with searches.program(FOUND) as it:
            for words in (["help", "reach"], ["reach", "--help"], ["reach", LOST, "-h"]):
                ran = run(WRAPPER, *words)
                self.assertEqual((0, ""), (ran.returncode, ran.stderr))
                self.assertIn("Usage: rdbg reach [OPTIONS] <FILE> <GOAL>...", ran.stdout)
            self.assertEqual("", it.words())

    def test_installed(self) -> None:
        with tempfile.TemporaryDirectory() as folder, searches.program(FOUND, end="exit 1"):
            prefix = pathlib.Path(folder) / "a prefix"
            installed = run(WRAPPER, "install", str(prefix))
            self.assertEqual(0, installed.returncode, installed.stderr)
            choices: List[List[str]] = [[], ["--within", "60"]]
            for words in choices:
                more = {"RDBG_REACH": "", "RDBG_PROGRAM": ""}
                ran = run(prefix / "bin/rdbg", "reach", LOST, "asleep", *words, more=more)
                self.assertEqual((1, FOUND, ""), (ran.returncode, ran.stdout, ran.stderr))


class Terminal(unittest.TestCase):
    """What somebody sees at a terminal."""

    def test_how_far_it_is(self) -> None:
        with searches.program(FOUND, FAR, "sleep 2; exit 1"):
            seen = at_terminal("reach", LOST, "asleep")
        self.assertRegex(seen, rf"\A\r{FAR_SHOWN}\d+,?\d* moves/s, 1 MiB\r +\r{FOUND}\Z")

    def test_an_engine(self) -> None:
        with searches.program("ok\n\n", "progress within 1\n", "exit 3") as it:
            seen = at_terminal("reach", LOST, "--engine", "--isr", "send rx 41")
            self.assertEqual("progress within 1\nok\n\n", seen)
            self.assertEqual(f"{LOST} --engine --isr send rx 41", it.words())

    def test_its_end_by_time(self) -> None:
        with searches.program("", FURTHER, SLEEPS):
            seen = at_terminal("reach", LOST, "failed", "--within", "0.5")
        self.assertEqual(searches.SAID_FURTHER, seen)

    def test_a_program_that_is_killed(self) -> None:
        with searches.program("", FAR, KILLED):
            seen = at_terminal("reach", LOST, "asleep")
        why = "the search program was killed by SIGKILL (known so far: not within 12 moves)"
        self.assertEqual(f"rdbg reach: {why}\n", seen)


class Real(unittest.TestCase):
    """The program that searches, where the tests are told which it is."""

    def setUp(self) -> None:
        found = searches.real()
        if found is None or not os.access(found, os.X_OK):
            self.skipTest("RDBG_REACH doesn't say where it is")

    def test_the_order_is_replayed(self) -> None:
        with tempfile.TemporaryDirectory() as folder:
            file = pathlib.Path(folder) / "found.commands"
            words = ["reach", LOST, "reg poller 0 = 1"]
            alone = run(WRAPPER, *words)
            heard = run(WRAPPER, *words, "-o", str(file))
            self.assertEqual((1, alone.stdout), (heard.returncode, heard.stdout), heard.stderr)
            given = file.read_text() + "watch reg poller 0 = 1\nshow watches\n"
        replies = run(WRAPPER, "run", "--app", LOST, given=given).stdout
        self.assertTrue(replies.endswith("watches 0:holds\n"), replies)

    def test_orders_of_any_length(self) -> None:
        rows: List[Tuple[List[str], int, str]] = [
            ([], 0, "never\n"),
            (["--moves", "9"], 0, "not within 9 moves\n"),
            (["--exact", "--states", "50"], 2, "full: not within "),
        ]
        for words, status, answer in rows:
            with self.subTest(words):
                ran = run(WRAPPER, "reach", LOST, "failed", *words)
                self.assertEqual((status, ""), (ran.returncode, ran.stderr))
                self.assertTrue(ran.stdout.startswith(answer), ran.stdout)

    def test_a_small_search_is_answered_at_once(self) -> None:
        command = [str(WRAPPER), "reach", str(EXAMPLES / "meeting.json"), "waits left"]
        self.assertLess(seconds_of(command, 1), QUICK)

    def test_the_help_has_its_options(self) -> None:
        own = subprocess.run([str(searches.real()), "--help"], stdout=subprocess.PIPE, check=True)
        options = {*OPTION.findall(own.stdout.decode())} - {"--progress"}
        self.assertLessEqual(options, {*OPTION.findall(OF["reach"])})
        valued = {option for option, _ in VALUE.findall(own.stdout.decode())}
        self.assertEqual(VALUED, valued)

    def test_it_says_how_far_it_is(self) -> None:
        long = [str(EXAMPLES / "soak.json"), "tick = 4294967295", "--moves", "100000"]
        ran = run(WRAPPER, "reach", *long, "--within", "3")
        self.assertEqual((2, ""), (ran.returncode, ran.stderr))
        wanted = r"full: not within \d+ moves\nstopped\nstates \d+ moves \d+ deepest \d+\n"
        self.assertRegex(ran.stdout, rf"\A{wanted}\Z")


if __name__ == "__main__":
    unittest.main()
