"""`./rdbg` finds its program and its companions, from wherever it is called."""
import os
import pathlib
import pty
import re
import socket
import subprocess
import tempfile
import unittest
from typing import Dict, Optional

from rdbg.client import program
from tests.paths import EXAMPLES, TOP, WRAPPER
from tests.strangers import IS_ROOT, become

LOST = "examples/lost_item.json"
LOST_FILE = str(EXAMPLES / "lost_item.json")


def run(
    wrapper: pathlib.Path, *words: str, more: Optional[Dict[str, str]] = None, given: str = ""
) -> "subprocess.CompletedProcess[str]":
    """What a wrapper does on these words, from another folder."""
    environment = {**os.environ, "RDBG_PROGRAM": program(), **(more or {})}
    return subprocess.run(
        [str(wrapper), *words],
        cwd="/",
        env=environment,
        input=given,
        stdout=subprocess.PIPE,
        stderr=subprocess.PIPE,
        universal_newlines=True,
    )


def at_terminal(*words: str) -> str:
    """What a person sees who calls the wrapper in a checkout, and types nothing."""
    controller, terminal = pty.openpty()
    environment = {**os.environ, "RDBG_PROGRAM": program()}
    process = subprocess.Popen(
        [str(WRAPPER), *words],
        cwd=TOP,
        env=environment,
        stdin=terminal,
        stdout=terminal,
        stderr=terminal,
    )
    os.close(terminal)
    os.write(controller, b"\x04")
    seen = b""
    try:
        while True:
            seen += os.read(controller, 4096)
    except OSError:
        # (how a terminal ends that nobody has open any more)
        process.wait()
        os.close(controller)
    return seen.decode().replace("\r\n", "\n")


class Terminal(unittest.TestCase):
    """What is said to a person besides what the program says."""

    def test_the_place_of_a_fault(self) -> None:
        with tempfile.NamedTemporaryFile("w", suffix=".json") as file:
            file.write(
                (EXAMPLES / "lost_item.json").read_text().replace("recv jobs max", "recv jobs")
            )
            file.flush()
            seen = at_terminal("run", "--app", file.name)
        self.assertIn("rdbg: application refused: L5 Instr\n", seen)
        self.assertIn(f"{file.name}:6:", seen)
        self.assertIn("missing block time", seen)

    def test_a_text_in_lines(self) -> None:
        with tempfile.NamedTemporaryFile("w", suffix=".fw") as file:
            seen = at_terminal("run", f"--app={file.name}")
        self.assertIn(f"rdbg run: {file.name} is no JSON: './rdbg make {file.name}' makes it", seen)

    def test_a_wrong_command_line(self) -> None:
        seen = at_terminal("run", "--moves", "0")
        self.assertIn(
            "rdbg: bad command line\nrdbg: --moves must be 1 to 1000000, found '0'\n", seen
        )
        self.assertIn(
            "unknown command 'chekc' (did you mean 'check'?)", at_terminal("chekc", "x.json")
        )

    def test_a_prompt_is_pointed_to(self) -> None:
        self.assertIn("'./rdbg sh' is a prompt", at_terminal("run", "--app", LOST))


class Refused(unittest.TestCase):
    """Why an application is refused, without a terminal: a line after the program's own."""

    def check(self, file: str, why: str, stranger: bool = False) -> None:
        """Asks both words that take an application."""
        choices = (["run"], ["serve", "--port", "1", "--sessions", "1"])
        for words in choices:
            for option in (["--app", file], [f"--app={file}"]):
                asked = [*words, *option]
                with self.subTest(asked):
                    ran = subprocess.run(
                        [str(WRAPPER), *asked],
                        env={**os.environ, "RDBG_PROGRAM": program()},
                        stdin=subprocess.DEVNULL,
                        stdout=subprocess.PIPE,
                        stderr=subprocess.PIPE,
                        preexec_fn=become if stranger else None,
                    )
                    self.assertEqual((1, b""), (ran.returncode, ran.stdout))
                    first, *_, last = ran.stderr.decode().splitlines(True)[-2:]
                    if not stranger:
                        own = subprocess.run([program(), *asked], stderr=subprocess.PIPE, input=b"")
                        self.assertEqual(own.stderr.decode(), first)
                    self.assertRegex(last, "^" + re.escape(why.replace("WORD", words[0])))

    def test_why(self) -> None:
        with tempfile.TemporaryDirectory() as folder:
            lines, texts = f"{folder}/a.fw", f"{folder}/a.json"
            pathlib.Path(lines).write_text("cores 1\n")
            pathlib.Path(texts).write_text("[]\n")
            self.check("nosuch.json", "rdbg WORD: cannot read nosuch.json: no such file")
            self.check("a\nb", "rdbg WORD: cannot read a?b: no such file")
            self.check(folder, f"rdbg WORD: cannot read {folder}: it is a folder")
            why = f"rdbg WORD: {lines} is no JSON: './rdbg make {lines}' makes it"
            self.check(lines, why)
            self.check(texts, f"{texts}:1:1: the application must be an object")

    @IS_ROOT
    def test_a_file_of_another_user(self) -> None:
        with tempfile.TemporaryDirectory() as folder:
            os.chmod(folder, 0o755)
            file = pathlib.Path(folder) / "a.json"
            file.write_text((EXAMPLES / "turns.json").read_text())
            file.chmod(0o600)
            why = f"rdbg WORD: cannot read {file}: permission denied"
            self.check(str(file), why, stranger=True)


class Wrapper(unittest.TestCase):
    """In a checkout, through a link, and installed."""

    def check_example(self, wrapper: pathlib.Path, more: Dict[str, str]) -> None:
        app = str(EXAMPLES / "lost_item.json")
        asked = (EXAMPLES / "lost_item.commands").read_text()
        ran = run(wrapper, "run", "--app", app, more=more, given=asked)
        self.assertEqual(ran.stdout, (EXAMPLES / "lost_item.replies").read_text())
        self.assertEqual((ran.returncode, ran.stderr), (0, ""))
        self.assertEqual(run(wrapper, "check", app, more=more).returncode, 0)

    def test_by_its_own_path(self) -> None:
        self.check_example(WRAPPER, {})

    def test_through_links(self) -> None:
        with tempfile.TemporaryDirectory() as folder:
            first, second = pathlib.Path(folder) / "one", pathlib.Path(folder) / "a b"
            first.symlink_to(WRAPPER)
            second.symlink_to("one")
            self.check_example(second, {})

    def test_installed(self) -> None:
        with tempfile.TemporaryDirectory() as folder:
            prefix = pathlib.Path(folder) / "a prefix"
            installed = run(WRAPPER, "install", str(prefix))
            self.assertIn(f"rdbg is in {prefix}/bin, ", installed.stdout, installed.stderr)
            page = (prefix / "share" / "man" / "man1" / "rdbg.1").read_text()
            self.assertTrue(page.startswith(".TH RDBG 1 "))
            self.assertFalse((prefix / "lib" / "rdbg" / "tools" / "tests").exists())
            self.assertTrue(list((prefix / "lib/rdbg/tools/rdbg/__pycache__").glob("main.*.pyc")))
            # (with a program of its own)
            self.check_example(prefix / "bin" / "rdbg", {"RDBG_PROGRAM": ""})
            again = run(WRAPPER, "install", str(prefix))
            self.assertEqual(again.returncode, 0)
            version = run(prefix / "bin" / "rdbg", "--version").stdout
            self.assertRegex(
                version, "^rdbg [0-9.]+ at commit .*; .*\nrdbg is not .*proved; its SHA-256"
            )

    def test_an_installed_one_names_itself(self) -> None:
        with tempfile.TemporaryDirectory() as folder:
            prefix, page = pathlib.Path(folder) / "prefix", pathlib.Path(folder) / "page.html"
            self.assertEqual(run(WRAPPER, "install", str(prefix)).returncode, 0)
            wrong = pathlib.Path(folder) / "wrong.json"
            wrong.write_text("{}")
            asked = (
                (["sh", LOST_FILE], "help save\nstep 1\nhelp L3\n", "`rdbg run --app FILE"),
                (["trace", str(wrong)], "step 1\n", "`rdbg check "),
                (["trace", LOST_FILE, "--page", str(page)], "step 1\n", ""),
                (["run", "--app", "a.fw"], "", ""),
                (["hepl"], "", "see rdbg --help"),
            )
            for words, given, told in asked:
                with self.subTest(words):
                    ran = run(prefix / "bin/rdbg", *words, given=given)
                    self.assertIn(told, ran.stdout + ran.stderr)
                    self.assertNotIn("./rdbg", ran.stdout + ran.stderr)
            self.assertIn("rdbg sh ", page.read_text())
            self.assertNotIn("./rdbg", page.read_text())

    def test_installed_pages(self) -> None:
        with tempfile.TemporaryDirectory() as folder:
            prefix, page = pathlib.Path(folder) / "prefix", pathlib.Path(folder) / "page.html"
            self.assertEqual(run(WRAPPER, "install", str(prefix)).returncode, 0)
            words = ["trace", str(EXAMPLES / "lost_item.json"), "--page", str(page)]
            ran = run(prefix / "bin" / "rdbg", *words, given="forward 3\n")
            self.assertEqual((0, ""), (ran.returncode, ran.stderr))
            self.assertIn('"first":0,"last":3', page.read_text())
            self.assertTrue((prefix / "share" / "rdbg" / "docs" / "images" / "page.png").exists())

    def test_a_server_says_whose_lines_it_takes(self) -> None:
        with socket.create_server(("127.0.0.1", 0)) as taken:
            port = str(taken.getsockname()[1])
            words = ["serve", "--app", str(EXAMPLES / "turns.json"), "--sessions", "1"]
            ran = run(WRAPPER, *words, "--port", port)
        whose, cause, why = ran.stderr.splitlines()
        self.assertIn("any user of this machine can send commands to this port", whose)
        self.assertEqual(cause, f"rdbg: port {port}: Address already in use")
        self.assertEqual(why, "rdbg: cannot listen")

    def test_words_that_are_none(self) -> None:
        self.assertEqual(run(WRAPPER, "fly").returncode, 2)
        self.assertEqual(run(WRAPPER, "install").returncode, 2)
        self.assertEqual(run(WRAPPER, "../rdbg/companions/check").returncode, 2)

    def test_help(self) -> None:
        for words in (["--help"], ["-h"], ["help"]):
            self.assertIn("rdbg serve --app FILE", run(WRAPPER, *words).stdout)
        self.assertIn("--moves <COUNT>", run(WRAPPER, "help", "run").stdout)
        self.assertIn("usage: rdbg check", run(WRAPPER, "help", "check").stdout)


if __name__ == "__main__":
    unittest.main()
