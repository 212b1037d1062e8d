"""How much of a file is read, and how long a pipe is waited for."""
import os
import pathlib
import resource
import shlex
import subprocess
import sys
import tempfile
import threading
import time
import unittest
from typing import Tuple
from unittest import mock

from rdbg import input_file
from rdbg.input_file import LARGEST_COMMANDS, LARGEST_SOURCE, MEBIBYTE, read_bounded, read_own
from rdbg.links import RefusedFile
from tests.paths import COMPANION, EXAMPLES

LOST = str(EXAMPLES / "lost_item.json")
# So that a tool that reads too much fails soon, and not the machine.
MEMORY_BYTES = 1 << 30
SOURCE, COMMANDS = "larger than 16 MiB", "larger than 64 MiB"


def limit_memory() -> None:
    """Limits the memory of the process that is to be started."""
    resource.setrlimit(resource.RLIMIT_AS, (MEMORY_BYTES, MEMORY_BYTES))


def run(*words: str, given: str = os.devnull) -> Tuple[int, str]:
    """Runs a tool on little memory, and returns its status and what it prints."""
    command = [sys.executable, "-B", str(COMPANION), *words]
    pipe = subprocess.PIPE
    with open(given, "rb") as lines:
        ran = subprocess.run(
            command,
            stdin=lines,
            stdout=pipe,
            stderr=subprocess.STDOUT,
            preexec_fn=limit_memory,
            timeout=120,
        )
    return ran.returncode, ran.stdout.decode()


class InFolder(unittest.TestCase):
    """Tests in a folder of their own."""

    def setUp(self) -> None:
        folder = tempfile.TemporaryDirectory()
        self.addCleanup(folder.cleanup)
        self.folder = pathlib.Path(folder.name)

    def zero(self, name: str) -> str:
        """Returns the path of a file that has no end."""
        path = self.folder / name
        path.symlink_to("/dev/zero")
        return str(path)


class Endless(InFolder):
    """Files without an end."""

    def test_each_tool_reads_a_part(self) -> None:
        json, c, goals = (self.zero(it) for it in ("zero.json", "other.c", "goals.json"))
        for words, path, why in (
            (["check", "/dev/zero"], "/dev/zero", SOURCE),
            (["check", c], c, SOURCE),
            (["make", "--from-c", c], c, SOURCE),
            (["make", "--back", json], json, SOURCE),
            (["hunt", json, "asleep"], json, SOURCE),
            (["trace", json], json, SOURCE),
            (["trace", LOST, "/dev/zero"], "/dev/zero", COMMANDS),
            (["test", str(self.folder)], goals, SOURCE),
            (["sh", json], json, SOURCE),
        ):
            with self.subTest(words):
                wanted = f"rdbg {words[0]}: cannot read {path}: {why}\n"
                self.assertEqual((2, wanted), run(*words))

    def test_standard_input(self) -> None:
        for words, why in ((["check", "-"], SOURCE), (["trace", LOST, "-"], COMMANDS)):
            status, errors = run(*words, given="/dev/zero")
            self.assertEqual(2, status)
            self.assertIn(f"cannot read standard input: {why}\n", errors)

    def test_lines_at_the_prompt(self) -> None:
        lines = self.folder / "lines"
        lines.write_text("source /dev/zero\n")
        wanted = f"# cannot read /dev/zero: {SOURCE}\n"
        self.assertEqual((0, wanted), run("sh", LOST, "--nx", given=str(lines)))

    def test_a_start_file(self) -> None:
        path = self.folder / ".rdbginit"
        path.touch()
        os.truncate(path, LARGEST_SOURCE + 1)
        with self.assertRaisesRegex(RefusedFile, SOURCE):
            read_own(str(path))

    def test_exactly_as_much_is_read(self) -> None:
        path = self.folder / "file"
        path.touch()
        os.truncate(path, MEBIBYTE)
        self.assertEqual(MEBIBYTE, len(read_bounded(str(path), MEBIBYTE)))
        with self.assertRaisesRegex(RefusedFile, "larger than 1 MiB"):
            os.truncate(path, MEBIBYTE + 1)
            read_bounded(str(path), MEBIBYTE)
        self.assertLess(LARGEST_SOURCE, LARGEST_COMMANDS)


class Pipes(InFolder):
    """Named pipes, and those of a shell."""

    def setUp(self) -> None:
        super().setUp()
        self.pipe = str(self.folder / "pipe.json")
        os.mkfifo(self.pipe)

    def test_one_to_which_no_program_writes(self) -> None:
        with mock.patch.object(input_file, "PIPE_PATIENCE_SECONDS", 0.2):
            with self.assertRaisesRegex(RefusedFile, "no program writes to this pipe"):
                read_bounded(self.pipe)

    def write_later(self, content: bytes) -> threading.Thread:
        """Has a program write to the pipe that comes later, and takes its time."""

        def write() -> None:
            time.sleep(0.2)
            with open(self.pipe, "wb", buffering=0) as file:
                for at in range(0, len(content), 200_000):
                    time.sleep(0.1)
                    file.write(content[at : at + 200_000])

        thread = threading.Thread(target=write)
        thread.start()
        return thread

    def test_a_program_that_comes_later(self) -> None:
        for content in (os.urandom(500_000), b""):
            thread = self.write_later(content)
            self.assertEqual(content, read_bounded(self.pipe))
            thread.join()

    def test_one_without_an_end(self) -> None:
        with subprocess.Popen(["sh", "-c", f"exec cat /dev/zero > {self.pipe}"]) as writer:
            with self.assertRaisesRegex(RefusedFile, "larger than 1 MiB"):
                read_bounded(self.pipe, MEBIBYTE)
            writer.wait()

    def test_those_of_a_shell(self) -> None:
        tool = " ".join(map(shlex.quote, [sys.executable, "-B", str(COMPANION)]))
        check = f"{tool} check"
        for line, status in (
            (f"{check} <(sleep 0.5; cat {LOST})", 0),
            (f"cat {LOST} | {check} /dev/stdin", 0),
            (f"{check} /dev/stdin < {LOST}", 0),
            (f"cat {LOST} | {check} -", 0),
            (f"{check} <(true)", 1),
            (f"{tool} hunt <(cat {LOST}) 'tick = 1'", 1),
            (f"cat {LOST} | {tool} reach /dev/stdin 'tick = 1'", 1),
        ):
            with self.subTest(line):
                began = time.monotonic()
                ran = subprocess.run(["bash", "-c", line], stdout=subprocess.PIPE, timeout=60)
                self.assertEqual(status, ran.returncode, ran.stdout)
                self.assertLess(time.monotonic() - began, input_file.PIPE_PATIENCE_SECONDS)


if __name__ == "__main__":
    unittest.main()
