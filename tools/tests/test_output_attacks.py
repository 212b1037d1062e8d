"""Attacks by another user on the files that tools write and read."""
import contextlib
import os
import pathlib
import stat
import subprocess
import sys
import tempfile
import time
import unittest
from typing import Iterator, List, Tuple
from unittest import mock

from rdbg.atomic_file import write_atomically
from rdbg.failure import Failure
from rdbg.main import main
from rdbg.rooms.talk import Talk
from rdbg.shell.history import History
from rdbg.shell import sourcing
from tests.paths import COMPANION, EXAMPLES
from tests.shell_talk import example, said
from tests.strangers import IS_ROOT, NOBODY, become

LOST = str(EXAMPLES / "lost_item.json")
OF_ANOTHER = f"it is a file of another user (uid {NOBODY})"
PATIENCE = 60.0
# All that a file may be by its mode besides who reads, writes and executes it.
SPECIAL = stat.S_ISUID | stat.S_ISGID | stat.S_ISVTX
# Opens a pipe for reading, which waits for a writer, and prints whether one came within seconds.
WAITS = """
import os, select, sys
number = os.open(sys.argv[1], os.O_RDONLY | os.O_NONBLOCK)
poll = select.poll()
poll.register(number, select.POLLIN)
print("waits", flush=True)
sys.stdin.read()
print("came" if poll.poll(0) else "nobody", flush=True)
"""


def run(*words: str, given: str = "forward 3\n") -> Tuple[int, str]:
    """Runs a tool, and returns its status and what it prints on standard error."""
    command = [sys.executable, "-B", str(COMPANION), *words]
    pipe = subprocess.PIPE
    ran = subprocess.run(command, input=given.encode(), stdout=pipe, stderr=pipe, timeout=PATIENCE)
    return ran.returncode, ran.stderr.decode()


def write_page(path: str) -> str:
    """Writes a page by `trace --page`, and returns what is said where that fails."""
    status, errors = run("trace", LOST, "--page", path)
    assert (status == 2) == bool(errors), (status, errors)
    return errors


def write_finds(path: str) -> str:
    """Writes finds by `hunt -o`."""
    status, errors = run("hunt", LOST, "tick = 1", "-o", path)
    assert (status == 2) == bool(errors), (status, errors)
    return errors


def write_commands(path: str) -> str:
    """Writes commands by `save!`, and returns the first line that is said."""
    with example("lost_item") as shell:
        answer = said(shell, "step 1", f"save! {path}")[1]
    return "" if answer.startswith("# saved ") else answer


WAYS = {"report.html": write_page, "hunt.commands": write_finds, "saved.commands": write_commands}


@IS_ROOT
class Shared(unittest.TestCase):
    """Output files in a folder that everybody may write to."""

    def setUp(self) -> None:
        folder = tempfile.TemporaryDirectory()
        self.addCleanup(folder.cleanup)
        self.folder = pathlib.Path(folder.name)
        self.folder.chmod(0o755)
        self.addCleanup(os.umask, os.umask(0o022))

    def shared(self, mode: int) -> pathlib.Path:
        """Returns a new folder of this mode."""
        made = self.folder / f"{mode:o}"
        made.mkdir()
        made.chmod(mode)
        return made

    def laid(self, path: pathlib.Path, mode: int) -> None:
        """Has another user put a file there, of this mode."""
        script = "import os, sys; os.close(os.open(sys.argv[1], os.O_CREAT | os.O_WRONLY));"
        script += "os.chmod(sys.argv[1], int(sys.argv[2], 8))"
        words = ["/usr/bin/python3", "-I", "-c", script, str(path), f"{mode:o}"]
        subprocess.run(words, preexec_fn=become, check=True)

    def test_a_file_of_another_user_is_refused(self) -> None:
        for folder in (self.shared(0o1777), self.shared(0o777), self.shared(0o775)):
            for name, way in WAYS.items():
                with self.subTest(name, folder=folder.name):
                    path = folder / name
                    if folder.name == "775":
                        path.touch()
                        os.chown(path, NOBODY, -1)
                        path.chmod(0o4777)
                    else:
                        self.laid(path, 0o4777)
                    why = way(str(path))
                    self.assertIn(f"cannot write {path}: {OF_ANOTHER}", why)
                    there = path.stat()
                    self.assertEqual((NOBODY, 0), (there.st_uid, there.st_size))
                    self.assertEqual([name], os.listdir(folder))
                    path.unlink()

    def test_ones_own_file_keeps_its_permission_bits_alone(self) -> None:
        for folder in (self.shared(0o1777), self.shared(0o755)):
            for name, way in WAYS.items():
                with self.subTest(name, folder=folder.name):
                    path = folder / name
                    path.touch()
                    path.chmod(0o7604)
                    self.assertEqual("", way(str(path)))
                    there = path.stat()
                    self.assertEqual(0o604, stat.S_IMODE(there.st_mode))
                    self.assertEqual(os.geteuid(), there.st_uid)

    def test_another_users_file_in_a_folder_of_ones_own_becomes_ones_own(self) -> None:
        path = self.folder / "report.html"
        path.touch()
        os.chown(path, NOBODY, NOBODY)
        path.chmod(0o4777)
        self.assertEqual("", write_page(str(path)))
        there = path.stat()
        self.assertEqual((os.geteuid(), os.getegid()), (there.st_uid, there.st_gid))
        self.assertEqual(0o644, stat.S_IMODE(there.st_mode))

    def test_another_users_folder_is_shared(self) -> None:
        folder = self.shared(0o755)
        os.chown(folder, NOBODY, -1)
        path = folder / "report.html"
        self.laid(path, 0o644)
        self.assertIn(OF_ANOTHER, write_page(str(path)))

    def test_the_temporary_file_has_no_more_bits_than_the_file(self) -> None:
        for is_private, mode in ((False, 0o4640), (False, 0o444), (True, 0o4600)):
            with self.subTest(is_private=is_private, mode=f"{mode:o}"):
                path = self.folder / "out.commands"
                path.touch()
                path.chmod(mode)
                with write_atomically(str(path), is_private) as file:
                    file.write("x" * 100_000)
                    (made,) = self.folder.glob(".rdbg-*")
                    self.assertEqual(0, stat.S_IMODE(made.stat().st_mode) & ~mode & 0o7777)
                    self.assertEqual(0, stat.S_IMODE(made.stat().st_mode) & SPECIAL)
                self.assertEqual(mode & 0o777, stat.S_IMODE(path.stat().st_mode))
                path.unlink()

    def test_a_file_of_several_names_in_a_shared_folder_is_refused(self) -> None:
        # (as another user could name a file of the victim's there)
        own, folder = self.folder / "own", self.shared(0o777)
        own.write_text("own")
        os.link(own, folder / "report.html")
        why = f"it is a file of several names in a folder that other users can write to"
        self.assertIn(why, write_page(str(folder / "report.html")))
        self.assertEqual("own", own.read_text())

    def test_a_file_that_is_put_there_while_a_private_one_is_written(self) -> None:
        path = self.shared(0o777) / "saved.commands"
        with self.assertRaisesRegex(Failure, "another program has written it meanwhile"):
            with write_atomically(str(path), is_private=True) as file:
                file.write("step 1\n")
                self.laid(path, 0o666)
        self.assertEqual(NOBODY, path.stat().st_uid)
        self.assertEqual([path.name], os.listdir(path.parent))


@contextlib.contextmanager
def waiting_at(path: pathlib.Path) -> Iterator[List[str]]:
    """Has another user wait at a pipe of theirs for a writer; the list has at the end whether one
    has come."""
    found: List[str] = []
    pipe = subprocess.PIPE
    words = ["/usr/bin/python3", "-I", "-c", WAITS, str(path)]
    with subprocess.Popen(words, preexec_fn=become, stdin=pipe, stdout=pipe, text=True) as process:
        assert process.stdout is not None
        assert process.stdout.readline() == "waits\n"
        yield found
        found.append(process.communicate(timeout=PATIENCE)[0].strip())


@IS_ROOT
class Pipes(unittest.TestCase):
    """Named pipes of another user, and one's own that nobody else has open."""

    def setUp(self) -> None:
        folder = tempfile.TemporaryDirectory()
        self.addCleanup(folder.cleanup)
        self.folder = pathlib.Path(folder.name)
        self.folder.chmod(0o777)
        self.pipe = self.folder / "pipe.commands"
        os.mkfifo(self.pipe)
        self.pipe.chmod(0o666)

    def test_another_users_is_never_opened_for_writing(self) -> None:
        os.chown(self.pipe, NOBODY, -1)
        path = str(self.pipe)
        with waiting_at(self.pipe) as found:
            for way in (write_page, write_finds, write_commands):
                self.assertIn("of another user", way(path))
            with self.assertRaisesRegex(Failure, "of another user"):
                Talk(path)
            history = History(self.pipe)
            history.add("step 1")
            history.close()
        self.assertEqual(["nobody"], found)

    def test_another_users_is_not_read(self) -> None:
        os.chown(self.pipe, NOBODY, -1)
        os.chown(self.folder, 0, -1)
        began = time.monotonic()
        status, errors = run("check", str(self.pipe))
        self.assertEqual(2, status)
        self.assertIn(f"cannot read {self.pipe}: it is a pipe of another user", errors)
        self.assertLess(time.monotonic() - began, 8)

    def test_opening_ones_own_never_waits(self) -> None:
        # (no program has it open)
        self.assertIn("cannot write", write_commands(str(self.pipe)))
        with self.assertRaisesRegex(Failure, "cannot write"):
            Talk(str(self.pipe))
        History(self.pipe).close()


@IS_ROOT
class StartFiles(unittest.TestCase):
    """A prompt's history and start files through links of another user."""

    def setUp(self) -> None:
        folder = tempfile.TemporaryDirectory()
        self.addCleanup(folder.cleanup)
        self.folder = pathlib.Path(folder.name)
        self.folder.chmod(0o755)
        # (the victim's own lines, which are for nothing of the kind)
        self.own = self.folder / "own"
        self.own.write_text("step 0\n")
        self.shared = self.folder / "shared"
        self.shared.mkdir()
        self.shared.chmod(0o1777)

    def lay_link(self, name: str) -> pathlib.Path:
        """Has another user put a link to the victim's file into the shared folder."""
        link = self.shared / name
        words = ["ln", "-s", str(self.own), str(link)]
        subprocess.run(words, preexec_fn=become, check=True)
        return link

    def test_a_start_file_is_not_read_through_one(self) -> None:
        link = self.lay_link(sourcing.START)
        with mock.patch.dict(os.environ, {"HOME": str(self.shared)}):
            with example("lost_item") as shell, mock.patch.object(shell, "say") as say:
                sourcing.begin(shell)
                self.assertEqual(0, shell.target.place)
        say.assert_called_once_with(f"cannot read {link}: it is a link of another user")

    def test_a_history_is_neither_read_nor_written_through_one(self) -> None:
        history = History(self.lay_link("history"))
        self.assertEqual([], history.lines)
        history.add("step 1")
        self.assertEqual("step 0\n", self.own.read_text())

    def test_a_link_that_is_put_there_later_is_not_followed(self) -> None:
        path = self.folder / "history"
        history = History(path)
        history.add("step 1")
        path.rename(self.folder / "elsewhere")
        path.symlink_to(self.own)
        history.add("step 2")
        history.close()
        self.assertEqual("step 0\n", self.own.read_text())
        self.assertEqual("step 1\nstep 2\n", (self.folder / "elsewhere").read_text())


class LongHistory(unittest.TestCase):
    """A history of more lines than are kept."""

    def test_older_lines_are_dropped(self) -> None:
        with tempfile.TemporaryDirectory() as folder:
            path = pathlib.Path(folder) / "history"
            path.write_text("".join(f"step {it}\n" for it in range(2_100)))
            path.chmod(0o600)
            history = History(path)
            history.add("tick")
            history.close()
            lines = path.read_text().splitlines()
            self.assertEqual((2_001, "step 100", "tick"), (len(lines), lines[0], lines[-1]))
            self.assertEqual(0o600, stat.S_IMODE(path.stat().st_mode))


if __name__ == "__main__":
    unittest.main()
