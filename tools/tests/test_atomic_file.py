"""Output files that are replaced once they are complete, or not at all."""
import contextlib
import io
import os
import pathlib
import signal
import stat
import subprocess
import sys
import tempfile
import threading
import unittest
from typing import List

from rdbg.failure import Failure
from rdbg.atomic_file import locate, write_atomically
from tests.paths import COMPANION, EXAMPLES
from tests.started import Started

TURNS = str(EXAMPLES / "turns.json")


class Ended(Exception):
    """What ends the writing."""


class AtomicFile(unittest.TestCase):
    """`rdbg.atomic_file`, in a folder of its own."""

    def setUp(self) -> None:
        folder = tempfile.TemporaryDirectory()
        self.addCleanup(folder.cleanup)
        self.addCleanup(os.chdir, os.getcwd())
        os.chdir(folder.name)
        self.file = pathlib.Path("page.html")

    def write(self, path: str, text: str) -> None:
        with write_atomically(path) as file:
            file.write(text)

    def names(self) -> List[str]:
        """The files that there are."""
        return sorted(os.listdir("."))

    def test_it_is_there_once_it_is_whole(self) -> None:
        self.file.write_text("old")
        with write_atomically("page.html") as file:
            file.write("new \u00e9")
            file.flush()
            self.assertEqual("old", self.file.read_text())
        self.assertEqual("new \u00e9", self.file.read_text("utf-8"))
        self.assertEqual(["page.html"], self.names())

    def test_it_stays_where_the_writing_ends(self) -> None:
        self.file.write_text("old")
        for path in ("page.html", "other.html"):
            with contextlib.suppress(Ended), write_atomically(path) as file:
                file.write("new")
                raise Ended
        self.assertEqual("old", self.file.read_text())
        self.assertEqual(["page.html"], self.names())

    def test_modes(self) -> None:
        before = os.umask(0o027)
        self.addCleanup(os.umask, before)
        self.write("new.html", "new")
        self.assertEqual(0o640, stat.S_IMODE(os.stat("new.html").st_mode))
        self.file.write_text("old")
        self.file.chmod(0o604)
        self.write("page.html", "new")
        self.assertEqual(0o604, stat.S_IMODE(os.stat("page.html").st_mode))

    def test_links(self) -> None:
        os.mkdir("pages")
        target = pathlib.Path("pages/page.html")
        target.write_text("old")
        os.symlink("pages/page.html", "link.html")
        os.symlink("pages/none.html", "nowhere.html")
        self.write("link.html", "new")
        self.write("nowhere.html", "made")
        self.assertEqual("new", target.read_text())
        self.assertEqual("made", pathlib.Path("pages/none.html").read_text())
        self.assertTrue(os.path.islink("link.html") and os.path.islink("nowhere.html"))
        os.link("pages/page.html", "second.html")
        self.write("second.html", "newer")
        self.assertEqual("newer", target.read_text())

    def test_what_is_no_plain_file(self) -> None:
        os.mkfifo("pipe")
        heard: List[str] = []
        reader = threading.Thread(target=lambda: heard.append(pathlib.Path("pipe").read_text()))
        reader.start()
        self.write("pipe", "through")
        reader.join()
        self.assertEqual(["through"], heard)
        self.assertTrue(stat.S_ISFIFO(os.stat("pipe").st_mode))
        paths = {"/dev/null": False, "/dev/fd/1": False, "/dev/shm/page.html": True}
        for path, is_replaceable in paths.items():
            with locate(path) as destination:
                self.assertEqual(is_replaceable, destination.is_replaceable, path)
        self.write("/dev/null", "away")
        self.assertTrue(stat.S_ISCHR(os.stat("/dev/null").st_mode))

    def test_standard_output(self) -> None:
        output = io.StringIO()
        with contextlib.redirect_stdout(output):
            self.write("-", "said")
        self.assertEqual("said", output.getvalue())
        line = "from rdbg.atomic_file import write_atomically\nwith write_atomically('/dev/stdout') as file:\n"
        command = [sys.executable, "-B", "-c", f"{line}    file.write('to it')\nprint(' and more')"]
        with open("out.txt", "w", encoding="utf-8") as file:
            environment = {**os.environ, "PYTHONPATH": str(COMPANION.parent)}
            subprocess.run(command, stdout=file, env=environment, check=True)
        self.assertIn(" and more", pathlib.Path("out.txt").read_text())

    def test_what_cant_be_written(self) -> None:
        os.mkdir("folder")
        for path, why in (
            ("none/page.html", "No such file or directory"),
            ("folder", "Is a directory"),
            ("folder/", "Is a directory"),
            ("", "No such file or directory"),
        ):
            with self.subTest(path), self.assertRaisesRegex(Failure, f"cannot write {path}: {why}"):
                self.write(path, "new")
        self.assertEqual(["folder"], self.names())

    @unittest.skipIf(os.geteuid() == 0, "root may write all")
    def test_a_file_that_is_only_read(self) -> None:
        self.file.write_text("old")
        self.file.chmod(0o444)
        with self.assertRaisesRegex(Failure, "Permission denied"):
            self.write("page.html", "new")

    def test_a_trace_that_is_ended(self) -> None:
        self.file.write_text("old")
        for option in ("--page", "--events"):
            started = Started("trace", TURNS, option, str(self.file.resolve()))
            started.give("forward 100000\n")
            started.wait_for(2 * len(os.sched_getaffinity(0)) + 1)
            started.end(signal.SIGTERM)
            self.assertEqual(["page.html"], self.names())
            self.assertEqual("old", self.file.read_text())

    def test_a_text_that_is_made(self) -> None:
        pathlib.Path("one.fw").write_text("cores 1\ntask t priority 1\n    end\n")
        pathlib.Path("one.json").write_text("old")
        os.link("one.json", "kept.json")
        os.unlink("one.json")
        os.symlink("kept.json", "one.json")
        command = [sys.executable, "-B", str(COMPANION), "make", "one.fw"]
        subprocess.run(command, stdout=subprocess.DEVNULL, check=True)
        self.assertTrue(os.path.islink("one.json"))
        self.assertIn('"cores": 1', pathlib.Path("kept.json").read_text())


if __name__ == "__main__":
    unittest.main()
