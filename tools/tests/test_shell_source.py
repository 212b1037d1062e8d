"""`source FILE`, and the files that a prompt begins with."""
import os
import pathlib
import shutil
import tempfile
import unittest
from types import SimpleNamespace
from typing import List
from unittest import mock

from rdbg import input_file
from rdbg.shell import sourcing
from tests.paths import EXAMPLES
from tests.shell_talk import example, said
from tests.test_shell_filter import run


class InFolder(unittest.TestCase):
    """What happens in a folder of its own, which is the user's home."""

    def setUp(self) -> None:
        folder = tempfile.TemporaryDirectory()
        self.addCleanup(folder.cleanup)
        self.home = pathlib.Path(os.path.realpath(folder.name))
        changed = mock.patch.dict(os.environ, {"HOME": folder.name})
        changed.start()
        self.addCleanup(changed.stop)

    def put(self, name: str, *lines: str) -> str:
        """A file of these lines."""
        path = self.home / name
        path.parent.mkdir(exist_ok=True)
        path.write_text("".join(f"{line}\n" for line in lines))
        return str(path)


class Source(InFolder):
    """`source`."""

    def test_its_lines_are_done(self) -> None:
        path = self.put("lines", "# first", "", "step 0  # a move", "display tick", "tick")
        with example("lost_item") as shell:
            shown = ["ok at 1", "# 1: tick = 0", "ok at 2", "# 1: tick = 1"]
            self.assertEqual(said(shell, f"source {path}"), shown)

    def test_saved_moves(self) -> None:
        with example("lost_item") as shell:
            path = str(self.home / "found.commands")
            said(shell, "forward 9", f"save {path}", "goto 0")
            self.assertEqual(said(shell, f"source {path}")[-1], "ok at 9")

    def test_it_ends_where_a_line_is_refused(self) -> None:
        with example("lost_item") as shell:
            for wrong in (
                "step 7",
                "print nothing here",
                "fly",
                "step wroker",
                "until! count x > 1",
            ):
                path = self.put("lines", "step 0", wrong, "step 1")
                with self.subTest(wrong):
                    answers = said(shell, "goto 0", f"source {path}")
                    self.assertEqual(
                        answers[-1], f"# {path}:2: stopped here, because the line was refused"
                    )
                    self.assertEqual(shell.target.place, 1)

    def test_files_that_do_each_other(self) -> None:
        path = self.put("lines", f"source {self.home}/lines")
        with example("lost_item") as shell:
            answers = said(shell, f"source {path}")
            self.assertIn("`source` is nested more than 8 deep", answers[0])
            self.assertEqual(shell.sourced, [])

    def test_what_is_no_file(self) -> None:
        with example("lost_item") as shell:
            said_is = [f"# cannot read {self.home}: Is a directory"]
            self.assertEqual(said(shell, f"source {self.home}"), said_is)
            self.assertIn("No such file", said(shell, "source nothing")[0])
            self.assertIn("`source` needs one file name", said(shell, "source")[0])


class Start(InFolder):
    """The files that a prompt begins with."""

    def begun(self, given: bytes, *words: str) -> List[str]:
        """What `rdbg sh` says on a file in a folder of its own."""
        (self.home / "work").mkdir(exist_ok=True)
        file = self.home / "work" / "lost.json"
        shutil.copy(EXAMPLES / "lost_item.json", file)
        status, output, _ = run(given, str(file), *words)
        self.assertEqual(status, 0)
        return output.splitlines()

    def test_the_user_s_and_the_one_beside_the_application(self) -> None:
        self.put(sourcing.START, "display count jobs")
        self.put(f"work/{sourcing.START}", "step 0", "break count jobs > 0")
        found = self.begun(b"tick\n")
        self.assertEqual(found[:3], ["# 1: count jobs = 0", "ok at 1", "# 1: count jobs = 0"])
        self.assertEqual(found[-2:], ["ok at 2", "# 1: count jobs = 0"])
        self.assertIn("ok watch 0", found)
        self.assertEqual(self.begun(b"tick\n", "--nx"), ["ok at 1"])

    def test_one_that_is_both_is_done_once(self) -> None:
        self.put(f"work/{sourcing.START}", "step 0")
        with mock.patch.dict(os.environ, {"HOME": str(self.home / "work")}):
            self.assertEqual(self.begun(b"tick\n"), ["ok at 1", "ok at 2"])

    def test_it_may_end_the_prompt(self) -> None:
        self.put(sourcing.START, "quit")
        self.assertEqual(self.begun(b"tick\n"), [])

    def test_it_saves_nothing(self) -> None:
        self.put("more", f"save! {self.home}/made.commands")
        self.put(sourcing.START, f"source {self.home}/more", "step 0")
        found = self.begun(b"tick\n")
        self.assertEqual(found[0], "# a start file cannot save files")
        self.assertEqual(found[-1], "ok at 1")
        self.assertFalse((self.home / "made.commands").exists())

    def test_what_others_may_have_written_isn_t_read(self) -> None:
        path = self.put(sourcing.START, "step 0")
        os.chmod(path, 0o666)
        what = "a regular file that you own and that not everybody can write"
        why = f"# cannot read {path}: it must be {what}"
        self.assertEqual(self.begun(b"tick\n"), [why, "ok at 1"])
        os.chmod(path, 0o644)
        another = SimpleNamespace(**{**vars(os), "geteuid": lambda: os.geteuid() + 1})
        with mock.patch.object(input_file, "os", another):
            self.assertEqual(self.begun(b"tick\n")[0], why)
        os.unlink(path)
        os.mkfifo(path)
        self.assertEqual(self.begun(b"tick\n"), [why, "ok at 1"])


if __name__ == "__main__":
    unittest.main()
