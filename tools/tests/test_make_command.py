"""`rdbg make`: its words, its files and its status."""
import contextlib
import io
import json
import os
import pathlib
import subprocess
import sys
import tempfile
import unittest
from typing import Dict, List, Tuple

from rdbg.companions import make
from rdbg.failure import Failure
from tests.paths import COMPANION, EXAMPLES

LOST = (EXAMPLES / "lost_item.json").read_text()
TEXT = (
    "// a job goes round\ncores 1\nqueue jobs length 1 item 1\ngroup g\n\n"
    "task echo priority 1\nagain:\n    send jobs 0\n    recv jobs 0\n    jump again\n"
)
MADE = """{
  "profile": 1,
  "cores": 1,
  "queues": [{"name": "jobs", "length": 1, "item": 1}],
  "groups": [{"name": "g"}],
  "tasks": [
    {"name": "echo", "priority": 1, "code": ["send jobs 0", "recv jobs 0", "jump 0"]}
  ]
}
"""
FILES: Dict[str, str] = {
    "echo.fw": TEXT,
    "wrong.fw": TEXT.replace("jump again", "jump agian").replace("recv jobs", "recv job"),
    "lost.json": LOST,
    "bad.json": LOST.replace("recv jobs max", "recv jobs").replace('"cores": 2', '"cores": 9'),
    "notes.txt": "mine\n",
}


class Command(unittest.TestCase):
    """What it prints and writes, in a folder with a few files."""

    def setUp(self) -> None:
        folder = tempfile.TemporaryDirectory()
        self.addCleanup(folder.cleanup)
        self.addCleanup(os.chdir, os.getcwd())
        os.chdir(folder.name)
        for name, text in FILES.items():
            pathlib.Path(name).write_text(text)

    def run_on(self, *words: str) -> Tuple[int, str, List[str]]:
        """The status, standard output, and the lines on standard error."""
        output, errors = io.StringIO(), io.StringIO()
        with contextlib.redirect_stdout(output), contextlib.redirect_stderr(errors):
            try:
                status = make.main(words)
            except Failure as failure:
                print(failure, file=sys.stderr)
                status = failure.status
        return status, output.getvalue(), errors.getvalue().splitlines()

    def unchanged(self, *but: str) -> None:
        """Sees that no file was changed or made but these."""
        found = {path.name: path.read_text() for path in pathlib.Path().iterdir()}
        wanted = {**FILES, **{name: found.get(name, "") for name in but}}
        self.assertEqual(wanted, found)

    def test_the_json_stands_beside_the_text(self) -> None:
        self.assertEqual(
            (0, "echo.json: 1 task, 1 queue, 1 event group\n", []), self.run_on("echo.fw")
        )
        self.assertEqual(MADE, pathlib.Path("echo.json").read_text())
        self.unchanged("echo.json")

    def test_its_own_output_is_overwritten(self) -> None:
        pathlib.Path("echo.json").write_text("{}")
        self.assertEqual(0, self.run_on("echo.fw")[0])
        self.assertEqual(MADE, pathlib.Path("echo.json").read_text())

    def test_another_output(self) -> None:
        said = "lost.json: 1 task, 1 queue, 1 event group\n"
        self.assertEqual((0, said, []), self.run_on("echo.fw", "-o", "lost.json"))
        self.assertEqual(MADE, pathlib.Path("lost.json").read_text())
        self.unchanged("lost.json")

    def test_standard_output(self) -> None:
        self.assertEqual((0, MADE, []), self.run_on("-o", "-", "echo.fw"))
        self.unchanged()

    def test_what_is_no_json_stays(self) -> None:
        for output in ("notes.txt", "echo.fw", "new", ""):
            said = f"the name of the output file must end in .json, found {output}"
            self.assertEqual((2, "", [said]), self.run_on("echo.fw", "-o", output))
        os.symlink("echo.fw", "linked.json")
        self.assertEqual(2, self.run_on("echo.fw", "-o", "linked.json")[0])
        os.unlink("linked.json")
        self.unchanged()

    def test_faults(self) -> None:
        pathlib.Path("wrong.json").write_text(MADE)
        status, output, lines = self.run_on("wrong.fw")
        self.assertEqual((1, ""), (status, output))
        start = 'wrong.fw:9:10: task echo, instruction 1: "recv job 0": '
        self.assertEqual(start, lines[0][: len(start)])
        wanted = [
            "wrong.fw:10:10: task echo, instruction 2: \"jump agian\": label 'agian' is not"
            " defined (did you mean 'again'?)",
            "wrong.fw is refused as L4 Name: 2 faults, as `./rdbg check wrong.fw` says",
        ]
        self.assertEqual(wanted, lines[1:])
        self.assertEqual(MADE, pathlib.Path("wrong.json").read_text())

    def test_back(self) -> None:
        status, output, errors = self.run_on("--back", "lost.json")
        said = "written as jumps to labels, not as loop, while or if"
        told = [f"rdbg make: {said}: worker 1; poller 1"]
        self.assertEqual((0, told), (status, errors))
        self.assertTrue(output.startswith("cores 2\n\nqueue jobs length 1 item 1\n\ntask worker"))
        self.assertEqual((0, "", told), self.run_on("--back", "lost.json", "-o", "lost.fw"))
        self.assertEqual(output, pathlib.Path("lost.fw").read_text())
        self.assertEqual(0, self.run_on("lost.fw")[0])
        self.assertEqual(json.loads(LOST), json.loads(pathlib.Path("lost.json").read_text()))

    def test_a_text_with_comments_stays(self) -> None:
        said = "refusing to overwrite echo.fw, which may have comments"
        self.assertEqual((2, "", [said]), self.run_on("--back", "lost.json", "-o", "echo.fw"))
        said = "the name of the output file must end in .fw, found out.json"
        self.assertEqual((2, "", [said]), self.run_on("--back", "lost.json", "-o", "out.json"))
        self.unchanged()

    def test_back_says_the_faults(self) -> None:
        last = "bad.json is refused as L3 Limit: 2 faults, as `./rdbg check bad.json` says"
        status, output, errors = self.run_on("--back", "bad.json")
        self.assertEqual((1, ""), (status, output))
        begins = ["bad.json:3:12: ", "bad.json:6:48: ", last]
        self.assertEqual(begins, [errors[0][:15], errors[1][:15], *errors[2:]])

    def test_files_that_are_not_what_is_asked_for(self) -> None:
        for words, said in (
            (["none.fw"], "cannot read none.fw: No such file or directory"),
            (["--back", "none.json"], "cannot read none.json: No such file or directory"),
            (["notes.txt"], "the name of the input file must end in .fw, found notes.txt"),
            (["--back", "echo.fw"], "echo.fw is a .fw model already"),
            (
                ["echo.fw", "-o", "no/echo.json"],
                "cannot write no/echo.json: No such file or directory",
            ),
        ):
            with self.subTest(words):
                self.assertEqual((2, "", [said]), self.run_on(*words))
        self.assertIn("rdbg make --back lost.json", self.run_on("lost.json")[2][0])

    def test_one_that_is_too_long_for_rdbg(self) -> None:
        script = ('data "' + "x" * 250 + '"\n') * 255 + "end\n"
        tasks = [f"task t{at} priority 1\n{script}" for at in range(9)]
        pathlib.Path("long.fw").write_text("cores 1\n" + "".join(tasks))
        status, _, lines = self.run_on("long.fw")
        self.assertEqual(1, status)
        self.assertRegex(
            lines[0],
            "^the JSON of long.fw would have 1,[0-9,]+ bytes, and rdbg reads at most 1,048,576$",
        )
        self.unchanged("long.fw")


class Started(unittest.TestCase):
    """The companion as it is started."""

    def run_on(self, *words: str) -> "subprocess.CompletedProcess[bytes]":
        """What it did."""
        return subprocess.run(
            [sys.executable, "-B", str(COMPANION), "make", *words],
            stdin=subprocess.DEVNULL,
            stdout=subprocess.PIPE,
            stderr=subprocess.PIPE,
        )

    def test_words_and_status(self) -> None:
        done = self.run_on("--help")
        self.assertEqual((0, b""), (done.returncode, done.stderr))
        self.assertTrue(done.stdout.startswith(b"usage: rdbg make [-h] [--back] [-o OUT]"))
        for given in ("", "a.fw b.fw", "--fly a.fw"):
            done = self.run_on(*given.split())
            self.assertEqual((2, b""), (done.returncode, done.stdout))
            self.assertIn(b"usage: rdbg make", done.stderr)
        done = self.run_on("/no/none.fw")
        said = b"rdbg make: cannot read /no/none.fw: No such file or directory\n"
        self.assertEqual((2, b"", said), (done.returncode, done.stdout, done.stderr))


if __name__ == "__main__":
    unittest.main()
