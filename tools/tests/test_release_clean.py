"""Installs what `ci/release` makes on a machine that has nothing else, and uses it there for an
hour's work."""
import json
import os
import pathlib
import shutil
import subprocess
import tempfile
import unittest
from typing import List

from tests import clean_root, releases
from tests.dap_client import Program
from tests.paths import TOP
from tests.rooms import free_port

VERSION = (TOP / "VERSION").read_text().strip()
SAID = "rdbg: nothing is proved\n"
# A room in the background, in which somebody makes a move, and which is ended.
ROOM = """
"$1" room "$2" --port "$3" > /tmp/room &
room=$!
for at in $(seq 600); do grep -q ^listening /tmp/room && break; sleep 0.1; done
echo 'step 1' | "$1" sh --port "$3" --name ada "$2"
kill -TERM $room
wait $room
"""
# What stands in for apt-get, which has nothing to fetch here: Python is there already.
APT_GET = """#!/bin/sh
for word in "$@"; do
    case $word in *.deb) exec dpkg -i "$word" ;; esac
done
"""


class Made:
    """The files of a release: the .tar.gz, the Debian package and the others."""

    files: List[pathlib.Path]


def setUpModule() -> None:
    """Makes it, once."""
    if os.geteuid() != 0:
        raise unittest.SkipTest("needs root, to enter another root")
    if not (clean_root.can_be() and shutil.which("dpkg-deb")):
        raise unittest.SkipTest("this machine has no dpkg-deb, unshare, chroot or mount")
    folder = tempfile.TemporaryDirectory()
    unittest.addModuleCleanup(folder.cleanup)
    top = pathlib.Path(folder.name)
    releases.repository(top / "sources")
    Made.files = releases.release(top / "sources", top / "out")


class Clean(unittest.TestCase):
    """The first hour on a machine that is new: nothing but what Debian itself needs, and Python."""

    def setUp(self) -> None:
        folder = tempfile.TemporaryDirectory()
        self.addCleanup(folder.cleanup)
        self.root = clean_root.Root(pathlib.Path(folder.name) / "root")
        for file in Made.files:
            shutil.copy(file, self.root.top / "opt")
        # (neither the kit nor what builds something)
        self.root.run("sh", "-c", "command -v rt git cc rdbg", status=127)

    def test_one_command_installs_it_and_the_next_finds_a_fault(self) -> None:
        self.root.run("dpkg", "-i", f"/opt/{Made.files[1].name}")
        meeting = "/usr/share/rdbg/examples/meeting.json"
        ran = self.root.run("rdbg", "reach", meeting, "asleep", status=1)
        self.assertEqual(ran.stdout.split("\n")[0], "found")
        self.assertEqual(ran.stderr, SAID)
        self.hour("rdbg", "/usr/share/rdbg/examples")
        self.root.run("dpkg", "-r", "rdbg")
        left = [it for it in self.root.top.rglob("*rdbg*") if it.parent.name not in ("opt", "info")]
        self.assertEqual(left, [])

    def test_it_is_unpacked(self) -> None:
        name = Made.files[0].name
        self.root.run("tar", "-C", "/opt", "-xzf", f"/opt/{name}")
        place = f"/opt/{name.replace('.tar.gz', '')}"
        self.hour(f"{place}/bin/rdbg", f"{place}/share/rdbg/examples")

    def test_the_containerfile(self) -> None:
        out = Made.files[0].parent
        rows = releases.instructions(out / "Containerfile")
        package = dict(rows)["ARG"].partition("=")[2]
        apt_get = self.root.top / "usr/bin/apt-get"
        apt_get.write_text(APT_GET)
        apt_get.chmod(0o755)
        for word, operands in rows:
            operands = operands.replace("${PACKAGE}", package)
            if word == "COPY":
                *names, place = operands.split()
                (self.root.top / place[1:]).mkdir(parents=True)
                for name in names:
                    shutil.copy(out / name, self.root.top / place[1:])
            elif word == "RUN":
                self.root.run("sh", "-c", operands)
        ran = self.root.run("rdbg", *json.loads(dict(rows)["CMD"]))
        self.assertIn("rdbg serve", ran.stdout)
        self.assertFalse((self.root.top / "tmp/rdbg").exists())

    def hour(self, rdbg: str, examples: str) -> None:
        """Goes through it, by what starts rdbg there and where its examples are."""
        lost, meeting = f"{examples}/lost_item.json", f"{examples}/meeting.json"
        ran = self.root.run(rdbg, "--version")
        self.assertTrue(ran.stdout.startswith(f"rdbg {VERSION} at commit "))
        ran = self.root.run(rdbg, "sh", lost, given="step worker\nback 1\n")
        self.assertEqual((ran.stdout, ran.stderr), ("ok at 1\nok at 0\n", SAID))
        ran = self.root.run(rdbg, "check", lost)
        self.assertEqual(ran.stdout, f"{lost}: accepted: 3 tasks, 1 queue, 2 cores\n")
        ran = self.root.run(rdbg, "hunt", meeting, "asleep", status=1)
        self.assertIn("found: asleep, at 8, with 1 surprise\n", ran.stderr)
        ran = self.root.run(rdbg, "reach", meeting, "asleep", status=1)
        self.assertEqual(ran.stdout.split("\n")[0], "found")
        ran = self.root.run(rdbg, "trace", lost, "--page", "/tmp/page.html", given="forward 3\n")
        self.assertIn("<title>", (self.root.top / "tmp/page.html").read_text())
        ran = self.root.run("bash", "-c", ROOM, "bash", rdbg, lost, str(free_port()))
        self.assertIn("ok at 1\n", ran.stdout)
        self.debugger(rdbg, lost)

    def debugger(self, rdbg: str, file: str) -> None:
        """What an editor starts."""
        pipe = subprocess.PIPE
        words = self.root.words(rdbg, "dap")
        with subprocess.Popen(words, stdin=pipe, stdout=pipe, stderr=pipe) as process:
            assert process.stdin and process.stdout
            client = Program(process.stdout, process.stdin, process)
            stop = client.begin(pathlib.Path(file))
            self.assertEqual(stop["description"], "at 0: the start")
            client.ask("disconnect")
            self.assertEqual(process.wait(30), 0)


if __name__ == "__main__":
    unittest.main()
