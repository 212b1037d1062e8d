"""The README's commands, typed from top to bottom in a fresh checkout, start no proof before `rt ci`."""
import pathlib
import re
import shlex
import signal
import subprocess
import unittest
from typing import Iterator, List

from rdbg.client import program
from rdbg.reaching.asking import program as reach
from tests.paths import TOP
from tests.rooms import free_port
from tests.test_wrapper_builds import PATIENCE, UNPROVED, Checkout, write_script

LAST = "rt ci"
INLINE = re.compile(r"`(\./rdbg \w+ [^`]*|rt ci)`")
# What stands behind a command in a block, apart from it.
REMARK = re.compile(r"   +\S.*$")
FILES = {
    "jobs.fw": "examples/lost_item.json",
    "run.commands": "examples/lost_item.commands",
    "FILE.fw": "model.fw",
    "FILE": "examples/meeting.json",
    "GOAL": "asleep",
    "COMMANDS": "examples/meeting.commands",
    "OUT.html": "page.html",
    "FOLDER": "examples/faults",
    "PREFIX": "prefix",
    "7000": "{port}",
}
# Builds at once, and only without proof.
KEEP = """#!/bin/sh
echo "$1" >> "{log}"
[ "$1" = unproved ] || exit 1
sum=$("{top}/ci/sum" unproved)
mkdir -p "{top}/out/programs"
ln -s "{rdbg}" "{top}/out/programs/unproved-$sum"
ln -s "{rdreach}" "{top}/out/programs/rdreach-unproved-$sum"
"""
PROVE = """#!/bin/sh
echo "a proof of $*" >> "{log}"
exit 1
"""


def commands() -> Iterator[str]:
    """The commands of the README in order, those of its blocks and of its sentences."""
    for number, part in enumerate((TOP / "README.md").read_text().split("```")):
        if number % 2 == 0:
            yield from (" ".join(it.split()) for it in INLINE.findall(part))
            continue
        for line in re.sub(r"\\\n *", "", part).splitlines():
            if line.startswith(("$ ", "./rdbg ", LAST)):
                yield REMARK.sub("", line[2:] if line.startswith("$ ") else line)


def before_last() -> List[str]:
    """Those that stand before the first that proves."""
    found = [*commands()]
    return found[: found.index(LAST)]


class Readme(Checkout):
    """A checkout in which nothing is built yet."""

    def setUp(self) -> None:
        super().setUp()
        self.log = self.top.parent / "log"
        paths = {"log": self.log, "top": self.top, "rdbg": program(), "rdreach": reach()}
        write_script(self.top / "ci/keep", KEEP.format(**paths))
        write_script(self.top / "ci/prove", PROVE.format(**paths))
        (self.top / "model.fw").write_text("cores 1\ntask worker priority 1\n    end\n")
        self.port = str(free_port())

    def type_it(self, command: str) -> "subprocess.Popen[str]":
        """Types a command, with files and a port that there are."""
        for name, file in FILES.items():
            command = re.sub(rf"\b{re.escape(name)}\b", file.format(port=self.port), command)
        return subprocess.Popen(
            ["bash", "-c", f"exec {command}" if " room " in command else command],
            cwd=self.top,
            env=self.environment,
            stdin=subprocess.DEVNULL,
            stdout=subprocess.PIPE,
            stderr=subprocess.PIPE,
            universal_newlines=True,
        )

    def test_nothing_is_proved(self) -> None:
        found = before_last()
        self.assertGreater(len(found), 5)
        rooms = []
        for command in found:
            with self.subTest(command):
                process = self.type_it(command)
                if shlex.split(command)[1] == "room":
                    rooms.append(process)
                    self.addCleanup(process.kill)
                    assert process.stdout is not None
                    self.assertIn("listening", process.stdout.readline())
                    continue
                out, err = process.communicate(timeout=PATIENCE)
                self.assertIn(process.returncode, (0, 1), err)
                self.assertLessEqual(err.count(UNPROVED), command.count("./rdbg"))
                self.assertEqual("unproved\n", self.log.read_text(), out)
        for room in rooms:
            room.send_signal(signal.SIGINT)
            room.communicate(timeout=PATIENCE)
        self.assertEqual({"version"}, {*self.called()} | {"version"})


if __name__ == "__main__":
    unittest.main()
