"""What `ci/release` makes is the same bytes each time."""
import gzip
import os
import pathlib
import re
import shutil
import subprocess
import tarfile
import tempfile
import unittest
from typing import List

from tests import releases
from tests.paths import TOP

NEEDED = shutil.which("dpkg-deb") is not None
VERSION = (TOP / "VERSION").read_text().strip()


class Made:
    """Two releases of one commit, made in two folders, the second with a strict umask."""

    folder: pathlib.Path
    made: List[pathlib.Path]
    again: List[pathlib.Path]


def setUpModule() -> None:
    """Makes both, once."""
    if not NEEDED:
        raise unittest.SkipTest("dpkg-deb isn't there")
    folder = tempfile.TemporaryDirectory()
    unittest.addModuleCleanup(folder.cleanup)
    Made.folder = pathlib.Path(folder.name)
    first, second = Made.folder / "first", Made.folder / "another folder"
    releases.repository(first)
    releases.git(Made.folder, "clone", "-q", str(first), str(second))
    Made.made = releases.release(first, Made.folder / "out")
    mask = os.umask(0o077)
    Made.again = releases.release(second, second / "out")
    os.umask(mask)


class Released(unittest.TestCase):
    """A test of the two releases."""

    def setUp(self) -> None:
        self.folder, self.made, self.again = Made.folder, Made.made, Made.again


class Same(Released):
    """Two releases are the same bytes, and `--check` names a difference."""

    def check_it(self, file: pathlib.Path) -> "subprocess.CompletedProcess[str]":
        """Runs `ci/release --check` on a file."""
        return releases.run(self.folder / "first", "--check", str(file), *releases.unproved())

    def test_names(self) -> None:
        base = f"rdbg-{VERSION}-unproved"
        names = [f"{base}-x86_64.tar.gz", f"rdbg_{VERSION}~unproved_amd64.deb", f"{base}.vsix"]
        names += [f"{base}.spdx.json", "Containerfile", "SHA256SUMS"]
        self.assertEqual([it.name for it in self.made], names)

    def test_the_same_bytes(self) -> None:
        for one, other in zip(self.made, self.again):
            self.assertEqual(one.read_bytes(), other.read_bytes(), one.name)

    def test_who_and_when(self) -> None:
        with tarfile.open(self.made[0]) as tar:
            members = tar.getmembers()
        self.assertEqual({(it.uid, it.gid, it.mtime) for it in members}, {(0, 0, 1_000_000_000)})
        self.assertEqual({it.mode for it in members}, {0o755, 0o644})
        parts = [it.name.split("/") for it in members]
        self.assertEqual(parts, sorted(parts))
        names = [it.name for it in members]
        self.assertEqual([it for it in names if it.endswith(".pyc") or "__pycache__" in it], [])
        self.assertEqual([it for it in names if "/tests" in it], [])

    def test_a_comparison(self) -> None:
        for file in self.made[:2]:
            ran = self.check_it(file)
            self.assertEqual((ran.returncode, ran.stderr), (0, ""), ran.stdout)

    def test_the_first_difference(self) -> None:
        other = self.folder / "other.tar.gz"
        changed = gzip.decompress(self.made[0].read_bytes()).replace(
            b"#!/usr/bin/env bash\n", b"#!/usr/bin/env bask\n", 1
        )
        other.write_bytes(gzip.compress(changed))
        ran = self.check_it(other)
        self.assertEqual(ran.returncode, 1, ran.stderr)
        self.assertIn(f"rdbg-{VERSION}-unproved-x86_64/bin/rdbg: line 1 differs\n", ran.stdout)
        other.write_bytes(gzip.compress(gzip.decompress(self.made[0].read_bytes()), 1))
        self.assertIn("the same files, packed otherwise", self.check_it(other).stdout)

    def test_a_difference_of_a_debian_package(self) -> None:
        root = self.folder / "root"
        subprocess.run(["dpkg-deb", "-R", str(self.made[1]), str(root)], check=True)
        (root / "usr/bin/rdbg").chmod(0o700)
        other = self.folder / "other.deb"
        words = ["dpkg-deb", "--root-owner-group", "-Zgzip", "-b", str(root), str(other)]
        environment = {**os.environ, "SOURCE_DATE_EPOCH": "1000000000"}
        subprocess.run(words, check=True, stdout=subprocess.DEVNULL, env=environment)
        ran = self.check_it(other)
        self.assertEqual(ran.returncode, 1, ran.stderr)
        self.assertIn("./usr/bin/rdbg: its mode is 700, and 755 is expected\n", ran.stdout)

    def test_what_is_no_package(self) -> None:
        other = self.folder / "none.tar.gz"
        other.write_bytes(b"nothing")
        ran = self.check_it(other)
        self.assertEqual((ran.returncode, ran.stderr), (1, ""))
        self.assertIn("it can't be unpacked", ran.stdout)
        for name in ("none.zip", "nowhere.deb"):
            self.assertEqual(self.check_it(self.folder / name).returncode, 2)


class Versions(unittest.TestCase):
    """VERSION, and the other places that name the version."""

    def test_the_changes(self) -> None:
        titles = re.findall("^## (.*)$", (TOP / "CHANGELOG.md").read_text(), re.MULTILINE)
        self.assertEqual(titles[0], VERSION)
        parts = [[int(part) for part in it.split(".")] for it in titles]
        self.assertEqual(parts, sorted(parts, reverse=True))

    def test_the_editors(self) -> None:
        self.assertIn(
            f'"version": "{VERSION}"', (TOP / "tools/editors/vscode/package.json").read_text()
        )

    def test_the_checkout(self) -> None:
        ran = subprocess.run([str(TOP / "rdbg"), "--version"], stdout=subprocess.PIPE, check=True)
        self.assertTrue(ran.stdout.decode().startswith(f"rdbg {VERSION} at commit "))


if __name__ == "__main__":
    unittest.main()
