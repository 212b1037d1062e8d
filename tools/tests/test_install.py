"""`./rdbg install` and `./rdbg uninstall`: what they write and remove, and the links and folders of
another user that they refuse."""
import hashlib
import os
import pathlib
import shutil
import subprocess
import tempfile
import unittest
from typing import Dict, List

from rdbg.client import program
from rdbg.reaching.asking import program as reach
from tests import releases
from tests.paths import TOP
from tests.strangers import IS_ROOT, NOBODY, become

LINK = "it is a symbolic link"


def rdbg(*words: str) -> "subprocess.CompletedProcess[str]":
    """Runs ./rdbg with these words."""
    pipe = subprocess.PIPE
    environment = {**os.environ, "RDBG_PROGRAM": program(), "RDBG_REACH": reach()}
    return subprocess.run(
        [str(TOP / "rdbg"), *words],
        env=environment,
        stdin=subprocess.DEVNULL,
        stdout=pipe,
        stderr=pipe,
        universal_newlines=True,
    )


def contents(folder: pathlib.Path) -> Dict[str, str]:
    """Returns everything below a folder: files with their contents, folders and links."""
    found = {}
    for path in folder.rglob("*"):
        if path.is_symlink():
            said = f"link to {os.readlink(path)}"
        else:
            said = path.read_bytes().hex() if path.is_file() else "folder"
        found[str(path.relative_to(folder))] = said
    return found


def as_nobody(*words: str) -> None:
    """Runs a command as another user."""
    subprocess.run(words, preexec_fn=become, check=True)


class Case(unittest.TestCase):
    """A test with a folder that everybody can write to, and a victim's folder beside it."""

    def setUp(self) -> None:
        folder = tempfile.TemporaryDirectory()
        self.addCleanup(folder.cleanup)
        self.top = pathlib.Path(folder.name)
        self.top.chmod(0o755)
        self.prefix, self.victim = self.top / "prefix", self.top / "victim"
        for each in (self.prefix, self.victim):
            each.mkdir()
        self.prefix.chmod(0o777)
        (self.victim / "rdbg/docs").mkdir(parents=True)
        (self.victim / "rdbg/docs/thesis").write_text("ten years of work")
        self.before = contents(self.victim)

    def ran(self, *words: str, status: int = 0) -> "subprocess.CompletedProcess[str]":
        """Runs ./rdbg, which ends with this status."""
        ran = rdbg(*words, str(self.prefix))
        self.assertEqual(status, ran.returncode, ran.stdout + ran.stderr)
        return ran


@IS_ROOT
class Attacks(Case):
    """Another user can write to PREFIX and lays something there before the installation."""

    def tearDown(self) -> None:
        self.assertEqual(self.before, contents(self.victim))

    def refused(self, word: str = "install") -> str:
        """Returns why nothing is installed, and checks that nothing was written."""
        before = contents(self.prefix)
        ran = self.ran(word, status=2)
        self.assertEqual(before, contents(self.prefix))
        return ran.stderr

    def test_a_link_under_a_name_that_was_once_temporary(self) -> None:
        as_nobody("mkdir", "-m", "777", str(self.prefix / "bin"))
        as_nobody("ln", "-s", str(self.victim / "rdbg/docs/thesis"), f"{self.prefix}/bin/rdbg.new")
        os.chown(self.prefix / "bin", 0, 0)
        self.ran("install")
        self.assertTrue((self.prefix / "bin/rdbg").is_file())

    def test_a_link_under_the_name_of_a_file(self) -> None:
        (self.prefix / "bin").mkdir(mode=0o777)
        (self.prefix / "bin").chmod(0o777)
        as_nobody("ln", "-s", str(self.victim / "rdbg/docs/thesis"), f"{self.prefix}/bin/rdbg")
        self.ran("install")
        self.assertFalse((self.prefix / "bin/rdbg").is_symlink())

    def test_a_link_under_the_name_of_a_folder(self) -> None:
        for name in ("share", "bin", "lib", "lib/rdbg", "share/rdbg", "share/man/man1"):
            with self.subTest(name):
                path = self.prefix / name
                path.parent.mkdir(parents=True, exist_ok=True)
                path.parent.chmod(0o777)
                as_nobody("ln", "-s", str(self.victim), str(path))
                self.assertEqual(f"rdbg install: refusing {path}: {LINK}\n", self.refused())
                path.unlink()

    def test_a_folder_of_another_user(self) -> None:
        as_nobody("mkdir", str(self.prefix / "lib"))
        said = f"rdbg install: refusing {self.prefix}/lib: user {NOBODY} owns it\n"
        self.assertEqual(said, self.refused())

    def test_a_prefix_that_is_a_link(self) -> None:
        self.prefix.rmdir()
        self.top.chmod(0o777)
        as_nobody("ln", "-s", str(self.victim), str(self.prefix))
        ran = rdbg("install", str(self.prefix))
        self.assertEqual(2, ran.returncode)
        self.assertIn(f"{self.prefix}: it is a link of another user", ran.stderr)

    def test_a_folder_that_becomes_a_link_meanwhile(self) -> None:
        module = releases.module("prefix")
        opened = module.Prefix(str(self.prefix))
        self.addCleanup(opened.close)
        waiting = opened.stage("share/rdbg/docs/thesis", b"new", 0o644, 0)
        shutil.rmtree(self.prefix / "share")
        as_nobody("ln", "-s", str(self.victim), str(self.prefix / "share"))
        with self.assertRaisesRegex(module.Refused, f"refusing {self.prefix}/share: {LINK}"):
            opened.publish(waiting)
        opened.discard(waiting)

    def test_a_list_of_files_of_another_user(self) -> None:
        (self.prefix / "lib/rdbg").mkdir(parents=True)
        (self.prefix / "lib/rdbg").chmod(0o777)
        (self.prefix / "mine").write_text("mine")
        line = f"{hashlib.sha256(b'mine').hexdigest()}  mine\n"
        release = self.prefix / "lib/rdbg/release"
        release.write_text(line)
        os.chown(release, NOBODY, NOBODY)
        self.assertIn(f"refusing {release}: user {NOBODY} owns it", self.refused("uninstall"))

    def test_a_folder_that_becomes_a_link_before_it_is_removed(self) -> None:
        self.ran("install")
        share, moved = self.prefix / "share", self.top / "moved"
        share.rename(moved)
        before = contents(moved)
        as_nobody("ln", "-s", str(moved), str(share))
        self.assertIn(f"refusing {share}: {LINK}", self.ran("uninstall", status=2).stderr)
        self.assertEqual(before, contents(moved))
        # (what is installed is still known: once the link is gone the rest can be removed)
        share.unlink()
        self.ran("uninstall")
        self.assertEqual({}, contents(self.prefix))


class Uninstall(Case):
    """Removing it again."""

    def test_it_leaves_what_was_there(self) -> None:
        for name in ("bin/other", "share/rdbg/examples/mine.json", "share/doc/other"):
            (self.prefix / name).parent.mkdir(parents=True, exist_ok=True)
            (self.prefix / name).write_text("mine")
        (self.prefix / "share/man").mkdir()
        before = contents(self.prefix)
        self.ran("install")
        self.ran("install")
        self.assertIn("share/man/man1/rdbg-sh.1", contents(self.prefix))
        ran = self.ran("uninstall")
        self.assertEqual((f"rdbg is no longer in {self.prefix}\n", ""), (ran.stdout, ran.stderr))
        self.assertEqual(before, contents(self.prefix))

    def test_it_keeps_what_was_changed(self) -> None:
        self.prefix.rmdir()
        self.ran("install")
        changed = self.prefix / "share/rdbg/examples/turns.json"
        changed.write_text("changed")
        said = f"kept {changed}: it was changed after it was installed"
        self.assertIn(said, self.ran("uninstall").stdout)
        kept = [it for it in self.prefix.rglob("*") if not it.is_dir()]
        self.assertEqual([changed], kept)

    def test_nothing_is_left(self) -> None:
        self.prefix.rmdir()
        self.ran("install")
        self.ran("uninstall")
        self.assertFalse(self.prefix.exists())
        said = f"rdbg uninstall: {self.prefix}: No such file or directory\n"
        self.assertEqual(said, self.ran("uninstall", status=2).stderr)
        self.prefix.mkdir()
        release = self.prefix / "lib/rdbg/release"
        said = f"rdbg uninstall: no rdbg is installed in {self.prefix}: {release} is missing\n"
        self.assertEqual(said, self.ran("uninstall", status=2).stderr)

    def test_what_a_new_version_lacks(self) -> None:
        self.ran("install")
        release = self.prefix / "lib/rdbg/release"
        names = ("lib/rdbg/tools/rdbg/companions/fly.py", "share/rdbg/docs/FLYING.md")
        line = f"{hashlib.sha256(b'old').hexdigest()}  "
        for name in names:
            (self.prefix / name).write_text("old")
        with open(release, "a", encoding="utf-8") as file:
            file.writelines(f"{line}{name}\n" for name in names)
        (self.prefix / names[1]).write_text("changed")
        self.assertIn(f"kept {self.prefix / names[1]}: ", self.ran("install").stdout)
        there: List[bool] = [(self.prefix / name).exists() for name in names]
        self.assertEqual([False, True], there)

    def test_what_is_not_removed(self) -> None:
        release = self.prefix / "lib/rdbg/release"
        release.parent.mkdir(parents=True)
        outside = f"{'0' * 64}  ../victim/rdbg/docs/thesis\n"
        for text, said in (
            (outside, f"refusing {release}: it names '../victim/rdbg/docs/thesis'"),
            ("# package rdbg_1.0.0_amd64.deb\n", "the package rdbg_1.0.0_amd64.deb manages this"),
        ):
            release.write_text(text)
            for word in ("install", "uninstall"):
                self.assertIn(said, self.ran(word, status=2).stderr)
        self.assertEqual(self.before, contents(self.victim))

    def test_a_file_that_cannot_be_installed(self) -> None:
        (self.prefix / "share/rdbg/README.md").mkdir(parents=True)
        before = contents(self.prefix)
        said = f"refusing {self.prefix}/share/rdbg/README.md: it is a folder"
        self.assertIn(said, self.ran("install", status=2).stderr)
        self.assertEqual(before, contents(self.prefix))

    def test_the_words(self) -> None:
        for word in ("install", "uninstall"):
            self.assertIn(f"{word} PREFIX\n", rdbg(word).stderr)
            ran = rdbg(word, "--help")
            self.assertIn(
                f"Usage: ./rdbg {'[--proved|--unproved] ' * (word == 'install')}{word}", ran.stdout
            )
            self.assertEqual(2, rdbg(word, "").returncode)


if __name__ == "__main__":
    unittest.main()
