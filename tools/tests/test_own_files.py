"""Private output files: who can read them, and which links and existing files are refused."""
import os
import pathlib
import stat
import subprocess
import tempfile
import unittest
from typing import Callable, Dict
from unittest import mock

from rdbg.failure import Failure
from rdbg.main import main
from rdbg.rooms.talk import HEAD, Talk
from rdbg.shell.prompt import Lines
from rdbg.atomic_file import write_atomically
from tests.rooms import LOST
from tests.shell_talk import example, said
from tests.strangers import IS_ROOT, NOBODY, become

LAID = "a link of another user"
OF_ANOTHER = f"it is {LAID}"
FOR_ALL = "it is a link in a folder that everybody may write to"


def keep_talk(path: str) -> str:
    """Keeps a talk in a file, and answers why it can't be kept."""
    try:
        talk = Talk(path)
    except Failure as failure:
        return str(failure)
    talk.keep("ada", "step 1", "ok at 1")
    talk.close()
    return ""


def save(path: str) -> str:
    """Saves in a prompt of its own, and answers what is said first."""
    with example("lost_item") as shell:
        return said(shell, "step 1", f"save {path}")[1][len("# ") :]


def page(path: str) -> str:
    """Writes what is made to be handed on, and answers why it can't be."""
    try:
        with write_atomically(path) as file:
            file.write("a page")
    except Failure as failure:
        return str(failure)
    return ""


def type_a_line(path: str) -> str:
    """Types a line at a prompt whose history is this file."""
    with mock.patch.dict(os.environ, {"RDBG_HISTORY": path}), example("lost_item") as shell:
        Lines(shell).keep(f"# {path}")
    return ""


def hunt(path: str) -> str:
    """Hunts for something, and answers what the file of its lines has."""
    words = ["hunt", LOST, "reg producer 0 = 7", "--moves", "2", "-o", path]
    with mock.patch("sys.stdout"), mock.patch("sys.stderr") as said_there:
        main(words)
    return "".join(str(it.args[0]) for it in said_there.write.call_args_list).strip()


Way = Callable[[str], str]
OWN: Dict[str, Way] = {"talk": keep_talk, "saved": save, "history": type_a_line}
HANDED_ON: Dict[str, Way] = {"page": page}
ALL: Dict[str, Way] = {**OWN, **HANDED_ON, "hunt": hunt}


class Case(unittest.TestCase):
    """Tests in a folder of their own."""

    def setUp(self) -> None:
        folder = tempfile.TemporaryDirectory()
        self.addCleanup(folder.cleanup)
        self.folder = pathlib.Path(folder.name)

    def mode(self, path: pathlib.Path) -> int:
        """Who may read and write a file."""
        return stat.S_IMODE(path.stat().st_mode)


class Modes(Case):
    """Who reads what is written."""

    def test_what_was_typed_is_the_users_alone(self) -> None:
        before = os.umask(0o022)
        self.addCleanup(os.umask, before)
        for name, way in OWN.items():
            with self.subTest(name):
                file = self.folder / f"{name}.commands"
                way(str(file))
                self.assertNotEqual("", file.read_text())
                self.assertEqual(0o600, self.mode(file))
        file = self.folder / "page"
        page(str(file))
        self.assertEqual(0o644, self.mode(file))

    def test_a_file_that_is_there_keeps_its_mode(self) -> None:
        file = self.folder / "talk"
        file.touch()
        file.chmod(0o640)
        self.assertEqual("", keep_talk(str(file)))
        self.assertEqual(0o640, self.mode(file))

    def test_the_folder_of_the_history(self) -> None:
        before = os.umask(0o022)
        self.addCleanup(os.umask, before)
        type_a_line(str(self.folder / "rdbg" / "history"))
        self.assertEqual(0o700, self.mode(self.folder / "rdbg"))


class Links(Case):
    """Links that lead elsewhere."""

    def check(self, folder: pathlib.Path, why: str, owner: int) -> None:
        """Nothing is written through a link that is laid in this folder."""
        for name, way in ALL.items():
            for aim in ("there", "nowhere"):
                with self.subTest(name, aim=aim):
                    target, link = self.folder / aim, folder / f"{name}-{aim}.commands"
                    (self.folder / "there").write_text(HEAD)
                    link.symlink_to(target)
                    os.lchown(link, owner, -1)
                    answer = way(str(link))
                    self.assertEqual(HEAD, (self.folder / "there").read_text())
                    self.assertFalse((self.folder / "nowhere").exists())
                    self.assertTrue(link.is_symlink())
                    if name == "saved" and aim == "there":
                        self.assertIn("refusing to overwrite", answer)
                    elif name != "history":
                        self.assertTrue(answer.endswith(f"cannot write {link}: {why}"), answer)

    def test_in_a_folder_that_all_write_to(self) -> None:
        shared = self.folder / "shared"
        shared.mkdir()
        shared.chmod(0o1777)
        self.check(shared, FOR_ALL, os.geteuid())

    @IS_ROOT
    def test_of_another_user(self) -> None:
        own = self.folder / "own"
        own.mkdir()
        self.check(own, OF_ANOTHER, NOBODY)
        # (where it is asked for to be written over, too)
        link = own / "found.commands"
        link.symlink_to(self.folder / "there")
        os.lchown(link, NOBODY, -1)
        with example("lost_item") as shell:
            answers = said(shell, f"save! {link}")
        self.assertEqual([f"# cannot write {link}: {OF_ANOTHER}"], answers)

    @IS_ROOT
    def test_no_folder_is_made_behind_one_of_another_user(self) -> None:
        (self.folder / "there").mkdir()
        link = self.folder / "link"
        link.symlink_to(self.folder / "there")
        os.lchown(link, NOBODY, -1)
        type_a_line(str(link / "rdbg" / "history"))
        self.assertEqual([], [*(self.folder / "there").iterdir()])

    def test_ones_own_are_followed(self) -> None:
        for name, way in ALL.items():
            with self.subTest(name):
                target, middle = self.folder / f"{name}.target", self.folder / f"{name}.middle"
                link = self.folder / f"{name}.commands"
                middle.symlink_to(target.name)
                link.symlink_to(middle)
                if name == "hunt":
                    target.write_text("old")
                way(str(link))
                self.assertTrue(link.is_symlink() and middle.is_symlink())
                self.assertEqual(name != "hunt", bool(target.read_text()))

    def test_what_is_open_already(self) -> None:
        reading, writing = os.pipe()
        self.assertEqual("", page(f"/dev/fd/{writing}"))
        os.close(writing)
        with os.fdopen(reading) as lines:
            self.assertEqual("a page", lines.read())
        for way in (page, keep_talk):
            self.assertEqual("", way("/dev/null"))

    @IS_ROOT
    def test_a_file_of_another_user(self) -> None:
        file = self.folder / "found.commands"
        file.write_text(HEAD)
        os.chown(file, NOBODY, -1)
        why = f"cannot write {file}: it is a file of another user (uid {NOBODY})"
        self.assertEqual(why, keep_talk(str(file)))
        type_a_line(str(file))
        with example("lost_item") as shell:
            self.assertEqual([f"# {why}"], said(shell, f"save! {file}"))
        self.assertEqual(HEAD, file.read_text())

    def test_one_that_is_laid_meanwhile(self) -> None:
        target, link = self.folder / "there", self.folder / "link.commands"
        for name, way in ALL.items():
            with self.subTest(name):
                target.write_text(HEAD)
                with mock.patch("rdbg.links.resolve", lambda path: path):
                    link.symlink_to(target)
                    way(str(link))
                    link.unlink()
                self.assertEqual(HEAD, target.read_text())

    def test_a_file_of_several_names(self) -> None:
        file, second = self.folder / "found.commands", self.folder / "second.commands"
        file.write_text(HEAD)
        os.link(file, second)
        why = f"cannot write {second}: it is a file of several names"
        self.assertEqual(why, keep_talk(str(second)))
        with example("lost_item") as shell:
            self.assertEqual([f"# {why}"], said(shell, f"save! {second}"))
        self.assertEqual(HEAD, file.read_text())


class Folders(Case):
    """Links among the folders of a path."""

    def setUp(self) -> None:
        super().setUp()
        self.folder.chmod(0o755)
        self.aim = self.folder / "aim"
        self.aim.mkdir()

    def made(self, name: str, mode: int) -> pathlib.Path:
        """A new folder of this mode."""
        found = self.folder / name
        found.mkdir()
        found.chmod(mode)
        return found

    def refused(self, folder: pathlib.Path, link: pathlib.Path, why: str) -> None:
        """Nothing is written in a folder, since there is this link on the way."""
        before = sorted(self.aim.iterdir())
        for name, way in ALL.items():
            with self.subTest(name, why=why):
                file = folder / f"{name}.commands"
                answer = way(str(file))
                if name != "history":
                    self.assertTrue(
                        answer.endswith(f"cannot write {file}: {link} is {why}"), answer
                    )
                self.assertEqual(before, sorted(self.aim.iterdir()))

    def followed(self, folder: pathlib.Path) -> None:
        """All is written in a folder that leads to the aim."""
        for name, way in ALL.items():
            with self.subTest(name):
                file = self.aim / f"{name}.commands"
                if name == "hunt":  # (which finds nothing, and keeps no file of its own for that)
                    file.write_text("old")
                way(str(folder / file.name))
                self.assertEqual(name != "hunt", bool(file.read_text()))
                file.unlink()

    @IS_ROOT
    def test_of_another_user(self) -> None:
        # (as /tmp is; and a folder of another user; and one's own)
        shared, other, own = (self.made(it, 0o755) for it in ("shared", "other", "own"))
        shared.chmod(0o1777)
        os.chown(other, NOBODY, -1)
        for folder in (shared, other):
            link = folder / "out"
            words = ["ln", "-s", str(self.aim), str(link)]
            subprocess.run(words, preexec_fn=become, check=True)
            self.refused(link, link, LAID)
            # (behind one's own link, and above another folder)
            (own / folder.name).symlink_to(folder)
            self.refused(own / folder.name / "out", link, LAID)
            (self.aim / "below").mkdir(exist_ok=True)
            self.refused(link / "below", link, LAID)
        moved = own / "out"
        moved.symlink_to(self.aim)
        os.lchown(moved, NOBODY, -1)
        self.refused(moved, moved, LAID)

    def test_ones_own_are_followed(self) -> None:
        shared, own = self.made("shared", 0o1777), self.made("own", 0o755)
        (shared / "out").symlink_to(self.aim)
        (own / "out").symlink_to("../shared/./out/")
        self.followed(shared / "out")
        self.followed(own / "out")
        # (behind a link the folder above is that of where it leads)
        (self.aim / "below").mkdir()
        (own / "below").symlink_to(self.aim / "below")
        self.followed(own / "below" / "..")

    def test_where_all_can_rename_one(self) -> None:
        link = self.made("shared", 0o777) / "out"
        link.symlink_to(self.aim)
        self.refused(link, link, "a link in a folder that everybody may write to")

    def test_one_that_is_laid_meanwhile(self) -> None:
        link = self.folder / "out"
        link.symlink_to(self.aim)
        for name, way in ALL.items():
            with self.subTest(name), mock.patch("rdbg.links.resolve", lambda path: path):
                way(str(link / f"{name}.commands"))
                self.assertEqual([], list(self.aim.iterdir()))

    def test_links_that_lead_to_each_other(self) -> None:
        one, other = self.folder / "one", self.folder / "other"
        one.symlink_to(other)
        other.symlink_to(one)
        file = one / "page"
        self.assertEqual(f"cannot write {file}: too many links", page(str(file)))


class There(Case):
    """Files that are there already."""

    def test_what_this_prompt_has_not_saved(self) -> None:
        file = self.folder / "found.commands"
        file.write_text("step 7\n")
        why = f"# refusing to overwrite {file}, which this prompt did not save (use `save! {file}`)"
        with example("lost_item") as shell:
            self.assertEqual([why], said(shell, f"save {file}"))
            self.assertEqual("step 7\n", file.read_text())
            said(shell, "tick")
            self.assertEqual(f"# saved 1 move in {file}", said(shell, f"save! {file}")[0])
            self.assertEqual("tick\n", file.read_text())
            # (from now on it is this prompt's, until another one stands there)
            said(shell, "back 1")
            self.assertEqual(f"# saved 0 moves in {file}", said(shell, f"save {file}")[0])
            self.assertEqual("", file.read_text())
            another = self.folder / "another"
            another.write_text("step 8\n")
            another.replace(file)
            self.assertEqual([why], said(shell, f"save {file}"))
        self.assertEqual("step 8\n", file.read_text())

    def test_one_that_does_not_end_so(self) -> None:
        file = self.folder / "notes.txt"
        file.write_text("notes")
        with example("lost_item") as shell:
            for word in ("save", "save!"):
                self.assertIn("does not end in .commands", said(shell, f"{word} {file}")[0])
        self.assertEqual("notes", file.read_text())

    def test_what_is_no_talk(self) -> None:
        file = self.folder / "lost.talk"
        for text in ("notes\n", "when", HEAD[:-1], f"#{HEAD}"):
            file.write_text(text)
            why = f"refusing to append to {file}: it exists and is not a talk"
            self.assertEqual(why, keep_talk(str(file)))
            self.assertEqual(text, file.read_text())

    def test_a_talk_goes_on(self) -> None:
        file = self.folder / "lost.talk"
        file.write_text(f"{HEAD}earlier\trow\tof\tit\n")
        self.assertEqual("", keep_talk(str(file)))
        rows = file.read_text().splitlines()
        self.assertEqual([HEAD[:-1], "earlier\trow\tof\tit"], rows[:2])
        self.assertTrue(rows[2].endswith("\tada\tstep 1\tok at 1"))


if __name__ == "__main__":
    unittest.main()
