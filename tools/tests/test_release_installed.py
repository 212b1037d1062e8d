"""An installed rdbg from what `ci/release` makes, which needs nothing of a checkout."""
import hashlib
import json
import pathlib
import re
import shutil
import subprocess
import tarfile
import tempfile
import unittest
from typing import Dict, List

from rdbg.client import program
from rdbg.reaching.asking import program as reach
from tests import releases
from tests.paths import TOP
from tests.rooms import free_port

PLAIN = {"PATH": "/usr/bin:/bin"}
VERSION = (TOP / "VERSION").read_text().strip()
SAID = "rdbg: nothing is proved\n"


def sha256(file: pathlib.Path) -> str:
    """Returns the SHA-256 of a file."""
    return hashlib.sha256(file.read_bytes()).hexdigest()


class Made:
    """A release and the folder that it is in."""

    folder: pathlib.Path
    made: List[pathlib.Path]


def setUpModule() -> None:
    """Makes it, once."""
    if shutil.which("dpkg-deb") is None:
        raise unittest.SkipTest("dpkg-deb isn't there")
    folder = tempfile.TemporaryDirectory()
    unittest.addModuleCleanup(folder.cleanup)
    Made.folder = pathlib.Path(folder.name)
    releases.repository(Made.folder / "first")
    Made.made = releases.release(Made.folder / "first", Made.folder / "out")


class Installed(unittest.TestCase):
    """The first hour with an unpacked release, which needs nothing but the system."""

    def setUp(self) -> None:
        self.folder, self.made = Made.folder, Made.made

    def places(self) -> Dict[str, pathlib.Path]:
        """Unpacks both packages, and returns the folders that contain `bin`."""
        unpacked = self.folder / "unpacked here"
        if not unpacked.exists():
            with tarfile.open(self.made[0]) as tar:
                tar.extractall(unpacked)
            words = ["dpkg-deb", "-x", str(self.made[1]), str(unpacked / "debian")]
            subprocess.run(words, check=True)
        return {
            "tar.gz": unpacked / self.made[0].name.replace(".tar.gz", ""),
            "deb": unpacked / "debian/usr",
        }

    def run_it(
        self, place: pathlib.Path, *words: str, given: str = "", status: int = 0
    ) -> "subprocess.CompletedProcess[str]":
        """Runs an installed rdbg in a folder of the user."""
        home = self.folder / "home"
        home.mkdir(exist_ok=True)
        ran = subprocess.run(
            [str(place / "bin/rdbg"), *words],
            cwd=home,
            env={**PLAIN, "HOME": str(home)},
            input=given,
            stdout=subprocess.PIPE,
            stderr=subprocess.PIPE,
            universal_newlines=True,
        )
        self.assertEqual(ran.returncode, status, ran.stderr)
        return ran

    def test_the_first_hour(self) -> None:
        for kind, place in self.places().items():
            with self.subTest(kind):
                examples = place / "share/rdbg/examples"
                lost, meeting = examples / "lost_item.json", str(examples / "meeting.json")
                ran = self.run_it(place, "sh", str(lost), given="step worker\nback 1\n")
                self.assertEqual((ran.stdout, ran.stderr), ("ok at 1\nok at 0\n", SAID))
                asked = (examples / "lost_item.commands").read_text()
                ran = self.run_it(place, "run", "--app", str(lost), given=asked)
                self.assertEqual(ran.stdout, (examples / "lost_item.replies").read_text())
                ran = self.run_it(place, "check", str(lost))
                self.assertEqual(ran.stdout, f"{lost}: accepted: 3 tasks, 1 queue, 2 cores\n")
                ran = self.run_it(place, "hunt", meeting, "asleep", status=1)
                self.assertIn("found: asleep, at 8, with 1 surprise\n", ran.stderr)
                ran = self.run_it(place, "reach", meeting, "asleep", status=1)
                self.assertEqual(ran.stdout.split("\n")[0], "found")
                ran = self.run_it(place, "trace", str(lost), given="forward 3\n")
                self.assertIn("worker", ran.stdout)
                self.assertIn("usage: rdbg dap", self.run_it(place, "dap", "--help").stdout)
                self.assertIn("rdbg serve", self.run_it(place, "--help").stdout)
                ran = self.run_it(place, "--build")
                self.assertEqual(ran.stdout, f"{place}/lib/rdbg/rdbg\n")
                ran = self.run_it(place, "install", "there", status=2)
                self.assertIn("installed already", ran.stderr)

    def test_a_room(self) -> None:
        place = self.places()["deb"]
        words = [str(place / "bin/rdbg"), "room", str(place / "share/rdbg/examples/turns.json")]
        port = free_port()
        with subprocess.Popen(
            [*words, "--port", str(port)],
            env={**PLAIN, "HOME": str(self.folder)},
            stdout=subprocess.PIPE,
            stderr=subprocess.PIPE,
            universal_newlines=True,
        ) as room:
            assert room.stdout is not None
            try:
                self.assertEqual(room.stdout.readline(), f"listening {port}\n")
            finally:
                room.terminate()
            said, _ = room.communicate()
            self.assertEqual(room.returncode, 0, said)

    def test_the_version(self) -> None:
        commit = releases.git(self.folder / "first", "rev-parse", "HEAD")
        built = [sha256(pathlib.Path(it)) for it in (program(), reach())]
        for kind, place in self.places().items():
            with self.subTest(kind):
                summed = sha256(place / "lib/rdbg/rdbg")
                head = (place / "lib/rdbg/release").read_text().splitlines()
                for name, of in zip(("rdbg", "rdreach"), built):
                    self.assertIn(f"# {name}-unstripped {of}", head)
                    self.assertNotEqual(of, sha256(place / "lib/rdbg" / name))
                said = self.run_it(place, "--version").stdout.splitlines()
                self.assertRegex(said[0], rf"^rdbg {VERSION} at commit {commit}; \S+ logic \S+$")
                self.assertEqual(said[1], f"rdbg is not proved; its SHA-256 is {summed}")
                self.assertRegex(said[2], "^rdreach is not proved; its SHA-256 is [0-9a-f]{64}$")

    def test_a_report_says_which_it_is(self) -> None:
        place = self.places()["tar.gz"]
        meeting = str(place / "share/rdbg/examples/meeting.json")
        self.run_it(place, "hunt", meeting, "asleep", "--report", "found.sarif", status=1)
        report = json.loads((self.folder / "home" / "found.sarif").read_text())
        driver = report["runs"][0]["tool"]["driver"]
        self.assertEqual(driver["version"], VERSION)
        said = self.run_it(place, "--version").stdout.splitlines()
        self.assertEqual(driver["fullName"], "; ".join(said))

    def test_another_program_in_its_place(self) -> None:
        place = self.folder / "other"
        shutil.copytree(self.places()["deb"], place)
        release = place / "lib/rdbg/release"
        release.write_text(release.read_text().replace("# rdbg not proved", "# rdbg proved"))
        self.assertIn("\nrdbg is proved; ", self.run_it(place, "--version").stdout)
        with open(place / "lib/rdbg/rdbg", "ab") as file:
            file.write(b"\0")
        self.assertIn("\nrdbg is not known to be proved, ", self.run_it(place, "--version").stdout)

    def test_the_sums(self) -> None:
        for kind, place in self.places().items():
            with self.subTest(kind):
                words = ["sha256sum", "--strict", "--quiet", "-c", "lib/rdbg/release"]
                subprocess.run(words, cwd=place, check=True)
                listed = (place / "lib/rdbg/release").read_text().splitlines()
                named = {line.partition("  ")[2] for line in listed if not line.startswith("# ")}
                files = {it for it in place.rglob("*") if it.is_file() and it.suffix != ".pyc"}
                found = {str(it.relative_to(place)) for it in files} - {"lib/rdbg/release"}
                self.assertEqual(named, found)

    def test_what_is_in_it(self) -> None:
        for kind, place in self.places().items():
            with self.subTest(kind):
                packed = ".gz" if kind == "deb" else ""
                zsh = "vendor-completions" if kind == "deb" else "site-functions"
                for name in (
                    f"share/man/man1/rdbg.1{packed}",
                    f"share/man/man1/rdbg-sh.1{packed}",
                    f"share/man/man1/rdbg-reach.1{packed}",
                    f"share/man/man1/rdbg-serve.1{packed}",
                    "share/bash-completion/completions/rdbg",
                    f"share/zsh/{zsh}/_rdbg",
                    "share/rdbg/docs/application.schema.json",
                    "share/rdbg/editors/emacs/rdbg-dap.el",
                    "share/rdbg/editors/vscode/extension.js",
                    "share/rdbg/README.md",
                    "share/doc/rdbg/copyright",
                ):
                    self.assertTrue((place / name).is_file(), name)

    def test_what_the_package_wants(self) -> None:
        words = ["dpkg-deb", "--field", str(self.made[1])]
        fields = subprocess.run(words, check=True, stdout=subprocess.PIPE).stdout.decode()
        self.assertRegex(fields, r"\nDepends: libc6 \(>= 2\.\d+\), python3 \(>= 3\.8\)\n")
        self.assertFalse(re.search("^(Recommends|Suggests)", fields, re.MULTILINE))
        self.assertIn(f"\nVersion: {VERSION}~unproved\n", fields)


if __name__ == "__main__":
    unittest.main()
