"""When `ci/release` refuses: a file was changed, or the gate has not proved the programs."""
import os
import pathlib
import shutil
import subprocess
import tempfile
import unittest

from rdbg.client import program
from rdbg.reaching.asking import program as reach
from tests import releases
from tests.paths import TOP

VERSION = (TOP / "VERSION").read_text().strip()


def setUpModule() -> None:
    """Looks for what makes packages."""
    if shutil.which("dpkg-deb") is None or shutil.which("strip") is None:
        raise unittest.SkipTest("dpkg-deb and strip make the package")


class Refusals(unittest.TestCase):
    """Refusals that do not depend on the proof."""

    def setUp(self) -> None:
        folder = tempfile.TemporaryDirectory()
        self.addCleanup(folder.cleanup)
        self.top = pathlib.Path(folder.name)
        releases.repository(self.top)

    def refused(self, *words: str) -> str:
        """Returns why no release is made."""
        ran = releases.run(self.top, "--out", str(self.top / "out"), *words)
        self.assertEqual(ran.returncode, 2)
        return ran.stderr

    def test_changes(self) -> None:
        (self.top / "README.md").write_text("changed\n")
        self.assertIn("README.md changed since the commit", self.refused(*releases.unproved()))

    def test_programs(self) -> None:
        self.assertIn("out/proof-record is missing, so nothing is known", self.refused())
        named = releases.unproved()[:3]
        self.assertIn("--programs and --unproved go together", self.refused(*named))
        other = ["--programs", program(), str(self.top / "rdbg"), "--unproved"]
        self.assertIn("is no program for x86-64", self.refused(*other))


class Proved(unittest.TestCase):
    """Only sources and programs that the gate has recorded become a release of proved programs."""

    def setUp(self) -> None:
        folder = tempfile.TemporaryDirectory()
        self.addCleanup(folder.cleanup)
        self.top = pathlib.Path(folder.name)
        releases.repository(self.top)
        self.source = self.top / "crates/rdbg/src/main.rt"
        self.source.parent.mkdir(parents=True)
        self.write_source("fn main() {}\n")
        self.built = [self.top / "crates" / it / "out" / it for it in ("rdbg", "rdreach")]
        for file, of in zip(self.built, (program(), reach())):
            file.parent.mkdir(parents=True)
            shutil.copy(of, file)

    def write_source(self, text: str) -> None:
        """Commits a source, which is older than every program."""
        self.source.write_text(text)
        os.utime(self.source, (1, 1))
        releases.git(self.top, "add", "-A")
        releases.git(self.top, "commit", "-q", "-m", "a source")

    def run_ci(self, *words: str, status: int = 0) -> str:
        """Runs a script of ci/ and returns what it prints, its errors last."""
        pipe = subprocess.PIPE
        words = (str(self.top / words[0]), *words[1:])
        ran = subprocess.run(words, cwd=self.top, stdout=pipe, stderr=pipe, universal_newlines=True)
        self.assertEqual(status, ran.returncode, ran.stderr)
        return ran.stdout + ran.stderr

    def record(self) -> None:
        """Records the programs, as the gate does after it has proved them."""
        self.run_ci("ci/proof_record.py", self.run_ci("ci/sum", "proved").strip())

    def release(self, status: int = 0) -> str:
        """Makes a release of proved programs."""
        return self.run_ci("ci/release", "--out", str(self.top / "out/made"), status=status)

    def test_a_newer_program_is_not_believed(self) -> None:
        self.assertIn("out/proof-record is missing", self.release(status=2))
        self.assertFalse((self.top / "out/made").exists() and os.listdir(self.top / "out/made"))

    def test_what_the_gate_has_recorded(self) -> None:
        self.record()
        made = pathlib.Path(self.release().split("\n")[0])
        self.assertEqual(f"rdbg-{VERSION}-x86_64.tar.gz", made.name)
        self.run_ci("ci/release", "--check", str(made))
        self.write_source("fn main() { }\n")
        said = "crates changed since the gate proved it (sources "
        self.assertIn(said, self.release(status=2))
        self.assertIn(said, self.run_ci("ci/release", "--check", str(made), status=2))

    def test_other_programs(self) -> None:
        self.record()
        with open(self.built[1], "ab") as file:
            file.write(b"\0")
        said = "crates/rdreach/out/rdreach changed since the gate proved it (crates/rdreach/out/rdreach"
        self.assertIn(said, self.release(status=2))
        self.built[1].unlink()
        self.assertIn("crates/rdreach/out/rdreach is missing", self.release(status=2))

    def test_sources_that_change_during_the_proof(self) -> None:
        before = self.run_ci("ci/sum", "proved").strip()
        self.write_source("fn main() { }\n")
        said = self.run_ci("ci/proof_record.py", before, status=1)
        self.assertIn(f"the crates changed during the proof ({before}, ", said)
        self.assertIn("out/proof-record is missing", self.release(status=2))

    def test_the_gate_records_them(self) -> None:
        gate = (TOP / ".ci/run").read_text()
        steps = ("sources=$(ci/sum proved)", "rt ci; then", 'ci/proof_record.py "$sources"', "else")
        places = [gate.index(step) for step in steps]
        self.assertEqual(places, sorted(places))


if __name__ == "__main__":
    unittest.main()
