"""What `./rdbg` builds and what it does not, in a checkout of a few files with a fake `rt`."""
import os
import pathlib
import re
import shutil
import signal
import subprocess
import tempfile
import time
import unittest
from typing import List

from rdbg.client import program
from rdbg.reaching.asking import program as reach
from tests.paths import EXAMPLES, TOP

LOST = str(EXAMPLES / "lost_item.json")
SOURCE = "fn main(rt: HostRuntime) -> ExitCode {\n}\n"
# What of the repository there is in the checkout as it is.
LINKED = (
    "tools",
    "docs",
    "examples",
    "licences",
    "LICENSE",
    "README.md",
    "CHANGELOG.md",
    "VERSION",
)
# So many seconds does a busy machine have for what takes a moment.
PATIENCE = 60.0
# After so many seconds a file that was written counts as written long ago.
SETTLED = 4
# A kit that logs how it was called, and whose builds go on until they are ended.
RT = """#!/bin/sh
echo "$@" >> "$RT_CALLS"
case $1 in version) echo a kit ;; *) echo $$ >> "$RT_PIDS"; exec sleep 600 ;; esac
"""


def take_signals() -> None:
    """Has signals end a process that starts, also below `nohup` and the like, which ignore some."""
    for number in (signal.SIGINT, signal.SIGHUP):
        signal.signal(number, signal.SIG_DFL)


def write_script(file: pathlib.Path, text: str) -> None:
    """Writes a file that can be run."""
    file.write_text(text)
    file.chmod(0o755)


def make_checkout(top: pathlib.Path) -> None:
    """Makes a checkout of a source a program, with what `./rdbg` is made of."""
    for name in ("rdbg", "rdreach"):
        (top / f"crates/{name}/src").mkdir(parents=True)
        (top / f"crates/{name}/src/main.rt").write_text(SOURCE)
    (top / "crates.txt").write_text("rdbg:\nrdreach:\n")
    for name in LINKED:
        (top / name).symlink_to(TOP / name)
    # (a script looks for the others where a link to it leads, so these are none)
    (top / "ci").mkdir()
    scripts = [TOP / "rdbg", *(it for it in (TOP / "ci").iterdir() if it.is_file())]
    for script in scripts:
        write_script(top / script.relative_to(TOP), script.read_text())


# A kit that has proved the crate of this folder, and built it.
PROVES = """#!/bin/sh
echo "$(basename "$PWD") $@" >> "$RT_CALLS"
mkdir -p out && cp /bin/true "out/$(basename "$PWD")"
"""
UNPROVED = "rdbg: using the unproved build (./rdbg prove builds the proved one)\n"
PROVED = "rdbg: using the proved build\n"


class Checkout(unittest.TestCase):
    """A checkout, with an `rt` of its own."""

    def setUp(self) -> None:
        folder = tempfile.TemporaryDirectory()
        self.addCleanup(folder.cleanup)
        self.top = pathlib.Path(folder.name) / "checkout"
        make_checkout(self.top)
        self.source = self.top / "crates/rdbg/src/main.rt"
        kit = pathlib.Path(folder.name) / "kit"
        kit.mkdir()
        self.kit = kit / "rt"
        write_script(self.kit, RT)
        self.calls, self.pids = kit / "calls", kit / "pids"
        self.environment = {
            **os.environ,
            "PATH": f"{kit}:{os.environ['PATH']}",
            "RT_CALLS": str(self.calls),
            "RT_PIDS": str(self.pids),
        }
        for name in ("RDBG_PROGRAM", "RDBG_REACH", "RDBG_BUILD_REPORTED", "RDBG_WRAPPER_WORDS"):
            self.environment.pop(name, None)
        self.program = program()

    def start(self, *words: str) -> "subprocess.Popen[str]":
        """Starts `./rdbg` on these words."""
        return subprocess.Popen(
            [str(self.top / "rdbg"), *words],
            env=self.environment,
            stdin=subprocess.DEVNULL,
            stdout=subprocess.PIPE,
            stderr=subprocess.PIPE,
            universal_newlines=True,
            start_new_session=True,
            preexec_fn=take_signals,
        )

    def run_it(self, *words: str) -> "subprocess.CompletedProcess[str]":
        """What it says on these words, for which nothing may be built."""
        process = self.start(*words)
        try:
            out, err = process.communicate(timeout=PATIENCE)
        except subprocess.TimeoutExpired:
            process.terminate()
            process.communicate()
            raise
        return subprocess.CompletedProcess(words, process.returncode, out, err)

    def called(self) -> List[str]:
        """How `rt` was called."""
        return self.calls.read_text().splitlines() if self.calls.exists() else []

    def summed(self, kind: str) -> str:
        """The sum of the sources as they are."""
        words, environment = [str(self.top / "ci/sum"), kind], self.environment
        ran = subprocess.run(words, check=True, stdout=subprocess.PIPE, env=environment)
        return ran.stdout.decode().strip()

    def keep(self, kind: str, name: str = "rdbg") -> pathlib.Path:
        """A program that was built of the sources as they are."""
        called = kind if name == "rdbg" else f"{name}-{kind}"
        kept = self.top / "out/programs" / f"{called}-{self.summed(kind)}"
        kept.parent.mkdir(parents=True, exist_ok=True)
        write_script(kept, f'#!/bin/sh\nexec {self.program} "$@"\n')
        return kept

    def builds(self, *words: str) -> bool:
        """Whether these words begin a build, which is ended."""
        process = self.start(*words)
        end = time.monotonic() + PATIENCE
        while process.poll() is None and time.monotonic() < end and not self.pids.exists():
            time.sleep(0.02)
        began = self.pids.exists()
        process.terminate()
        process.communicate()
        if began:
            self.pids.unlink()
        return began


class Sums(Checkout):
    """What is built is current by what the sources say."""

    def test_dates_build_nothing(self) -> None:
        choices: List[List[str]] = [["--unproved"], [], ["--proved"]]
        for words in choices:
            with self.subTest(words):
                kept = self.keep("proved" if "--proved" in words else "unproved")
                os.utime(kept, (0, 0))
                os.utime(self.source)
                ran = self.run_it(*words, "--build")
                self.assertEqual((ran.returncode, ran.stdout), (0, f"{kept}\n"), ran.stderr)
        self.assertEqual(self.called(), [])

    def test_there_and_back(self) -> None:
        first = self.keep("unproved")
        self.assertFalse(self.builds("--unproved", "--build"))
        self.source.write_text(f"// other\n{SOURCE}")
        self.assertTrue(self.builds("--unproved", "--build"))
        second = self.keep("unproved")
        self.assertEqual(self.run_it("--unproved", "--build").stdout, f"{second}\n")
        self.source.write_text(SOURCE)
        self.assertEqual(self.run_it("--unproved", "--build").stdout, f"{first}\n")

    def test_what_was_proved_is_kept(self) -> None:
        write_script(self.kit, PROVES)
        ran = self.run_it("prove")
        self.assertEqual(ran.returncode, 0, ran.stderr)
        calls = sorted(self.called())
        self.assertRegex(calls[0], "^rdbg run --jobs [0-9]+ -- --help$")
        self.assertRegex(calls[1], "^rdreach run --jobs [0-9]+ -- --help$")
        for name in ("rdbg", "rdreach"):
            built = pathlib.Path(self.run_it("--proved", "--build", name).stdout.strip())
            self.assertEqual(built.read_bytes(), pathlib.Path("/bin/true").read_bytes())
            self.assertTrue(os.access(built, os.X_OK))
            self.assertEqual(self.run_it("--build", name).stdout.strip(), str(built))
        self.assertEqual(self.run_it("prove").returncode, 0)
        self.assertEqual(len(self.called()), 2)

    def test_proofs_are_sources_of_the_proved_one(self) -> None:
        proved, unproved = self.keep("proved"), self.keep("unproved")
        self.assertEqual(self.run_it("--build").stdout, f"{proved}\n")
        (self.top / "crates/rdbg/proof.antt").write_text("-- a proof\n")
        self.assertEqual(self.run_it("--build").stdout, f"{unproved}\n")
        self.assertEqual(self.called(), [])


class Choice(Checkout):
    """Which build runs, and what is said of it. Only `./rdbg prove` starts a proof."""

    def ask(self, *words: str) -> "subprocess.CompletedProcess[str]":
        """What the words and a short run come to."""
        return self.run_it(*words, "run", "--app", LOST)

    def test_the_unproved_one_unless_proved(self) -> None:
        unproved = self.keep("unproved")
        self.assertEqual((0, UNPROVED), (self.ask().returncode, self.ask().stderr))
        proved = self.keep("proved")
        self.assertEqual(self.run_it("--build").stdout, f"{proved}\n")
        self.assertEqual((0, PROVED), (self.ask().returncode, self.ask().stderr))
        self.assertEqual(self.ask("--proved").stderr, PROVED)
        self.assertEqual(self.ask("--unproved").stderr, UNPROVED)
        self.assertEqual(self.run_it("--unproved", "--build").stdout, f"{unproved}\n")
        self.assertEqual(self.called(), [])

    def test_proved_refuses(self) -> None:
        self.keep("unproved")
        self.keep("unproved", "rdreach")
        asked = (
            ["run", "--app", LOST],
            ["reach", LOST, "asleep"],
            ["hunt", LOST, "asleep"],
            ["sh", LOST],
            ["install", str(self.top / "prefix")],
        )
        for words in asked:
            with self.subTest(words):
                ran = self.run_it("--proved", *words)
                self.assertEqual((2, ""), (ran.returncode, ran.stdout))
                self.assertIn(
                    "the proved program is not built (./rdbg prove builds it)", ran.stderr
                )
        self.assertEqual(self.called(), [])

    def test_no_other_word_proves(self) -> None:
        for words in (["--build"], ["run"], ["reach", LOST, "asleep"], ["sh", LOST]):
            with self.subTest(words):
                self.assertTrue(self.builds(*words))
        self.assertEqual({"try"}, {it.split()[0] for it in self.called()})

    def test_a_proof_holds_nobody_up(self) -> None:
        proof = self.start("prove")
        self.addCleanup(proof.kill)
        end = time.monotonic() + PATIENCE
        while not (self.pids.exists() and len(self.pids.read_text().split()) == 2):
            self.assertLess(time.monotonic(), end)
            time.sleep(0.02)
        self.pids.unlink()
        self.assertTrue(self.builds("--build"))
        proof.terminate()
        proof.communicate()
        self.assertEqual(143, proof.returncode)

    def test_its_words(self) -> None:
        ran = self.run_it("prove", "rdbg")
        self.assertEqual((2, "rdbg: usage: ./rdbg prove\n"), (ran.returncode, ran.stderr))
        self.assertIn("half an hour", self.run_it("prove", "--help").stdout)
        self.assertEqual(self.called(), [])


# Says how late it is, in seconds, as a test has it.
DATE = """#!/bin/sh
echo "$NOW"
"""
# Writes down that files are read.
READS = """#!/bin/sh
echo read >> "$READS"
exec {sha256sum} "$@"
"""


class KeptSums(Checkout):
    """The sum of sources that are as they were is there without reading them."""

    def setUp(self) -> None:
        super().setUp()
        self.reads = self.kit.parent / "reads"
        found = shutil.which("sha256sum")
        write_script(self.kit.parent / "sha256sum", READS.format(sha256sum=found))
        self.environment["READS"] = str(self.reads)
        write_script(self.kit.parent / "date", DATE)
        self.pass_seconds(0)

    def pass_seconds(self, seconds: int) -> None:
        """Has so many seconds passed since the sources were written, however long that is ago."""
        files = [*(self.top / "crates").rglob("*"), *(self.top / "ci").iterdir()]
        written = max(file.stat().st_ctime for file in files)
        self.environment["NOW"] = str(int(written) + seconds)

    def is_read(self) -> bool:
        """Whether files are read for the sum now."""
        self.reads.unlink(missing_ok=True)
        self.summed("unproved")
        return self.reads.exists()

    def test_what_changed_long_ago_is_read_once(self) -> None:
        # (what has just changed may change again at the same time, and is read until it hasn't)
        self.assertTrue(self.is_read())
        self.assertTrue(self.is_read())
        self.pass_seconds(SETTLED)
        self.assertTrue(self.is_read())
        self.assertFalse(self.is_read())
        first = self.summed("unproved")
        there = self.source.stat()
        self.source.write_text(SOURCE.replace("main", "niam"))
        os.utime(self.source, ns=(there.st_atime_ns, there.st_mtime_ns))
        self.assertTrue(self.is_read())
        self.assertNotEqual(first, self.summed("unproved"))

    def test_other_files(self) -> None:
        self.pass_seconds(SETTLED)
        first = self.summed("unproved")
        self.assertFalse(self.is_read())
        other = self.source.parent / "other.rt"
        other.touch()
        self.assertNotEqual(first, self.summed("unproved"))
        other.unlink()
        self.assertEqual(first, self.summed("unproved"))

    def test_where_none_can_be_kept(self) -> None:
        self.pass_seconds(SETTLED)
        (self.top / "out").write_text("in the way of a folder")
        first = self.summed("unproved")
        self.assertTrue(self.is_read())
        self.assertEqual(first, self.summed("unproved"))


class Nothing(Checkout):
    """Words for which nothing is built."""

    def test_help_and_version(self) -> None:
        for words in (
            ["help"],
            ["--help"],
            ["help", "run"],
            ["help", "serve"],
            ["help", "install"],
            ["help", "prove"],
            ["help", "trace"],
            ["run", "--help"],
            ["serve", "-h"],
            ["install", "--help"],
            ["check", "--help"],
            ["--version"],
        ):
            for given in (words, ["--unproved", *words], ["--proved", *words]):
                with self.subTest(given):
                    ran = self.run_it(*given)
                    self.assertEqual(ran.returncode, 0, ran.stderr)
                    self.assertTrue(ran.stdout)
        self.assertEqual(set(self.called()), {"version"})

    def test_help_is_the_programs(self) -> None:
        for word in ("run", "serve"):
            own = subprocess.run([self.program, "help", word], stdout=subprocess.PIPE, check=True)
            self.assertEqual(self.run_it("help", word).stdout, own.stdout.decode())


class Install(Checkout):
    """What `./rdbg install` installs."""

    def install(self, *words: str) -> str:
        """What it says of what it has installed."""
        prefix = self.top.parent / "prefix"
        ran = self.run_it(*words, "install", str(prefix))
        self.assertEqual(ran.returncode, 0, ran.stderr)
        release = (prefix / "lib/rdbg/release").read_text().splitlines()
        said = ran.stdout.replace(str(prefix), "PREFIX")
        self.assertIn(f"# rdbg {said.strip().rpartition('is ')[2]}", release)
        self.assertEqual({it for it in self.called() if it != "version"}, set())
        return said

    def setUp(self) -> None:
        super().setUp()
        self.keep("unproved", "rdreach")

    def test_the_proved_one_where_it_is_current(self) -> None:
        self.keep("unproved")
        self.assertEqual(
            self.install(), "rdbg is in PREFIX/bin, with a program that is not proved\n"
        )
        self.keep("proved")
        self.assertEqual(
            self.install(),
            "rdbg reach is not proved\nrdbg is in PREFIX/bin, with a program that is proved\n",
        )
        self.keep("proved", "rdreach")
        self.assertEqual(self.install(), "rdbg is in PREFIX/bin, with a program that is proved\n")
        self.assertEqual(
            self.install("--unproved"),
            "rdbg is in PREFIX/bin, with a program that is not proved\n",
        )

    def test_what_is_said_of_it_then(self) -> None:
        installed = str(self.top.parent / "prefix/bin/rdbg")
        for kind, said in (("unproved", 1), ("proved", 0)):
            for name in ("rdbg", "rdreach"):
                self.keep(kind, name)
            self.install()
            ran = subprocess.run(
                [installed, "reach", "help"],
                env=self.environment,
                stdin=subprocess.DEVNULL,
                stdout=subprocess.PIPE,
                stderr=subprocess.PIPE,
            )
            self.assertEqual(said, ran.stderr.count(b"rdbg: nothing is proved\n"), ran.stderr)

    def test_a_search_is_built_where_it_isnt_there(self) -> None:
        for kept in (self.top / "out/programs").glob("rdreach-*"):
            kept.unlink()
        self.keep("unproved")
        self.assertTrue(self.builds("install", str(self.top.parent / "prefix")))


class Ended(Checkout):
    """A build that is ended."""

    def test_no_process_is_left(self) -> None:
        for words in (["prove"], ["--build"]):
            for number, status in (
                (signal.SIGTERM, 143),
                (signal.SIGINT, 130),
                (signal.SIGHUP, 129),
                (signal.SIGKILL, -9),
            ):
                with self.subTest(words=words, signal=number):
                    process = self.start(*words)
                    end = time.monotonic() + PATIENCE
                    while not self.pids.exists() and time.monotonic() < end:
                        time.sleep(0.02)
                    process.send_signal(number)
                    process.communicate()
                    self.assertEqual(process.returncode, status)
                    self.check_gone(self.pids.read_text().split())
                    self.pids.unlink()

    def check_gone(self, pids: List[str]) -> None:
        """That these processes end, and what called them has tidied up."""
        end = time.monotonic() + PATIENCE
        while time.monotonic() < end:
            states = [pathlib.Path(f"/proc/{pid}/stat") for pid in pids]
            left = [it for it in states if it.exists() and ") Z " not in it.read_text()]
            rest = list((self.top / "out/programs").glob("building-*"))
            if not left and not rest:
                return
            time.sleep(0.05)
        self.fail(f"still there: {left} {rest}")


class Report(Checkout):
    """Which build runs is reported once per start."""

    def test_once_for_both_programs(self) -> None:
        page = str(self.top.parent / "page.html")
        for kind, told in (("unproved", UNPROVED), ("proved", PROVED)):
            self.keep(kind)
            write_script(self.keep(kind, "rdreach"), f'#!/bin/sh\nexec {reach()} "$@"\n')
            for words in (["hunt", LOST], ["reach", LOST, "--page", page]):
                with self.subTest(kind, words=words):
                    ran = self.run_it(*words, "reg poller 0 = 1")
                    self.assertEqual(ran.returncode, 1, ran.stderr)
                    self.assertEqual(1, ran.stderr.count(told), ran.stderr)
                    self.assertEqual(1, len(re.findall("using the", ran.stderr)), ran.stderr)


if __name__ == "__main__":
    unittest.main()
