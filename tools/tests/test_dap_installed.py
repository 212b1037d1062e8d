"""What an editor starts: of the checkout, of an installation, or the one on the path."""
import os
import pathlib
import shutil
import subprocess
import tempfile
import unittest
from typing import List

from tests.dap_client import Program
from tests.dap_schema import Held
from tests.paths import EXAMPLES, TOP, WRAPPER

EMACS = pathlib.Path("emacs", "rdbg-dap.el")
ADAPTER = pathlib.Path("vscode", "adapter")
SHOW = '(princ (string-join (plist-get (rdbg-dap--populate nil) :dap-server-path) "\\n"))'


def installed(prefix: pathlib.Path) -> pathlib.Path:
    """Installs rdbg, and says where the folders for editors are then."""
    words = [str(WRAPPER), "install", str(prefix)]
    subprocess.run(words, check=True, stdout=subprocess.DEVNULL, stderr=subprocess.PIPE)
    return prefix / "share" / "rdbg" / "editors"


def started_by_emacs(file: pathlib.Path) -> List[str]:
    """The words that dap-mode starts once Emacs has loaded a file."""
    with tempfile.TemporaryDirectory() as scratch:
        words = ["emacs", "--batch", "-l", str(file), "--eval", SHOW]
        environment = {**os.environ, "HOME": scratch}
        pipe = subprocess.PIPE
        ran = subprocess.run(words, env=environment, stdout=pipe, stderr=pipe, timeout=120)
        if ran.returncode:
            raise AssertionError(ran.stderr.decode()[-2_000:])
        return ran.stdout.decode().split("\n")


class Starts(Held):
    """The files for editors, wherever they are."""

    def session(self, words: List[str]) -> None:
        """What is started is a debugger."""
        pipe = subprocess.PIPE
        with subprocess.Popen(words, stdin=pipe, stdout=pipe, stderr=pipe) as process:
            assert process.stdin and process.stdout and process.stderr
            client = Program(process.stdout, process.stdin, process)
            stop = client.begin(EXAMPLES / "lost_item.json")
            self.assertEqual(stop["description"], "at 0: the start")
            client.ask("disconnect")
            self.assertEqual(process.wait(30), 0)

    def test_of_an_installation(self) -> None:
        with tempfile.TemporaryDirectory() as folder:
            prefix = pathlib.Path(folder).resolve() / "a prefix"
            editors = installed(prefix)
            words = started_by_emacs(editors / EMACS)
            self.assertEqual(words, [str(prefix / "bin" / "rdbg"), "dap"])
            self.session(words)
            self.session(["bash", str(editors / ADAPTER)])

    def test_of_the_checkout(self) -> None:
        editors = TOP / "tools" / "editors"
        self.assertEqual(started_by_emacs(editors / EMACS), [str(WRAPPER), "dap"])
        self.session(["bash", str(editors / ADAPTER)])

    def test_of_neither(self) -> None:
        with tempfile.TemporaryDirectory() as folder:
            editors = pathlib.Path(folder) / "share" / "rdbg" / "editors"
            shutil.copytree(TOP / "tools" / "editors", editors)
            (pathlib.Path(folder) / "bin" / "rdbg").mkdir(parents=True)
            self.assertEqual(started_by_emacs(editors / EMACS), ["rdbg", "dap"])


if __name__ == "__main__":
    unittest.main()
