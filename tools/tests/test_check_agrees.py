"""`check` and the program say the same of a file: the kind of its first fault, or none."""
import concurrent.futures
import os
import pathlib
import subprocess
import tempfile
import unittest
from typing import List

from rdbg.client import program
from rdbg.failure import Failure
from rdbg.files.source import source
from tests import broken

# So many broken files; RDBG_MANY in the environment says another number.
COUNT = 2000
SEED = 47
ACCEPTED = "accepted"
UNREADABLE = "cannot read the file"
REFUSED = "application refused: "


def program_says(path: pathlib.Path) -> str:
    """What the program says of a file: the kind of its fault, or that it is accepted."""
    words = [program(), "run", "--app", str(path), "--moves", "1", "--history", "2"]
    done = subprocess.run(
        words, stdin=subprocess.DEVNULL, stdout=subprocess.DEVNULL, stderr=subprocess.PIPE
    )
    lines = done.stderr.decode("utf-8", "replace").strip().splitlines()
    if done.returncode == 0:
        return ACCEPTED
    return lines[-1].split("rdbg: ", 1)[-1].replace(REFUSED, "") if lines else "nothing"


def check_says(content: bytes) -> str:
    """What `check` says of a file of this content."""
    try:
        faults = source("broken.json", content).faults
    except Failure:
        return UNREADABLE
    return faults[0].kind if faults else ACCEPTED


class CheckAgrees(unittest.TestCase):
    """Each file is given to both."""

    def differences(self, contents: List[bytes]) -> List[str]:
        """The files of which they say different things."""
        with tempfile.TemporaryDirectory() as folder:
            paths = [pathlib.Path(folder) / f"{at}.json" for at in range(len(contents))]
            for path, content in zip(paths, contents):
                path.write_bytes(content)
            program()  # (once, before many ask for it at a time)
            with concurrent.futures.ThreadPoolExecutor(os.cpu_count()) as threads:
                theirs = threads.map(program_says, paths)
                # (this thread checks while the others wait for programs)
                ours = list(map(check_says, contents))
                said = list(zip(ours, theirs, contents))
        return [f"{mine}, but rdbg {its}: {it!r}" for mine, its, it in said if mine != its]

    def test_of_broken_files(self) -> None:
        count = int(os.environ.get("RDBG_MANY", COUNT))
        seed = int(os.environ.get("RDBG_SEED", SEED))
        self.assertEqual([], self.differences(list(broken.files(count, seed)))[:5])

    def test_of_files_that_are_accepted(self) -> None:
        contents = [path.read_bytes() for path in broken.sources()]
        self.assertEqual({ACCEPTED}, set(map(check_says, contents)))
        self.assertEqual([], self.differences(contents))


if __name__ == "__main__":
    unittest.main()
