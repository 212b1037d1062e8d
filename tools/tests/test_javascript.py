"""The pages' scripts in node, without a browser: words, ranges, lanes, keys, ways, a run that
grows; and the code for VS Code, without that."""
import json
import os
import subprocess
import unittest

from tests.page_scripts import HERE, PAGES

# What the tests have in common, which has none of its own.
COMMON = {"page", "vscode"}


class Scripts(unittest.TestCase):
    """Each file of `javascript` has tests, which node runs."""

    def check(self, name: str) -> None:
        """Whether the tests of a file pass."""
        pages = {page: [str(file) for file in files] for page, files in PAGES.items()}
        ran = subprocess.run(
            ["node", str(HERE / f"{name}.js")],
            stdout=subprocess.PIPE,
            stderr=subprocess.STDOUT,
            # (the code for VS Code finds the stand-in for it here)
            env={**os.environ, "RDBG_PAGES": json.dumps(pages), "NODE_PATH": str(HERE)},
            universal_newlines=True,
        )
        self.assertEqual(0, ran.returncode, ran.stdout)

    def test_words(self) -> None:
        self.check("words")

    def test_ranges(self) -> None:
        self.check("ranges")

    def test_lanes(self) -> None:
        self.check("lanes")

    def test_arrangement(self) -> None:
        self.check("arrangement")

    def test_beside(self) -> None:
        self.check("beside")

    def test_led(self) -> None:
        self.check("led")

    def test_links(self) -> None:
        self.check("links")

    def test_counts(self) -> None:
        self.check("counts")

    def test_keys(self) -> None:
        self.check("keys")

    def test_ways(self) -> None:
        self.check("ways")

    def test_room(self) -> None:
        self.check("room")

    def test_marks(self) -> None:
        self.check("marks")

    def test_all_are_run(self) -> None:
        run = {it[len("test_") :] for it in dir(self) if it.startswith("test_")} - {"all_are_run"}
        self.assertEqual({file.stem for file in HERE.glob("*.js")} - COMMON, run)


if __name__ == "__main__":
    unittest.main()
