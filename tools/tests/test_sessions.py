"""The shell sessions on all pages print what the pages show."""
import pathlib
import unittest
from typing import Iterator

from tests import sessions
from tests.paths import DOCS, TOP


def pages() -> Iterator[pathlib.Path]:
    """The pages that have shell sessions."""
    for page in (TOP / "README.md", *sorted(DOCS.glob("**/*.md"))):
        if list(sessions.commands(page.read_text())):
            yield page


class Sessions(unittest.TestCase):
    """Shell sessions, run in order, page by page."""

    def test_each_page(self) -> None:
        count = 0
        for page in pages():
            with self.subTest(page.relative_to(TOP)):
                self.assertEqual(list(sessions.wrong(page)), [])
            count += 1
        self.assertGreater(count, 8)

    def test_commands_and_what_they_print(self) -> None:
        text = "```\n$ echo \\\n  one\ntwo\n$ cat <<'END'\nthree\nEND\nthree\n```\n"
        text += "```\n$ cat <<'END' | tail -n 1\nfour\nfive\nEND\nfive\n```\n"
        found = list(sessions.commands(text))
        self.assertEqual([each.line for each in found], [2, 5, 11])
        self.assertEqual([each.output for each in found], ["two\n", "three\n", "five\n"])


if __name__ == "__main__":
    unittest.main()
