"""A page of a text in lines: a line of several instructions is one row, and comments stand by
it."""
import pathlib
import tempfile
import unittest

from tests.page_shown import Shown

TEXT = """cores 1
notes 2
task t priority 1
    // looks at a bit
    if r1 & 1 goto out   // never
    add r1 1
out:
    end
"""


class Lines(Shown):
    """The script of such a page."""

    def test_its_rows(self) -> None:
        with tempfile.TemporaryDirectory() as folder:
            path = pathlib.Path(folder) / "x.fw"
            path.write_text(TEXT)
            self.show(["step 0"] * 3, application=path)
            self.browser.key("End")
            text = "if r1 & 1 goto out (4 of 8)"
            wanted = [["", "", "", "", "looks at a bit"], ["->", "0-7", "5", text, "never"]]
            wanted += [["", "8", "6", "add r1 1", ""], ["", "9", "8", "end", ""]]
            heads = ["next", "pc", "line", "instruction", "C or comment"]
            self.assertEqual(heads, self.browser.texts("#script thead th"))
            self.assertEqual(wanted, [list(row) for row in self.browser.rows("#script")])


if __name__ == "__main__":
    unittest.main()
