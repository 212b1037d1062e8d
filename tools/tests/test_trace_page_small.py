"""The page of a run in small windows and on paper: nothing stands beside them, no text is cut, and
heads and keys can be read."""
import unittest
from typing import List

from tests.page_shown import Shown
from tests.paths import EXAMPLES

# Ten tasks, and the path and the lines of C take much of a narrow window.
TEN = EXAMPLES / "faults" / "queue_set" / "queue_set.c"
SIZES = ((800, 600), (390, 844))
WIDE = "document.documentElement.scrollWidth"
UNFOLD = "document.querySelectorAll('details').forEach((it) => (it.open = true))"
# In how many lines the text of an element stands.
LINES = """(it) => {
  const text = document.createRange();
  text.selectNodeContents(it);
  return text.getClientRects().length;
}"""


class Small(Shown):
    """Windows of 800x600 and of a phone."""

    def setUp(self) -> None:
        super().setUp()
        self.addCleanup(self.browser.size, 1440, 900)
        self.addCleanup(self.browser.scheme, "light")

    def test_all_of_it_is_in_the_window(self) -> None:
        page = self.show(["forward 30"], application=TEN, link="#20")
        for width, height in SIZES:
            for scheme in ("light", "dark"):
                with self.subTest(f"{width} {scheme}"):
                    self.browser.size(width, height)
                    self.browser.scheme(scheme)
                    self.browser.open(page, "#20")
                    self.assertEqual(width, self.browser.value(WIDE))
                    self.browser.value(UNFOLD)
                    self.browser.settle()
                    self.assertEqual(width, self.browser.value(WIDE))
                    self.assertEqual([], self.broken_heads())
                    self.assertEqual([], self.cut_cells())

    def broken_heads(self) -> List[str]:
        """The heads of one word that stand in two lines."""
        heads = "[...document.querySelectorAll('thead th')]"
        found = f"{heads}.filter((it) => ({LINES})(it) > 1).map((it) => it.textContent)"
        texts: List[str] = self.browser.value(found)
        return [it for it in texts if " " not in it]

    def cut_cells(self) -> List[str]:
        """The cells whose text is wider than they are."""
        cells = "[...document.querySelectorAll(':is(td, th)')]"
        found = f"{cells}.filter((it) => it.scrollWidth > it.clientWidth + 1)"
        texts: List[str] = self.browser.value(f"{found}.map((it) => it.textContent)")
        return texts

    def test_no_word_is_broken_on_paper(self) -> None:
        self.show(link="#2&mark=5:sent")
        self.browser.size(760, 1000)
        self.addCleanup(self.browser.call, "Emulation.setEmulatedMedia", media="")
        self.browser.value("dispatchEvent(new Event('beforeprint'))")
        self.browser.call("Emulation.setEmulatedMedia", media="print")
        cells = "[...document.querySelectorAll('#printed :is(td, th)')]"
        is_word = "!it.textContent.includes(' ')"
        found = f"{cells}.filter((it) => {is_word} && ({LINES})(it) > 1)"
        self.assertEqual([], self.browser.value(f"{found}.map((it) => it.textContent)"))
        self.assertGreater(self.browser.value(f"{cells}.length"), 40)

    def test_keys_begin_at_the_top(self) -> None:
        page = self.show()
        for width, height in SIZES:
            self.browser.size(width, height)
            self.browser.open(page)
            self.browser.key("?")
            self.assertEqual(0, self.browser.value("document.querySelector('#help').scrollTop"))
            self.assertEqual("Close", self.browser.value("document.activeElement.textContent"))
            for it in ("#help-title", "#help button"):
                box = self.browser.value(
                    f"document.querySelector('{it}').getBoundingClientRect().toJSON()"
                )
                self.assertTrue(0 <= box["top"] and box["bottom"] <= height, it)
            self.browser.key("Escape")


if __name__ == "__main__":
    unittest.main()
