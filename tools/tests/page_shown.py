"""What tests of pages of runs have in common: making one, and the check of all places."""
import pathlib
from typing import Sequence

from tests.browsing import Browsing
from tests.pages import Asked, Reader, page_of
from tests.paths import EXAMPLES

LOST = EXAMPLES / "lost_item.json"
# A run in which the poller takes the item, and the worker waits again.
RUN = ["until count jobs > 0 50", "step 1", "step 1", "step 1", "step 0"]


class Shown(Browsing):
    """Tests of pages of runs."""

    def setUp(self) -> None:
        super().setUp()
        self.reader = Reader(self.browser)

    def tearDown(self) -> None:
        self.assertEqual([], self.browser.errors)

    def show(
        self,
        lines: Sequence[str] = RUN,
        *words: str,
        application: pathlib.Path = LOST,
        link: str = "",
    ) -> pathlib.Path:
        """Makes the page of a run, and opens it."""
        page = page_of(self.folder, application, lines, *words)
        self.browser.open(page, link)
        self.assertEqual([page.resolve().as_uri()], self.browser.requests)
        return page

    def check_places(
        self, application: pathlib.Path, lines: Sequence[str], first: int, every: int = 1
    ) -> int:
        """Whether each place of a page that is open has the state that rdbg itself says there, back
        from the end, and at every so many behind the lines that the page says lead there. Answers
        the last place."""
        asked = Asked(application)
        self.browser.key("End")
        last = self.reader.place()
        for place, views in zip(range(last, -1, -1), asked.back_from(lines, first)):
            self.assertEqual(place, self.reader.place())
            self.assertEqual(views, self.reader.answers(), f"at {place}")
            if place % every == 0:
                self.assertEqual(views, asked.behind(self.reader.lines()), f"at {place}")
            self.browser.key("ArrowLeft")
        self.assertEqual(first, self.reader.place())
        return last
