"""What tests in a browser have in common: one browser for all of them, and a folder each."""
import pathlib
import tempfile
import unittest
from typing import ClassVar

from tests.chromium import Browser


class Browsing(unittest.TestCase):
    """Tests with one browser for all of them, and a folder each."""

    browser: ClassVar[Browser]

    @classmethod
    def setUpClass(cls) -> None:
        cls.browser = Browser()

    @classmethod
    def tearDownClass(cls) -> None:
        cls.browser.close()

    def setUp(self) -> None:
        folder = tempfile.TemporaryDirectory()
        self.addCleanup(folder.cleanup)
        self.folder = pathlib.Path(folder.name)
