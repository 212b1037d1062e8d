"""Pages of runs for the tests, and what rdbg itself says of the places that they show."""
import contextlib
import dataclasses
import io
import pathlib
from typing import Dict, Iterator, List, Sequence

from rdbg.client import Session
from rdbg.looks import Names
from rdbg.main import main
from rdbg.files.source import load
from tests.chromium import Browser
from tests.paths import EXAMPLES

# How many of its example's lines the page of a tutorial shows.
SHOWN = {
    "full_buffer": 24,
    "lost_item": 9,
    "lost_notification": 13,
    "lost_wakeup": 10,
    "waiting_order": 12,
}


@dataclasses.dataclass(frozen=True)
class Tutorial:
    """A tutorial's application, and the lines of its page."""

    name: str
    lines: List[str]

    @property
    def application(self) -> pathlib.Path:
        """The application's file."""
        return EXAMPLES / f"{self.name}.json"


def tutorials() -> List[Tutorial]:
    """The tutorials, each with the lines that its document goes through."""
    read = {name: (EXAMPLES / f"{name}.commands").read_text().splitlines() for name in SHOWN}
    return [Tutorial(name, read[name][:count]) for name, count in SHOWN.items()]


def page_of(
    folder: pathlib.Path, application: pathlib.Path, lines: Sequence[str], *words: str
) -> pathlib.Path:
    """Makes the page of a run."""
    commands, made = folder / "run.commands", folder / "page.html"
    commands.write_text("".join(f"{line}\n" for line in lines))
    with contextlib.redirect_stderr(io.StringIO()) as errors:
        status = main(["trace", str(application), str(commands), "--page", str(made), *words])
    assert status == 0, errors.getvalue()
    return made


class Asked:
    """What rdbg says of the places of a run, by views that are asked there."""

    def __init__(self, application: pathlib.Path) -> None:
        self.application = application
        read = load(str(application)).application
        assert read is not None
        self.views = Names.of(read).lines()

    def behind(self, lines: Sequence[str]) -> List[str]:
        """What the views say in a program that was told these lines."""
        with Session.run(str(self.application), ["--history", "1000000"]) as session:
            for reply in session.tell_all(lines):
                assert not reply.startswith("no "), f"{reply}: {lines}"
            return list(session.tell_all(self.views))

    def back_from(self, lines: Sequence[str], first: int) -> Iterator[List[str]]:
        """What they say at each place of a run, from its end back to a first one."""
        with Session.run(str(self.application), ["--history", "1000000"]) as session:
            for _ in session.tell_all(lines):
                pass
            place = int(session.tell("show moves").split()[1])
            while True:
                yield list(session.tell_all(self.views))
                if place <= first:
                    return
                session.tell("back 1")
                place -= 1


class Reader:
    """Reads a page that a browser shows."""

    def __init__(self, browser: Browser) -> None:
        self.browser = browser

    def place(self) -> int:
        """The place that the slider shows."""
        return int(self.browser.value("document.querySelector('#slider').value"))

    def answers(self) -> List[str]:
        """All that there is at the place, as rdbg would answer it."""
        opened = "(({open}) => open)(document.querySelector('#replies'))"
        if not self.browser.value(opened):
            self.browser.value("document.querySelector('#replies').open = true")
            self.browser.settle()
        said: str = self.browser.value("document.querySelector('#replies pre').textContent")
        return said.split("\n")

    def lines(self) -> List[str]:
        """The lines that are to be typed."""
        said: str = self.browser.value("document.querySelector('#way-lines').value")
        return said.split("\n") if said else []

    def column(self, table: str, column: int) -> Dict[str, str]:
        """A column of a table by what stands in its first one."""
        return {row[0]: row[column] for row in self.browser.rows(table)}

    def picture(self) -> str:
        """What is drawn on the canvas, as text."""
        drawn: str = self.browser.value("document.querySelector('canvas').toDataURL()")
        return drawn
