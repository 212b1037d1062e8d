"""A room with a page for browsers, as its users have it, and sessions beside the page."""
import contextlib
import http.client
import json
import pathlib
import time
import urllib.parse
from typing import Any, Iterable, Iterator, List, Optional, Tuple
from unittest import mock

from rdbg.client import Session
from rdbg.rooms import web_mirror
from rdbg.rooms.room import Room
from rdbg.rooms.web import Served
from rdbg.driving.opening import begin
from rdbg.driving.target import Target
from rdbg.files.source import load
from tests.browsing import Browsing
from tests.chromium import Browser
from tests.pages import Asked, Reader
from tests.paths import EXAMPLES
from tests.rooms import LOST, Process, until

ENDED = (0, "")
# Where a page asks who comes, and how one knows that it is let in.
COMING = "#come[open]"
IS_HERE = "document.documentElement?.dataset.connected === 'yes'"


class WebRoom(Process):
    """A room in a process of its own, its port, and the address of its page."""

    def __init__(self, path: str, *words: str) -> None:
        super().__init__(["--sessions", "6", "--web", "0", *words], path)
        self.said = self.file = ""
        self.web = 0

    def wait(self) -> None:
        """Waits until it listens, and says where its page is."""
        super().wait()
        assert self.process.stdout is not None
        word, self.said, self.file = self.process.stdout.readline().split()
        assert word == "web", word
        self.web = int(self.said.strip("/").split(":")[2])

    @property
    def address(self) -> str:
        """The one that it says now, which is good once."""
        return pathlib.Path(self.file).read_text().strip()

    def end_well(self) -> str:
        """Ends it as a user does, and answers what it says then; its audit is good."""
        assert (self.end(), self.errors) == ENDED, self.errors
        return self.output


@contextlib.contextmanager
def web_room(path: str = LOST, *words: str) -> Iterator[WebRoom]:
    """A room with a page, started with these words besides; its audit is good at the end."""
    found = WebRoom(path, *words)
    try:
        found.wait()
        yield found
        if found.process.poll() is None:
            found.end_well()
    finally:
        found.process.kill()
        found.process.communicate()


@contextlib.contextmanager
def session(room: WebRoom, name: str) -> Iterator[Session]:
    """A session by a name, at the room's port."""
    with Session.attach(room.port, name) as found:
        found.tell("show moves")
        yield found


@contextlib.contextmanager
def in_process(path: str) -> Iterator[Tuple[Room, str]]:
    """A room with a page in this process, and the address of its page; its audit is good at the
    end."""
    room = Room(load(path), sessions=6)
    pages = Served(room, 0)
    try:
        yield room, pages.address
    finally:
        audits = room.close()
        pages.close()
    assert all(it.is_good for it in audits)


@contextlib.contextmanager
def slow(seconds: float) -> Iterator[List[float]]:
    """Delays each line of the programs that are looked at for pages of this process by so many
    seconds. The list that it yields gets each delay."""
    delays: List[float] = []

    def begin_slowly(*given: Any) -> Target:
        target = begin(*given)
        tell_all = target.session.tell_all

        def slowly(lines: Iterable[str]) -> Iterator[str]:
            for reply in tell_all(lines):
                time.sleep(seconds)
                delays.append(seconds)
                yield reply

        target.session.tell_all = slowly  # type: ignore[assignment]
        return target

    with mock.patch.object(web_mirror, "begin", begin_slowly):
        yield delays


def traded(address: str) -> Optional[str]:
    """What the room gives for the key of an address; none where it lets nobody in."""
    place = urllib.parse.urlsplit(address)
    heads = {"Origin": f"http://{place.netloc}", "Content-Type": "application/json"}
    connection = http.client.HTTPConnection(place.netloc)
    with contextlib.closing(connection):
        connection.request("POST", "/in", json.dumps({"key": place.fragment}), heads)
        answer = connection.getresponse()
        assert answer.status in (200, 403), answer.status
        return str(json.load(answer)["token"]) if answer.status == 200 else None


def come_in(browser: Browser, address: str, name: str) -> bool:
    """Opens a room's page, and waits until it shows the target. Where one is asked for a name, this
    is it. Answers whether one was asked."""
    browser.visit(address)
    is_asked = f"document.querySelector({COMING!r}) !== null"
    browser.until(f"{is_asked} || {IS_HERE}")
    was_asked = bool(browser.value(is_asked))
    if was_asked:
        say_name(browser, name)
    browser.until(f"{IS_HERE} && document.querySelector('#about').textContent !== ''")
    return was_asked


def say_name(browser: Browser, name: str) -> None:
    """Types a name where one is asked who comes."""
    browser.value(f"document.querySelector({COMING!r} + ' input').select()")
    browser.call("Input.insertText", text=name)
    browser.key("Enter")


class OnPage(Browsing):
    """Tests of a room's page."""

    def setUp(self) -> None:
        super().setUp()
        self.spares_errors = False

    def tearDown(self) -> None:
        if not self.spares_errors:
            self.assertEqual([], self.browser.errors)
        self.browser.visit("about:blank")

    def visit(self, room: WebRoom, name: str = "web") -> None:
        """Opens the page, and waits until it shows the target."""
        self.visit_address(room.address, name)

    def visit_address(self, address: str, name: str = "web") -> None:
        """The same at an address. Where one is asked for a name, this is it."""
        come_in(self.browser, address, name)

    def value(self, expression: str) -> Any:
        """The value of an expression on the page."""
        return self.browser.value(expression)

    def at(self, place: int) -> None:
        """Waits until the page shows a place, where the target is."""
        texts = {
            "#state-title": f"State at place {place}:",
            "#about": f"the target is at {place}",
        }
        found = "document.querySelector('{}')?.textContent.startsWith('{}')"
        self.browser.until(" && ".join(found.format(*it) for it in texts.items()))

    def said(self, text: str) -> None:
        """Waits until something was said on the page."""
        items = "[...document.querySelectorAll('#talk li')].map((it) => it.textContent)"
        self.browser.until(f"{items}.some((it) => it.includes({text!r}))")

    def wheel(self, text: str) -> None:
        """Waits until what is said of the wheel begins so."""
        self.browser.until(f"document.querySelector('#wheel')?.textContent.startsWith({text!r})")

    def click(self, selector: str) -> None:
        """Clicks on an element."""
        self.browser.click(*self.browser.middle(selector))

    def control_by_keys(self) -> None:
        """Turns on the keys that move the target; no element has the focus after that."""
        self.click("#keyboard")
        self.assertEqual(
            "true", self.value("document.querySelector('#keyboard').getAttribute('aria-pressed')")
        )
        self.value("document.activeElement.blur()")

    def fill(self, selector: str, text: str) -> None:
        """Types a text into a field, in place of what is there."""
        self.value(f"document.querySelector({selector!r}).select()")
        self.browser.call("Input.insertText", text=text)

    def saved(self) -> Tuple[str, str]:
        """The moves and the talk of the lost item, which the page gives as files."""
        files = [self.folder / f"lost_item.{it}" for it in ("commands", "talk.txt")]
        with self.browser.saving(self.folder):
            self.click("#save")
            self.click("#save-talk")
            # (a file stands there empty until it is there whole)
            until(lambda: all(it.exists() and it.stat().st_size for it in files))
        moves, talk = (it.read_text() for it in files)
        return moves, talk

    def rows(self, selector: str) -> List[List[str]]:
        """The cells of a table."""
        return self.browser.rows(selector)

    def check_places(self, room: WebRoom, first: int, last: int) -> None:
        """Whether each place is as rdbg itself says it, at the room's port."""
        reader = Reader(self.browser)
        views = Asked(EXAMPLES / "lost_item.json").views
        with session(room, "looks") as looks:
            done = int(looks.tell("show moves").split()[1])
            if last > done:
                looks.tell(f"redo {last - done}")
            for place in range(last, first - 1, -1):
                self.value(f"document.querySelector('#place').value = {place}")
                self.value("document.querySelector('#place').dispatchEvent(new Event('change'))")
                self.browser.settle()
                self.assertEqual(place, reader.place())
                self.assertEqual(list(looks.tell_all(views)), reader.answers(), f"at {place}")
                if place > first:
                    self.assertEqual(f"ok at {place - 1}", looks.tell("back 1"))
