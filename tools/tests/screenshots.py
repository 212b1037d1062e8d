"""Makes three pictures of the page of a run, and two of that of a room, for who changes them to
look at.

usage, in tools/: python3 -B -m tests.screenshots FOLDER

`light.png` is of the lost item and stands in README, `dark.png` of the full buffer, `long.png` of a
long run with many objects; `room.png` is of a room with three and stands in docs/TOGETHER.md,
`room_dark.png` is the same in dark. The program is that of `RDBG_PROGRAM`, or of the wrapper."""
import dataclasses
import pathlib
import sys
import tempfile
from typing import Iterator, List, Sequence, Tuple

from tests.chromium import Browser
from tests.pages import page_of, tutorials
from tests.paths import EXAMPLES
from tests.rooms import LOST
from tests.web_rooms import come_in, session, web_room

WIDTH, HEIGHT = 1360, 860


@dataclasses.dataclass(frozen=True)
class Picture:
    """A picture: its file, the application and its lines, the scheme, the link to a place, and the
    keys that are pressed then."""

    name: str
    application: str
    lines: Sequence[str]
    scheme: str
    link: str
    keys: Tuple[str, ...] = ()


def pictures() -> List[Picture]:
    """The three."""
    lines = {it.name: it.lines for it in tutorials()}
    return [
        Picture("light", "lost_item", lines["lost_item"], "light", "#5"),
        Picture("dark", "full_buffer", lines["full_buffer"], "dark", "#14"),
        Picture("long", "soak", ["forward 5000"], "light", "#2500", ("-", "-", "-")),
    ]


def room_pictures(browser: Browser, folder: pathlib.Path) -> Iterator[pathlib.Path]:
    """Makes those of a room, in which Bo has asked for the wheel that Ada has."""
    with web_room(LOST) as room, session(room, "ada") as ada, session(room, "bo") as bo:
        shown = (
            "document.querySelector('#state-title').textContent.startsWith('State at place {}:')"
        )
        come_in(browser, room.address, "web")
        ada.tell("wheel take")
        ada.tell("until count jobs > 0 50")
        browser.until(shown.format(5))
        browser.value("document.querySelector('#goal').value = 'count jobs > 0'")
        for button in ("#watch", "#tick"):
            browser.click(*browser.middle(button))
        for line in ("step 1", "step 1", "step 1", "back 2"):
            ada.tell(line)
        browser.until(shown.format(6))
        bo.remark("# say the poller had it; may I have the wheel?")
        browser.until("document.querySelector('#talk').textContent.includes('the poller had it')")
        browser.until("document.querySelector('#watches').textContent.includes('holds')")
        browser.value("document.activeElement.blur()")
        for name, scheme in (("room", "light"), ("room_dark", "dark")):
            browser.scheme(scheme)
            browser.picture(folder / f"{name}.png")
            yield folder / f"{name}.png"


def main(words: Sequence[str]) -> int:
    """Makes them."""
    if len(words) != 1:
        print(__doc__, file=sys.stderr)
        return 2
    folder = pathlib.Path(words[0])
    with tempfile.TemporaryDirectory() as scratch, Browser(WIDTH, HEIGHT) as browser:
        for it in pictures():
            application = EXAMPLES / f"{it.application}.json"
            page = page_of(pathlib.Path(scratch), application, it.lines)
            browser.scheme(it.scheme)
            browser.open(page, it.link)
            for key in it.keys:
                browser.key(key)
            browser.picture(folder / f"{it.name}.png")
            print(folder / f"{it.name}.png")
        for made in room_pictures(browser, folder):
            print(made)
    return 0


if __name__ == "__main__":
    sys.exit(main(sys.argv[1:]))
