"""The page of a room, as it is served to who isn't let in yet: style and scripts, and nothing of
the room; and what stays of the application, which who is let in asks for."""
import pathlib
from typing import Dict

from rdbg.page.document import POLICY, body_of, document
from rdbg.files.source import Source

HERE = pathlib.Path(__file__).resolve().parent / "page"
SCRIPTS = tuple(
    HERE / name
    for name in (
        "way.js",
        "coming.js",
        "live_run.js",
        "acts.js",
        "keyboard.js",
        "talk.js",
        "room_page.js",
    )
)
STYLES = (HERE / "room.css",)
# The page speaks with who has served it, and with nobody else.
SPEAKS = f"{POLICY}; connect-src 'self'; base-uri 'none'; form-action 'none'"
# What a policy can't say in the page itself.
FRAMES = "frame-ancestors 'none'"
WITH_INTERRUPTS = 2


def of_room(source: Source) -> Dict[str, object]:
    """What stays of a room over an application, whatever is done there."""
    application = source.application
    assert application is not None
    return {
        "file": pathlib.PurePath(source.path).name,
        "cores": application.cores,
        "tasks": [task.name for task in application.tasks],
        "objects": list(application.objects()),
        "hasInterrupts": application.profile == WITH_INTERRUPTS,
    }


def page() -> str:
    """The page of every room."""
    return document("rdbg room", body_of(HERE / "room.html", {}), SCRIPTS, STYLES, SPEAKS)
