"""The report of a page: its title and note, the question, how it was made, and where it opens."""
import dataclasses
import pathlib
import time
from typing import Dict, Optional, Union

from rdbg.client import version
from rdbg.driving.parts import Part
from rdbg.failure import Failure
from rdbg.files.source import Source
from rdbg.goals.claims import Goal
from rdbg.tracing.page.asked import Asked
from rdbg.tracing.page.ways import file_of

DAY = "%Y-%m-%d"


@dataclasses.dataclass(frozen=True)
class Text:
    """A text on a page, with the name of its file."""

    name: str
    text: str


@dataclasses.dataclass(frozen=True)
class Report:
    """What is said beside a run: a title and a note in Markdown, the place at which the page opens,
    by number or as the first where a goal holds, the question that it answers, the application, the
    lines, those of another run beside it, and the port at which it was done."""

    title: str = ""
    note: str = ""
    at: Union[None, int, Goal] = None
    asked: Optional[Asked] = None
    source: Optional[Source] = None
    lines: Optional[Text] = None
    other: Optional[Text] = None
    port: Optional[int] = None

    def values(self, at: Optional[int]) -> Dict[str, object]:
        """What the page has of it, where it opens at a place."""
        source = self.source
        application = named(Text(file_of(source), source.text)) if source else None
        consts = [f"{name}={number}" for name, number in source.given.items()] if source else []
        return {
            "title": self.title,
            "day": time.strftime(DAY),
            "made": version(self.port is not None),
            "at": at,
            "asked": dataclasses.asdict(self.asked) if self.asked else None,
            "application": application,
            "consts": consts,
            "lines": named(self.lines, "run.commands") if self.lines else None,
            "other": named(self.other) if self.other else None,
        }

    def seen_in(self, part: Part) -> Optional[int]:
        """Returns the first place of a part where the goal of `at` holds, if any."""
        if not isinstance(self.at, Goal):
            return None
        return next((it.place for it in (part.before, *part.looks) if self.at.is_so(it)), None)

    def opens(self, seen: Optional[int], first: int, last: int) -> Optional[int]:
        """The place among these at which the page opens, `seen` where a goal says it; none where
        none is said. Raises `Failure` for another one."""
        if isinstance(self.at, Goal):
            if seen is None:
                why = f"--at: '{self.at.text}' holds at none of the places {first} to {last}"
                raise Failure(why, 2)
            return seen
        if self.at is not None:
            if not first <= self.at <= last:
                raise Failure(
                    f"--at {self.at} is out of range: the page has places {first} to {last}", 2
                )
            return self.at
        found = self.asked.at if self.asked else None
        return None if found is None else max(first, min(found, last))


def named(it: Text, otherwise: str = "") -> Dict[str, str]:
    """Returns a text as JSON values, with a file name for its download."""
    return {"name": pathlib.PurePath(it.name).name or otherwise, "text": it.text}
