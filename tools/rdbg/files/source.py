"""An application's text, as JSON or in lines, with all its faults and what it says."""
import contextlib
import os
import sys
from typing import ContextManager, Iterator, Mapping, NamedTuple, Optional, Tuple

from rdbg.application import Application, Beside, Instruction, Task, Text, application
from rdbg.checking.faults import faults_of
from rdbg.failure import Failure, trying
from rdbg.from_c.lines import ENDING, code_below, has_lines, in_lines
from rdbg.input_file import read_bounded
from rdbg.invocation import command
from rdbg.json_layout import json_of
from rdbg.printable import printable
from rdbg.temporary import temporary_file
from rdbg.tree import MOST_BYTES, Fault, Node, Object, Place
from rdbg.wording import counted

# A text in lines, or a C source in whose comments the lines stand.
LINES = (".fw", ENDING)
JSON = ".json"
ACCEPTED = "a model is a .json file, a .fw file, or a .c file with '// rdbg:' lines"
# The kind of the one fault of a file that holds no model.
WRONG_TYPE = "file type"
# So many faults of a file are shown by default.
MOST_SHOWN = 100
# Consts by their names, which were given beside a text.
Given = Mapping[str, int]


class Source(NamedTuple):
    """A file: its text, its faults in the order in which rdbg looks for them, the application if
    there are none; of a text in lines what there is to remark, what lines of objects become, which
    consts were given, and how many `more` faults there are than these."""

    path: str
    text: str
    root: Optional[Node]
    faults: Tuple[Fault, ...]
    application: Optional[Application]
    remarks: Tuple[Fault, ...] = ()
    made: Tuple[Tuple[int, str], ...] = ()
    given: Given = {}
    more: int = 0

    @property
    def fault_count(self) -> int:
        """How many faults there are."""
        return len(self.faults) + self.more

    @property
    def name(self) -> str:
        """The path as messages name it."""
        return printable(self.path)

    @property
    def is_c(self) -> bool:
        """Whether it is a C source."""
        return self.path.endswith(ENDING)

    def refusal(self) -> str:
        """As what rdbg refuses it; empty of a text in lines that makes no JSON, of which rdbg can
        say nothing."""
        kind = self.faults[0].kind
        return f"refused as {kind}" if kind[1:2].isdigit() else ""

    def refused(self) -> str:
        """That it is no application, beside its faults."""
        refusal, count = self.refusal() or "refused", counted(self.fault_count, "fault")
        return f"is {refusal}: {count}, as `{command()} check {self.name}` says"

    def named(self) -> Optional[Beside]:
        """What an accepted text in lines names besides tasks and objects; none of a JSON."""
        if not self.path.endswith(LINES):
            return None
        from rdbg.firmware.reader import named

        return named(in_lines(self.text) if self.is_c else self.text, self.given)

    def as_read(self) -> ContextManager[str]:
        """The path of a JSON that is made for as long, of an accepted application as it was read,
        even if its file was edited since."""
        assert self.application is not None
        text = json_of(self.application) if self.path.endswith(LINES) else self.text
        return temporary_file("application.json", text, "a copy of the application")

    def as_json(self) -> ContextManager[str]:
        """The path of a JSON of an accepted application: the file, or one made for as long. (A pipe
        cannot be read again.)"""
        is_json = not self.path.endswith(LINES) and os.path.isfile(self.path)
        return contextlib.nullcontext(self.path) if is_json else self.as_read()


def load(path: str, given: Optional[Given] = None) -> Source:
    """Reads a file by its ending, with such consts. Raises `Failure` where it can't be read."""
    with trying(f"read {path}"):
        content = read_bounded(path)
    return source(path, content, given)


def accepted(path: Optional[str], given: Optional[Given] = None) -> Optional[Source]:
    """The application's file, if one is named. Raises `Failure` for faults, or consts alone."""
    if path is None and given:
        raise Failure("-D goes with a file: a text in lines (.fw)", 2)
    return None if path is None else without_faults(path, given)[0]


def without_faults(path: str, given: Optional[Given] = None) -> Tuple[Source, Application]:
    """A file without faults, and its application. Raises `Failure` for faults, which it prints."""
    found = load(path, given)
    if found.application is None:
        for fault in found.faults[:MOST_SHOWN]:
            print(f"{found.name}:{fault}", file=sys.stderr)
        if found.fault_count > MOST_SHOWN:
            print(f"{found.name}: {found.fault_count - MOST_SHOWN} more faults", file=sys.stderr)
        raise Failure(f"{path} {found.refused()}")
    return found, found.application


def wrong_type(path: str, text: str) -> str:
    """Returns why a file holds no model at all, by its name and its first words; `""` if it may.

    JSON is read whatever the name of its file is: a pipe and a temporary file have no ending.
    """
    ending = os.path.splitext(path)[1]
    if path.endswith(ENDING):
        # (one that is too long is refused for that)
        is_short = len(text) <= MOST_BYTES
        return f"no '// rdbg:' lines in {path}" if is_short and not has_lines(text) else ""
    if not ending or ending in (*LINES, JSON) or text.lstrip().startswith("{"):
        return ""
    return f"unknown file type '{ending}' ({ACCEPTED})"


def source(path: str, content: bytes, given: Optional[Given] = None) -> Source:
    """What a file of this content is, where consts of these names are these numbers."""
    consts, shown = dict(given or {}), content.decode("utf-8", "replace")
    wrong = wrong_type(path, shown)
    if wrong:
        text = Text(None, [Fault(Place(1, 1), WRONG_TYPE, wrong)])
    elif path.endswith(LINES):
        from rdbg.firmware.reader import read as read_lines

        # (a C source that is too long is left as it is, and is refused for it)
        if path.endswith(ENDING) and len(content) <= MOST_BYTES:
            content = in_lines(shown).encode()
        text = read_lines(content, consts)
    else:
        from rdbg.json_text import read

        for name in consts:
            raise Failure(f"-D {name}: a JSON has no consts; a text in lines (.fw) has", 2)
        root, found = read(content)
        text = Text(root, found if root is None else faults_of(root))
    value = None if text.root is None or text.faults else text.root.value
    said = application(value) if isinstance(value, Object) else None
    if said is not None and (text.comments or text.interrupts):
        below = code_below(shown) if path.endswith(ENDING) else {}
        tasks = (it._replace(code=tuple(put(it, text.comments, below))) for it in said.tasks)
        said = said._replace(tasks=tuple(tasks), interrupts=text.interrupts)
    faults, remarks, made = tuple(text.faults), tuple(text.remarks), tuple(text.made)
    return Source(path, shown, text.root, faults, said, remarks, made, consts, text.more)


def put(task: Task, comments: Mapping[int, str], below: Mapping[int, str]) -> Iterator[Instruction]:
    """The instructions of a task with the comments of each line at its first one, or else what is
    `below` it, and there those of the lines above it, up to the one before it or to the task's own
    line, which is among them."""
    last = task.place.line - 1
    for it in task.code:
        line = it.place.line
        if it.begins:
            above = tuple(comments[at] for at in range(last + 1, line) if at in comments)
            said = comments.get(line, below.get(line, ""))
            it = it._replace(above=above, beside=said)
        yield it
        last = max(last, line)
