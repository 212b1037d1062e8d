"""`launch` starts a program; `attach` opens another session at a port."""
import argparse
import os
import signal
import subprocess
import tempfile
from typing import Callable, List, Optional

from rdbg import children, client, commands
from rdbg.adapter.messages import Arguments, Wrong
from rdbg.adapter.running import Pause
from rdbg.driving.opening import attach as attached, begin, builtin
from rdbg.driving.pacing import IS, pace
from rdbg.driving.target import Limits, Unable
from rdbg.ending import STARTED
from rdbg.failure import Failure, trying, turned
from rdbg.files import source as sources
from rdbg.files.definitions import definition
from rdbg.files.source import Source
from rdbg.firmware.writer import text_of
from rdbg.shell import paces
from rdbg.shell.shell import Shell

BUILTIN = "built-in.fw"
# So many moves may be done at a time, unless `launch` says another number.
MOVES = 1_000_000
# What lets `attach` connect to a server of another user.
REMEDY = 'set "anyone" to true to connect anyway'
# Faults of a file that are told at once.
MOST_FAULTS = 20
Tell = Callable[[str], None]


class EditorShell(Shell):
    """A shell whose words an editor's user types. `hear` is told what a room says besides."""

    hear: Optional[Tell] = None
    ended_by = "paused"

    def _notice(self, notice: str) -> None:
        if self.hear is None:
            print(notice)
        else:
            self.hear(notice)


def file_of(given: Arguments) -> Optional[str]:
    """The path of the application's file, if one is named."""
    path = given.text("program", "")
    return os.path.abspath(os.path.join(given.text("cwd", ""), path)) if path else None


def read(path: str, given: Arguments) -> Source:
    """The application of a file. Raises `Wrong` where it is refused, with its faults."""
    with turned(Wrong, Failure, ValueError, argparse.ArgumentTypeError):
        source = sources.load(path, dict(map(definition, given.texts("consts"))))
    if source.application is None:
        faults = [f"{source.name}:{fault}" for fault in source.faults[:MOST_FAULTS]]
        raise Wrong("\n".join([f"the application {source.refused()}", *faults]))
    return source


def count(given: Arguments, key: str, absent: int, least: int = 1) -> int:
    """A number of at least so much, and a million at the most."""
    value = given.number(key, absent)
    if not least <= value <= commands.MOST_COUNT:
        raise Wrong(f"{key} must be {least} to {commands.MOST_COUNT}, not {value}")
    return value


def program(is_unproved: bool, tell: Tell) -> str:
    """The program to start, which `./rdbg` builds if necessary; `tell` gets each line that it
    prints meanwhile. Raises `Wrong` if there is none."""
    named = os.environ.get("RDBG_PROGRAM")
    if named:
        return named
    wrapper, words = client.wrapper()
    said: List[str] = []
    asked = [wrapper, *(["--unproved"] if is_unproved else words), "--build"]
    none, pipe = subprocess.DEVNULL, subprocess.PIPE
    with turned(Wrong, Failure), trying(f"start {wrapper}"), tempfile.TemporaryFile() as found:
        made = children.start(asked, none, found, pipe, signal.SIGTERM, is_apart=False)
        assert made.stderr is not None
        with made.stderr:
            for line in made.stderr:
                said.append(line.decode("utf-8", "replace").rstrip())
                tell(said[-1])
        made.wait()
        STARTED.pop(made, None)
        found.seek(0)
        path = os.fsdecode(found.read().strip())
    os.environ["RDBG_BUILD_REPORTED"] = "1"  # (the wrapper says once which build runs)
    if made.returncode or not path:
        raise Wrong(f"cannot start rdbg: {said[-1] if said else 'nothing was built'}")
    return path


def launch(given: Arguments, pause: Pause, tell: Tell) -> Shell:
    """A program of its own on a file, or on the built-in application."""
    given.not_null("program", str)
    given.flag("stopOnEntry", True)  # (which is asked for later)
    path = file_of(given)
    source = (
        sources.source(BUILTIN, text_of(builtin()).encode()) if path is None else read(path, given)
    )
    limits = Limits(count(given, "moves", MOVES), count(given, "history", Limits.history, 2))
    named = program(given.flag("unproved"), tell)
    with turned(Wrong, Failure):
        target = begin(None if path is None else source, limits, named)
    target.application = source.application
    shell = EditorShell(target, source, pause)
    set_pace(shell, given)
    return shell


def set_pace(shell: Shell, given: Arguments) -> None:
    """Takes the pace of Continue, and the interrupts that come by themselves, where these are
    given. Raises `Wrong` where they are none."""
    text, names = given.text("pace", ""), given.texts("interrupts")
    found = pace(text)
    if text and found is None:
        raise Wrong(f"pace: '{text}' is not a pace: {IS}")
    with turned(Wrong, Unable, of="interrupts"):
        coming = paces.chosen(shell, names)
    if names:
        paces.let_come(shell, found, coming)
    elif found:
        paces.take(shell, found, None)


def attach(given: Arguments, pause: Pause, hear: Tell) -> Shell:
    """Connects to a server or a room, and passes the notices of a room to `hear`.

    Raises `Wrong` if the server belongs to another user and `anyone` is not set, if it lets nobody
    in, and if `program` is not its application.
    """
    port = given.number("port")
    if not 0 < port < 65_536:
        raise Wrong(f"port must be 1 to 65535, not {port}")
    path = file_of(given)
    source = None if path is None else read(path, given)
    name, anyone = given.text("as", "") or None, given.flag("anyone")
    with turned(Wrong, Failure):
        target = attached(port, source, name, anyone, REMEDY)
    shell = EditorShell(target, source, pause)
    shell.hear = hear
    return shell
