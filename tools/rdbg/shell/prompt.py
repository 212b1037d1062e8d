"""Reads lines from a terminal, with a history and completion, or from a file or pipe."""
import contextlib
import functools
import importlib
import os
import select
import sys
from types import ModuleType
from typing import Optional

from rdbg.client import Incoming
from rdbg.driving.interrupt import Woken
from rdbg.shell import sourcing
from rdbg.shell.completion import Completer
from rdbg.shell.history import MOST_LINES, History, history_path
from rdbg.shell.shell import Shell

# Clears the current line of a terminal.
WIPE = "\r\x1b[K"
# Enter repeats the last line, unless that begins with one of these words.
ONCE = (
    "watch unwatch break b tbreak tb display undisplay source delete d save save! reload reach lost"
    " doomed play again set help h ? wheel poke isr goto g #"
).split()


class Lines:
    """Lines that are typed at a terminal, with a history and completion."""

    def __init__(self, shell: Shell) -> None:
        self.shell = shell
        # (which not each Python has)
        self.readline: Optional[ModuleType] = None
        with contextlib.suppress(ImportError):
            self.readline = importlib.import_module("readline")
        self.history = History(history_path() if self.readline else None)
        if self.readline is None:
            return
        self.readline.set_completer(Completer(shell))
        self.readline.set_completer_delims(" ")
        is_edit = "libedit" in (self.readline.__doc__ or "")
        self.readline.parse_and_bind("bind ^I rl_complete" if is_edit else "tab: complete")
        self.readline.set_auto_history(False)
        self.readline.set_history_length(MOST_LINES)
        for line in self.history.lines:
            with contextlib.suppress(ValueError):
                self.readline.add_history(line)

    def keep(self, line: str) -> None:
        """Adds a line to the history, unless it is the last one there."""
        if self.readline is None:
            return
        length = self.readline.get_current_history_length()
        if length and self.readline.get_history_item(length) == line:
            return
        self.readline.add_history(line)
        self.history.add(line)

    def next(self) -> Optional[str]:
        """Returns the next line, or `None` at Ctrl-D. Prints notices that come meanwhile above it.
        Raises `KeyboardInterrupt` at Ctrl-C, and `Failure` if the connection has ended."""
        begun = ""
        while True:
            sys.stdout.flush()
            try:
                return self._line(f"(rdbg {self.shell.target.place}) ", begun)
            except Woken:
                begun = "" if self.readline is None else str(self.readline.get_line_buffer())
                print(WIPE, end="", flush=True)
                self.shell.notices.hear_now()
            except EOFError:
                print()
                return None
            except UnicodeDecodeError:
                return "# no text"

    def _line(self, prompt: str, begun: str) -> str:
        """Returns the line that is typed, which begins with `begun`. Raises `Woken` if a notice
        arrives before it is complete."""
        if self.readline is not None:
            # (in a function written in Python a signal would lose what was typed)
            self.readline.set_startup_hook(functools.partial(self.readline.insert_text, begun))
        interrupt = self.shell.interrupt
        with self.shell.notices.listening(interrupt.wake), interrupt.at_prompt() as typed:
            # (a single call, so that no signal can come between reading a line and storing it)
            typed.extend(map(input, [prompt]))
            return typed[0]


def greet(shell: Shell) -> None:
    """Prints the name of the model, and how to get help."""
    what = shell.source.name if shell.source else "the built-in model"
    if not shell.target.is_own:
        what = f"attached, {what}" if shell.source else "attached"
    shell.say(f"{what}; `help` lists the commands, Tab completes, Ctrl-D ends")
    if shell.notices.is_room:
        shell.say(
            "in the room: `# who` lists the sessions, `# say TEXT` sends a message, `# wheel` asks for the wheel"
        )
    if shell.target.application is None:
        shell.say("to see scripts, start with the model's file: `rdbg sh --port P FILE`")
    shell.line("where", is_typed=False)


def talk(shell: Shell, begins: bool) -> None:
    """Executes lines from a terminal until the input or the prompt ends; the start files first, if
    `begins` says so."""
    shell.is_terminal = shell.shows_moves = True
    shell.interrupt.install()
    lines = Lines(shell)
    greet(shell)
    if begins:
        sourcing.begin(shell)
    last = ""
    while not shell.is_done:
        try:
            line = lines.next()
        except KeyboardInterrupt:
            print("^C")
            continue
        if line is None:
            return
        if line.strip():
            last = line.strip()
            lines.keep(last)
        shell.line(last)
        if {*last.split()[:1]} & {*ONCE}:
            last = ""


def filter_lines(shell: Shell, begins: bool) -> None:
    """Executes each line of standard input, and prints a room's notices between them. It begins as
    `talk` does."""
    if begins:
        sourcing.begin(shell)
    read = sys.stdin.buffer.readline
    if shell.notices.is_room:
        number = sys.stdin.fileno()
        lines = Incoming(number, functools.partial(os.read, number))
        read = functools.partial(next_line, shell, lines)
    while not shell.is_done:
        line = read()
        if not line:
            return
        shell.line(line.decode("utf-8", "replace"))


def next_line(shell: Shell, lines: Incoming) -> bytes:
    """Returns the next line, and prints a room's notices until it arrives. Raises `Failure` if the
    room has ended."""
    room = shell.target.session.waited_for()
    while not lines.has_line():
        ready, _, _ = select.select([lines.fileno(), room], [], [])
        if room in ready:
            shell.notices.hear_now()
        if lines.fileno() in ready and not lines.fill():
            break
    return lines.readline()
