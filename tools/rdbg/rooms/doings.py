"""What somebody does: by one line, in a few words; and by several lines, which is told to the
others, and kept, as one."""
from typing import List, Optional

from rdbg import record
from rdbg.by_hand import INTERRUPT
from rdbg.commands import Command
from rdbg.effects import Move
from rdbg.shell.notices import BETWEEN
from rdbg.driving.target import BY_HAND, SINGLE


class Doing:
    """What was typed, and what the lines that it took have done so far that others weren't told.
    Without a text it is a program that looks for itself."""

    def __init__(self, text: str, place: int) -> None:
        self.text = text
        self._done: List[List[str]] = []
        self._from = self._place = place

    @property
    def moved(self) -> int:
        """By how much its lines have moved the target, back where that is negative."""
        return self._place - self._from

    def has(self, command: Optional[Command]) -> bool:
        """Whether a line is but a part of it. What changes something by hand, and a trim, are told
        and kept by themselves, and so is what changes something where nothing was typed."""
        if command is None or command.form.is_look:
            return True
        return bool(self.text) and command.form.word not in (*BY_HAND, record.TRIM)

    def add(self, lines: List[str], place: int) -> None:
        """One of its lines has led to a place; it would have been told so."""
        self._done.append(lines)
        self._place = place

    def take(self, name: str, came_to: str = "") -> List[str]:
        """What the others are told of what was done since they were last told. One line is told as
        if it had been typed; of more it is told what was typed, and what that came to."""
        done, self._done = self._done, []
        if len(done) < 2:
            return [line for lines in done for line in lines]
        came = came_to.partition(BETWEEN)[0]
        at = f"at {self._place}"
        is_here = came.startswith((f"{at} ", f"still {at}:"))
        return [f"{name}: {self.text} -> ok {came if is_here else at}"]


def effect(command: Command, move: Move) -> str:
    """What a line of one move did, in a few words; empty where the line says all."""
    if command.form.word == INTERRUPT:
        return ", ".join(effect.text() for effect in move.effects)
    return "" if command.form.word in BY_HAND else move.text()


def is_single(command: Command) -> bool:
    """Whether a line makes one move, so that it can be told by looks before and after it."""
    if command.form.word == record.BACK:
        return False
    return command.form.word in SINGLE or (command.form.moves and command.count() == 1)
