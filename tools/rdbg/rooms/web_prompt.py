"""The words of `sh` at a room's page."""
import io
from typing import Dict, Iterable, Iterator, Sequence

from rdbg.client import Incoming, Session
from rdbg.commands import MOST_BYTES
from rdbg.driving.target import Target
from rdbg.reaching.asking import QUESTIONS, Question
from rdbg.replies import Refused
from rdbg.rooms import web_goals
from rdbg.rooms.quiet import Quiet
from rdbg.rooms.room import Member, Room
from rdbg.shell.words import BY_NAME

# Commands of a prompt that a page does not have, each with what to use instead.
ELSEWHERE: Dict[str, str] = {
    **dict.fromkeys(("save", "save!"), "a page writes no files; `save` alone downloads the moves"),
    **dict.fromkeys(("quit", "q", "exit"), "close the page to leave the room"),
    **dict.fromkeys(("reload", "again"), "use `# reload`, and then ask `reach GOAL`"),
    "play": "a page cannot play a run: type its moves as lines",
}


class Seated(Session):
    """The session of a member of a room, in this process."""

    def __init__(self, member: Member) -> None:
        super().__init__(io.BytesIO(), Incoming(-1, io.BytesIO().read), "the room")
        self._member, self.name = member, member.name

    def tell_all(self, lines: Iterable[str]) -> Iterator[str]:
        batch = list(lines)
        if self.on_ask is not None:
            self.on_ask(batch)
        for line in batch:
            reply = self._member.ask(line)
            if self.on_line is not None:
                self.on_line(line, reply)
            yield reply

    def remark(self, line: str) -> None:
        self._member.remark(line)

    note = remark


class Prompt(Quiet):
    """The prompt of a page, which is a member of a room."""

    def __init__(self, room: Room, member: Member) -> None:
        self._room, self._member = room, member
        source = room.app_source
        super().__init__(Target(Seated(member), source.application, None), source)

    def hint_on(self, line: str, reply: str) -> None:
        """Says of a refusal what would be right, and of the wheel who has it."""
        holder = self._room.holder
        if reply.startswith("no Held") and holder is not None:
            self.hint(f"{holder.name} has the wheel: `# wheel` asks for it")
        else:
            super().hint_on(line, reply)

    def said(self, line: str) -> str:
        words = line.split()
        if words and words[0] in QUESTIONS:
            return self._answered(QUESTIONS[words[0]], words[1:] or self.goal.split())
        word = BY_NAME.get(words[0]) if words else None
        if words and words[0] in ELSEWHERE:
            return f"no: {ELSEWHERE[words[0]]}"
        if word is not None and "FILE" in word.behind:
            files = "a page cannot read or write files on the room's machine"
            return f"no: {files}; use `{words[0]}` in `sh`"
        if "\n" in line or len(line.encode("utf-8", "replace")) > MOST_BYTES:
            most = f"a line has at most {MOST_BYTES} bytes and no line break"
            return f"{self._member.ask(line)}: {most}"
        self.target.moved_by_others(self._room.place)
        self.target.has_wheel = self._room.holder is self._member.seat
        return super().said(line)

    def _answered(self, question: Question, goal: Sequence[str]) -> str:
        """The answer to a question, which is of the goal before where none stands behind it."""
        reply = web_goals.answered(self._room, question, goal)
        if not reply.startswith("no: "):
            self.goal = " ".join(goal)
        return reply

    def do(self, text: str) -> None:
        """Does a line. To a goal for which rdbg has no line one goes as others are told of one."""
        way = web_goals.typed(text)
        if way is None:
            super().do(text)
        elif not way.goal:
            self.say(f"{web_goals.SYNTAX}: expected a goal, for example `{text.strip()} asleep`")
        else:
            try:
                with self.wheel():
                    self.say(web_goals.to_place(self, self._room, self._member, way))
            except Refused as refused:
                self.say(f"no {refused}")
