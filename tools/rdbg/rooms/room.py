"""A room: several named members share one program, and everybody is told what each of them does."""
import collections
import contextlib
import threading
import time
from typing import Callable, Deque, Dict, Iterator, List, Optional, Set

from rdbg import record
from rdbg.commands import MOST_BYTES, TARGET, Command
from rdbg.failure import Failure
from rdbg.rooms import quiet, remarks
from rdbg.rooms.counts import Counts
from rdbg.rooms.doings import Doing, effect, is_single
from rdbg.rooms.host import MOST_SESSIONS, Audit, Ended, Host
from rdbg.rooms.member import Hear, Member, Notice
from rdbg.rooms.program import FULL, HISTORY, SCARCE, Program
from rdbg.rooms.seats import Refusal, Seat, Seats, check
from rdbg.rooms.talk import Talk
from rdbg.rooms.turns import Turns
from rdbg.driving import trail
from rdbg.driving.target import Limits, read_line
from rdbg.shell.views import next_moves
from rdbg.printable import printable
from rdbg.files.source import Source
from rdbg.wording import counted

__all__ = ["Ended", "Member", "Refusal", "Room"]

TOO_LONG, NO_COMMAND = "no LineTooLong", "no Syntax"
HELD = "no Held"
# The number of moves that are listed of a run, and of notices to everybody that are kept.
FEW, MOST_HEARD = 5, 500
# Seconds until a talk that could not be written is tried again.
TRY_AGAIN_SECONDS = 1.0
# Seconds without a line after which a member is idle, by default.
IDLE = 60
# The room warns when less than one part in N of the history is left, for each N.
NEARLY = (SCARCE, 100)


class Room:
    """One program with a session for each name. Everybody is told what each member does."""

    def __init__(
        self,
        source: Source,
        limits: Limits = Limits(history=HISTORY),
        sessions: int = MOST_SESSIONS,
        talk: Optional[Talk] = None,
    ) -> None:
        """Starts the program. Raises `Failure` if it cannot be started."""
        self.app_source = source
        # Called once the program has ended by itself; no line is answered after that.
        self.when_over: Callable[[], None] = lambda: None
        # Prints an urgent message where the room was started.
        self.say: Callable[[str], None] = lambda text: None
        # Called after a reload, when all followers have been removed.
        self.when_reloaded: Callable[[], None] = lambda: None
        self.is_over = self.is_reloading = False
        # Seconds without a line after which a member is idle.
        self.idle = IDLE
        self._seats = Seats(sessions)
        self._program = Program(source, limits, self._seats.all)
        self._program.when_over, self._program.when_ended = self._is_over, self._has_ended
        self._talk, self.counts = talk, Counts()
        # (the latest notices to everybody, for members that join later)
        self._heard: Deque[Notice] = collections.deque(maxlen=MOST_HEARD)
        self._members: Dict[int, Member] = {}
        self._turns = Turns()
        self._followers: List[Callable[[str, str], None]] = []
        # (the sessions that have asked for the wheel since a member joined or left)
        self._asked: Set[int] = set()
        # (the number of warnings about the history, and whether the failed renewal was reported)
        self._warned, self._is_told_why = 0, False
        self._audits: List[Audit] = []
        self._keep("room", "#", f"opens {source.path}")
        self._program.watch(self._program_has_ended)

    @property
    def place(self) -> int:
        """Returns the number of moves made, as far as the room knows."""
        return self._program.place

    def join(self, name: Optional[str], hear: Hear, is_told: bool = True) -> Member:
        """Adds a member by a name, or as a guest. Raises `Refusal` if there is no session for it."""
        with self._turns:
            if self.is_over:
                raise Refusal("the room has ended")
            seat = self._seats.find(name)
            called = name or self._seats.guest_name()
            if seat.name and (name is None or seat.name != name):
                self._hand_over(seat)
            member = Member(self, seat, hear, list(self._heard))
            self._seats.sit(seat, called)
            self._members[seat.number] = member
            self._asked.clear()
            self._greet(member)
            if is_told:
                self._announce(member)
            return member

    def _greet(self, member: Member) -> None:
        """Tells a member its name and session, and who else is here."""
        others = [it.name for it in self._seats.here() if it is not member.seat]
        here = ", ".join(others) or "nobody else"
        member.hear(f"# you are {member.name}, session {member.session}; here: {here}")

    def announce(self, member: Member) -> None:
        """Announces a member to the others, once."""
        with self._turns:
            if member.is_here and not member.is_told:
                self._announce(member)

    def _announce(self, member: Member) -> None:
        member.is_told = True
        self._keep(member.name, "#", f"joined, session {member.session}")
        self.tell(f"{member.name} joined, session {member.session}", but=member)

    def _hand_over(self, seat: Seat) -> None:
        """Takes the session, its watches and the wheel from a name that is away."""
        has = self.holder is seat
        lines = [f"unwatch {number}" for number in sorted(seat.watches)]
        for line in lines + (["wheel give"] if has else []):
            self._program.ask(seat, line)
        if not seat.is_guest or has:
            free = "; the wheel is free" if has else ""
            self.tell(f"the session of {seat.name}, who is away, was given to somebody else{free}")
        self._seats.clear(seat)

    def rename(self, member: Member, name: str) -> None:
        """Renames a member. Raises `Refusal` if the name is not valid or taken."""
        with self._turns:
            self.rename_in_turn(member, name)

    def rename_in_turn(self, member: Member, name: str) -> None:
        """Does the same within a turn. A name that is away has a session of its own."""
        check(name)
        old, seat = member.name, member.seat
        if name != old and name in self._seats.by_name():
            found = self._seats.find(name)
            self._seats.leave(seat)
            del self._members[seat.number]
            member.seat = found
            self._members[found.number] = member
            self._asked.clear()
            if not member.is_told:
                self._hand_over(seat)
        self._seats.sit(member.seat, name)
        self._greet(member)
        if not member.is_told:
            self._announce(member)
        elif name != old:
            self.counts.rename(old, name)
            self._keep(old, "#", f"is now {name}, session {member.session}")
            self.tell(f"{old} is now {name}, session {member.session}", but=member)

    def leave(self, member: Member, why: str = "") -> None:
        """Marks a member as away."""
        with self._turns:
            if not member.is_here or self.is_over:
                return
            self.end(member, f"interrupted, at {self.place}")
            member.is_here = False
            self._seats.leave(member.seat)
            del self._members[member.session]
            self._asked.clear()
            if not member.is_told:  # (it was never announced)
                self._seats.clear(member.seat)
                return
            has = " and still has the wheel" if self.holder is member.seat else ""
            text = f"is away{has}" + (f" ({why})" if why else "")
            self._keep(member.name, "#", text)
            self.tell(f"{member.name} {text}")

    def ask(self, member: Member, line: str, answer: Hear) -> str:
        """Returns the reply to a line, after passing it to `answer` within the member's turn."""
        with self._turns:
            if not member.is_here:
                raise Refusal(f"{member.name} has left")
            if self.is_over:
                raise Ended("the room has ended")
            member.says()
            place = self.place
            try:
                reply = self._answer(member, line)
            except Ended:
                self._keep(member.name, line, "")
                raise
            command = read_line(plain(line))
            is_part = member.doing is not None and member.doing.has(command)
            if line.strip() and not is_part:
                self._keep(member.name, line, reply)
                self.counts.line(member.name, command, reply, self.place - place)
            self._warn(member, reply)
            answer(reply)
            return reply

    def begin(self, member: Member, text: str) -> None:
        """Begins a command of several lines; without a text, views of the tool's own."""
        self.end(member, "")
        member.doing = Doing(text, self.place)

    def end(self, member: Member, came_to: str) -> None:
        """Ends what `begin` began, announces it, and adds it to the talk."""
        doing = member.doing
        if doing is not None:
            self._tell_doing(member, came_to)
            member.doing = None
            if doing.text:
                self._keep(member.name, doing.text, came_to)
                self.counts.way(member.name, doing.moved)

    def _tell_doing(self, member: Member, came_to: str = "") -> None:
        """Tells the others what a member has done so far by a command of several lines."""
        if member.doing is not None:
            for text in member.doing.take(member.name, came_to):
                self.tell(text, but=member)

    def _answer(self, member: Member, line: str) -> str:
        if len(line.encode("utf-8", "replace")) > MOST_BYTES:
            return TOO_LONG
        if "\n" in line:
            return NO_COMMAND
        sent = plain(line)
        command = read_line(sent)
        if command is None:
            word = sent.split(" ")[0]
            if word in remarks.DO:
                member.hear(f"# `{word}` is a line for the room: send `# {word}`")
            return self._program.ask(member.seat, sent)
        reply = self._program.memory.known(member.session, command)
        if reply is None and command.form.is_look:
            return self._program.ask(member.seat, sent)
        if reply is None:
            reply = self._change(member, command, sent)
        holder = self.holder
        if reply.startswith(HELD) and holder is not None:
            away = "" if holder.is_here else " and is away"
            member.hear(f"# {holder.name} has the wheel{away}: '# wheel' asks for it")
        return reply

    def _change(self, member: Member, command: Command, line: str) -> str:
        """Returns the reply to a line that is not a view, and tells everybody what it did."""
        seat, place = member.seat, self.place
        single = is_single(command) and self.holder in (None, seat)
        before = self._program.look(seat) if single else None
        reply = self._program.ask(seat, line)
        if reply.startswith("no "):
            return reply
        came, rows, target = "", [], self._program.target
        if before is not None:
            after = self._program.look(seat)
            came = effect(command, trail.between(target, before, after)) if after else ""
        elif command.form.word == record.BACK:
            after = self._program.look(seat)
            came = f"next: {next_moves(target.application, after)}" if after else ""
        elif command.form.moves:
            rows = self._program.rows(seat, place, FEW)
        said = " ".join(command.words)
        for told in self._followers:
            told(said, reply)
        done = f"{member.name}: {said} -> {reply}" + (f", {came}" if came else "")
        self._tell_done(member, command, [done, *rows])
        return reply

    def _tell_done(self, member: Member, command: Command, lines: List[str]) -> None:
        """Tells everybody what a line did; others hear later of one that is part of a command. If it
        moves the target, the unfinished commands of other members are announced before."""
        for other in self._members.values():
            if other is not member and TARGET in command.form.changes:
                self._tell_doing(other)
        if member.doing is not None and member.doing.has(command):
            for line in lines:
                member.hear(f"# {printable(line)}")
            member.doing.add(lines, self.place)
            return
        self._tell_doing(member)
        for line in lines:
            self.tell(line)

    def tell(self, text: str, but: Optional[Member] = None) -> str:
        """Tells everybody who is here, except one member, and returns the text."""
        self._heard.append(Notice(time.time(), printable(text)))
        # (others may come and go meanwhile)
        for member in list(self._members.values()):
            if member is not but:
                member.hear(f"# {printable(text)}")
        return text

    def _keep(self, who: str, line: str, reply: str) -> None:
        """Appends a row to the talk."""
        if self._talk is not None:
            with self._telling_of(self._talk):
                self._talk.keep(who, line, reply)

    @contextlib.contextmanager
    def _telling_of(self, talk: Talk) -> Iterator[None]:
        """Warns everybody if the talk becomes unwritable, or writable again, within the block. In the
        first case a thread keeps trying."""
        before, lost_before = talk.fault, talk.lost_count
        yield
        if talk.fault and not before:
            why = f"cannot write the talk to {talk.path}: {talk.fault}"
            self.warn(f"{why}; its rows are kept in memory until it can be written")
            threading.Thread(target=self._write_again, args=(talk,), daemon=True).start()
        if talk.lost_count and not lost_before:
            self.warn("the talk loses rows from here on: too many are waiting in memory")
        if before and not talk.fault:
            self.warn(f"the talk can be written again; missing: {talk.missing or 'nothing'}")

    def _write_again(self, talk: Talk) -> None:
        """Tries to write the talk until that works."""
        while talk.fault and not self.is_over:
            time.sleep(TRY_AGAIN_SECONDS)
            with self._turns:
                if talk.fault and not self.is_over:
                    with self._telling_of(talk):
                        talk.flush()

    def warn(self, text: str) -> None:
        """Tells everybody who is here, and prints the text where the room was started."""
        self.tell(text)
        self.say(text)

    def _warn(self, member: Member, reply: str) -> None:
        """Warns if the history is nearly full, or full."""
        if reply == FULL:
            member.hear("# the history is full: only lines that were answered before get a reply")
        left, limit = self._program.left(), self._program.limits.history
        if left * SCARCE < limit and self._renew():
            return
        if self._warned < len(NEARLY) and left * NEARLY[self._warned] < limit:
            self._warned += 1
            lines = counted(left, "more line")
            self.tell(f"the history has room for {lines}; moves are no longer described")

    def _renew(self) -> bool:
        """Tries to replace the program by a new one. Returns whether that succeeded."""
        try:
            if not self._program.renew():
                return False
        except Failure as failure:
            if not self._is_told_why:
                self.tell(
                    f"cannot start a new rdbg with an empty history (trying again): {failure}"
                )
            self._is_told_why = True
            return False
        self._warned, self._is_told_why = 0, False
        self.tell("the history was nearly full: a new rdbg has taken over in the same state")
        return True

    def _has_ended(self, audit: Audit) -> None:
        """A program whose history was full has ended."""
        with self._turns:
            self._audits.append(audit)
            self._keep("room", "#", audit.text())
            self.tell(f"audit of the previous rdbg: {audit.text()}")

    def remark(self, member: Member, line: str) -> None:
        """Executes a line that begins with `#`."""
        with self._turns:
            if not member.is_here or self.is_over:
                return
            name, was_told = member.name, member.is_told
            answer = remarks.do(self, member, line)
            if answer is not None:
                member.says()
            if answer is not None and (was_told or not member.is_told):
                self._keep(name, line, answer)  # (otherwise the talk says that the member joined)

    def follow(self, told: Callable[[str, str], None]) -> List[str]:
        """Adds a callback for each line that changes something, with its reply, in order. It must
        not block, or ask the room anything. Returns the lines that lead to the current state."""
        with self._turns:
            self._followers.append(told)
            return self._program.journal.lines()

    def lines(self) -> List[str]:
        """Returns the lines that lead to the current state of the target."""
        with self._turns:
            return self._program.journal.lines()

    def begin_reload(self, member: Member) -> str:
        """Starts to reload the file, for the holder of the wheel. Raises `Refusal`."""
        if self.holder is not member.seat:
            raise Refusal("reloading the file needs the wheel: `wheel take`")
        if self.is_reloading:
            raise Refusal("the file is being reloaded already")
        self.is_reloading = True
        threading.Thread(target=self._reload, args=(member,), daemon=True).start()
        return "begun"

    def _reload(self, member: Member) -> None:
        """Reloads the file outside the room's turn, switches to it, and tells everybody."""
        try:
            was = self.lines()
            source, lines, said = quiet.made_again(self.app_source, was)
            with self._turns:
                if self.is_over or not member.is_here or self.holder is not member.seat:
                    why = "the wheel was given back, or the room has ended, meanwhile"
                    raise Refusal(f"not reloaded: {why}")
                if self._program.journal.lines() != was:
                    raise Refusal("not reloaded: the target was moved meanwhile (try again)")
                dropped = self._program.reload(source, lines)
                self.app_source = source
                self._followers.clear()
                self._keep("room", "#", f"opens {source.path}")
                self.tell(f"{member.name} reloaded the file: {said[0]}")
                for row in (*said[1:], *dropped):
                    self.tell(row)
            self.when_reloaded()
        except (Refusal, Failure) as wrong:
            member.hear(f"# no: {'; '.join(str(wrong).splitlines())}")
        finally:
            self.is_reloading = False

    @property
    def holder(self) -> Optional[Seat]:
        """Returns the session that has the wheel, if any."""
        return self._program.holder

    def people(self) -> List[Seat]:
        """Returns the sessions that have a name, whether it is here or away."""
        return list(self._seats.by_name().values())

    def silence(self, seat: Seat) -> int:
        """Returns the seconds since a member's last line; 0 for one that is away."""
        member = self._members.get(seat.number)
        return member.silence() if member is not None else 0

    def who(self) -> str:
        """Lists who is here, idle or away, and who has the wheel."""
        texts: Dict[bool, List[str]] = {True: [], False: []}
        for it in self.people():
            has = ", has the wheel" if it is self.holder else ""
            silence = self.silence(it)
            idle = f", idle for {counted(silence, 'second')}" if silence >= self.idle else ""
            texts[it.is_here].append(f"{it.name} (session {it.number}{has}{idle})")
        away = f"; away: {', '.join(texts[False])}" if texts[False] else ""
        return f"here: {', '.join(texts[True])}{away}"

    def tell_moves(self, member: Member, count: int) -> str:
        """Tells a member the latest moves, which the session with the wheel looks up."""
        for row in self._program.last_rows(self.holder or member.seat, count):
            member.hear(f"# {row}")
        return self.tell_place(member)

    def tell_place(self, member: Member) -> str:
        """Tells a member where the target is."""
        text = record.at(self.place, self._program.target.undone)
        member.hear(f"# {text}")
        return text

    def tell_talk(self, member: Member, count: int) -> str:
        """Tells a member the latest notices to everybody."""
        for it in list(self._heard)[-count:]:
            member.hear(f"# {it.row()}")
        return self.tell_place(member)

    def tell_one(self, member: Member, name: str, text: str) -> None:
        """Passes a private message. Raises `Refusal` if its recipient is not here."""
        found = next((it for it in self._members.values() if it.name == name), None)
        if found is None:
            away = (
                f"{name} is away"
                if name in self._seats.by_name()
                else f"nobody is called {printable(name)}"
            )
            raise Refusal(f"{away}; {self.who()}")
        found.hear(f"# {member.name} to you: {printable(text)}")
        if found is not member:
            member.hear(f"# {member.name} to {name}: {printable(text)}")

    def wheel_wanted(self, member: Member) -> str:
        """Asks for the wheel. If its holder is away, a member's second request frees it. Returns the
        notice to everybody. Raises `Refusal` if the wheel is free, or the member's own."""
        seat = self.holder
        if seat is None:
            raise Refusal("the wheel is free: take it with `wheel take`")
        if seat is member.seat:
            raise Refusal("you have the wheel already: `wheel give` gives it back")
        text = f"{member.name} asks for the wheel"
        if not seat.is_here and member.session in self._asked:
            self._program.ask(seat, "wheel give")
            text = f"{member.name} freed the wheel: {seat.name} is away"
        elif not seat.is_here:
            self._asked.add(member.session)
            member.hear(f"# {seat.name} is away: send `# wheel` again to free the wheel")
        return self.tell(text)

    def free_wheel(self) -> str:
        """Frees the wheel if its holder is away or idle. Returns the notice, or why not."""
        with self._turns:
            try:
                text = self._freed()
            except Refusal as refusal:
                text = f"no: {refusal}"
            self._keep("room", "# free", text)
            return text if text.startswith("no: ") else self.tell(text)

    def _freed(self) -> str:
        seat = self.holder
        if self.is_over:
            raise Refusal("the room has ended")
        if seat is None:
            raise Refusal("nobody has the wheel")
        member, silence = self._members.get(seat.number), self.silence(seat)
        if member is not None and silence < self.idle:
            waited, limit = (counted(it, "second") for it in (silence, self.idle))
            why = f"its last line came {waited} ago, and the limit is {limit}"
            raise Refusal(f"{seat.name} has the wheel and is not idle: {why}")
        self._program.ask(seat, "wheel give")
        why = f"has been idle for {counted(silence, 'second')}" if member else "is away"
        return f"the room's owner freed the wheel: {seat.name} {why}"

    def _program_has_ended(self, host: Host) -> None:
        """Tells everybody that a program has ended by itself, unless it has been replaced."""
        with self._turns:
            if self._program.host is host:
                self._is_over(host.why_ended())

    def _is_over(self, why: str) -> None:
        """Tells everybody why the program has ended, and ends the room."""
        if not self.is_over:
            self.is_over = True
            self.tell(why)
            self.when_over()

    def close(self) -> List[Audit]:
        """Ends the program, and tells everybody its audit. Returns the audits of all programs."""
        with self._turns:
            self.is_over = True
        self._program.wait()
        with self._turns:
            for member in self._members.values():
                self.end(member, f"interrupted, at {self.place}")
            audit = self._program.host.close()
            for row in self.counts.rows():
                self._keep("room", "#", row)
                self.tell(row)
            self._keep("room", "#", audit.text())
            self.tell(f"the room has ended: {audit.text()}")
            if self._talk is not None:
                self._talk.close()
            return [*self._audits, audit]

    def kill(self) -> None:
        """Ends the program at once, without its audit."""
        self._program.host.kill()


def plain(line: str) -> str:
    """Returns a line as it is sent to the program."""
    return line.encode("ascii", "replace").decode()
