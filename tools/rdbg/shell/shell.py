"""Executes the lines of `rdbg sh`: passes rdbg's commands on, and executes its own."""
import contextlib
import dataclasses
import re
import shutil
import sys
import time
from typing import Dict, Iterable, Iterator, List, NamedTuple, Optional, Sequence, Set, Tuple

from rdbg import commands, kinds, record
from rdbg.application import NO_INTERRUPT, Interrupt as Handler
from rdbg.by_hand import INTERRUPT
from rdbg.client import ROOM_ENDED
from rdbg.driving import trail
from rdbg.driving.interrupt import Interrupt, Interrupted
from rdbg.driving.pacing import TickPace
from rdbg.driving.target import SINGLE, Target, Unable, read
from rdbg.driving.walk import Walk
from rdbg.effects import LOCAL, Move
from rdbg.failure import Failure
from rdbg.files.source import Source, load
from rdbg.goals.paced import PacedWalk
from rdbg.goals.scope import Scope
from rdbg.instructions import form_of
from rdbg.looks import Look, Names
from rdbg.printable import printable
from rdbg.reaching.asking import Question
from rdbg.replies import Cores, Refused
from rdbg.shell.notices import READ_ANEW, REMARK, Notices
from rdbg.wording import counted

# Of a run of more moves than these the last few are shown.
MANY, FEW = 20, 5
# It is said when a tenth of the history is left, and a hundredth; not of one that is small.
NEARLY, NOT_SMALL = (10, 100), 1_000
COMMENT = re.compile(r"^\s*#| #")
# So many seconds pass before it is shown how far something is, and between two times.
MOMENT = 0.3


class Reached(NamedTuple):
    """What was asked: of a goal, as it was typed, at a place; and what was answered."""

    question: Question
    goal: str
    place: int
    said: str


class Order(NamedTuple):
    """The lines of an order that was answered, and the place where it begins."""

    place: int
    lines: Sequence[str]


class Shell:
    """A target, and how one talks with it. `ended_by` is said of what is ended by its user."""

    ended_by = "stopped by Ctrl-C"

    def __init__(self, target: Target, source: Optional[Source], interrupt: Interrupt) -> None:
        self.interrupt = interrupt
        # The line of rdbg's that a word of sh's own stands for, for hints.
        self.asked = ""
        self.shows_moves = self.shows_lines = False
        self.is_terminal = self.told_of_breaks = self.is_done = False
        # What is displayed behind moves, by numbers; and the watches that are dropped where they
        # are met, with their conditions.
        self.displays: Dict[int, str] = {}
        self.temporary: Dict[int, str] = {}
        self._displayed: Optional[Tuple[Target, int]] = None
        # Whether the last line was refused, or stopped; the files that are at work, and whether one
        # is with which a prompt begins; and those that were saved, which may be saved anew.
        self.is_refused = self.is_stopped = self.is_starting = False
        self.sourced: List[str] = []
        self.saved: Set[Tuple[int, int]] = set()
        # The pace of runs, and the interrupts that come in them by themselves, where it was said
        # which.
        self.pace: Optional[TickPace] = None
        self.coming: Optional[Tuple[Handler, ...]] = None
        # The goal of places that was asked for or gone to last; what was asked last of what can
        # still come, and the order in the answer; and the move that lost a goal, if it tells of
        # one.
        self.goal = ""
        self.reached: Optional[Reached] = None
        self.order: Optional[Order] = None
        self.lost: Optional[Move] = None
        self.take(target, source)

    def take(self, target: Target, source: Optional[Source]) -> None:
        """Goes on with this target and its file."""
        self.target, self.source = target, source
        self.pieces = Walk(target, self.interrupt)
        self.walk = self.walking(target)
        self.knows_tasks = False
        self._named: Optional[Scope] = None
        self._seen: Optional[Look] = None
        self._seen_at = -1
        # (what was seen last, which may be old)
        self._last: Optional[Look] = None
        self._warned = 0
        self._shown, self._is_showing = 0.0, False
        target.echo = self._echo
        target.drift = None
        self.notices = Notices(target.session, self._notice, target.moved_by_others)

    def walking(self, target: Target) -> Walk:
        """What makes moves of a target, at the pace that there is."""
        if self.pace is None:
            return Walk(target, self.interrupt)
        return PacedWalk(target, self.interrupt, self.pace, self.coming or ())

    def say(self, text: str) -> None:
        """Prints lines of sh's own."""
        self._wipe()
        for line in text.split("\n"):
            # (the script of a `.fw` file may have tabs)
            print(("# " + "\t".join(map(printable, line.split("\t")))).rstrip())
            self.notices.said(line.strip())

    def refuse(self, why: str) -> None:
        """Says why a word of sh's own isn't done."""
        self.say(why)

    def answer(self, reply: str) -> None:
        """Prints a reply of rdbg's."""
        print(reply)
        self.notices.said(reply)

    def _notice(self, notice: str) -> None:
        """Prints a notice of a room; its last one is said at the end of all."""
        if READ_ANEW.match(notice) and self.source is not None:
            with contextlib.suppress(Failure):
                source = load(self.source.path, self.source.given)
                if source.application is not None:
                    self.source, self.target.application = source, source.application
                    self.target.names = Names.of(source.application)
                    self._named = self._seen = self._last = None
        if not notice.startswith(ROOM_ENDED):
            self._wipe()
            print(notice, flush=True)

    def may_come(self) -> Sequence[str]:
        """The words for what searches let come; none where it wasn't said which: all may."""
        return () if self.coming is None else [it.name for it in self.coming] or [NO_INTERRUPT]

    def scope(self) -> Scope:
        """What goals can name."""
        target = self.target
        if self._named is None:
            self._named = Scope.of(self.source, target.application)
        return dataclasses.replace(self._named, names=target.names, watches=target.watches)

    def progress(self, made: int, of: int, done: str) -> None:
        """Shows at a terminal how far something long is: it stands in one line, and goes away."""
        now = time.monotonic()
        if self.is_terminal and now >= self._shown + MOMENT:
            self._shown, self._is_showing = now, True
            print(f"\r# {made} of {of} {done}\x1b[K\r", end="", flush=True)

    def _wipe(self) -> None:
        """Wipes what shows how far something is."""
        if self._is_showing:
            self._is_showing = False
            print("\r\x1b[K", end="")

    def width(self) -> Optional[int]:
        """How many characters a line of sh's own has room for; none where it isn't a terminal."""
        return shutil.get_terminal_size().columns - len("# ") if self.is_terminal else None

    def stopped(self, where: str) -> None:
        """Says that something was ended, and where the target is."""
        self.is_refused = self.is_stopped = True
        self._wipe()
        if self.is_terminal:
            print()  # (behind the ^C of the terminal)
        self.say(f"{self.ended_by}, {where}")

    def hint(self, text: str) -> None:
        """Prints a hint on standard error, behind what was said."""
        if text:
            sys.stdout.flush()
            print(f"hint: {self.in_its_names(text)}", file=sys.stderr, flush=True)

    def in_its_names(self, text: str) -> str:
        """A text whose examples name a task and a queue that there are."""
        for word, kind in (("worker", kinds.TASK), ("jobs", kinds.QUEUE)):
            there = self.target.names.of_kind(kind.word)
            if there and word not in there:
                text = re.sub(rf"\b{word}\b", there[0], text)
        return text

    def hint_on(self, line: str, reply: str) -> None:
        """Prints a hint where a reply refuses a line."""
        from rdbg.shell.hints import refusal

        try:
            read(reply)
        except Refused as refused:
            self.hint(refusal(self, line, refused))

    def _echo(self, line: str) -> None:
        if self.shows_lines:
            print(f"> {line}")

    def line(self, text: str, is_typed: bool = True) -> None:
        """Does what a line asks for, which somebody has typed, or sh says to itself."""
        self.asked = ""
        self._shown = time.monotonic()
        if self.notices.is_room and REMARK.match(text.strip()):
            self.notices.forget()
            self.target.session.remark(text.strip())
            sys.stdout.flush()
            return
        stripped, words = parted(text)
        if words:
            with self.notices.doing(stripped if is_typed else ""):
                self.do(text)
            sys.stdout.flush()

    def do(self, text: str) -> None:
        """Does a line, rdbg's as it is or a word of sh's, and says what is displayed behind it."""
        from rdbg.shell.views import displayed
        from rdbg.shell.words import find

        stripped, words = parted(text)
        if not words:
            return
        self.is_refused, self.is_stopped, self.asked = False, False, ""
        there = self.target, self.target.place
        word = None if commands.read(stripped) else find(self, words)
        try:
            if word is None:
                self.command(stripped)
            else:
                word.run(self, words[1:])
        except Unable as unable:
            self.is_refused = True
            self.refuse(self.in_its_names(str(unable)))
        except Interrupted:
            self.stopped(f"at {self.target.place}")
        except Refused as refused:
            self.is_refused = True
            self.refuse(f"rdbg refused it: no {refused}")
            self.hint_on(self.asked, f"no {refused}")
        self.notice()
        here = self.target, self.target.place
        if self.displays and here not in (there, self._displayed):
            displayed(self)
            self._displayed = here
        self._warn()

    @contextlib.contextmanager
    def wheel(self) -> Iterator[None]:
        """As long as nobody else may move the target; others' moves before are told."""
        with self.target.wheel():
            self.notice()
            yield

    def notice(self) -> None:
        """Says where others have moved the target since that was last told."""
        drift, self.target.drift = self.target.drift, None
        # (in a room what moved it was told)
        if drift is not None and drift[0] != drift[1] and not self.notices.is_room:
            self.say(f"another session moved the target: {drift[0]} -> {drift[1]}")

    def command(self, text: str) -> bool:
        """Asks rdbg a line, says the reply and what the moves did. Answers whether it was done."""
        if len(text.encode("utf-8", "replace")) > commands.MOST_BYTES:
            self.hint(
                "not sent: a line may have at most 1024 bytes, and rdbg ends a session for more"
            )
            return False
        command = commands.read(text)
        before = self.before(command)
        self.notice()
        place = self.target.place
        self.notices.forget()
        long = command if self.is_terminal else None
        try:
            reply = self.pieces.tell(long, text) if long else self.target.tell(text)
        except Interrupted:
            self.stopped(f"at {self.target.place}")
            self.after(place, before)
            return False
        if self.target.drift is not None:
            place, before = self.target.drift[1], None
            self.notice()
        self.answer(reply)
        if reply.startswith("no "):
            self.is_refused = True
            self.hint_on(text, reply)
            if self.is_terminal and self.pieces.is_again:
                self.say("no move was made; `redo` makes the undone moves again")
            elif self.target.is_own and self.target.place != place:
                self.say(f"stopped at {self.target.place}; the moves up to there are done")
            return False
        if command is not None and command.form.moves:
            if command.condition is not None:
                self.goal = " ".join(command.condition_words())
            if self.notices.is_room:
                self._as_told(reply)
            else:
                self.after(place, before)
        elif self.is_terminal and not self.target.is_own:
            self.target.places()
        return True

    def drop_temporary(self, numbers: Iterable[int]) -> None:
        """Drops those of these watches that were to be met once."""
        for number in numbers:
            text = self.temporary.pop(number, "")
            if text and self.target.watches.get(number) == text:
                self.target.tell(f"unwatch {number}")
                self.say(f"removed watch {number} after its hit: {text}")

    def look(self) -> Look:
        """A look at the target as it is, which isn't taken twice where nobody else moves it."""
        if self._seen is None or not self._is_known():
            self._keep(self.target.look())
            self._last = self._seen
            self.notice()
        assert self._seen is not None
        return self._seen

    def _keep(self, look: Look) -> None:
        self._seen, self._seen_at = look, self.target.changes

    def _is_known(self) -> bool:
        return self.target.is_own and self._seen_at == self.target.changes

    def before(self, command: Optional[commands.Command]) -> Optional[Look]:
        """What to look at before a move, to say what it did."""
        if command is None or not command.form.moves or self.notices.is_room:
            return None
        if self.target.is_own:
            return self._seen if self.shows_moves and self._is_known() else None
        is_single = command.form.word in SINGLE or command.count() == 1
        if not self.shows_moves or not is_single or command.form.word == record.BACK:
            if self.is_terminal or self.shows_moves:
                self.target.places()  # (for the place that was said last)
            return None
        try:
            names = names_for(self.target, command, self._last)
            look = self._part(names)
            # (others may have moved what can be changed elsewhere since the last look)
            needed = names_for(self.target, command, look)
            is_enough = {*needed.tasks, *needed.objects} <= {*names.tasks, *names.objects}
            return look if is_enough else self._part()
        except Refused:
            return None

    def _part(self, names: Optional[Names] = None) -> Look:
        """A look at some of what is known, of which the rest stays as it was seen last."""
        look, last = self.target.look(names), self._last
        self._last = look
        if last is not None:
            tasks, objects = {**last.tasks, **look.tasks}, {**last.objects, **look.objects}
            self._last = dataclasses.replace(look, tasks=tasks, objects=objects)
        return look

    def after(self, place: int, before: Optional[Look]) -> None:
        """Says what the moves from a place to this one did, or where one is after going back."""
        if not self.shows_moves:
            return
        here = self.target.place
        if before is not None and not self.target.is_own:
            place = before.place
        try:
            self.target.afford(len(self.target.names.lines()))
            if here > place:
                self.tell_moves(place, here, before)
            elif here < place:
                self.say(f"at {here}, next: {self.next_moves()}")
        except Refused as refused:
            self.say(f"cannot show what this did: no {refused}")
        except Unable as unable:
            self.say(f"cannot show what this did: {unable}; see `help history`")
            self.shows_moves = False

    def _as_told(self, reply: str) -> None:
        """Says what a line did by what the room has told of it."""
        effect, rows = self.notices.told(reply)
        if effect.startswith("next: "):
            effect = f"at {self.target.place}, {effect}"
        for text in filter(None, [effect, *rows] if self.shows_moves else []):
            self.say(text)

    def tell_moves(self, place: int, here: int, before: Optional[Look]) -> None:
        """Says what the moves between two places did, the last few of many."""
        if here == place + 1 and before is not None and before.place == place:
            if self.target.is_own or self.target.application is None:
                after = self.look()
            else:
                after = self._part(Names(tuple(before.tasks), tuple(before.objects)))
                self.notice()
            others = "another session has moved the target since; `moves` shows what was done"
            is_last = after.place == here
            self.say(trail.between(self.target, before, after).text() if is_last else others)
            return
        first = place + 1 if here - place <= MANY else here - FEW + 1
        if first > place + 1:
            earlier = counted(first - place - 1, "move")
            self.say(f".. {earlier} not shown; `moves {here - place}` lists all")
        with self.wheel():
            found, look = trail.moves(self.walk, first, here)
        self._keep(look)
        for move in found:
            self.say(move.text() if here == place + 1 else move.row(len(str(here))))

    def tell_last(self) -> None:
        """Says what the last move did."""
        here = self.target.place
        _, rows = self.notices.told(f"ok at {here}")
        if not rows:
            found, look = trail.moves(self.walk, here, here)
            self._keep(look)
            rows = [found[0].row()]
        self.say(rows[-1])

    def next_moves(self) -> str:
        """What each busy core would do next, in words."""
        from rdbg.shell.views import next_moves

        if self.target.is_own:
            look = self.look()
        else:
            running = self.target.ask("show cores", Cores).running
            look = self._part(Names(tuple(name for name in running if name)))
        return next_moves(self.target.application, look)

    def _warn(self) -> None:
        """Says when the history is nearly full."""
        left, limits = self.target.left(), self.target.limits
        if left is None or limits is None or limits.history < NOT_SMALL:
            return
        if self._warned < len(NEARLY) and left * NEARLY[self._warned] <= limits.history:
            self._warned += 1
            room = f"the history has room for {left} more lines, looks included"
            self.hint(f"{room}; see `help history`")


def parted(text: str) -> Tuple[str, List[str]]:
    """A line without what stands behind a `#` of its own, and its words."""
    whole = text.encode("utf-8", "replace").decode()
    stripped = COMMENT.split(whole[:-1] if whole.endswith("\n") else whole, 1)[0]
    return stripped, stripped.replace("\t", " ").split()


def names_for(target: Target, command: commands.Command, last: Optional[Look]) -> Names:
    """What a line can change, as far as that is told, by an old look; all where that isn't so."""
    word = command.form.word
    if word == "tick":
        return Names(target.names.tasks)
    if word == "poke":
        kind, name = kinds.OF_SYMBOL[command.symbols[2]], command.words[2]
        return Names((name,)) if kind is kinds.TASK else Names((), ((kind.word, name),))
    if word == INTERRUPT:
        if command.symbols[2] != kinds.QUEUE.symbol:
            return Names(target.names.tasks)  # (whom it wakes may displace another)
        # (an item that it sends has its handle in a set, if the queue is a member)
        sets = [key for key in target.names.objects if key[0] == kinds.QUEUE_SET.word]
        return Names(target.names.tasks, ((kinds.QUEUE.word, command.words[2]), *sets))
    found = of_step(target, int(command.words[1]), last) if word == "step" and last else None
    return target.names if found is None else found


def of_step(target: Target, core: int, last: Look) -> Optional[Names]:
    """What a step of a core can change, as far as a look tells that."""
    task = last.cores.running[core] if core < len(last.cores.running) else None
    if task is None:
        return Names()  # (it is refused)
    if task not in last.tasks:
        return None
    words = (target.instruction(task, last.tasks[task].pc) or "").split()
    if not words:
        return None
    form = form_of(words[0])
    if form is None or words[0] in LOCAL:
        return Names((task,))
    named = [(kinds.OF_SYMBOL.get(symbol), name) for symbol, name in zip(form.symbols, words[1:])]
    keys = [(kind.word, name) for kind, name in named if kind in kinds.OBJECTS]
    if any(kind == kinds.QUEUE.word for kind, _ in keys):
        keys += [key for key in target.names.objects if key[0] == kinds.QUEUE_SET.word]
    return Names(target.names.tasks, tuple(dict.fromkeys(keys)))
