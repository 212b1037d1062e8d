"""Several at one room, without a port: names, sessions, what all are told, the wheel, and what is
answered from memory."""
import contextlib
import pathlib
import random
import tempfile
import unittest
from typing import Iterator, List, Optional, Tuple

from rdbg import commands
from rdbg.client import Session
from rdbg.replies import read
from rdbg.driving.journal import Journal
from rdbg.rooms.room import Ended, Member, Refusal, Room
from rdbg.rooms.talk import field
from rdbg.rooms.turns import Turns
from rdbg.driving.target import Limits
from rdbg.files.source import load
from tests.paths import EXAMPLES
from tests.rooms import LOST, until

MOVES = (
    "step 0", "step 1", "tick", "forward 3", "back 2", "back 1", "redo 1", "redo 2", "trim 4",
    "until tick = 9 5", "back until count jobs = 0", "poke reg worker 3 7", "poke data poller 4142",
    "until w0 3", "step 7",
)  # fmt: skip
LOOKS = ("show cores", "show moves", "show task worker", "show queue jobs", "show queue none")


@contextlib.contextmanager
def room(sessions: int = 4, path: str = LOST, limits: Limits = Limits()) -> Iterator[Room]:
    """A room, whose history is found right at its end."""
    opened = Room(load(path), limits, sessions)
    try:
        yield opened
    finally:
        audits = opened.close()
    for audit in audits:
        assert audit.is_good, audit.text()


def come(here: Room, name: Optional[str] = None) -> Tuple[Member, List[str]]:
    """Somebody who comes, and what that one hears."""
    heard: List[str] = []
    return here.join(name, heard.append), heard


class Names(unittest.TestCase):
    """Who has which session."""

    def test_each_is_told_who_that_is(self) -> None:
        with room() as here:
            left, heard = come(here, "left")
            guest, said = come(here)
            self.assertEqual(heard[0], "# you are left, session 1; here: nobody else")
            self.assertEqual(heard[1], "# guest1 joined, session 2")
            self.assertEqual(said, ["# you are guest1, session 2; here: left"])
            self.assertEqual((left.session, guest.name), (1, "guest1"))

    def test_names_that_are_refused(self) -> None:
        with room() as here:
            left, _ = come(here, "left")
            come(here, "right")
            with self.assertRaisesRegex(Refusal, "left is already here"):
                come(here, "left")
            for name in ("Left", "no", "x" * 17, "a b", "", "a\x1b"):
                with self.assertRaisesRegex(Refusal, "is not a valid name"):
                    come(here, name)
                with self.assertRaisesRegex(Refusal, "is not a valid name"):
                    left.rename(name)
            with self.assertRaisesRegex(Refusal, "right is already here"):
                left.rename("right")
            self.assertEqual(left.name, "left")

    def test_a_new_name_keeps_the_session(self) -> None:
        with room() as here:
            guest, heard = come(here)
            left, _ = come(here, "left")
            guest.ask("watch tick = 1")
            guest.rename("right")
            self.assertEqual(heard[-1], "# you are right, session 1; here: left")
            self.assertEqual(guest.ask("show watches"), "watches 0:fails")
            left.leave()
            # (that of who is away has a session of its own)
            guest.rename("left")
            self.assertEqual((guest.session, guest.ask("show watches")), (2, "watches -"))
            self.assertEqual(here.who(), "here: left (session 2); away: right (session 1)")

    def test_who_comes_back_has_session_watches_and_wheel(self) -> None:
        with room() as here:
            left, _ = come(here, "left")
            left.ask("watch count jobs > 0")
            left.ask("wheel take")
            left.leave()
            right, heard = come(here, "right")
            self.assertEqual(right.ask("step 0"), "no Held 1")
            self.assertEqual(heard[-1], "# left has the wheel and is away: '# wheel' asks for it")
            again, _ = come(here, "left")
            self.assertEqual(again.session, 1)
            self.assertEqual(again.ask("show watches"), "watches 0:fails")
            self.assertEqual(again.ask("step 0"), "ok at 1")
            with self.assertRaises(Refusal):
                left.ask("tick")

    def test_more_names_than_sessions(self) -> None:
        with room(2) as here:
            for name in ("one", "two"):
                member, _ = come(here, name)
                member.ask("watch tick = 1")
                member.ask("wheel take")
                member.leave()
            three, heard = come(here, "three")
            self.assertEqual((three.session, three.ask("show watches")), (1, "watches -"))
            self.assertEqual(three.ask("tick"), "ok at 1")
            two, heard = come(here, "two")
            self.assertEqual((two.session, two.ask("show watches")), (2, "watches 0:holds"))
            with self.assertRaisesRegex(Refusal, "all 2 sessions are in use"):
                come(here, "one")
            two.leave()
            come(here, "one")

    def test_guests_leave_room_for_names(self) -> None:
        with room(4) as here:
            left, _ = come(here, "left")
            left.leave()
            guests = [come(here)[0] for _ in range(2)]
            self.assertEqual([it.name for it in guests], ["guest1", "guest2"])
            with self.assertRaisesRegex(Refusal, "all 2 sessions for guests are in use"):
                come(here)
            guests[0].ask("watch tick = 1")
            guests[0].leave()
            # (the next guest is another one)
            again, _ = come(here)
            self.assertEqual((again.name, again.ask("show watches")), ("guest1", "watches -"))
            self.assertEqual(come(here, "left")[0].session, left.session)
            # (a guest who says its own name is that one)
            again.ask("watch tick = 2")
            again.leave()
            back, _ = come(here, "guest1")
            self.assertEqual(back.ask("show watches"), "watches 0:fails")
            back.leave()
            self.assertEqual(come(here)[0].ask("show watches"), "watches -")

    def test_guests_where_names_have_all_sessions(self) -> None:
        with room(2) as here:
            left, _ = come(here, "left")
            right, _ = come(here, "right")
            with self.assertRaisesRegex(Refusal, "^all 2 sessions are in use$"):
                come(here)
            right.leave()
            kept = "^all 2 sessions are in use, or kept for a name that is away$"
            with self.assertRaisesRegex(Refusal, kept):
                come(here)
            self.assertEqual(come(here, "third")[0].session, right.session)
            left.leave()
            with self.assertRaisesRegex(Refusal, kept):
                come(here)
        with room(1) as here:
            come(here, "left")
            with self.assertRaisesRegex(Refusal, "^the one session is in use$"):
                come(here)
        with room(4) as here:
            for name in ("one", "two", "three", "guest1"):
                come(here, name)
            with self.assertRaisesRegex(Refusal, "^all 4 sessions are in use$"):
                come(here)

    def test_one_that_says_nothing_is_forgotten(self) -> None:
        with room(2) as here:
            _, heard = come(here, "left")
            silent = here.join(None, lambda _: None, is_told=False)
            self.assertEqual(here.who(), "here: left (session 1), guest1 (session 2)")
            silent.leave()
            self.assertEqual(here.who(), "here: left (session 1)")
            self.assertEqual(len(heard), 1)

    def test_a_room_that_has_ended(self) -> None:
        here = Room(load(LOST), sessions=2)
        left, heard = come(here, "left")
        self.assertEqual([it.is_good for it in here.close()], [True])
        self.assertEqual(heard[-1], "# the room has ended: closed 4")
        with self.assertRaises(Ended):
            left.ask("tick")
        with self.assertRaisesRegex(Refusal, "the room has ended"):
            come(here, "right")
        left.remark("# who")
        left.leave()


class Told(unittest.TestCase):
    """What all are told."""

    def test_moves_and_looks(self) -> None:
        with room() as here:
            _, heard = come(here, "left")
            right, _ = come(here, "right")
            heard.clear()
            for line in ("step 0", "step 1", "show cores", "step 9", "tick", "back 1"):
                right.ask(line)
            self.assertEqual(
                heard,
                [
                    "# right: step 0 -> ok at 1, worker 0 recv jobs max, left core 0 (waits"
                    " with no limit of time), poller took core 0",
                    "# right: step 1 -> ok at 2, producer 0 data 41",
                    "# right: tick -> ok at 3, tick 1",
                    "# right: back 1 -> ok at 2, next: poller 0 recv jobs 0 (core 0), producer 1"
                    " send jobs 0 (core 1)",
                ],
            )
            self.assertEqual(here.place, 2)

    def test_edits_interrupts_watches_and_trims(self) -> None:
        with room(path=str(EXAMPLES / "interrupt.json")) as here:
            left, heard = come(here, "left")
            names = [it.name for it in here.app_source.application.tasks]  # type: ignore
            lines = (
                f"poke reg {names[0]} 3 7", f"isr notify {names[0]} 0 5 set", "watch tick = 2",
                "unwatch 0", "wheel take", "trim 1", "forward 2", "back 1", "redo 1",
            )  # fmt: skip
            for line in lines:
                heard.clear()
                reply = left.ask(f" {line}\r")
                self.assertTrue(heard[0].startswith(f"# left: {line} -> {reply}"), heard)
                self.assertNotIn("no ", reply)
            self.assertEqual(len(heard), 1)

    def test_a_text_in_lines(self) -> None:
        with tempfile.TemporaryDirectory() as folder:
            file = pathlib.Path(folder) / "one.fw"
            file.write_text(
                "cores 1\nqueue q length 1 item 1\ntask t priority 1\n  send(q, 0);\n  end\n"
            )
            with room(2, str(file)) as here:
                left, heard = come(here, "left")
                left.ask("step 0")
                self.assertEqual(heard[-1], "# left: step 0 -> ok at 1, t 0 send(q, 0) -> 1, q 1/1")

    def test_the_last_moves_of_a_long_run(self) -> None:
        with room() as here:
            left, heard = come(here, "left")
            left.ask("forward 9")
            rows = heard[1:]
            self.assertEqual(
                rows[:2], ["# left: forward 9 -> ok at 9", "# .. 4 moves before these"]
            )
            self.assertEqual([row[:3] for row in rows[2:]], [f"# {at}" for at in range(5, 10)])
            self.assertEqual(left.ask("show moves"), "moves 9 undone 0 kept 9")

    def test_the_last_moves_for_who_asks(self) -> None:
        with room() as here:
            left, _ = come(here, "left")
            left.ask("wheel take")
            left.ask("forward 7")
            left.ask("back 2")
            right, heard = come(here, "right")
            for _ in range(2):
                before = here._program.left()
                heard.clear()
                right.remark("# moves 3")
                self.assertEqual(heard[0], "# .. 2 moves before these")
                self.assertEqual([row[:3] for row in heard[1:4]], ["# 3", "# 4", "# 5"])
                self.assertEqual(heard[4:], ["# at 5; `redo` can repeat 2 undone moves"])
            self.assertEqual(here._program.left(), before)
            self.assertEqual(left.ask("redo 2"), "ok at 7")
            left.ask("trim 2")
            right.remark("# moves")
            self.assertEqual([row[:3] for row in heard[-3:-1]], ["# 6", "# 7"])
            right.remark("# moves 21")
            self.assertEqual(heard[-1], "# no: `# moves COUNT`: COUNT must be 1 to 20")

    def test_what_a_terminal_would_take_for_its_own(self) -> None:
        with room() as here:
            left, heard = come(here, "left")
            left.remark("# say \x1b[2J\u202eh\xe4 \x07\x9b\x7f")
            self.assertEqual(heard[-1], "# left says: \\x1b[2J\\u202eh\xe4 \\x07\\x9b\\x7f")
            left.remark("# name a\x1b[2J")
            self.assertTrue(heard[-1].startswith("# no: 'a\\x1b[2J' is not a valid name: "))
            self.assertEqual(field("a\tb\\\x1b\n"), "a\\tb\\\\\\x1b\\n")

    def test_lines_that_are_none(self) -> None:
        with room() as here:
            left, _ = come(here, "left")
            self.assertEqual(left.ask("x" * 1_025), "no LineTooLong")
            self.assertEqual(left.ask("h\xe4" * 500), "no LineTooLong")
            for line in ("", "tick\ntick", "t\xefck", "\x00", "\ud800", "step 0 \t"):
                self.assertEqual(left.ask(line), "no Syntax", repr(line))
            self.assertEqual(here.place, 0)

    def test_a_line_for_the_room_without_its_sign(self) -> None:
        with room(2) as here:
            left, heard = come(here, "left")
            self.assertEqual(left.ask("say hello"), "no Syntax")
            self.assertEqual(heard[-1], "# `say` is a line for the room: send `# say`")


class Memory(unittest.TestCase):
    """What is answered without the program."""

    def test_what_hangs_on_nothing_that_changed_takes_no_place(self) -> None:
        with room() as here:
            left, _ = come(here, "left")
            right, _ = come(here, "right")
            left.ask("wheel take")
            lines = (*LOOKS, "show wheel", "show watches", "step 0", "watch w", "unwatch 3")
            for _ in range(2):
                before = here._program.left()
                first = [right.ask(line) for line in lines]
                taken = before - here._program.left()
            self.assertEqual(taken, 0)
            self.assertEqual([right.ask(line) for line in lines], first)
            self.assertEqual(left.ask("show cores"), first[0])
            self.assertEqual(here._program.left(), before)

    def test_no_answer_is_stale(self) -> None:
        for seed in range(3):
            chance = random.Random(seed)
            with room() as here, Session.run(LOST) as alone:
                members = [come(here, name)[0] for name in ("left", "right")]
                for line in ("watch count jobs > 0",):
                    for member in members:
                        member.ask(line)
                    alone.tell(line)
                for _ in range(150):
                    line = chance.choice(MOVES if chance.random() < 0.4 else LOOKS)
                    member = chance.choice(members)
                    self.assertEqual(member.ask(line), alone.tell(line), line)

    def test_the_wheel_and_watches_are_each_ones(self) -> None:
        with room() as here:
            left, right = come(here, "left")[0], come(here, "right")[0]
            self.assertEqual(left.ask("show watches"), "watches -")
            right.ask("watch tick = 0")
            self.assertEqual(right.ask("show watches"), "watches 0:holds")
            self.assertEqual(left.ask("show watches"), "watches -")
            self.assertEqual(left.ask("show wheel"), "wheel -")
            self.assertEqual(left.ask("wheel give"), "no NotHolder")
            left.ask("wheel take")
            self.assertEqual(right.ask("show wheel"), "wheel 1")
            self.assertEqual(right.ask("tick"), "no Held 1")
            left.ask("tick")
            self.assertEqual(right.ask("show watches"), "watches 0:fails")
            left.ask("wheel give")
            self.assertEqual(right.ask("tick"), "ok at 2")


class History(unittest.TestCase):
    """A history that is nearly full."""

    def test_a_journal_leads_to_the_same_place(self) -> None:
        checks = ("show moves", "show cores", "show task worker", "show task poller", "redo 1")
        for seed in range(4):
            chance = random.Random(seed)
            journal = Journal()
            with Session.run(LOST) as one, Session.run(LOST) as other:
                for _ in range(60):
                    line = chance.choice(MOVES)
                    reply = one.tell(line)
                    command = commands.read(line)
                    if not reply.startswith("no ") and command is not None:
                        journal.moved(command, read(reply))  # type: ignore
                replies = list(other.tell_all(journal.lines()))
                self.assertFalse([it for it in replies if it.startswith("no ")], replies)
                self.assertEqual(list(other.tell_all(checks)), list(one.tell_all(checks)))

    def test_a_new_program_goes_on(self) -> None:
        with room(limits=Limits(1_000, 250), sessions=3) as here:
            left, heard = come(here, "left")
            right, _ = come(here, "right")
            with Session.run(LOST) as alone:
                for line in ("watch count jobs > 0", "watch tick = 3", "unwatch 0"):
                    self.assertEqual(left.ask(line), alone.tell(line))
                left.ask("wheel take")
                for line in ["forward 40", "back 7", "trim 5"] + ["tick", "back 1"] * 40:
                    self.assertEqual(left.ask(line), alone.tell(line))
                for line in ("show moves", "show watches", "show task worker", "redo 1", "back 9"):
                    self.assertEqual(left.ask(line), alone.tell(line), line)
            self.assertEqual(right.ask("step 0"), "no Held 1")
            told = [it for it in heard if "a new rdbg has taken over" in it]
            self.assertGreater(len(told), 0)

    def test_a_history_that_is_full(self) -> None:
        # (so many moves that a new program's would soon be full again)
        with room(limits=Limits(1_000, 60), sessions=2) as here:
            left, heard = come(here, "left")
            replies = [left.ask("step 0") for _ in range(40)] + [left.ask("tick")]
            replies += [left.ask(f"poke reg worker 3 {number}") for number in range(60)]
            self.assertEqual(replies[-1], "no HistoryFull")
            self.assertIn("# the history is full: ", heard[-1])
            self.assertTrue([it for it in heard if "the history has room for" in it])


class InTurn(unittest.TestCase):
    """The lock of a room."""

    def test_turns_come_in_order(self) -> None:
        import threading

        turns, order = Turns(), []

        def take(number: int) -> None:
            with turns:
                order.append(number)

        with turns:
            threads = [threading.Thread(target=take, args=(number,)) for number in range(8)]
            for count, thread in enumerate(threads, 1):
                thread.start()
                until(lambda: len(turns._waiting) == count)
        for thread in threads:
            thread.join()
        self.assertEqual(order, list(range(8)))


if __name__ == "__main__":
    unittest.main()
