"""What is said in a room besides rdbg's lines: a word to one, the talk so far, who is idle, help; and
what each has done at its end."""
import contextlib
import re
import time
import unittest
from typing import Dict, Iterator, List, Tuple
from unittest import mock

from rdbg.files.source import load
from rdbg.rooms import remarks
from rdbg.rooms.counts import Counts
from rdbg.rooms.room import Member, Room
from rdbg.driving.target import read_line
from tests.rooms import LOST

Who = Tuple[Member, List[str]]


@contextlib.contextmanager
def together(*names: str) -> Iterator[Tuple[Room, Dict[str, Who]]]:
    """A room with these people, each with what it hears from now on."""
    room = Room(load(LOST), sessions=4)
    try:
        found: Dict[str, Who] = {}
        for name in names:
            heard: List[str] = []
            found[name] = (room.join(name, heard.append), heard)
        for _, heard in found.values():
            heard.clear()
        yield room, found
    finally:
        room.close()


class Words(unittest.TestCase):
    """Lines that begin with `#`."""

    def test_a_word_to_one(self) -> None:
        with together("ada", "bo", "cy") as (room, people):
            (ada, own), (bo, heard), (_, others) = (people[it] for it in ("ada", "bo", "cy"))
            for line in ("# to bo: look at w0", "#to bo look at \x1b"):
                ada.remark(line)
            self.assertEqual(heard, ["# ada to you: look at w0", "# ada to you: look at \\x1b"])
            self.assertEqual(own, [it.replace("you", "bo") for it in heard])
            self.assertEqual(others, [])
            own.clear()
            bo.leave()
            for line, why in (
                (
                    "# to bo: you there?",
                    "bo is away; here: ada (session 1), cy (session 3); away: ",
                ),
                ("# to dan: hello", "nobody is called dan; here: ada (session 1)"),
                ("# to cy", "`# to NAME: TEXT` needs a name and a text"),
            ):
                ada.remark(line)
                self.assertTrue(own[-1].startswith(f"# no: {why}"), own[-1])

    def test_the_talk_so_far(self) -> None:
        with together("ada") as (room, people):
            ada, _ = people["ada"]
            ada.ask("step 1")
            ada.remark("# say that was the producer")
            ada.ask("show cores")
            ada.remark("# to ada: a note")
            heard: List[str] = []
            late = room.join("bo", heard.append)
            texts = [
                "ada: step 1 -> ok at 1, producer 0 data 41",
                "ada says: that was the producer",
            ]
            self.assertEqual([it.text for it in late.before][-2:], texts)
            heard.clear()
            late.remark("# talk 3")
            self.assertEqual([it.split("Z ")[1] for it in heard[:2]], texts)
            self.assertRegex(heard[0], r"^# \d\d:\d\d:\d\dZ ada: step 1")
            self.assertEqual(
                [it.split("Z ")[-1] for it in heard[2:]], ["bo joined, session 2", "# at 1"]
            )
            late.remark("# talk 0")
            self.assertEqual(heard[-1], "# no: `# talk COUNT`: COUNT must be 1 to 20")

    def test_who_is_idle(self) -> None:
        # (no second passes, however long it takes)
        clock = mock.Mock(wraps=time, monotonic=lambda: 7.0)
        with mock.patch("rdbg.rooms.member.time", clock), together("ada", "bo") as (room, people):
            (ada, own), _ = people["ada"], people["bo"]
            self.assertEqual("here: ada (session 1), bo (session 2)", room.who())
            room.idle = 0
            ada.remark("# who")
            idle = r"# here: ada \(session 1, idle for 0 seconds\), bo \(session 2, idle for 0 seconds\)"
            self.assertRegex(own[-1], idle)
            self.assertEqual([0, 0], [room.silence(it) for it in room.people()])

    def test_help_has_each_line(self) -> None:
        with together("ada") as (_, people):
            ada, heard = people["ada"]
            ada.remark("# help")
            *told, lines, place = heard
            self.assertEqual([re.split("  +", it[4:])[0] for it in told], list(remarks.FORMS))
            self.assertIn("`wheel take`", lines)
            self.assertEqual("# at 0", place)
            ada.remark("# fly")
            self.assertTrue(heard[-1].endswith("`# wheel`, `# reload` or `# help`"), heard[-1])


class Counted(unittest.TestCase):
    """What each has done."""

    def test_of_a_whole_session(self) -> None:
        with together("ada", "bo", "cy") as (room, people):
            (ada, _), (bo, _), (_, heard) = (people[it] for it in ("ada", "bo", "cy"))
            for line in ("step 1", "forward 3", "back 2", "redo 1", "step 9", "show cores", "x"):
                ada.ask(line)
            for line in ("# does until! somewhere", "forward 9", "back 4", "step 9", "# did"):
                bo.remark(line) if line.startswith("#") else bo.ask(line)
            bo.ask("poke reg worker 3 7")
            bo.remark("# does rc somewhere")
            bo.ask("back 3")
            bo.remark("# did")
            bo.rename("bob")
        told = [
            "ada: 5 moves, 1 way back, 2 refusals",
            "bob: 5 moves, 1 way back, 1 edit",
        ]
        self.assertEqual(told, room.counts.rows())
        self.assertEqual([f"# {it}" for it in told], heard[-3:-1])

    def test_in_words(self) -> None:
        counts = Counts()
        for line, reply, moved in (
            ("tick", "ok at 1", 1),
            ("back 1", "ok at 0", -1),
            ("back 1", "no TooFar 0", 0),
            ("isr send q 00", "ok at 1", 1),
            ("back until tick = 9", "ok at 0 start", -1),
            ("wheel take", "ok wheel", 0),
        ):
            counts.line("ada", read_line(line), reply, moved)
        self.assertEqual(["ada: 1 move, 2 ways back, 1 interrupt, 1 refusal"], counts.rows())


if __name__ == "__main__":
    unittest.main()
