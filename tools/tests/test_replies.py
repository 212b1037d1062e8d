"""The table of replies is that of the documents, and reads every reply of the examples."""
import unittest
from typing import Set

from rdbg import replies
from rdbg.replies import FORMS, REFUSALS, Phase, Refused, Unreadable, Wish, read
from tests.paths import EXAMPLES
from tests.tables import codes, rows, section


class Table(unittest.TestCase):
    """Each form of the table stands in the document, and the other way round."""

    def test_forms(self) -> None:
        written: Set[str] = set()
        for _, *cells in rows(section("FORMATS.md", "Replies"), "| Reply | Text |"):
            written.update(it for it in codes(cells) if " " in it and not it.startswith("no "))
        ends = ("met", "limit", "start")
        forms = {it.replace("HOW", end) for it in FORMS for end in ends}
        self.assertEqual(written - {"wheel -"}, forms)

    def test_refusals(self) -> None:
        written = {}
        for name, *_ in rows(section("COMMANDS.md", "Refusals"), "| Refusal | When |"):
            word, _, number = name.strip("`").partition(" ")
            written[word] = bool(number)
        # (a connection that isn't let in is answered `no Full`, which is no answer to a command)
        self.assertEqual({**written, "Full": False}, REFUSALS)


class Reading(unittest.TestCase):
    """Replies as values."""

    def test_examples(self) -> None:
        count = 0
        for file in sorted(EXAMPLES.glob("*.replies")):
            for line in file.read_text().splitlines():
                try:
                    read(line)
                except Refused as refused:
                    self.assertEqual(line, f"no {refused}")
                count += 1
        self.assertGreater(count, 300)

    def test_values(self) -> None:
        line = "task t0 core - pc 1 phase wait:send:q1:max regs 1,2 data 0aff notes 5:received"
        task = read(line)
        assert isinstance(task, replies.Task)
        self.assertEqual(task.phase, Phase("wait:send:q1:max", "wait", place="send:q1"))
        self.assertEqual((task.core, task.registers, task.data), (None, (1, 2), b"\x0a\xff"))
        group = read("group g0 bits 0 wait t0:1:any:clear,t1:3:all:keep")
        assert isinstance(group, replies.Group)
        waiters = (Wish("t0", 1, False, True), Wish("t1", 3, True, False))
        self.assertEqual(group.waiters, waiters)
        self.assertEqual(read("wheel -"), replies.WheelHolder(None))
        self.assertEqual(read("ok at 0 start"), replies.Moved(0, "start"))
        self.assertEqual(read("ok at 3"), replies.Moved(3))
        self.assertEqual(read("ok at 2 isr 1"), replies.Moved(2, answer=1))
        self.assertEqual(read("ok at 10 isr 0"), replies.Moved(10, answer=0))

    def test_refusals_carry_their_number(self) -> None:
        with self.assertRaises(Refused) as caught:
            read("no Held 2")
        self.assertEqual((caught.exception.name, caught.exception.number), ("Held", 2))

    def test_what_is_no_reply(self) -> None:
        broken = [
            "",
            "ok",
            "ok at",
            "ok at x",
            "ok at 1 soon",
            "no",
            "no Way",
            "no Held",
            "no NoTask 1",
        ]
        broken += [
            "queue q0 0/2 items - recv - send -",
            "task t0",
            "wheel t0",
            "cores  ready - tick 0",
        ]
        broken += [
            "moves 1 undone -",
            "group g0 bits 0 wait t0:1:some:clear",
            "wheel 1 ",
            "ok at 1\r",
        ]
        broken += [
            "ok at 1 isr",
            "ok at 1 isr 2",
            "ok at 1 isr 01",
            "ok at 1 isr 1 met",
            "no NoIsr 1",
        ]
        broken += ["stream b0 0/8 trigger 1 bytes 0g reader - writer -", "watches 0:maybe"]
        for line in broken:
            with self.subTest(line), self.assertRaises(Unreadable):
                read(line)


if __name__ == "__main__":
    unittest.main()
