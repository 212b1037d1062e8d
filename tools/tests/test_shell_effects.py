"""What a move did, held against expectations that were found by hand from the rules."""
import unittest
from typing import List

from rdbg import replies
from rdbg.by_hand import ByHand, could_be, edit_of, interrupt_of
from rdbg.effects import Effect, move_between
from rdbg.looks import Look, Names
from rdbg.replies import read
from rdbg.driving import trail
from tests.shell_talk import example, said


def comments(lines: List[str]) -> List[str]:
    """The lines of sh's own, without their mark."""
    return [line[2:] for line in lines if line.startswith("# ")]


class Examples(unittest.TestCase):
    """Moves of the examples."""

    def check(self, name: str, lines: List[str], expected: List[str]) -> None:
        """What these lines say with `set moves on`."""
        with example(name) as shell:
            self.assertEqual(comments(said(shell, "set moves on", *lines)), expected)

    def test_lost_item(self) -> None:
        lines = ["until count jobs > 0 50", "step 1", "step 1", "step 1", "step 0", "back 2"]
        expected = [
            "1  core 0  worker 0 recv jobs max, left core 0 (waits with no limit of time),"
            " poller took core 0",
            "2  core 1  producer 0 data 41",
            "3  tick 1",
            "4  core 0  poller 0 recv jobs 0 -> 0",
            "5  core 1  producer 1 send jobs 0 -> 1, jobs 1/1, woke worker (core 0),"
            " poller left core 0 (displaced)",
            "producer 2 end, left core 1 (ended), poller took core 1",
            "poller 1 jump 0",
            "poller 0 recv jobs 0 -> 1, data 41, jobs 0/1",
            "worker 0 recv jobs max, left core 0 (waits with no limit of time)",
            "at 7, next: worker 0 recv jobs max (core 0), poller 0 recv jobs 0 (core 1)",
        ]
        self.check("lost_item", lines, expected)

    def test_waiting_order(self) -> None:
        lines = ["forward 2", "until count orders > 1 50", "step 1", "step 0", "back 4", "step 1"]
        expected = [
            "1  core 0  display 0 peek orders max, left core 0 (waits with no limit of time),"
            " planner took core 0",
            "2  core 1  motor 0 recv orders max, left core 1 (waits with no limit of time),"
            " guard took core 1",
            "3  tick 1",
            "4  core 0  planner 0 data 01",
            "5  core 1  guard 0 data ff",
            "6  tick 2",
            "7  core 0  planner 1 send orders 0 -> 1, orders 1/2, woke display (core 0),"
            " left core 0 (displaced)",
            "8  core 1  guard 1 front orders 0 -> 1, orders 2/2, woke motor (core 1),"
            " left core 1 (displaced)",
            "motor 0 recv orders max -> 1, data ff, orders 1/2",
            "display 0 peek orders max -> 1, data 01",
            "at 6, next: planner 1 send orders 0 (core 0), guard 1 front orders 0 (core 1)",
            "guard 1 front orders 0 -> 1, orders 1/2, woke display (core 0),"
            " planner left core 0 (displaced)",
        ]
        self.check("waiting_order", lines, expected)

    def test_bits_are_given(self) -> None:
        expected = [
            "4  tick 2",
            "5  core 0  radio 0 gsync g0 4 7 max -> 7, g0 bits 0, woke sensor with bits 7 (core 0),"
            " woke motor with bits 7 (ready), left core 0 (displaced)",
        ]
        with example("barrier") as shell:
            answers = said(shell, "forward 3", "set moves on", "forward 2")
            self.assertEqual(comments(answers), expected)

    def test_time_that_is_up_and_turns(self) -> None:
        with example("delay") as shell:
            answers = said(shell, "step 0", "step 0", "tick", "set moves on", "tick", "step 0")
            woken = "tick 2, woke blink, whose time was up (core 0)"
            self.assertEqual(comments(answers), [woken, "blink 1 recv never 2 -> 0"])
        with example("turns") as shell:
            answers = said(shell, "set moves on", "step 0", "tick")
            self.assertRegex(comments(answers)[1], "^tick 1, .* took core 0 in turn after ")

    def test_notifications(self) -> None:
        # (docs/HUNTING.md, a count without its data)
        woken = "worker's note 0 = 1:received, woke worker (core 1)"
        with example("early_count") as shell:
            answers = said(shell, "step 0", "step 1", "set moves on", "step 0")
            self.assertEqual(comments(answers), [f"sender 1 notify worker 0 0 inc -> 1, {woken}"])
        # (docs/tutorials/lost-notification.md, where the control loop has the core)
        expected = [
            "isr notify worker 1 0 inc -> 1, worker's note 1 = 1:received",
            "isr notify worker 0 1 set -> 1, worker's note 0 = 1:received, woke worker (ready)",
        ]
        with example("lost_notification") as shell:
            lines = [it[: it.index(" ->")] for it in expected]
            answers = said(shell, "forward 7", "set moves on", *lines)
            self.assertEqual(comments(answers), expected)

    def test_interrupts(self) -> None:
        lines = ["step 0", "isr notify worker 0 0 inc", "isr notify worker 0 0 inc", "step 0"]
        lines += ["isr send rx 4142", "isr send rx 43", "isr send rx 44", "back 1", "redo 1"]
        expected = [
            "worker 0 take 0 dec max, left core 0 (waits with no limit of time),"
            " console took core 0",
            "isr notify worker 0 0 inc -> 1, worker's note 0 = 1:received, woke worker (core 0),"
            " console left core 0 (displaced)",
            "isr notify worker 0 0 inc -> 1, worker's note 0 = 2:received",
            "worker 0 take 0 dec max -> 2, worker's note 0 = 1:idle",
            "isr send rx 4142 -> 1, rx 1/2",
            "isr send rx 43 -> 1, rx 2/2",
            "isr send rx 44 -> 0",
            "at 6, next: worker 1 add r1 1 (core 0)",
            "isr send rx 44 -> 0",
        ]
        self.check("interrupt", lines, expected)

    def test_many_moves_show_the_last(self) -> None:
        with example("turns") as shell:
            answers = comments(said(shell, "set moves on", "forward 30"))
            self.assertEqual(answers[0], ".. 25 moves not shown; `moves 30` lists all")
            self.assertEqual(
                [line.split()[0] for line in answers[1:]], ["26", "27", "28", "29", "30"]
            )
            self.assertEqual(len(comments(said(shell, "moves 30"))), 31)

    def test_edits_are_told(self) -> None:
        lines = ["poke pc poller 1", "back 1", "redo 1", "moves"]
        told = "poke pc poller 1"
        expected = [
            told,
            "at 0, next: worker 0 recv jobs max (core 0), producer 0 data 41 (core 1)",
        ]
        self.check("lost_item", lines, [*expected, told, f"1  {told}", "at 1"])

    def test_values(self) -> None:
        with example("lost_item") as shell:
            said(shell, "forward 5")
            move = trail.moves(shell.walk, 5, 5)[0][0]
            self.assertEqual(
                (move.place, move.kind, move.tick, move.line), (5, "step", 1, "step 1")
            )
            self.assertEqual((move.core, move.task, move.pc, move.answer), (1, "producer", 1, 1))
            self.assertEqual(move.instruction, "send jobs 0")
            effects = (
                Effect("holds", "jobs", None, "1/1"),
                Effect("woke", "worker", 0),
                Effect("left", "poller", 0, "displaced"),
            )
            self.assertEqual(move.effects, effects)


TASK = "task t0 core 0 pc {} phase run regs {},0,0,0,0,0,0,0 data - notes {}:idle"


def look(place: int, turn: int, pc: int = 0, register: int = 0, note: int = 0) -> Look:
    """A look at a target of one task and one group."""
    lines = [
        f"cores t0 ready - tick 3 turn {turn}",
        TASK.format(pc, register, note),
        f"group g0 bits {place} wait -",
    ]
    return Look.of(place, [read(line) for line in lines])


AT_QUEUE = (
    "task t0 core {} pc 0 phase {} regs 0,0,0,0,0,0,0,0 data - notes {}",
    "task t1 core {} pc 0 phase run regs 0,0,0,0,0,0,0,0 data - notes 0:idle",
    "queue q0 {}/2 items {} recv {} send - set s0",
    "set s0 {}/4 handles {} wait -",
)


def waiting(note: str = "0:idle", items: str = "", handles: str = "") -> Look:
    """A look at a target whose first task waits for an item, and whose second runs."""
    t0, t1, queue, queue_set = AT_QUEUE
    count, held = len(items.split(",")) if items else 0, len(handles.split(",")) if handles else 0
    lines = [
        "cores t1 ready - tick 3 turn 1",
        t0.format("-", "wait:recv:q0:max", note),
        t1.format(0),
        queue.format(count, items or "-", "t0"),
        queue_set.format(held, handles or "-"),
    ]
    return Look.of(4, [read(line) for line in lines])


def awake(note: str = "0:idle", items: str = "") -> Look:
    """The same once the first task was woken, which has displaced the second."""
    t0, t1, queue, queue_set = AT_QUEUE
    lines = [
        "cores t0 ready t1 tick 3 turn 1",
        t0.format("0", "again:max", note),
        t1.format("-"),
        queue.format(len(items.split(",")) if items else 0, items or "-", "-"),
        queue_set.format(0, "-"),
    ]
    return Look.of(5, [read(line) for line in lines])


class Interrupts(unittest.TestCase):
    """Interrupts whose lines are known, and those that looks alone tell of."""

    def test_one_that_is_known(self) -> None:
        cases = {
            "isr send q0 41 -> 1, q0 1/2, woke t0 (core 0), t1 left core 0 (displaced)": (
                ByHand("isr send q0 41", 1),
                awake(items="41"),
            ),
            "isr send q0 41 -> 1, q0 1/2, s0 1/4 handles": (
                ByHand("isr send q0 41", 1),
                waiting(items="41", handles="q0"),
            ),
            "isr send q0 41 -> 0": (ByHand("isr send q0 41", 0), waiting()),
            "isr notify t0 0 5 bits -> 1, t0's note 0 = 5:received": (
                ByHand("isr notify t0 0 5 bits", 1),
                waiting("5:received"),
            ),
        }
        for text, (known, after) in cases.items():
            move = move_between(waiting(), after, lambda task, pc: "jump 0", known)
            self.assertEqual((move.text(), move.kind, move.line), (text, "isr", known.line))

    def test_one_that_is_not(self) -> None:
        cases = {
            "isr send q0 41": awake(items="41"),
            "isr send q0 42": waiting(items="42", handles="q0"),
            "isr notify t0 0 5 set": waiting("5:received"),
            "isr notify t0 0 0 set": awake("0:received"),
        }
        for line, after in cases.items():
            move = move_between(waiting(), after, lambda task, pc: "jump 0")
            self.assertEqual((move.kind, move.line, move.answer), ("isr", line, 1))
        edit = move_between(waiting("5:received"), waiting("6:received"), lambda task, pc: "end")
        self.assertEqual((edit.kind, edit.line), ("edit", "poke note t0 0 6"))

    def test_what_no_single_interrupt_does(self) -> None:
        self.assertIsNone(interrupt_of(waiting(), waiting()))
        self.assertIsNone(interrupt_of(waiting(), waiting("1:received", "41")))
        self.assertIsNone(interrupt_of(waiting(), waiting("1:waiting")))
        self.assertIsNone(interrupt_of(waiting(), waiting(items="41,42")))
        self.assertIsNone(interrupt_of(waiting(items="41"), waiting()))
        self.assertIsNone(edit_of(waiting(), waiting("0:received")))

    def test_what_can_have_been_done_at_a_place(self) -> None:
        sent, told = waiting(items="4100"), waiting("7:received")
        held = {
            ByHand("isr send q0 41", 1): (waiting(), sent),
            ByHand("isr send q0 410041", 1): (waiting(), sent),
            ByHand("isr send q0 42", 0): (sent, sent),
            ByHand("isr notify t0 0 7 set", 1): (waiting("9:received"), told),
            ByHand("isr notify t0 0 7 setif", 0): (told, told),
            ByHand("isr notify t0 0 6 bits", 1): (waiting("1:idle"), told),
            ByHand("isr notify t0 0 9 inc", 1): (waiting("6:idle"), told),
            ByHand("isr notify t0 0 9 none", 1): (waiting("7:idle"), told),
            ByHand("isr notify t9 0 9 none", 1): (waiting(), waiting()),
        }
        for known, (before, after) in held.items():
            self.assertTrue(could_be(before, after, known), known)
        others = {
            ByHand("isr send q0 42", 1): (waiting(), sent),
            ByHand("isr send q0 41", 0): (waiting(), sent),
            ByHand("isr notify t0 0 8 set", 1): (waiting(), told),
            ByHand("isr notify t0 0 7 setif", 0): (waiting(), told),
            ByHand("poke reg t0 0 9"): (waiting(), told),
        }
        for known, (before, after) in others.items():
            self.assertFalse(could_be(before, after, known), known)


class Others(unittest.TestCase):
    """Moves by others, of which nothing is known but the looks."""

    def test_an_edit_is_told_from_a_step(self) -> None:
        script = {0: "send q0 0", 1: "jump 1"}
        before = look(4, 1)
        edits = {
            "poke reg t0 0 7": look(4, 1, register=7),
            "poke note t0 0 7": look(4, 1, note=7),
            "poke group g0 5": look(5, 1),
        }
        for line, after in edits.items():
            move = move_between(before, after, lambda task, pc: script[pc])
            self.assertEqual((move.kind, move.line), ("edit", line))
        step = move_between(before, look(4, 1, pc=1, register=1), lambda task, pc: script[pc])
        self.assertEqual((step.line, step.answer), ("step 0", 1))
        again = move_between(look(4, 1, pc=1), look(4, 1, pc=1), lambda task, pc: script[pc])
        self.assertEqual(again.line, "step 0")

    def test_without_the_script(self) -> None:
        move = move_between(look(4, 0), look(4, 1, pc=1, register=1), lambda task, pc: None)
        self.assertEqual(move.text(), "t0 0, r0 = 1")

    def test_more_than_one_edit_can_t_be_told(self) -> None:
        self.assertIsNone(edit_of(look(4, 1), look(5, 1, note=3)))

    def test_a_look_needs_the_cores(self) -> None:
        with self.assertRaises(replies.Unreadable):
            Look.of(0, [read("moves 1 undone 0 kept 1")])
        self.assertEqual(Names(("t0",)).lines(), ["show cores", "show task t0"])


if __name__ == "__main__":
    unittest.main()
