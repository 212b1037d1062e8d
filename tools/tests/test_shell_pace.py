"""`pace`, `go` and `interrupts` of the prompt, and what Continue does at a pace in an editor."""
import contextlib
import pathlib
import random
import tempfile
import unittest
from typing import Dict, Iterator, List

from rdbg.driving.pacing import Clock, TickPace, pace
from rdbg.files.source import load
from rdbg.goals.paced import PacedWalk
from rdbg.replies import Cores
from rdbg.shell import paces
from rdbg.shell.shell import Shell
from tests import shell_apps, shell_talk
from tests.dap_client import editor

TEXT = """cores 2
queue jobs length 1 item 1
interrupt ping apart 3 times 2: send jobs 0x07
interrupt pong after ping: send jobs 0x08
task waits priority 2
    recv jobs 5
    if r0 = 0 goto late
    add r1 1
late:
    end
task sends priority 1
    set r2 4
    while r2
        add r2 -1
    end
    send jobs 0
    end
"""


@contextlib.contextmanager
def opened(text: str = TEXT) -> Iterator[Shell]:
    """A prompt on a text."""
    with tempfile.TemporaryDirectory() as folder:
        path = pathlib.Path(folder) / "x.fw"
        path.write_text(text)
        with shell_talk.opened(load(str(path))) as shell:
            yield shell


def asked(shell: Shell, *lines: str) -> List[str]:
    """The lines that make moves, which these lines of the prompt ask the program."""
    said = shell_talk.said(shell, "set echo on", *lines, "set echo off")
    return [
        it[2:] for it in said if it[:2] == "> " and it[2:].split()[0] in ("step", "tick", "isr")
    ]


class Reads(unittest.TestCase):
    """What is a pace."""

    def test_those_that_are(self) -> None:
        for text, wanted in (
            ("5..20", TickPace(5, 20)),
            ("5..", TickPace(5)),
            ("..20", TickPace(0, 20)),
            ("0..1", TickPace(0, 1)),
            ("255..255", TickPace(255, 255)),
        ):
            self.assertEqual(wanted, pace(text))

    def test_those_that_are_not(self) -> None:
        for text in (
            "",
            "..",
            "5",
            "20..5",
            "256..",
            "..256",
            "0..0",
            "..0",
            "a..b",
            "-1..3",
            "1...3",
        ):
            self.assertIsNone(pace(text), text)

    def test_the_next_line(self) -> None:
        found = TickPace(2)
        for running, made, line in (
            (("a", "b"), (0, 0), "step 0"),
            (("a", "b"), (1, 0), "step 1"),
            (("a", "b"), (2, 1), "step 1"),
            (("a", "b"), (2, 2), "tick"),
            ((None, "b"), (0, 0), "step 1"),
            ((None, None), (0, 0), "tick"),
        ):
            self.assertEqual(line, found.line(Cores(running, (), 0, 0), made))

    def test_a_task_that_has_come_begins_anew(self) -> None:
        clock = Clock().seen(("a", "b")).moved(0).moved(1)
        self.assertEqual((0, 1), clock.seen(("c", "b")).of(2))


class Go(unittest.TestCase):
    """Runs at a pace."""

    def test_each_busy_core_makes_enough_between_two_ticks(self) -> None:
        with opened() as shell:
            found = asked(shell, "pace 5..20", "go 13")
        self.assertEqual(["step 0", *["step 1"] * 5, "tick", *["step 1"] * 5, "tick"], found)

    def test_a_wait_of_five_ticks_is_longer_than_five_instructions(self) -> None:
        with opened() as shell:
            shell_talk.said(shell, "go 40")
            self.assertEqual(0, shell.look().tasks["waits"].registers[1])
        with opened() as shell:
            shell_talk.said(shell, "pace 5..20", "go 40")
            self.assertEqual(1, shell.look().tasks["waits"].registers[1])

    def test_one_move_at_a_time_is_the_same_run(self) -> None:
        with opened() as shell:
            at_once = asked(shell, "pace 3..", "go 12")
        with opened() as shell:
            self.assertEqual(at_once, asked(shell, "pace 3..", "set moves on", *["go 1"] * 12))

    def test_ticks(self) -> None:
        with opened() as shell:
            found = asked(shell, "pace 2..", "go 3 ticks")
            self.assertEqual(("tick", 3), (found[-1], found.count("tick")))
            self.assertEqual(3, shell.look().cores.tick)

    def test_moves_that_are_by_hand_count(self) -> None:
        with opened() as shell:
            found = asked(shell, "pace 3..", "go 1", "step 1", "step 1", "go 2")
        self.assertEqual(["step 0", "step 1", "step 1", "step 1", "tick"], found)

    def test_without_a_pace_it_is_forward(self) -> None:
        with opened() as shell:
            said = shell_talk.said(shell, "set echo on", "go 7", "go 7 ticks", "pace")
        self.assertIn("> forward 7", said)
        self.assertIn("# `go COUNT ticks` needs a pace; set one with `pace 5..20`", said)
        self.assertTrue(said[-1].startswith("# no pace: a run makes one instruction"))

    def test_it_ends_where_there_is_no_move(self) -> None:
        text = TEXT.replace("cores 2", "cores 2\ntick 4294967290")
        with opened(text) as shell:
            said = shell_talk.said(shell, "pace 1..", "go 90 ticks")
        self.assertEqual("no TickLimit", said[1])

    def test_what_is_refused(self) -> None:
        with opened() as shell:
            for line, begins in (
                ("pace 5", "# '5' is not a pace; a pace is M..N, M.. or ..N"),
                ("pace 1..2 3", "# the form is `pace 5..20` or `pace none`"),
                ("go", "# `go 10` makes ten moves at the pace"),
                ("go 5 moves", "# `go 10` makes ten moves at the pace"),
                ("interrupts pign", "# interrupt 'pign' is not defined (did you mean 'ping'?)"),
                ("interrupts pong", "# pong occurs only after ping; use `interrupts ping pong`"),
            ):
                found = shell_talk.said(shell, line)
                self.assertEqual(begins, found[0][: len(begins)])

    def test_random_runs_are_what_a_pace_allows(self) -> None:
        for seed in range(12):
            chance = random.Random(seed)
            least = chance.randint(1, 4)
            with shell_talk.opened(shell_apps.application(seed)) as shell:
                paces.take(shell, TickPace(least), ())
                self.check(shell, least)

    def check(self, shell: Shell, least: int) -> None:
        """Sees that no tick comes before each busy core has made enough since the last one, and
        that none makes more."""
        made: Dict[int, int] = {}
        running = shell.look().cores.running
        walk = shell.walk
        assert isinstance(walk, PacedWalk)
        for _ in range(60):
            before = shell.target.look().cores
            walk.forward(1)
            after = shell.target.look().cores
            for core, (was, now) in enumerate(zip(running, before.running)):
                made[core] = made.get(core, 0) if was == now else 0
            running = before.running
            if after.tick > before.tick:
                busy = [core for core, task in enumerate(running) if task]
                self.assertTrue(all(made.get(core, 0) >= least for core in busy), (made, busy))
                made = {}
            else:
                core = max(0, after.turn - 1)
                made[core] = made.get(core, 0) + 1
                self.assertLessEqual(made[core], least)


class Goals(unittest.TestCase):
    """until! and continue at a pace, and ways back."""

    def test_until_and_continue(self) -> None:
        with opened() as shell:
            said = shell_talk.said(shell, "pace 5..20", "until! reg waits 1 = 1")
            self.assertIn("met: reg waits 1 = 1", said[1])
            place = shell.target.place
            self.assertEqual(0, shell.target.places().undone)
            said = shell_talk.said(shell, "continue", f"goto {place - 3}", "until! reg waits 1 = 1")
            self.assertEqual(place, shell.target.place)
            self.assertIn("met: finished", said[0])

    def test_forward_stays_the_programs(self) -> None:
        with opened() as shell:
            said = shell_talk.said(shell, "pace 5..20", "set echo on", "forward 4", "s 2")
        self.assertIn("> forward 4", said)
        self.assertIn("> forward 2", said)

    def test_reload_keeps_it(self) -> None:
        with opened() as shell:
            shell_talk.said(shell, "pace 5..20", "go 3", "reload")
            self.assertEqual(["step 1"] * 2, asked(shell, "go 2"))
            self.assertIsInstance(shell.walk, PacedWalk)

    def test_reach_asks_at_the_pace_and_with_them(self) -> None:
        with opened() as shell:
            said = shell_talk.said(shell, "reach ended waits and reg waits 1 = 0")
            self.assertEqual("# found", said[0])
            said = shell_talk.said(shell, "pace 7..", "reach ended waits and reg waits 1 = 0")
            self.assertEqual("# never", said[1])
            shell_talk.said(shell, "interrupts ping")
            said = shell_talk.said(shell, "reach reg waits 1 = 1 and reg sends 2 = 4")
            self.assertEqual(("# found", True), (said[0], "#   isr send jobs 07" in said))

    def test_interrupts_come_by_themselves(self) -> None:
        with opened() as shell:
            found = asked(shell, "pace 1..", "interrupts ping pong", "go 20")
        self.assertEqual(2, found.count("isr send jobs 07"))
        self.assertEqual(1, found.count("isr send jobs 08"))
        first, second = [at for at, it in enumerate(found) if it == "isr send jobs 07"]
        self.assertGreaterEqual(found[first:second].count("tick"), 3)
        self.assertLess(found.index("isr send jobs 07"), found.index("isr send jobs 08"))


class InAnEditor(unittest.TestCase):
    """Continue at a pace."""

    def setUp(self) -> None:
        folder = tempfile.TemporaryDirectory()
        self.addCleanup(folder.cleanup)
        self.file = pathlib.Path(folder.name) / "x.fw"
        self.file.write_text(TEXT)

    def test_it_stops_at_the_same_place_as_the_prompt(self) -> None:
        with opened() as shell:
            shell_talk.said(shell, "pace 5..20", "until! pc waits = 2")
            place = shell.target.place
        with editor() as client:
            client.begin(self.file, pace="5..20")
            client.lines(self.file, 8)
            client.stopped("continue", threadId=client.thread("waits"))
            self.assertEqual(place, client.place())
            client.stopped("reverseContinue", threadId=client.thread("waits"))
            client.stopped("continue", threadId=client.thread("waits"))
            self.assertEqual(place, client.place())

    def test_by_a_line(self) -> None:
        with editor() as client:
            client.begin(self.file)
            self.assertIn("pace 5..20", client.typed("pace 5..20"))
            client.lines(self.file, 8)
            client.stopped("continue", threadId=client.thread("waits"))
            self.assertEqual("2", client.typed("print pc waits").split()[-1])

    def test_no_pace_any_more(self) -> None:
        with opened() as shell:
            shell_talk.said(shell, "until! pc waits = 3")
            place = shell.target.place
        with editor() as client:
            client.begin(self.file, pace="5..20")
            client.lines(self.file, 8, 10)
            client.stopped("next", threadId=client.thread("waits"))
            client.typed("pace none")
            client.stopped("reverseContinue", threadId=client.thread("waits"))
            client.stopped("continue", threadId=client.thread("waits"))
            self.assertEqual(place, client.place())

    def test_what_is_refused(self) -> None:
        with editor() as client:
            client.ask("initialize", adapterID="x")
            said = client.refused("launch", program=str(self.file), pace="5")
            self.assertIn("pace: '5' is not a pace: a pace is M..N", said)
            said = client.refused("launch", program=str(self.file), interrupts=["pign"])
            self.assertIn("interrupt 'pign' is not defined (did you mean 'ping'?)", said)
            said = client.refused("launch", program=str(self.file), consts=["X=1"])
            self.assertIn("-D X: const 'X' is not defined", said)


if __name__ == "__main__":
    unittest.main()
