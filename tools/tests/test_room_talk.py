"""What a room's talk has of who is there with a prompt, and what the others are told of it: what was
typed, and what that came to."""
import pathlib
import re
import subprocess
import sys
import unittest
from typing import List, Tuple

from rdbg.rooms.room import Member, Room
from rdbg.rooms.talk import Talk
from rdbg.files.source import load
from tests.paths import COMPANION
from tests.rooms import LOST, Caller, Process, room, rows, talk
from tests.shell_terminal import PROMPT, Terminal

LOOKS = ("where", "info tasks", "info jobs", "print r0 worker", "list worker")


def filtered(here: Process, *lines: str, name: str = "ada") -> List[str]:
    """What a filter in a room prints; without a name that of a guest."""
    named = ["--name", name] if name else []
    words = ["sh", "--port", str(here.port), LOST, *named]
    ran = subprocess.run(
        [sys.executable, "-B", str(COMPANION), *words],
        input="".join(f"{line}\n" for line in lines),
        stdout=subprocess.PIPE,
        stderr=subprocess.PIPE,
        text=True,
    )
    assert ran.returncode == 0, ran.stderr
    return ran.stdout.splitlines()


def of(name: str, file: pathlib.Path) -> List[Tuple[str, str]]:
    """The lines of somebody in a talk, each with its reply."""
    return [(line, reply) for who, line, reply in rows(file) if who == name and line != "#"]


class Typed(unittest.TestCase):
    """What is typed at a prompt stands in the talk, and what the prompt asks by itself doesn't."""

    def test_a_filter(self) -> None:
        typed = [
            "set moves on",
            "step producer",
            "tick",
            "show queue jobs",
            "step 9",
            *LOOKS,
            "moves 2",
        ]
        with talk() as file, room("--talk", str(file)) as here:
            filtered(here, *typed, "# say well", "until! count jobs > 0  # where a job comes")
            here.end()
            kept = of("ada", file)
        self.assertEqual(kept[0], ("step producer", "ok at 1 | producer 0 data 41"))
        self.assertEqual(kept[1][0], "tick")
        self.assertEqual(kept[1][1], "ok at 2")
        self.assertRegex(kept[2][1], "^queue jobs 0/1 ")
        self.assertEqual(kept[3], ("step 9", "no NoSuch"))
        self.assertEqual([line for line, _ in kept[4:9]], list(LOOKS))
        self.assertIn("queue jobs", kept[6][1])
        self.assertEqual(kept[9][0], "# moves 2")
        self.assertEqual(kept[10], ("# say well", "ada says: well"))
        self.assertEqual(kept[11][0], "until! count jobs > 0")
        self.assertRegex(kept[11][1], r"^at \d+ met: count jobs > 0 \(\d+ lines asked\) | ")
        self.assertEqual(len(kept), 12)

    def test_a_terminal(self) -> None:
        with talk() as file, room("--talk", str(file)) as here:
            words = ["--port", str(here.port), LOST, "--name", "ada"]
            terminal = Terminal(*words, environment={"RDBG_HISTORY": ""})
            try:
                terminal.expect(PROMPT)
                for line in ("show queue jobs", "step 1", "", "forward 100000", "watch tick = 1"):
                    terminal.ask(line)
                terminal.type("\x04")
                self.assertEqual(terminal.end(), 0)
            finally:
                terminal.kill()
            here.end()
            kept = of("ada", file)
        self.assertEqual(
            [line for line, _ in kept],
            ["show queue jobs", "step 1", "step 1", "forward 100000", "watch tick = 1"],
        )
        self.assertEqual([reply for _, reply in kept[1:3]], ["ok at 1", "ok at 2"])
        self.assertEqual(kept[4][1], "ok watch 0")

    def test_a_bare_connection_keeps_all(self) -> None:
        lines = ["show moves", "show cores", "show moves", "step 1", "show moves", "# who", "x"]
        with talk() as file, room("--talk", str(file)) as here, Caller(here.port, "nc") as caller:
            caller.send(*lines)
            caller.expect("no Syntax")
            here.end()
            self.assertEqual([line for line, _ in of("nc", file)], lines)

    def test_an_attach_is_none(self) -> None:
        with talk() as file, room("--talk", str(file)) as here:
            for _ in range(3):
                filtered(here)
            filtered(here, "", "info jobs", name="")
            here.end()
            self.assertEqual(of("ada", file), [])
            self.assertEqual([line for line, _ in of("guest1", file)], ["info jobs"])

    def test_a_line_that_is_as_long_as_can_be(self) -> None:
        with talk() as file, room("--talk", str(file)) as here:
            blank = " " * 1_013
            filtered(here, f"info worker{blank}", "forward 60", "moves all", "info tasks")
            here.end()
            kept = of("ada", file)
        self.assertEqual(
            [line for line, _ in kept], ["info worker", "forward 60", "moves all", "info tasks"]
        )
        self.assertTrue(kept[2][1].startswith("1  core 0  worker 0 recv jobs max, "), kept[2][1])
        self.assertTrue(kept[2][1].endswith(".."))
        self.assertEqual(len(f"# did {kept[2][1]}"), 1_024)


class ToldOnce(unittest.TestCase):
    """The others are told in one line what a word of sh's came to."""

    def told(self, *lines: str, first: str = "forward 12") -> List[str]:
        """What somebody hears while another one's filter does these lines."""
        with room() as here, Caller(here.port, "bo") as bo:
            bo.ask(first)
            filtered(here, *lines)
            heard: List[str] = []
            while not heard or not heard[-1].startswith("# ada is away"):
                heard.append(bo.expect("#"))
        return [it for it in heard if it.startswith("# ada: ") or not it.startswith("# ada ")]

    def test_a_way_back(self) -> None:
        (told,) = self.told("rc changes jobs")
        self.assertRegex(told, r"^# ada: rc changes jobs -> ok at \d+ met: changes jobs \(")
        (told,) = self.told("rc failed")
        self.assertRegex(
            told, r"^# ada: rc failed -> ok still at 12: 'failed' was not met before \("
        )
        first, told = self.told("break count jobs > 0", "rc")
        self.assertEqual(first, "# ada: watch count jobs > 0 -> ok watch 0")
        self.assertRegex(
            told, r"^# ada: rc -> ok at \d+ met: w0, count jobs > 0 \(\d+ lines asked\)$"
        )

    def test_other_words(self) -> None:
        self.assertEqual(self.told("tick 5"), ["# ada: tick 5 -> ok at 17"])
        (told,) = self.told("until! count jobs > 0", first="step 1")
        self.assertRegex(told, r"^# ada: until! count jobs > 0 -> ok at \d+ met: count jobs > 0 \(")
        (told,) = self.told("moves all")
        self.assertEqual(told, "# ada: moves all -> ok at 12")
        self.assertEqual(self.told("info tasks", "where", "list worker"), [])

    def test_a_word_that_is_one_line_is_told_as_that(self) -> None:
        told = self.told("step producer", "goto 0", first="step 0")
        self.assertEqual(told[0], "# ada: step 1 -> ok at 2, producer 0 data 41")
        self.assertRegex(told[1], "^# ada: back 2 -> ok at 0, next: ")
        self.assertEqual(len(told), 2)


class Doings(unittest.TestCase):
    """`# does TEXT` and `# did TEXT`, without a prompt."""

    def setUp(self) -> None:
        self.heard: List[str] = []
        kept = talk()
        self.file = kept.__enter__()
        self.addCleanup(kept.__exit__, None, None, None)
        self.room = Room(load(LOST), sessions=4, talk=Talk(str(self.file)))
        self.addCleanup(self.room.close)
        self.own: List[str] = []
        self.ada = self.room.join("ada", self.own.append)
        self.bo = self.room.join("bo", self.heard.append)
        self.heard.clear()

    def do(self, member: Member, *lines: str) -> None:
        """Somebody says these lines."""
        for line in lines:
            if line.startswith("#"):
                member.remark(line)
            else:
                member.ask(line)

    def test_looks_of_a_program_are_not_kept(self) -> None:
        self.do(self.ada, "# does", "show cores", "show moves", "x", "tick", "# did", "show cores")
        kept = of("ada", self.file)
        self.assertEqual([line for line, _ in kept], ["tick", "show cores"])
        self.assertEqual([it[:24] for it in self.heard], ["# ada: tick -> ok at 1, "])

    def test_what_others_do_meanwhile_is_told_behind_it(self) -> None:
        self.do(self.ada, "# does something", "step 1", "step 1", "show cores")
        self.bo.ask("watch tick = 3")
        self.assertEqual(self.heard, ["# bo: watch tick = 3 -> ok watch 0"])
        self.heard.clear()
        self.bo.ask("tick")
        self.do(self.ada, "step 0", "# did at 9 met: no place that there is | more")
        told = [re.sub(", .*", "", it) for it in self.heard]
        places = [
            "# ada: something -> ok at 2",
            "# bo: tick -> ok at 3",
            "# ada: step 0 -> ok at 4",
        ]
        self.assertEqual(told, places)
        self.assertEqual(len([it for it in self.own if it.startswith("# ada: step")]), 3)
        kept = [("something", "at 9 met: no place that there is | more")]
        self.assertEqual(of("ada", self.file), kept)

    def test_what_is_done_by_hand_is_told_and_kept_by_itself(self) -> None:
        lines = [
            "# does nothing",
            "tick",
            "tick",
            "poke reg worker 3 7",
            "trim 0",
            "tick",
            "# did \x1b[",
        ]
        self.do(self.ada, *lines)
        told = [re.sub(", .*", "", it) for it in self.heard]
        by_hand = [
            "# ada: nothing -> ok at 2",
            "# ada: poke reg worker 3 7 -> ok at 3",
            "# ada: trim 0 -> ok at 3",
            "# ada: tick -> ok at 4",
        ]
        self.assertEqual(told, by_hand)
        kept = [("poke reg worker 3 7", "ok at 3"), ("trim 0", "ok at 3"), ("nothing", "\\x1b[")]
        self.assertEqual(of("ada", self.file), kept)

    def test_one_that_is_broken_off(self) -> None:
        self.do(self.ada, "# does rc stuck", "tick", "tick")
        self.ada.leave()
        self.assertEqual(self.heard, ["# ada: rc stuck -> ok at 2", "# ada is away"])
        self.assertEqual(of("ada", self.file), [("rc stuck", "interrupted, at 2")])

    def test_more_than_can_be_said_in_a_second(self) -> None:
        for number in range(50):
            self.do(self.ada, f"# does {number}", "show cores", "# did")
        self.assertEqual(len(of("ada", self.file)), 50)


if __name__ == "__main__":
    unittest.main()
