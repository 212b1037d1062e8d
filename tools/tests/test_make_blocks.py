"""`if`, `while`, `loop` and their kin in a text in lines: what they become, and that it does what
is written, at the cost that is said."""
import json
import pathlib
import re
import tempfile
import unittest
from typing import Callable, Dict, List, Sequence

from rdbg.application import Instruction
from rdbg.client import Session
from rdbg.files.source import Source, load, source
from rdbg.firmware.branches import Tests as Reading
from rdbg.firmware.numbers import Constants, Kept
from rdbg.firmware.tokens import Refusal, Scanner
from rdbg.replies import Task, read
from tests import shell_talk
from tests.test_make_faults import faults

CONSTS = ("const STOP 1 << 2", "const FULL 2")
HEAD = "\n".join(["cores 1", "notes 2", *CONSTS, "task t priority 1", ""])
VALUES = (0, 1, 2, 3, 4, 6, 7, 8, 0xFFFF_FFFF)
# Each test, and when it is met.
TESTS: Dict[str, Callable[[int], object]] = {
    "r2": lambda it: it != 0,
    "!r2": lambda it: it == 0,
    "not r2": lambda it: it == 0,
    "!!r2": lambda it: it != 0,
    "r2 = 0": lambda it: it == 0,
    "r2 == 7": lambda it: it == 7,
    "r2=7": lambda it: it == 7,
    "r2 != 7": lambda it: it != 7,
    "(r2 != 0)": lambda it: it != 0,
    "r2 = -1": lambda it: it == 0xFFFF_FFFF,
    "r2 & STOP": lambda it: it & 4,
    "r2&1<<2": lambda it: it & 4,
    "!(r2 & STOP)": lambda it: not it & 4,
    "r2 & (STOP|FULL)": lambda it: it & 6,
    "(r2 & (STOP|FULL)) == (STOP|FULL)": lambda it: it & 6 == 6,
    "(r2 & (STOP|FULL)) != STOP": lambda it: it & 6 != 4,
    "(r2 & STOP) != 0": lambda it: it & 4,
    "(r2 & STOP) == 0": lambda it: not it & 4,
    "!((r2 & 3) = 3)": lambda it: it & 3 != 3,
    "r2 & 0xffffffff": lambda it: it != 0,
}


def made(text: str) -> Source:
    """A text without faults."""
    found = source("x.fw", text.encode())
    assert found.application is not None, [str(fault) for fault in found.faults]
    return found


def code(*lines: str) -> List[str]:
    """The instructions of a script."""
    application = made("\n".join([HEAD, *lines, ""])).application
    assert application is not None
    return [it.text for it in application.tasks[0].code]


def shown(session: Session, name: str) -> Task:
    """A task as the program shows it."""
    found = read(session.tell(f"show task {name}"))
    assert isinstance(found, Task)
    return found


def ran(text: str, moves: int = 400) -> Task:
    """The first task of a text when it has ended."""
    with made(text).as_json() as path, Session.run(path) as session:
        session.tell(f"until phase t ended {moves}")
        found = shown(session, "t")
        assert found.phase.word == "ended", found
        return found


class EachTest(unittest.TestCase):
    """Each test with each value, in a register of its own and in r0: the tasks of one core, which
    end one behind the other."""

    def script(self, test: str, register: str, value: int) -> List[str]:
        """A script that looks at a value."""
        other = "r0" if register != "r0" else "r2"
        look = f"if {test.replace('r2', register)} goto yes"
        return [f"set {register} {value}", f"set {other} 9", look, "end", "yes: end"]

    def look(self, session: Session, task: Task, code: Sequence[Instruction], is_met: bool) -> None:
        """Sees where an `if` goes on, what it changes, and what it costs."""
        list(session.tell_all(["step 0"] * 2))
        part = code[2].part
        assert part is not None
        costs = [int(it) for it in re.findall(r"[0-9]+", part.cost)]
        moves = costs[-1] if is_met else costs[0]
        registers = shown(session, task.name).registers
        list(session.tell_all(["step 0"] * (moves - 1)))
        self.assertLess(shown(session, task.name).pc, len(code) - 2, "it costs less")
        session.tell("step 0")
        now = shown(session, task.name)
        self.assertEqual(len(code) - 2 + is_met, now.pc)
        self.assertEqual(registers[:7], now.registers[:7])
        self.assertEqual(["0:idle"] * 2, [f"{it.value}:{it.state}" for it in now.notes])
        session.tell("step 0")

    def test_each(self) -> None:
        cases = [(value, register) for value in VALUES for register in ("r2", "r0")]
        for test, when in TESTS.items():
            lines = ["cores 1", "notes 2", *CONSTS]
            for at, (value, register) in enumerate(cases):
                lines += [f"task t{at} priority 1", *self.script(test, register, value)]
            found = made("\n".join(lines))
            assert found.application is not None
            with found.as_json() as path, Session.run(path) as session:
                for (value, register), task in zip(cases, found.application.tasks):
                    with self.subTest(test=test, value=value, register=register):
                        now = shown(session, task.name)
                        self.assertEqual(0, now.core)
                        self.look(session, now, task.code, bool(when(value)))


class Structure(unittest.TestCase):
    """Blocks, and what they become."""

    def test_a_loop(self) -> None:
        lines = ["loop", "add r1 1", "if r1 = 3 break", "end", "end"]
        wanted = ["add r1 1", "move r7 r1", "add r7 4294967293", "jumpz r7 5", "jump 0", "end"]
        self.assertEqual(wanted, code(*lines))
        self.assertEqual(3, ran("\n".join([HEAD, *lines])).registers[1])

    def test_a_loop_that_never_ends_is_the_end_of_a_script(self) -> None:
        self.assertEqual(["add r1 1", "jump 0"], code("loop", "add r1 1", "end"))

    def test_a_while(self) -> None:
        lines = ["set r1 4", "while (r1 != 0)", "add r2 10", "add r1 -1", "end", "end"]
        self.assertEqual(40, ran("\n".join([HEAD, *lines])).registers[2])

    def test_continue_looks_at_the_test_again(self) -> None:
        lines = ["set r1 5", "while r1", "add r1 -1", "if r1 = 2 continue", "add r2 1", "end end"]
        lines[-1:] = ["end", "end"]
        self.assertEqual(4, ran("\n".join([HEAD, *lines])).registers[2])
        lines = ["loop", "add r1 1", "if r1 = 5 goto out", "continue", "end", "out: end"]
        self.assertEqual(5, ran("\n".join([HEAD, *lines])).registers[1])

    def test_if_and_else(self) -> None:
        for value, wanted in ((7, 1), (8, 2)):
            lines = [f"set r1 {value}", "if r1 == 7", "set r2 1", "else", "set r2 2", "end", "end"]
            self.assertEqual(wanted, ran("\n".join([HEAD, *lines])).registers[2])

    def test_a_line_of_no_script_stands_in_a_block(self) -> None:
        found = code("if r1", "queue more length 1 item 1", "end", "end")
        self.assertEqual(["jumpz r1 1", "end"], found)

    def test_blocks_in_blocks(self) -> None:
        lines = ["set r1 3", "while r1", "add r1 -1", "set r2 3", "loop", "add r2 -1", "add r3 1"]
        lines += ["if r2 = 0", "break", "end", "if r1 = 1", "break", "else", "add r4 1", "end end"]
        lines[-1:] = ["end loop", "end while", "end"]
        lines.insert(-3, "end if")
        found = ran("\n".join([HEAD, *lines]))
        # (of three rounds the second one leaves its loop at once)
        self.assertEqual((7, 4), (found.registers[3], found.registers[4]))

    def test_the_end_of_a_task_in_a_block(self) -> None:
        lines = ["loop", "add r1 1", "if r1 = 2", "end task", "end", "end"]
        self.assertIn("end", code(*lines))
        self.assertEqual(2, ran("\n".join([HEAD, *lines])).registers[1])
        self.assertEqual(["end"], code("end task"))

    def test_labels_at_blocks(self) -> None:
        lines = ["top: loop", "add r1 1", "if r1 = 2 goto out", "jump top", "end", "out: end"]
        self.assertEqual(2, ran("\n".join([HEAD, *lines])).registers[1])

    def test_a_register_and_an_entry_that_nobody_uses(self) -> None:
        def first(*lines: str) -> str:
            return "; ".join(code("if r2 & 1 goto out", *lines, "out: end")[:2])

        self.assertEqual("move r7 r0; notify t 1 r2 set", first("add r1 1"))
        self.assertEqual("move r6 r0; notify t 1 r2 set", first("set r7 1"))
        self.assertEqual("move r7 r0; notify t 0 r2 set", first("take 1 clear 0"))
        self.assertEqual("move r7 r0; notify t 0 r2 set", first("notify t 1 0 inc"))
        used = [f"set r{it} 1" for it in range(3, 8)]
        self.assertEqual("move r1 r0; notify t 1 r2 set", first(*used))

    def test_an_entry_that_others_tell(self) -> None:
        text = HEAD + "if r2 & 1 goto out\nout: end\ntask u priority 1\nnotify t 1 0 inc\nend\n"
        application = made(text).application
        assert application is not None
        self.assertEqual("notify t 0 r2 set", application.tasks[0].code[1].text)

    def test_a_buffer_has_entry_0(self) -> None:
        text = HEAD.replace("notes 2", "notes 1\nstream s size 4 trigger 1")
        found = faults((text + "sread s 1 0\nif r0 & 1 goto out\nout: end\n").encode())
        self.assertIn("needs a free notification entry", found[0])


class Refused(unittest.TestCase):
    """What is refused, each with what would be right."""

    LINES = {
        "if": "if TEST goto LABEL, or if TEST .. end: missing test",
        "if r0 > 3 goto x": "registers cannot be ordered (use = or !=)",
        "if r0 <= 3 goto x": "registers cannot be ordered (use = or !=)",
        "if r0 = r1 goto x": "a register can only be compared with or masked by a number",
        "if r0 & r1 goto x": "a register can only be compared with or masked by a number",
        "if count goto x": "a test must begin with r0 to r7, found 'count' (for example r0, !r0,"
        " r0 = 7, r0 != 7 or r0 & STOP)",
        "if r0 & STOP|FULL goto x": "in C, this means (.. & STOP) | .. (write & (STOP | ..))",
        "if r0 == STOP|1 goto x": "in C, this means (.. = STOP) | .. (write = (STOP | ..))",
        "if r0 & 3 == 3 goto x": "in C, this sign binds tighter than & (write (r0 & N) = N)",
        "if !r0 = 3 goto x": "! applies to r0 only (to negate the whole test, write !(..))",
        "if r0 && r1 goto x": "only one test is allowed per line",
        "if (r0 & 3) = 4 goto x": "the bits 0x3 can never equal 0x4",
        "if (r0 = 3) = 1 goto x": "the result of a test can only be compared with 0",
        "if r0 & 0 goto x": "the mask is 0, so no bit is tested",
        "if (r0 = 3 goto x": "this ( is not closed",
        "if r0 = STP goto x": "'STP' is neither a number nor a const (did you mean 'STOP'?)",
        "if r0 goto": "if TEST goto LABEL, or if TEST .. end: unexpected 'goto'",
        "if r0 then": "if TEST goto LABEL, or if TEST .. end: unexpected 'then'",
        "if r0 break": "break outside of loop and while",
        "break": "break outside of loop and while",
        "continue": "continue outside of loop and while",
        "else": "else without if",
    }

    def test_lines(self) -> None:
        for line, said in self.LINES.items():
            with self.subTest(line):
                found = faults(f"{HEAD}{line}\nx: add r1 1\nend task\n".encode())
                self.assertEqual(f"6:{found[0].split(':')[1]}: {said}", found[0])
                others = [it for it in found[1:] if "has no end" not in it]
                self.assertEqual([], others)

    def script(self, *lines: str) -> List[str]:
        """The faults of a script, without their places."""
        return [it.split(": ", 1)[1] for it in faults("\n".join([HEAD, *lines, ""]).encode())]

    def test_blocks(self) -> None:
        self.assertEqual(["task t: this loop has no end"], self.script("loop", "jump 0"))
        self.assertEqual(
            ["the if of line 7 is empty (to end the task, write end task)"],
            self.script("if r0", "end", "end"),
        )
        self.assertEqual(
            ["this end closes the loop of line 7 (to end the task, write end task)"],
            self.script("loop", "add r1 1", "end while", "end", "end"),
        )
        self.assertEqual(
            ["task t: nothing follows this while (add end or jump after it)"],
            self.script("while r1", "add r1 -1", "end"),
        )
        self.assertEqual(
            ["task t: nothing follows this loop (add end or jump after it)"],
            self.script("loop", "if r1 break", "end"),
        )
        self.assertEqual(
            ["else must stand alone (write the if on the next line, with its own end)"],
            self.script("if r0", "add r1 1", "else if r1", "add r1 1", "end", "end"),
        )
        self.assertEqual(
            ["loop: blocks have no braces (they end with end)"],
            self.script("loop {", "add r1 1", "end"),
        )

    def test_where_nothing_is_free(self) -> None:
        used = [f"set r{it} 1" for it in range(1, 8)]
        found = self.script(*used, "if r2 = 7 goto out", "out: end")
        said = "this line needs a free register, but the task uses all of r1 to r7"
        self.assertEqual([f'task t, instruction 7: "if r2 = 7 goto out": {said}'], found)
        found = self.script("take 0 clear 1", "take 1 clear 1", "if r2 & 7 goto out", "out: end")
        said = "this line needs a free notification entry (raise the number in notes N)"
        self.assertEqual([f'task t, instruction 2: "if r2 & 7 goto out": {said}'], found)

    def test_hostile_tests_are_refused_and_no_more(self) -> None:
        kept = Kept(Constants(), [])
        for text in ("(" * 500 + "r0", "!" * 500, "r0 = " + "(" * 300 + "1", "&", "= =", "( )"):
            tokens = next(Scanner(text, []).lines())
            with self.assertRaises(Refusal, msg=text[:20]):
                Reading(tokens, kept).test()


class Shown(unittest.TestCase):
    """A line is one line wherever it is shown."""

    TEXT = HEAD + "set r1 4\nif r1 & STOP goto out\nadd r1 1\nloop\nadd r2 1\nend\nout: end\n"

    def said(self, *lines: str) -> List[str]:
        """What a prompt says."""
        with tempfile.TemporaryDirectory() as folder:
            path = pathlib.Path(folder) / "x.fw"
            path.write_text(self.TEXT)
            with shell_talk.opened(load(str(path))) as shell:
                return [it.replace(f"{folder}/", "") for it in shell_talk.said(shell, *lines)]

    def test_list(self) -> None:
        wanted = [
            "# t, run  x.fw",
            "#    6  ->    0  set r1 4",
            "#    7      1-8  if r1 & STOP goto out",
            "#    8        9  add r1 1",
            "#   10       10  add r2 1",
            "#   11       11  end (loop)",
            "#   12       12  end",
        ]
        self.assertEqual(wanted, self.said("list t"))

    def test_where_it_is_within_a_line(self) -> None:
        found = self.said("forward 5", "list t")
        self.assertIn("#    7  ->  1-8  if r1 & STOP goto out (3 of 8)", found)

    def test_moves(self) -> None:
        found = self.said("step 0", "step 0", "step 0", "set moves on", "step 0")
        self.assertIn("# t 3 if r1 & STOP goto out (3 of 8) -> 4", found[-1])

    def test_a_breakpoint_is_at_the_first_of_them(self) -> None:
        found = self.said("break x.fw:7", "break 9", "info watches")
        self.assertIn("# x.fw:7  t 1 if r1 & STOP goto out", found)
        self.assertIn("# x.fw:10  t 10 add r2 1", found)

    def test_check_says_what_bits_cost(self) -> None:
        said = [str(it) for it in made(self.TEXT).remarks]
        cost = "6 moves, or 7 if it jumps, using entry 1 and r7"
        self.assertEqual([f"7:1: note: {cost}; r0 changes in between and is then restored"], said)

    def test_nothing_is_said_of_a_line_that_is_refused(self) -> None:
        used = "".join(f"    set r{number} 1\n" for number in range(1, 8))
        lines = f"cores 1\ntask t priority 1\n{used}    if r1 & 4 goto out\nout:\n    end\n"
        found = source("x.fw", lines.encode())
        self.assertEqual(([], 1), (list(found.remarks), len(found.faults)))

    def test_it_is_an_application_like_any_other(self) -> None:
        with made(self.TEXT).as_json() as path:
            self.assertEqual(
                13, len(json.loads(pathlib.Path(path).read_text())["tasks"][0]["code"])
            )


if __name__ == "__main__":
    unittest.main()
