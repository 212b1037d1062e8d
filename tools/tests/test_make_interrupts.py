"""Interrupts that a text in lines names: read, refused, searched with, and made at the prompt."""
import os
import pathlib
import subprocess
import sys
import tempfile
import unittest
from typing import List, Tuple

from rdbg.application import ANY, Interrupt
from rdbg.failure import Failure
from rdbg.files.source import load, source
from rdbg.reaching.handlers import handlers, left
from tests import shell_talk
from tests.paths import COMPANION
from tests.test_make_faults import faults
from tests.test_make_several import application

TEXT = """cores 2
notes 2
const BIT 1 << 1
queue rx length 2 item 1
semaphore done
mutex lock
interrupt ping apart 10 times 3: notify dsp 0 1 set
interrupt pong after ping times any: notify(dsp, 1, BIT|1, bits); send rx "A" 0x42; give done
task dsp priority 2
loop
    nwait 0 0 0 portMAX_DELAY
    add r2 1
end
"""


class Reads(unittest.TestCase):
    """What a text says of them."""

    def test_what_they_are(self) -> None:
        found = application(TEXT)
        self.assertEqual(2, found.profile)
        self.assertEqual(
            (
                Interrupt("ping", ("notify dsp 0 1 set",), 3, None, 10),
                Interrupt(
                    "pong", ("notify dsp 1 3 bits", "send rx 4142", "send done 00"), ANY, "ping", 0
                ),
            ),
            found.interrupts,
        )
        self.assertEqual(("isr notify dsp 0 1 set",), found.interrupts[0].lines())

    def test_one_of_several_tasks(self) -> None:
        text = "cores 1\ninterrupt go: notify w[1] 0 0 inc\ntask w[2] priority 1\nend\n"
        self.assertEqual(("notify w1 0 0 inc",), application(text).interrupts[0].calls)

    def test_its_entry_is_used(self) -> None:
        text = "cores 1\nnotes 2\ninterrupt go: notify t 1 0 inc\ntask t priority 1\n"
        code = application(text + "if r1 & 1 goto x\nx: end\n").tasks[0].code
        self.assertEqual("notify t 0 r1 set", code[1].text)

    def test_a_label_of_that_name(self) -> None:
        self.assertEqual([], faults(b"cores 1\ntask t priority 1\ninterrupt: jump interrupt\n"))

    LINES = {
        "ping": "interrupt NAME after NAME apart N times N: CALL; CALL: missing colon and calls",
        "ping:": "interrupt NAME after NAME apart N times N: CALL; CALL: missing call"
        " (send Q HEX, notify K I N ACTION, or give NAME)",
        "ping soon: send rx 41": "unknown key 'soon' (expected interrupt NAME after NAME apart N times"
        " N: CALL; CALL)",
        "ping times 0: send rx 41": "times must be 1 to 255, or any, found 0",
        "ping apart 256: send rx 41": "apart must be 0 to 255, found 256",
        "ping times: send rx 41": "interrupt NAME after NAME apart N times N: CALL; CALL:"
        " missing value after times",
        "ping after pang: send rx 41": "interrupt 'pang' is not defined above this line",
        "ping: notify dps 0 1 set": "task 'dps' is not defined (did you mean 'dsp'?)",
        "ping: send xr 41": "queue 'xr' is not defined (defined: rx, done, lock)",
        "ping: notify dsp 2 1 set": "there is no notification entry 2 (each task has 2 entries, counted from 0)",
        "ping: notify dsp 0 1 sett": "action must be none, bits, inc, set or setif, found 'sett'",
        "ping: notify dsp 0 1": "notify K I N ACTION: missing action",
        "ping: send rx": "send Q HEX: missing bytes",
        "ping: sned rx 41": "unknown call 'sned' of an interrupt (did you mean 'send'?)",
        "ping: vTaskNotifyGiveFromISR(dsp, &woken)": "'vTaskNotifyGiveFromISR' is not a model"
        " call (use notify K 0 0 inc)",
        "ping: xSemaphoreGiveFromISR(done)": "'xSemaphoreGiveFromISR' is not a model call (use give NAME)",
        "ping: give dome": "give NAME: 'dome' is not a semaphore",
        "ping: send done 00": "'done' is a semaphore (use give done)",
        "ping: send lock 00": "an interrupt cannot give 'lock', whose queue holds an item while it"
        " is taken (model it as a task of the highest priority that uses wait, see"
        " docs/guides/from-c.md)",
        "ping: give lock": "an interrupt cannot give 'lock', whose queue holds an item while it is taken"
        " (model it as a task of the highest priority that uses wait, see docs/guides/from-c.md)",
    }
    ROUND = ("recv rx 0", "swrite s 0", "gset g 1", "xStreamBufferSendFromISR(s)")

    def told(self, line: str) -> List[str]:
        """The faults of a text with another first interrupt."""
        text = TEXT.replace(TEXT.split("\n")[6], f"interrupt {line}")
        return [it.split(": ", 1)[1] for it in faults(text.encode())]

    def test_what_is_refused(self) -> None:
        for line, said in self.LINES.items():
            with self.subTest(line):
                self.assertEqual([said], self.told(line))
        for call in self.ROUND:
            name = call.split(" ")[0].split("(")[0]
            said = (
                f"an interrupt cannot call '{name}', only send Q HEX, notify K I N ACTION, or give"
            )
            said += " NAME (model it as a task of the highest priority that uses wait, see"
            self.assertEqual([f"{said} docs/guides/from-c.md)"], self.told(f"ping: {call}"))

    def test_the_word_that_leaves_them_out_names_none(self) -> None:
        text = (
            TEXT.split("interrupt ping")[0]
            + "task dsp priority 2\nend\ninterrupt none: send rx 41\n"
        )
        said = "an interrupt cannot be named 'none', which stands for no interrupts"
        self.assertEqual([f"9:11: {said}"], faults(text.encode()))

    def test_names_and_a_profile(self) -> None:
        again = TEXT + "interrupt ping: send rx 41\n"
        self.assertEqual(
            ["14:11: interrupt 'ping' is already defined in line 7"], faults(again.encode())
        )
        found = faults((TEXT + "profile 1\n").encode())
        self.assertEqual(["14:9: profile 1 has no interrupts (use profile 2)"], found)
        found = self.told("ping times any: send rx 41")
        said = (
            "'ping' may occur any number of times, so nothing can come after it (give 'ping' a times"
            " N)"
        )
        self.assertEqual([said], found)


class Searched(unittest.TestCase):
    """`rdbg reach` takes them by name."""

    def setUp(self) -> None:
        folder = tempfile.TemporaryDirectory()
        self.addCleanup(folder.cleanup)
        self.path = os.path.join(folder.name, "x.fw")
        pathlib.Path(self.path).write_text(TEXT)

    def test_the_options_of_each(self) -> None:
        found = handlers(["ping", "send rx 41", "pong"], application(TEXT))
        self.assertEqual(
            [
                ["--isr", "notify dsp 0 1 set", "--times", "3", "--apart", "10"],
                ["--isr", "send rx 41"],
                ["--isr", "notify dsp 1 3 bits; send rx 4142; send done 00"]
                + ["--times", "3", "--after", "0"],
            ],
            [it.options() for it in found],
        )
        self.assertEqual("isr notify dsp 0 1 set times 3 apart 10", found[0].line())

    def test_what_is_refused(self) -> None:
        for texts, said in (
            (["pong"], "--isr pong: this interrupt comes after ping (put --isr ping before it)"),
            (["pign"], "--isr: interrupt 'pign' is not defined (did you mean 'ping'?)"),
            (
                ["ping", "ping"],
                "duplicate --isr ping (its line in the model sets how often it may occur)",
            ),
        ):
            with self.assertRaises(Failure) as caught:
                handlers(texts, application(TEXT))
            self.assertEqual(said, str(caught.exception))

    def reach(self, *words: str) -> Tuple[int, List[str], List[str]]:
        """The status of a search, and the lines of its two outputs."""
        done = subprocess.run(
            [sys.executable, "-B", str(COMPANION), "reach", self.path, *words],
            stdin=subprocess.PIPE,
            stdout=subprocess.PIPE,
            stderr=subprocess.PIPE,
            timeout=100,
        )
        return done.returncode, done.stdout.decode().split("\n"), done.stderr.decode().split("\n")

    def test_a_text_in_lines_is_searched_with_them(self) -> None:
        status, said, _ = self.reach("reg dsp 2 = 3", "--isr", "ping", "--isr=pong")
        self.assertEqual((1, "found"), (status, said[0]))
        self.assertEqual(3, said.count("isr notify dsp 0 1 set"))
        self.assertGreaterEqual(said.count("tick"), 20)
        status, said, _ = self.reach("reg dsp 2 = 4", "--isr", "ping")
        self.assertEqual((0, "never"), (status, said[0]))

    def test_where_none_is_named_all_come(self) -> None:
        for words, wanted, beside in (
            ((), "found", "with interrupts ping, pong"),
            (("--isr", "none"), "never", "without interrupts ping, pong"),
            (("--isr", "pong none"), "", ""),
            (("--isr", "send rx 41"), "never", "without interrupts ping, pong"),
            (("--isr", "ping"), "found", "without interrupt pong"),
            (("--isr", "ping", "--isr", "pong"), "found", ""),
        ):
            with self.subTest(words):
                status, said, _ = self.reach("reg dsp 2 = 1", *words)
                self.assertEqual({"found": 1, "never": 0}.get(wanted, 2), status)
                self.assertEqual(wanted, said[0])
                self.assertEqual([beside] if beside else [], [it for it in said if "with" in it])

    def test_a_task_named_none(self) -> None:
        text = (
            "cores 1\ntask none priority 1\ntake 0 clear max\n"
            "end\ninterrupt go: notify none 0 0 inc\n"
        )
        pathlib.Path(self.path).write_text(text)
        self.assertEqual("found", self.reach("ended none")[1][0])
        self.assertEqual("never", self.reach("ended none", "--isr=none")[1][0])
        self.assertEqual("found", self.reach("ended none", "--isr", "notify none 0 0 inc")[1][0])

    def test_what_the_command_line_says_counts(self) -> None:
        goal = ("reg dsp 2 = 4", "--isr", "ping")
        self.assertEqual("never", self.reach(*goal)[1][0])
        for words in (("--times", "4"), ("--times=any", "--apart=0")):
            status, said, errors = self.reach(*goal, *words)
            self.assertEqual((1, "found", [""]), (status, said[0], errors))
        said = self.reach(*goal, "--apart", "0", "--times", "4")[1]
        self.assertLess(said.count("tick"), 20)

    def test_those_that_have_come(self) -> None:
        (ping,) = handlers(["ping"], application(TEXT))
        lines = ["isr notify dsp 0 1 set", "step 0"] * 2
        self.assertEqual(
            ["isr notify dsp 0 1 set times 1 apart 10"], [it.line() for it in left([ping], lines)]
        )
        self.assertEqual([], left([ping], lines * 2))
        (both,) = handlers(["go"], application(TEXT + "interrupt go: send rx 41; send rx 42\n"))
        self.assertEqual([both], left([both], ["isr send rx 41", "step 0", "isr send rx 42"]))
        self.assertEqual([], left([both], ["isr send rx 41", "isr send rx 42"]))
        # (where one comes after another both are counted from where it begins)
        named = handlers([], application(TEXT))
        self.assertEqual(named, left(named, lines))

    def test_faults_and_consts(self) -> None:
        status, _, errors = self.reach("stuck", "-D", "BITT=3")
        self.assertEqual(
            (2, "rdbg reach: -D BITT: const 'BITT' is not defined (did you mean 'BIT'?)"),
            (status, errors[0]),
        )
        self.assertEqual(1, self.reach("reg dsp 2 = 1", "-DBIT=8")[0])
        pathlib.Path(self.path).write_text(TEXT.replace("nwait", "nwiat"))
        status, _, errors = self.reach("stuck")
        self.assertEqual(2, status)
        self.assertIn("nwiat", errors[0])

    def test_as_an_engine(self) -> None:
        words = [sys.executable, "-B", str(COMPANION), "reach", self.path, "--engine"]
        words += ["--isr", "ping"]
        done = subprocess.run(
            words, input=b"reach reg dsp 2 = 1\n", stdout=subprocess.PIPE, timeout=100
        )
        self.assertEqual((0, b"found"), (done.returncode, done.stdout.split(b"\n")[0]))
        done = subprocess.run(
            words[:-2],
            input=b"reach reg dsp 2 = 1\nisr none\nreach reg dsp 2 = 1\n",
            stdout=subprocess.PIPE,
            stderr=subprocess.PIPE,
            timeout=100,
        )
        replies = [it.split(b"\n")[0] for it in done.stdout.split(b"\n\n")]
        self.assertEqual([b"found", b"ok", b"never"], replies[:3])
        self.assertEqual(b"rdbg reach: with interrupts ping, pong\n", done.stderr)


class AtThePrompt(unittest.TestCase):
    """`isr NAME`."""

    def said(self, *lines: str) -> Tuple[List[str], List[str]]:
        """What a prompt says."""
        with tempfile.TemporaryDirectory() as folder:
            path = pathlib.Path(folder) / "x.fw"
            path.write_text(TEXT)
            with shell_talk.opened(load(str(path))) as shell:
                return shell_talk.both(shell, *lines)

    def test_all_calls_are_made(self) -> None:
        said, _ = self.said("isr pong", "show queue rx", "show moves")
        self.assertEqual(["ok at 1 isr 1", "ok at 2 isr 1", "ok at 3 isr 1"], said[:3])
        self.assertEqual("queue rx 1/2 items 41 recv - send - set -", said[3])

    def test_searches_let_them_come(self) -> None:
        said, _ = self.said(
            "reach reg dsp 2 = 1",
            "interrupts none",
            "reach reg dsp 2 = 1",
            "interrupts ping pong",
            "reach reg dsp 2 = 4",
        )
        answers = [it for it in said if it in ("# found", "# never") or " with" in it]
        self.assertEqual(
            ["# found", "#   with interrupts ping, pong"]
            + ["# never", "#   without interrupts ping, pong", "# never"],
            answers,
        )

    def test_one_that_came_is_counted(self) -> None:
        text = "cores 1\ntask t priority 1\ntake 0 clear max\nadd r2 1\ntake 0 clear max\nend\n"
        with tempfile.TemporaryDirectory() as folder:
            path = pathlib.Path(folder) / "x.fw"
            path.write_text(text + "interrupt go: notify t 0 0 inc\n")
            with shell_talk.opened(load(str(path))) as shell:
                said = shell_talk.said(shell, "reach at t 1", "isr go", "reach ended t")
                lost = shell_talk.said(shell, "lost ended t")
        # (of a run it is asked from each place on)
        self.assertEqual("# still", lost[0])
        note = "#   note: at each place, the search ignores interrupts that occurred before it"
        self.assertEqual(note, lost[-1])
        self.assertEqual(
            ["# found", "# never"], [it for it in said if it in ("# found", "# never")]
        )

    def test_another_word_is_rdbgs(self) -> None:
        said, hints = self.said("isr pang", "isr")
        self.assertEqual((["no Syntax"] * 2, 2), (said, len(hints)))


WAITS = """cores 1
notes 2
const LONG 6
task t[2] priority 1
    wait 3..LONG
    if r0 & 1 goto out
    add r2 1
out:
    wait(2);
    end
"""


class Waits(unittest.TestCase):
    """`wait N` and `wait M..N`."""

    def test_what_they_become(self) -> None:
        found = application(WAITS)
        code = [it.text for it in found.tasks[1].code]
        self.assertEqual(["recv never 3", "take 1 clear 3", "move r7 r0"], code[:3])
        self.assertEqual(["notify t1 0 r0 set", "recv never 2"], [code[3], code[-2]])
        never = ("never", (("length", 1), ("item", 1)))
        self.assertEqual([never], [(it.name, it.numbers) for it in found.queues])
        self.assertEqual(2, found.profile)
        calls = [(it.name, it.calls, it.times) for it in found.interrupts]
        wanted = [(f"t{at}_wait", (f"notify t{at} 1 1 set",), ANY) for at in range(2)]
        self.assertEqual(wanted, calls)

    def test_others(self) -> None:
        def code(line: str) -> List[str]:
            found = application(f"cores 1\nconst A 2\ntask t priority 1\n{line}\nend\n")
            return [it.text for it in found.tasks[0].code[:-1]]

        self.assertEqual(["take 0 clear 5"], code("wait 0..5"))
        self.assertEqual(["recv never 2", "take 0 clear 1"], code("wait A..3"))
        self.assertEqual(["recv never 1", "take 0 clear max"], code("wait 1..max"))
        self.assertEqual(["recv never max"], code("wait portMAX_DELAY"))
        self.assertEqual(["recv never r3"], code("wait r3"))
        self.assertEqual(1, application("cores 1\ntask t priority 1\nwait 3\nend\n").profile)

    def test_a_queue_that_is_there_already(self) -> None:
        text = (
            "cores 1\nqueue never length 2 item 3\n"
            "queue q length 1 item 1\ntask t priority 1\nwait 3\n"
        )
        self.assertEqual(["never", "q"], [it.name for it in application(text + "end\n").queues])
        found = faults((text + "send never 0\nend\n").encode())
        said = "queue 'never' must stay empty, because wait receives from it"
        self.assertEqual([f"6:1: {said}"], found)
        found = faults((text + "end\ninterrupt x: send never 41\n").encode())
        self.assertEqual([f"7:14: {said}"], found)

    REFUSED = {
        "wait": "wait N, or wait M..N, in ticks: missing number",
        "wait 3..": "wait N, or wait M..N, in ticks: missing number in '3..'",
        "wait ..3": "wait N, or wait M..N, in ticks: missing number in '..3'",
        "wait 5..5": "'5..5': the second number must be larger than the first",
        "wait 5 6": "wait N, or wait M..N, in ticks: unexpected '6'",
        "wait 1..2 6": "wait N, or wait M..N, in ticks: unexpected '6'",
        "wait 1..B": "'B' is neither a number nor a const",
        "vTaskDelay(5)": "'vTaskDelay' is not an instruction (use wait T)",
    }

    def test_refused(self) -> None:
        for line, said in self.REFUSED.items():
            with self.subTest(line):
                found = faults(f"cores 1\ntask t priority 1\n{line}\nend\n".encode())
                self.assertEqual([said], [it.split(": ", 1)[1] for it in found])
        text = "cores 1\ntask t priority 1\nwait 1..3\nif r1 & 1 goto x\nx: end\n"
        self.assertIn("needs a free notification entry", faults(text.encode())[0])
        text = "cores 1\nprofile 1\ntask t priority 1\nwait 1..3\nend\n"
        self.assertIn("profile 1 has no interrupts", faults(text.encode())[0])

    def test_a_search_chooses_its_end(self) -> None:
        text = "cores 1\ntask t priority 1\nwait 3..6\nend\n"
        with tempfile.TemporaryDirectory() as folder:
            path = pathlib.Path(folder) / "x.fw"
            path.write_text(text)
            words = [sys.executable, "-B", str(COMPANION), "reach", str(path), "--pace", "2.."]
            for tick, wanted in ((2, "never"), (3, "found"), (5, "found"), (6, "found")):
                goal = f"ended t and tick = {tick}"
                done = subprocess.run([*words, goal, "--moves", "40"], stdout=subprocess.PIPE)
                said = done.stdout.decode().split("\n")[0]
                self.assertEqual("not within 40 moves" if wanted == "never" else wanted, said, tick)

    def test_what_check_says(self) -> None:
        found = source("x.fw", WAITS.encode())
        ends = "interrupts t0_wait to t1_wait may end it at any time in reach and hunt"
        said = f"5:5: note: 4 moves, or 3 if its end came before; {ends}"
        self.assertEqual(said, str(found.remarks[0]))

    def test_at_the_prompt(self) -> None:
        with tempfile.TemporaryDirectory() as folder:
            path = pathlib.Path(folder) / "x.fw"
            path.write_text(WAITS)
            with shell_talk.opened(load(str(path))) as shell:
                said = shell_talk.said(
                    shell, "list t0", "until pc t0 = 1", "isr t0_wait", "step t0"
                )
                self.assertIn("#    5  ->  0-1  wait 3..LONG", said)
                self.assertEqual(1, shell.look().tasks["t0"].registers[0])


if __name__ == "__main__":
    unittest.main()
