"""Lines of a model in the comments of C, and where the C goes another way than they."""
import contextlib
import io
import os
import pathlib
import subprocess
import sys
import tempfile
import unittest
from typing import List, Tuple

from rdbg import instructions
from rdbg.adapter.sources import Text
from rdbg.companions import check, make, trace
from rdbg.failure import Failure
from rdbg.files.source import load, source
from rdbg.from_c.calls import TEMPLATES
from rdbg.from_c.drift import drifts
from rdbg.from_c.lines import in_lines
from tests.paths import COMPANION, EXAMPLES
from tests.tables import codes, rows, section

SETUP = """\
/* A gateway: bytes come from the UART. */
#include "queue.h"
#define JOB_WAIT 10
/* rdbg:
 * cores 2
 * const JOB_WAIT 10
 * queue jobs length 2 item 1
 * queue done length 1 item 1
 */
"""
WORKER = """\
// rdbg: task worker priority 2
static void worker(void *unused)
{
    uint8_t job;
    for (;;) {                                              // rdbg: loop
        if (xQueueReceive(jobs, &job, JOB_WAIT) == pdPASS)  // rdbg: recv jobs JOB_WAIT
        {                                                   // rdbg: if r0
            work(job); /* no call: xQueueSend( */
            xQueueSend(done, &job, portMAX_DELAY);          // rdbg: send done max
        }                                                   // rdbg: end
    }                                                       // rdbg: end
}
"""
SENDER = """\
// rdbg: task sender priority 1
void sender(void *unused)
{
    uint8_t job = 41;
    // rdbg: data 29
    // rdbg: send jobs 0
    xQueueSend(jobs,
               &job, 0);
    vTaskDelete(NULL);  // rdbg: end
}
/* rdbg:
task sink priority 1
loop
  recv done max
end
*/
void setup(void) { jobs = xQueueCreate(2, 1); xQueueSend(jobs, 0, 0); }
"""
FIRMWARE = SETUP + WORKER + SENDER
LINES = """\
cores 2
const JOB_WAIT 10
queue jobs length 2 item 1
queue done length 1 item 1
task worker priority 2
loop
recv jobs JOB_WAIT
if r0
send done max
end
end
task sender priority 1
data 29
send jobs 0
end
task sink priority 1
loop
recv done max
end
"""


def told(text: str, path: str = "a.c") -> List[str]:
    """What is told of a source."""
    found = source(path, text.encode())
    assert found.application is not None, found.faults
    return [*map(str, check.drifts(found))]


def in_task(body: str, objects: str = "") -> str:
    """A source of one task."""
    head = f"/* rdbg:\ncores 1\nnotes 2\nqueue q length 1 item 1\n{objects}\n*/\n"
    task = "// rdbg: task t priority 1\nvoid t(void *p) {\n"
    return f"{head}{task}{body}\n}} // rdbg: jump 0\n".replace("jump 0", "end task")


class Lines(unittest.TestCase):
    """A C source is read as the text in lines that it has."""

    def setUp(self) -> None:
        self.read = source("gateway.c", FIRMWARE.encode())

    def test_the_same_application(self) -> None:
        lines = source("gateway.fw", LINES.encode())
        assert self.read.application is not None and lines.application is not None
        scripts = [
            [(task.name, task.priority, [it.text for it in task.code]) for task in it.tasks]
            for it in (self.read.application, lines.application)
        ]
        self.assertEqual(scripts[0], scripts[1])

    def test_each_stands_where_it_stands_in_the_c(self) -> None:
        assert self.read.application is not None
        rows_of_c = FIRMWARE.split("\n")
        for task in self.read.application.tasks:
            for it in task.code:
                row = rows_of_c[it.place.line - 1]
                self.assertTrue(row[it.place.column - 1 :].startswith(it.written), (it, row))

    def test_the_c_is_its_comment(self) -> None:
        assert self.read.application is not None
        worker = self.read.application.tasks[0]
        self.assertEqual(
            worker.code[0].beside, "if (xQueueReceive(jobs, &job, JOB_WAIT) == pdPASS)"
        )
        self.assertIn("uint8_t job;", worker.code[0].above)

    def test_c_stands_beside_each_line_of_a_model(self) -> None:
        said = load(str(EXAMPLES / "faults" / "queue_set" / "queue_set.c")).application
        assert said is not None
        server, _, reader = (list(said.tasks[at].code) for at in (0, 1, 2))
        receive = "xQueueReceive(ready, &byte, portMAX_DELAY);"
        beside = [it.beside for it in server if it.begins]
        self.assertEqual([receive] * (len(beside) - 2), beside[1:-1])
        self.assertTrue(beside[0].startswith("QueueSetMemberHandle_t ready = "))
        send = "xQueueSend(line[me], &byte, portMAX_DELAY);"
        self.assertEqual([send] * 2, [it.beside for it in reader])
        text = in_task(
            "    // rdbg(f): recv q 0\n    // rdbg(f): send q 0\n\n    /* x */\n    f(1);"
        )
        shown = source("a.c", text.encode()).application
        assert shown is not None
        self.assertEqual(["f(1);"] * 2, [it.beside for it in shown.tasks[0].code[:2]])

    def test_faults_are_told_where_they_stand(self) -> None:
        wrong = source("a.c", FIRMWARE.replace("rdbg: send done", "rdbg: send dnoe").encode())
        (fault,) = wrong.faults
        line = next(at for at, it in enumerate(FIRMWARE.split("\n"), 1) if "send done" in it)
        self.assertEqual(fault.place.line, line)
        self.assertIn("did you mean 'done'?", str(fault))

    def test_two_in_a_line(self) -> None:
        twice = "xQueueSend(q, 0, 0); /* rdbg: data 41 */ /* rdbg: send q 0 */"
        self.assertTrue(source("a.c", in_task(twice).encode()).faults)

    def test_what_is_no_line(self) -> None:
        for text in (
            'char *s = "// rdbg: fly";',
            "int a = '\"'; // said // rdbg: fly",
            "/* x rdbg: fly */",
        ):
            self.assertEqual(source("a.c", f"{text}\n{FIRMWARE}".encode()).faults, ())

    def test_bytes_that_are_no_text(self) -> None:
        self.assertEqual(source("a.c", b"/* \xe9\xff */\n" + FIRMWARE.encode()).faults, ())

    def test_lines_of_windows(self) -> None:
        there = source("a.c", FIRMWARE.replace("\n", "\r\n").encode())
        assert there.application is not None and self.read.application is not None
        self.assertEqual(there.faults, ())
        self.assertEqual(told(FIRMWARE.replace("\n", "\r\n")), [])

    def test_breakpoints(self) -> None:
        text = Text(self.read)
        rows_of_c = FIRMWARE.split("\n")
        there = next(
            at for at, it in enumerate(rows_of_c, 1) if it.startswith("    xQueueSend(jobs")
        )
        self.assertEqual(text.found(there, None).instruction.written, "send jobs 0")
        there = next(at for at, it in enumerate(rows_of_c, 1) if "xQueueReceive" in it)
        self.assertEqual(text.found(there, None).instruction.written, "recv jobs JOB_WAIT")

    def test_breakpoints_of_the_prompt(self) -> None:
        with tempfile.TemporaryDirectory() as folder:
            path = pathlib.Path(folder) / "gateway.c"
            path.write_text(FIRMWARE)
            at = FIRMWARE[: FIRMWARE.index("    xQueueSend(jobs")].count("\n") + 1
            words = [sys.executable, "-B", str(COMPANION), "sh", str(path)]
            lines = f"break {at}\ncontinue\nlist sender\n"
            ran = subprocess.run(words, input=lines, stdout=subprocess.PIPE, text=True)
        said = ran.stdout.split("\n")
        self.assertEqual(said[0], f"# {path}:{at - 1}  sender 1 send jobs 0")
        self.assertIn(f"#   {at - 1}  ->    1  send jobs 0", said)


class Calls(unittest.TestCase):
    """The calls that are found are those of docs/reference/calls.md."""

    def test_names(self) -> None:
        named = set()
        for title in ("Queues and queue sets", "Stream buffers and message buffers"):
            for row in rows(
                section("reference/calls.md", title), "| FreeRTOS | Instruction | r0 |"
            ):
                named |= codes(row[:1])
        for title in ("Notifications", "Event groups"):
            for row in rows(
                section("reference/calls.md", title), "| FreeRTOS | Instruction | r0 |"
            ):
                named |= codes(row[:1])
        self.assertEqual(named - set(TEMPLATES), set())

    def test_templates_are_instructions(self) -> None:
        in_lines_alone = {"give", "wait"}
        for name, forms in TEMPLATES.items():
            for it in forms:
                form = instructions.form_of(it.word)
                if it.word in in_lines_alone or name == "xSemaphoreTake":
                    continue
                assert form is not None, it.word
                self.assertEqual(len(form.symbols), len(it.operands), name)


class Drift(unittest.TestCase):
    """What has gone apart is told, with its line, and nothing else is."""

    def test_nothing(self) -> None:
        self.assertEqual(told(FIRMWARE), [])

    def place(self, text: str, part: str) -> str:
        """Where a part stands in a source."""
        before = text[: text.index(part)]
        return f"{before.count(chr(10)) + 1}:{len(before.rpartition(chr(10))[2]) + 1}"

    def test_a_block_time_changed(self) -> None:
        text = FIRMWARE.replace("&job, JOB_WAIT", "&job, 20")
        at = self.place(text, "recv jobs JOB_WAIT")
        line = at.partition(":")[0]
        said = f"{at}: recv jobs JOB_WAIT: xQueueReceive in line {line} has 20 as its block time"
        self.assertEqual(told(text), [said])

    def test_a_define_changed(self) -> None:
        text = FIRMWARE.replace("#define JOB_WAIT 10", "#define JOB_WAIT (2 << 4)")
        said = f"{self.place(text, 'const JOB_WAIT')}: const JOB_WAIT is 10, and 32 in the C"
        self.assertIn(said, told(text))

    def test_a_call_taken_out(self) -> None:
        text = FIRMWARE.replace("xQueueSend(done, &job, portMAX_DELAY);", "push(job);")
        (said,) = told(text)
        at = self.place(text, "send done max")
        self.assertTrue(said.startswith(f"{at}: send done max: no call of xQueueSend"), said)

    def test_a_call_come_in(self) -> None:
        text = FIRMWARE.replace("work(job);", "work(job); xQueueReset(jobs);")
        at = self.place(text, "xQueueReset")
        said = f"{at}: xQueueReset has no line beside it: // rdbg: qreset jobs, or // rdbg: skip"
        self.assertEqual(told(text), [said])

    def test_another_call(self) -> None:
        text = FIRMWARE.replace("xQueueSend(done", "xQueueSendToFront(done")
        (said,) = told(text)
        self.assertRegex(said, "send done max: xQueueSendToFront in line [0-9]+ is front$")

    def test_another_thing(self) -> None:
        (said,) = told(FIRMWARE.replace("xQueueSend(done", "xQueueSend(jobs"))
        self.assertRegex(said, "send done max: xQueueSend in line [0-9]+ has jobs as its object$")

    def test_a_handle_of_another_name(self) -> None:
        body = (
            "  xQueueReset(ctx->inbox); // rdbg: qreset q\n"
            "  xQueueReset(ctx->inbox); // rdbg: qreset other"
        )
        (said,) = told(in_task(body, "queue other length 1 item 1"))
        self.assertRegex(said, "has ctx->inbox as its object, which is q in line 9$")

    def test_functions_of_no_task(self) -> None:
        self.assertEqual(told(FIRMWARE + "void f(void) { xQueueReset(jobs); }\n"), [])

    def test_what_makes_a_call(self) -> None:
        text = FIRMWARE.replace("xQueueSend(done, &job, portMAX_DELAY);", "push(job);")
        named = text.replace("rdbg: send done", "rdbg(push): send done")
        self.assertEqual(told(named), [])
        (said,) = told(named.replace("push(job)", "pull(job)"))
        self.assertIn("no call of push stands beside it", said)

    def test_several_of_one_call(self) -> None:
        body = (
            "  /* rdbg(xQueueReceive):\n   * recv q 5\n   * if r0 = 1\n   *   recv other 5\n"
            "   * end\n   */\n  xQueueReceive(ready, &x, 5);"
        )
        other = "queue other length 1 item 1"
        self.assertEqual(told(in_task(body, other)), [])
        found = told(in_task(body.replace("&x, 5", "&x, 6"), other))
        self.assertEqual(["10:6", "12:8"], [it.partition(": ")[0] for it in found])
        self.assertTrue(all(it.endswith("has 6 as its block time") for it in found), found)
        alone = told(in_task(body.replace("xQueueReceive(ready", "gone(ready"), other))
        self.assertTrue(all("no call of xQueueReceive stands beside it" in it for it in alone))
        self.assertEqual(2, len(alone))

    def test_what_is_left_out(self) -> None:
        left = "  xTaskNotifyStateClear(NULL); // rdbg: skip"
        self.assertEqual(told(in_task(left)), [])
        self.assertEqual(len(told(in_task(left.replace("// rdbg: skip", "")))), 1)

    def test_comments_texts_and_directives(self) -> None:
        body = (
            '  printf("xQueueSend(q)"); // xQueueSend(q, 0, 0)\n'
            "  /* xQueueReset(q);\n     xQueueReset(q); */\n"
            "#define SEND(q) xQueueSend(q, \\\n  0, 0)\n  char c = '\"'; xQueueReset(q); // rdbg:"
            " qreset q"
        )
        self.assertEqual(told(in_task(body)), [])

    def test_two_calls_in_a_line(self) -> None:
        body = (
            "  // rdbg: count q\n"
            "  // rdbg: recv q 0\n  if (uxQueueMessagesWaiting(q) && xQueueReceive(q, &x, 0)) { }"
        )
        self.assertEqual(told(in_task(body)), [])
        self.assertEqual(len(told(in_task(body.replace("// rdbg: count q", "")))), 1)

    def test_calls_of_each_kind(self) -> None:
        objects = "group g\nstream s size 8 trigger 1\nmutex m\n"
        for c, line in (
            (
                "xEventGroupWaitBits(g, RX | (1 << 4), pdTRUE, pdFALSE, 5)",
                "gwait g RX|16 any clear 5",
            ),
            ("ulTaskNotifyTake(pdTRUE, portMAX_DELAY)", "take 0 clear max"),
            ("xTaskNotifyGive(t)", "notify t 0 0 inc"),
            ("xTaskNotify(t, 0x5UL, eSetBits)", "notify t 0 5 bits"),
            ("xStreamBufferReceive(s, buf, 4, 10)", "sread s 4 10"),
            ("xSemaphoreTake(m, (TickType_t)10)", "take m 10"),
            ("xSemaphoreGive(m)", "give m"),
            ("vTaskDelay(pdMS_TO_TICKS(20))", "wait 20"),
            ("vTaskDelay(3)", "recv never 3"),
        ):
            with self.subTest(line):
                defines = "#define configTICK_RATE_HZ 1000\n"
                more = objects + ("queue never length 1 item 1\n" if "never" in line else "")
                text = defines + in_task(f"  {c}; // rdbg: {line}", f"{more}const RX 1")
                self.assertEqual(told(text), [])

    def test_operands_of_each_kind(self) -> None:
        objects = "group g\nmutex m\nconst RX 1"
        for c, line, said in (
            (
                "xEventGroupWaitBits(g, 1, pdFALSE, pdFALSE, 5)",
                "gwait g 1 any clear 5",
                "pdFALSE, which is keep",
            ),
            (
                "xEventGroupWaitBits(g, RX << 1, pdTRUE, pdTRUE, 5)",
                "gwait g 1 all clear 5",
                "as its number, which is 2",
            ),
            ("ulTaskNotifyTake(pdFALSE, 1)", "take 0 clear 1", "pdFALSE, which is dec"),
            ("xTaskNotify(t, 1, eSetBits)", "notify t 0 1 set", "eSetBits, which is bits"),
            ("xSemaphoreTake(m, 11)", "take m 10", "11 as its block time"),
            ("xTaskNotifyGive(t)", "notify t 1 0 inc", "0 as its number"),
        ):
            with self.subTest(line):
                (found,) = told(in_task(f"  {c}; // rdbg: {line}", objects))
                self.assertTrue(found.endswith(said), found)

    def test_what_has_no_number_is_not_compared(self) -> None:
        self.assertEqual(told(in_task("  xQueueReceive(q, &x, cfg.wait); // rdbg: recv q 5")), [])
        self.assertEqual(told(in_task("  xQueueReceive(q, &x, 7); // rdbg: recv q r1")), [])

    def test_c_that_is_none(self) -> None:
        for text in (
            "}}}} void f( { ((",
            "/* rdbg",
            'f("',
            "#define",
            'extern "C" {\n' + FIRMWARE + "}",
        ):
            drifts("a.c", text, set(), {})
        self.assertEqual(told('extern "C" {\n' + FIRMWARE + "}\n"), [])


SHARED = """\
static int get(uint8_t *to, TickType_t patience)
{
    xSemaphoreTake(m, portMAX_DELAY);
    int done = xQueueReceive(q, to, patience);
    xSemaphoreGive(m);
    return done;
}
"""
GET = """\
  /* rdbg(get):
   * take m max
   * recv q 5
   * give m
   */
  get(&x, 5);"""


class Through(unittest.TestCase):
    """The lines of what a function of the source calls stand beside the calls of it."""

    def told(self, shared: str, body: str = GET) -> List[str]:
        """What is told of a task that calls it."""
        return told(shared + in_task(body, "mutex m"))

    def test_nothing(self) -> None:
        self.assertEqual([], self.told(SHARED))
        self.assertEqual([], self.told("int get(void *to, int (*f)(int), int patience);" + SHARED))
        twice = GET.replace("recv q 5\n", "recv q 5\n   * while r0\n   *   recv q 5\n   * end\n")
        self.assertEqual([], self.told(SHARED, twice))

    def test_a_call_taken_out(self) -> None:
        (said,) = self.told(SHARED.replace("xSemaphoreGive(m);", ""))
        self.assertEqual("19:6: give m: get makes no call of xSemaphoreGive or its like", said)

    def test_a_call_come_in(self) -> None:
        come = SHARED.replace("    return", "    xQueueReset(q);\n    return")
        (said,) = self.told(come)
        self.assertEqual(
            "22:3: xQueueReset in line 6, which get calls, has no line here: // rdbg(get): qreset"
            " q",
            said,
        )
        left = GET.replace("  get(&x", "  // rdbg(get): skip\n  get(&x")
        self.assertEqual([], self.told(come, left))

    def test_a_block_time_changed(self) -> None:
        at = "18:6: recv q 5: xQueueReceive in line 4 has"
        self.assertEqual(
            [f"{at} 7 as its block time"], self.told(SHARED, GET.replace("&x, 5", "&x, 7"))
        )
        fixed = SHARED.replace("to, patience)", "to, 9)")
        self.assertEqual([f"{at} 9 as its block time"], self.told(fixed))
        for changed in ("patience = 9;", "patience -= 1;", "patience--;", "f(&patience);"):
            body = SHARED.replace("    int done", f"    {changed}\n    int done")
            self.assertEqual([], self.told(body, GET.replace("&x, 5", "&x, 7")))

    def test_a_function_that_calls_another(self) -> None:
        outer = "int outer(int t) { prepare(); return get(0, t); }\n"
        lines = GET.replace("(get)", "(outer)").replace("get(&x, 5)", "outer(5)")
        self.assertEqual([], self.told(SHARED + outer, lines))
        self.assertEqual(1, len(self.told(SHARED + outer, lines.replace("outer(5)", "outer(6)"))))
        inner = lines.replace("  /*", "  // rdbg(prepare): wait 1\n  /*")
        self.assertEqual([], self.told(SHARED + outer, inner))

    def test_functions_that_call_themselves(self) -> None:
        again = SHARED.replace("return done", "return done ? get(to, patience) : other(to)")
        self.assertEqual([], self.told(again + "int other(void *to) { return get(to, 5); }\n"))


class Headers(unittest.TestCase):
    """Numbers that headers of the source's own folder give a name to are compared."""

    def setUp(self) -> None:
        folder = tempfile.TemporaryDirectory()
        self.addCleanup(folder.cleanup)
        self.folder = pathlib.Path(folder.name)

    def told(self, wait: str, include: str = '"config.h"', **headers: str) -> List[str]:
        """What is told of a receive that waits for 10 ticks, and for this in C."""
        for name, text in headers.items():
            (self.folder / f"{name}.h").write_text(text)
        text = f"#include {include}\n" + in_task(
            f"  xQueueReceive(q, &x, {wait}); // rdbg: recv q 10"
        )
        return told(text, str(self.folder / "a.c"))

    def test_numbers(self) -> None:
        for text in (
            "10",
            "0x0AUL",
            "(TickType_t)10",
            "(1 << 3 | 2) /* ticks */",
            "OTHER\n#define OTHER 10",
        ):
            self.assertEqual([], self.told("RX_WAIT", config=f"#define RX_WAIT {text}\n"))
        (said,) = self.told("RX_WAIT", config="#define OTHER 12\n#define RX_WAIT (OTHER)\n")
        self.assertEqual(
            "10:43: recv q 10: xQueueReceive in line 10 has RX_WAIT as its block time, which is 12",
            said,
        )

    def test_milliseconds(self) -> None:
        for rate, text, value in (
            ("1000", "pdMS_TO_TICKS(20)", "20"),
            ("((TickType_t)100)", "(pdMS_TO_TICKS( (TickType_t)(5000) ))", "500"),
            ("(100)", "pdMS_TO_TICKS(RX_MS)\n#define RX_MS 39", "3"),
        ):
            config = f"#define RX_WAIT {text}\n#define configTICK_RATE_HZ {rate}\n"
            (said,) = self.told("RX_WAIT", config=config)
            self.assertTrue(said.endswith(f"which is {value}"), said)
            (said,) = self.told("pdMS_TO_TICKS(RX_WAIT)", config=config.replace(text, "90000"))
            self.assertIn("pdMS_TO_TICKS(RX_WAIT) as its block time", said)

    def test_the_configuration_of_the_kernel(self) -> None:
        rate = "#define configTICK_RATE_HZ 100\n"
        self.assertEqual([], self.told("pdMS_TO_TICKS(20)", '"FreeRTOS.h"'))
        (said,) = self.told("pdMS_TO_TICKS(20)", '"FreeRTOS.h"', FreeRTOSConfig=rate)
        self.assertTrue(said.endswith("which is 2"), said)

    def test_headers_of_headers(self) -> None:
        around = '#include "config.h"\n#define RX_WAIT 7\n'
        (said,) = self.told("RX_WAIT", config='#include "waits.h"\n', waits=around)
        self.assertTrue(said.endswith("which is 7"), said)

    def test_what_cannot_be_known(self) -> None:
        for text in (
            "#define RX_WAIT pdMS_TO_TICKS(20)",
            "#define RX_WAIT (cfg->wait)",
            "#define RX_WAIT RX_WAIT",
            "#if FAST\n#define RX_WAIT 1\n#else\n#define RX_WAIT 20\n#endif",
            "#define RX_WAIT() 20",
            "// #define RX_WAIT 20",
        ):
            self.assertEqual([], self.told("RX_WAIT", config=text), text)
        there = "#define RX_WAIT 20\n"
        for include in ("<config.h>", '"../config.h"', '"none.h"', '"."', '"\0"'):
            self.assertEqual([], self.told("RX_WAIT", include, config=there), include)
        self.assertEqual([], self.told("RX_WAIT", config=there + " " * 1_048_576))

    def test_a_const_of_the_model(self) -> None:
        (self.folder / "config.h").write_text("#define RX_WAIT 12\n")
        text = '#include "config.h"\n' + in_task("", "const RX_WAIT 10")
        self.assertEqual(
            ["6:1: const RX_WAIT is 10, and 12 in the C"], told(text, str(self.folder / "a.c"))
        )


class Companions(unittest.TestCase):
    """What companions do with a C source."""

    def setUp(self) -> None:
        folder = tempfile.TemporaryDirectory()
        self.addCleanup(folder.cleanup)
        self.addCleanup(os.chdir, os.getcwd())
        os.chdir(folder.name)
        pathlib.Path("gateway.c").write_text(FIRMWARE)
        pathlib.Path("apart.c").write_text(FIRMWARE.replace("&job, JOB_WAIT", "&job, 20"))

    def run_it(self, main: object, *words: str) -> Tuple[int, str]:
        """The status, and what is printed."""
        output = io.StringIO()
        with contextlib.redirect_stdout(output), contextlib.redirect_stderr(output):
            status = main.main(words)  # type: ignore[attr-defined]
        return status, output.getvalue()

    def test_check(self) -> None:
        status, said = self.run_it(check, "gateway.c")
        self.assertEqual((status, said), (0, "gateway.c: accepted: 3 tasks, 2 queues, 2 cores\n"))
        status, said = self.run_it(check, "apart.c")
        self.assertEqual(status, 1)
        self.assertTrue(said.endswith("2 cores; the C differs from it in 1 place\n"), said)
        self.assertEqual(said.count("\n"), 2)

    def test_make(self) -> None:
        status, said = self.run_it(make, "--from-c", "gateway.c")
        self.assertEqual((status, said.split("\n")[0]), (0, "gateway.json: 3 tasks, 2 queues"))
        self.assertIsNotNone(load("gateway.json").application)
        self.assertEqual(self.run_it(make, "--from-c", "gateway.c", "-o", "own.fw")[0], 0)
        again = load("own.fw").application
        assert again is not None
        self.assertEqual(pathlib.Path("own.fw").read_text(), in_lines(FIRMWARE))
        for words in (
            ["gateway.c"],
            ["--from-c", "gateway.json"],
            ["--from-c", "--back", "gateway.c"],
            ["--from-c", "gateway.c", "-o", "own.fw"],
        ):
            with self.subTest(words), self.assertRaises(Failure) as refused:
                make.main(words)
            self.assertEqual(refused.exception.status, 2)

    def test_trace_and_page(self) -> None:
        pathlib.Path("run").write_text("forward 4\n")
        status, said = self.run_it(trace, "gateway.c", "run")
        self.assertEqual(status, 0)
        self.assertIn("recv jobs JOB_WAIT", said)
        self.assertEqual(self.run_it(trace, "gateway.c", "run", "--page", "run.html")[0], 0)
        self.assertIn("(xQueueReceive(jobs", pathlib.Path("run.html").read_text())


if __name__ == "__main__":
    unittest.main()
