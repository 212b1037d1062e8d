"""What is refused of a text in lines: where, and what would be right."""
import random
import unittest
from typing import List, Tuple

from rdbg.failure import Failure
from rdbg.json_layout import json_of
from rdbg.firmware.writer import text_of
from rdbg.files.source import source
from rdbg.tree import MOST_BYTES
from tests.broken import sources

HEAD = "cores 1\nqueue jobs length 4 item 1\ngroup flags\ntask t priority 1\n"


def faults(content: bytes) -> List[str]:
    """The faults of a text, each with its place."""
    return [str(fault) for fault in source("x.fw", content).faults]


class Lines(unittest.TestCase):
    """Faults of lines that aren't instructions: text, place and message."""

    MISTAKES: Tuple[Tuple[str, str], ...] = (
        ("tick", "1:1: missing number after 'tick'"),
        ("tick 1 2", "1:8: unexpected '2'"),
        ("tick now", "1:6: 'now' is neither a number nor a const"),
        ("tick -1", "1:6: '-1' is neither a number nor a const"),
        ("tick = 2", "1:6: '=' is neither a number nor a const"),
        ("tick: 2", "1:5: expected a number, found ':'"),
        (
            "configINITIAL_TICK_COUNT 2",
            "1:1: 'configINITIAL_TICK_COUNT' is not a model line (use tick N)",
        ),
        ("tick 010", "1:6: 010 would be octal in C (remove the leading 0)"),
        ("const", "1:1: const NAME N: missing name"),
        ("const RX", "1:7: missing number after 'RX'"),
        ("#define 5X 1", "1:9: '5X' is not a valid const name (use letters, digits and _)"),
        ("const r7 1", "1:7: 'r7' is reserved"),
        ("const portMAX_DELAY 1", "1:7: 'portMAX_DELAY' is reserved"),
        ("const t 1", "1:7: const 't' has the same name as a task"),
        ("const A = 1", "1:9: unexpected '=' (write const A N)"),
        ("const A (1|2", "1:9: this ( is not closed"),
        ("const A 1)", "1:10: unexpected ')'"),
        ("const A |1", "1:9: expected a number, found '|'"),
        ("const A " + "(" * 30 + "1" + ")" * 30, "1:29: expected a number, found '('"),
        ("queue", "1:1: queue NAME length N item N: missing name"),
        ("queue length 4 item 1", "1:7: queue NAME length N item N: missing name"),
        ("queue q 4 1", "1:9: unknown key '4' (expected queue NAME length N item N)"),
        ("queue q length item 1", "1:16: 'item' is neither a number nor a const"),
        ("queue q length 4 length 4", "1:18: duplicate key 'length'"),
        ("queue q length LEN item SIZE", "1:16: 'LEN' is neither a number nor a const"),
        ("queue q length 1 item 1 name w", "1:25: duplicate key 'name'"),
        ("task v priority 1 code 3", "1:19: unknown key 'code' (expected task NAME priority N)"),
        ("set s length 1 members (q)", "1:24: expected a name, found '('"),
        ("group g: x", "1:8: unknown key ':' (expected group NAME)"),
        ("again: count jobs", "1:1: 'again' must follow a task line (task NAME priority N)"),
        ("count jobs", "1:1: 'count' must follow a task line (task NAME priority N)"),
        ("set r1 3", "1:1: 'set' must follow a task line (task NAME priority N)"),
        ("quue q length 4 item 1", "1:1: 'quue' does not begin a line (did you mean 'queue'?)"),
        ("QueueHandle_t", "1:1: 'QueueHandle_t' does not begin a line"),
        (
            "xQueueCreate(4, 1)",
            "1:1: 'xQueueCreate' is not a model line (use queue NAME length N item N)",
        ),
        ("xQueueReceive(q, &x, 5);", "1:1: 'xQueueReceive' is not an instruction (use recv Q T)"),
        ("#include <queue.h>", "1:1: #include is not supported (begin a comment with //)"),
        ("  #if 0", "1:3: #if is not supported (begin a comment with //)"),
        ('group "g"', "1:7: group NAME: missing name"),
        ('group "g', "1:7: this string has no closing quote"),
        ("group g\u00e9", "1:8: the character U+00E9 is only allowed in comments and strings"),
        ("group\u00a0g", "1:6: the character U+00A0 is only allowed in comments and strings"),
        ("cores\r 1", "1:6: the character U+000D is only allowed in comments and strings"),
    )

    def test_one_in_the_first_line(self) -> None:
        for line, fault in self.MISTAKES:
            with self.subTest(line):
                text = f"{line}\n{HEAD}end\n"
                self.assertEqual([fault], [it for it in faults(text.encode()) if it[:2] == "1:"])

    def test_what_stands_twice(self) -> None:
        text = f"const A 1\n{HEAD}a: b:\na: end\nconst A 2\ncores 2\nqueue jobs length 1 item 1\n"
        wanted = [
            "7:1: task t: label 'a' is already defined in line 6",
            "8:7: const 'A' is already defined in line 1",
            "9:1: 'cores' is already set in line 2",
            "10:7: queue jobs is defined twice (first at 3:7)",
        ]
        self.assertEqual(wanted, faults(text.encode()))

    def test_those_that_a_json_has_too(self) -> None:
        lines = [
            "cores 9",
            "queue Jobs length 0 item 1",
            "stream rx size 8",
            "task t prio 2",
            "end",
        ]
        text = "\n".join([*lines, "task u priority 1"])
        found = [fault.split(": ")[0] for fault in faults(text.encode())]
        self.assertEqual(["1:7", "2:19", "2:7", "3:1", "4:8", "6:1"], sorted(found))

    def test_a_const_that_is_refused_is_no_fault_where_it_is_used(self) -> None:
        for const in (
            "const A",
            "const A 4294967296",
            "const A B",
            "const A 1 2",
            "const A C\nconst C 1",
        ):
            text = f"{HEAD}set r1 A\nend\n{const}\n"
            self.assertEqual(["7:"], [fault[:2] for fault in faults(text.encode())], const)

    def test_a_number_that_stems_from_a_refused_const(self) -> None:
        # (each use would be out of its bounds, were the const 0)
        uses = (
            "cores A\nnotes A\nqueue q length A item A\nstream s size A trigger 2\n"
            "set all length A members q\ntask t priority 1\nsread s A 0\nnotify t A 1 set\n"
            "const D A|2\nsread s D 0\nend\n"
        )
        for const in (
            "const A B",
            "const A",
            "const A 4294967296",
            "const A = 4294967296",
            "const A B\nconst C A",
            "const A A",
        ):
            with self.subTest(const):
                text = f"{const}\n{uses}"
                self.assertEqual(["1:"], [fault[:2] for fault in faults(text.encode())])

    def test_a_number_with_a_name_that_is_refused(self) -> None:
        for const in ("const A = 2", "const 1A 2", "const A-B 2"):
            with self.subTest(const):
                name = const.split()[1]
                text = (
                    f"{const}\ncores {name}\nnotes {name}\ntask t priority {name}\nset r0 {name}\n"
                )
                found = faults(f"{text}set r1 {name}\nend\n".encode())
                self.assertEqual(["1:"], [fault[:2] for fault in found], found)

    def test_a_const_that_nothing_names(self) -> None:
        found = faults(b"cores A\ntask t priority 1\nend\n")
        self.assertEqual(["1:7: 'A' is neither a number nor a const"], found)

    def test_what_else_is_wrong_is_told(self) -> None:
        text = b"const A B\ncores A\nnotes 9\ntask t priority 1\nset r0 A\nrecv q 0\nend\n"
        self.assertEqual(["1:", "3:", "6:"], [fault[:2] for fault in faults(text)])

    def test_no_text(self) -> None:
        for content in (b"", b"\n", b"// nothing\n", b"/**/"):
            found = faults(content)
            self.assertEqual(["1:1", "1:1"], [fault[:3] for fault in found])
            self.assertIn('missing key "cores"', found[0])

    def test_a_comment_without_end(self) -> None:
        text = f"{HEAD}end\n  /* and\nmore\n"
        self.assertEqual(["6:3: this comment has no closing */"], faults(text.encode()))

    def test_what_is_no_utf8(self) -> None:
        for content, wanted in ((b"\xff", "1:1"), ("// \u00e9\n\u00e9".encode() + b"\xc3(", "2:2")):
            byte = content[-2 if len(content) > 1 else 0]
            said = f"{wanted}: byte 0x{byte:02x} is not UTF-8 (save the file as UTF-8)"
            self.assertEqual([said], faults(content))


class Instructions(unittest.TestCase):
    """Faults of instructions."""

    MISTAKES: Tuple[Tuple[str, str], ...] = (
        ("jump agian", ":6: {}: label 'agian' is not defined (did you mean 'again'?)"),
        ("jump nowhere", ":6: {}: label 'nowhere' is not defined"),
        ("gset flags RXX", ":12: {}: 'RXX' is neither a number nor a const (did you mean 'RX'?)"),
        ("gset flags RX|TX", ":15: {}: 'TX' is neither a number nor a const"),
        ("gset flags BITS", ":12: {}: 'BITS' is neither a number nor a const"),
        ("add r1 - 5", ":8: {}: '-' is neither a number nor a const"),
        ("add r1 -TX", ":9: {}: 'TX' is neither a number nor a const"),
        (
            "recv jobs portMAXDELAY",
            ":11: {}: 'portMAXDELAY' is neither a number nor a const (did you mean 'portMAX_DELAY'?)",
        ),
        (
            "set r1 4294967296",
            ":8: {}: 4294967296 is too large (the largest number is 4294967295, 0xffffffff)",
        ),
        (
            "set r1 0x100000000",
            ":8: {}: 0x100000000 is too large (the largest number is 4294967295, 0xffffffff)",
        ),
        (
            "set r1 1<<32",
            ":8: {}: 1 << 32 is too large (the largest number is 4294967295, 0xffffffff)",
        ),
        (
            "data 0b1010",
            ":6: {}: '0b1010' is not a byte sequence (write data 0a for this number,"
            " or data 0x0b1010 for these digits)",
        ),
        (
            "data 0b101",
            ":6: {}: '0b101' is not a byte sequence (write data 05 for this number)",
        ),
        (
            "data 01 0B1_0000_0001",
            ":9: {}: '0B1_0000_0001' is not a byte sequence (write data 0101 for" " this number)",
        ),
        ("gset flags RX|BIT_3", ":15: {}: 'BIT_3' is neither a number nor a const (write 8)"),
        (
            "recv(jobs, pdMS_TO_TICKS(10));",
            ":12: {}: 'pdMS_TO_TICKS' is not available (write the time in ticks)",
        ),
        ("recv jobs 5|", ":12: {}: missing number after '|'"),
        ("recv(jobs, 5", ":5: {}: this ( is not closed"),
        ("recv jobs 5)", ":12: {}: unexpected ')'"),
        ("recv jobs 5; end", ":12: {}: unexpected ';'"),
        ('recv "jobs" 5', ":6: {}: unexpected '\"jobs\"'"),
        ("data 4", ":6: {}: '4' is not a byte sequence (each byte needs two digits)"),
        ("data 41 0x1 2", ":9: {}: '0x1' is not a byte sequence (each byte needs two digits)"),
        (
            "data RXX",
            ":6: {}: 'RXX' is not a byte sequence (did you mean 'RX'?)",
        ),
        (
            "data portMAX_DELAY",
            ":6: {}: a byte must be 0 to 255, found 'portMAX_DELAY', which is 4294967295",
        ),
        (
            r'data "a\q"',
            r":8: {}: unknown escape (use \n, \r, \t, \0, \\, \" or \x with two digits)",
        ),
    )
    # (what is found in the tree; the messages are those of a JSON)
    PLACES: Tuple[Tuple[str, int], ...] = (
        ("recv job max", 6),
        ("recv jobs", 1),
        ("gwait flags any clear RX", 1),
        ("gwait flags any clear portMAX_DELAY", 1),
        ("gwait flags RX | 0x02 sometimes keep 3", 23),
        ("recv jobs RX|2 RX", 16),
        ("jump 7", 6),
        ("set r8 RX", 5),
        ("take 0 pdTRUE max", 8),
        ("recv jobs pdFALSE", 11),
        ("recv jobs 10ms", 11),
        ("recv jobs -1", 11),
        ("over jobs", 6),
        ("sread(jobs, RX, portMAX_DELAY)", 7),
    )

    def test_one_in_a_script(self) -> None:
        for line, fault in self.MISTAKES:
            with self.subTest(line):
                text = f"const RX 1\n{HEAD}{line} // so\nagain: end\n"
                wanted = "6" + fault.format(f'task t, instruction 0: "{line.rstrip(";")}"')
                found = faults(text.encode())
                self.assertEqual([wanted], [it[: len(wanted)] for it in found])

    def test_one_that_a_json_has_too(self) -> None:
        for line, column in self.PLACES:
            with self.subTest(line):
                text = f"const RX 1\n{HEAD}\t {line} // so\nagain: end\n"
                wanted = f'6:{column + 2}: task t, instruction 0: "{line}": '
                found = faults(text.encode())
                self.assertEqual([wanted], [it[: len(wanted)] for it in found])

    def test_an_unknown_word_counts_as_an_instruction(self) -> None:
        text = f"{HEAD}recieve jobs\nhalt\nxQueueReceive(jobs, &x, 5);\njump 3\njump 4\n"
        wanted = [
            "5:1: 'recieve' does not begin a line (did you mean 'recv'?)",
            "6:1: 'halt' is not an instruction (use end)",
            "7:1: 'xQueueReceive' is not an instruction (use recv Q T)",
        ]
        self.assertEqual(wanted, faults(text.encode()))

    def test_all_are_found_in_order(self) -> None:
        text = (
            f"{HEAD}jump nowhere\nrecv job 0\nsend jobs\nset r1 BITS\nlast:\ntask u priority 99\n"
        )
        found = faults(text.encode())
        self.assertEqual(
            ["5:6:", "6:6:", "7:1:", "8:8:", "9:1:", "10:1", "10:1"], [it[:4] for it in found]
        )

    def test_a_line_that_is_refused_has_no_other_faults(self) -> None:
        text = f"{HEAD}recv job NEVER\njump 0\n"
        wanted = "5:10: task t, instruction 0: \"recv job NEVER\": 'NEVER' is neither a number nor a const"
        self.assertEqual([wanted], faults(text.encode()))

    def test_places_of_faults_behind_what_is_written_in_another_way(self) -> None:
        line = "x: gwait ( flags ,  RX | 0x02, any,\tkept, portMAX_DELAY );"
        text = f"const RX 1\n{HEAD}{line}\njump x\n"
        self.assertEqual(["6:37"], [fault[:4] for fault in faults(text.encode())])
        text = f'{HEAD}data "\u00e9" 0x41\t0d  "abc" 41 42 43x\nend\n'
        self.assertEqual(["5:31"], [fault[:4] for fault in faults(text.encode())])


class Junk(unittest.TestCase):
    """Whatever the file is, it is read soon and without a traceback."""

    def test_a_mebibyte(self) -> None:
        dice = random.Random(47)
        bytes_of_all_kinds = dice.getrandbits(8 * MOST_BYTES).to_bytes(MOST_BYTES, "big")
        signs = b' \t\n\r"#/*(),;:|<abcxyz0123456789_-'
        cases = [bytes_of_all_kinds, bytes(dice.choices(signs, k=MOST_BYTES))]
        head = b"cores 1\ntask t priority 1\n"
        parts = b"a ", b"a\n", b"(", b"end\n", b"queue q\n", b"#if\n"
        cases += [head + part * ((MOST_BYTES - len(head)) // len(part)) for part in parts]
        cases += [head + b"add r1 " + b"(" * 900, head + b"data " + b'"' * 900]
        for content in cases:
            with self.subTest(content[:40]):
                found = faults(content)
                self.assertTrue(found)
                self.assertLess(len(found), 600)
                self.assertLess(max(map(len, found)), 400)

    def test_one_byte_more(self) -> None:
        with self.assertRaisesRegex(
            Failure, "the file has 1,048,577 bytes .at most 1,048,576 are allowed"
        ):
            faults(b" " * (MOST_BYTES + 1))
        self.assertEqual(2, len(faults(b" " * MOST_BYTES)))

    def test_slips_of_the_keyboard(self) -> None:
        dice = random.Random(5)
        signs = ' \t\n\r"#/*(),;:|<-019azRX_\u00e9\0'
        words = (
            "max",
            "portMAX_DELAY",
            "r3",
            "0x10",
            "5",
            "end",
            "queue",
            "jump 0",
            "<<",
            "-1",
            "any",
        )
        accepted = 0
        for path in sources():
            loaded = source("x.json", path.read_bytes()).application
            assert loaded is not None
            text = text_of(loaded)
            for _ in range(10):
                at = dice.randrange(len(text))
                end = at + dice.choice([0, 0, 1, 2, 8])
                sign = dice.choice([dice.choice(signs), dice.choice(words), ""])
                found = source("x.fw", (text[:at] + sign + text[end:]).encode())
                lines = text.count("\n") + 3
                for fault in found.faults:
                    self.assertTrue(1 <= fault.place.line <= lines and fault.message)
                if found.application is not None:
                    accepted += 1
                    again = source("x.json", json_of(found.application).encode())
                    self.assertEqual((), again.faults)
        self.assertGreater(accepted, 10)


if __name__ == "__main__":
    unittest.main()
