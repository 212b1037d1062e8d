"""What a programmer of C writes in a script, and what is said of it."""
import unittest
from typing import List

from rdbg.checking.slips import statement
from rdbg.files.source import source
from tests.test_check_faults import FILE, faults, of_code


def said(line: str) -> List[str]:
    """What is said of an instruction that stands in a JSON."""
    return [it.split(f'"{line}": ', 1)[1] for it in of_code(line)]


class Statements(unittest.TestCase):
    """Statements on registers."""

    def test_each_is_an_instruction_in_lines_and_in_a_json(self) -> None:
        cases = {
            "r1++;": ("add r1 1", "add r1 1"),
            "--r2": ("add r2 -1", "add r2 4294967295"),
            "r1 += 2": ("add r1 2", "add r1 2"),
            "r1 -= 0x10": ("add r1 -0x10", "add r1 4294967280"),
            "r1 = r1 - 3": ("add r1 -3", "add r1 4294967293"),
            "r1 = -5": ("set r1 -5", "set r1 4294967291"),
            "r1=R2": ("move r1 r2", "move r1 r2"),
            "sub r1, 4": ("add r1 -4", "add r1 4294967292"),
            "dec r1": ("add r1 -1", "add r1 4294967295"),
            "mov r1 5": ("set r1 5", "set r1 5"),
            "goto 3": ("jump 3", "jump 3"),
            "if (!r0) goto 3;": ("jumpz r0 3", "jumpz r0 3"),
        }
        for line, expected in cases.items():
            for in_lines, instruction in zip((True, False), expected):
                found = statement(line.split(" "), in_lines)
                self.assertEqual(instruction, (found or "").split(" (use ")[-1][:-1], line)

    def test_names_stay_in_lines_and_have_no_number_in_a_json(self) -> None:
        for line, expected in (("sub r1 LEN", "add r1 -LEN"), ("goto again", "jump again")):
            self.assertIn(
                f"is not an instruction (use {expected})", statement(line.split(" "), True) or ""
            )
            self.assertIsNone(statement(line.split(" "), False))

    def test_what_no_instruction_does(self) -> None:
        for line in ("sub r1 r2", "if (r0) goto 3", "jobs", "r9++", "recv jobs 0", "r1 = 1 << 40"):
            self.assertNotIn("(use", statement(line.split(" "), False) or "")

    def test_one_in_a_json(self) -> None:
        self.assertEqual(
            ["'sub r1 4' is not an instruction (use add r1 4294967292)"], said("sub r1 4")
        )
        self.assertEqual(
            ["'sub' is not an instruction (use add R N, where N is 2^32 minus the amount)"],
            said("sub"),
        )


class Orders(unittest.TestCase):
    """Words in another order, of which some are missing."""

    def test_the_order_is_told_with_what_is_missing(self) -> None:
        lacks = "gwait G V WISH CLR T: missing block time (max, a number, or r0 to r7)"
        expected = (
            f"{lacks}, and the operands are in the wrong order (write gwait g0 7 all clear T)"
        )
        self.assertEqual([expected], said("gwait g0 7 clear all"))

    def test_what_is_missing_alone_stays_so(self) -> None:
        for line in ("gwait g0 7 all clear", "take 0 max", "recv max", "notify gateway inc"):
            found = said(line)
            self.assertTrue(": missing " in found[0] and "order" not in found[0], found)

    def test_a_constant_of_c_is_the_operand_that_it_is_meant_to_be(self) -> None:
        found = said("take pdTRUE max")
        self.assertIn(": missing index", found[0])
        self.assertTrue(found[1].endswith("(write clear)"), found)


class Words(unittest.TestCase):
    """Other slips."""

    def test_a_text_for_bytes(self) -> None:
        rule = "data HEX takes hexadecimal digits, not text"
        cases = {"data 'A'": "41", "data 'A B'": "412042", "data 'AB": "4142"}
        for line, digits in cases.items():
            self.assertEqual([f"{rule} (write data {digits})"], said(line))
        self.assertEqual([rule], said("data '" + "x" * 30 + "'"))

    def test_an_instruction_that_has_such_an_operand(self) -> None:
        cases = {
            "set r1 r2": "write move r1 r2",
            "move r1 5": "write set r1 5",
            "add r1 r2": "no instruction adds two registers",
            "data 0x4": "write 04",
        }
        for line, expected in cases.items():
            self.assertTrue(said(line)[0].endswith(f" ({expected})"), said(line))

    def test_what_has_no_place_in_a_script(self) -> None:
        variable = "a task sends its own data, which data HEX sets and each receive replaces"
        self.assertEqual([f"send Q T: unexpected '&x' ({variable})"], said("send jobs &x 0"))
        self.assertEqual(
            ["words must be separated by spaces (write send jobs 0)"], said("send(jobs, 0);")
        )
        self.assertEqual(["scripts have no braces (use jump and jumpz)"], said("}"))


class Stems(unittest.TestCase):
    """What only stems from another fault."""

    def test_what_stands_under_a_key_that_is_none_is_there(self) -> None:
        code = '"recv lock 0", "send spi 0", "send nobody 0", "end"'
        more = '"semaphores": [{"name": "lock"}], "queus": [{"name": "spi"}], "cores"'
        found = faults(FILE.replace("CODE", code).replace('"cores"', more, 1))
        self.assertEqual(["L2 Shape", "L2 Shape", "L4 Name"], [it[:8].strip(":") for it in found])

    def test_the_names_of_a_misspelt_key_count(self) -> None:
        text = FILE.replace("CODE", '"send jobs 0", "end"').replace('"queues"', '"queus"')
        self.assertEqual(1, len(source("x.json", text.encode()).faults))


if __name__ == "__main__":
    unittest.main()
