"""JSON with places, and the usual causes of what is none."""
import json
import unittest
from typing import Any, Dict, List

from rdbg.failure import Failure
from rdbg.json_text import MOST_DEPTH, NOT_JSON, read
from rdbg.tree import MOST_BYTES, Node, Object, Place
from tests.values import plain

SAMPLE = """{
  "a": [1, -2.5e3, true],
  "b": {"c\\u00e9": "x\\ty z", "d": null}
}
"""


def tree(text: str) -> Node:
    """The tree of a text that is JSON."""
    root, faults = read(text.encode())
    assert root is not None and not faults, faults
    return root


def member(node: Node, key: str) -> Node:
    """The value of a key."""
    assert isinstance(node.value, Object)
    found = node.value.get(key)
    assert found is not None
    return found


def said(content: bytes) -> str:
    """The one fault of a content that is no JSON."""
    root, faults = read(content)
    assert root is None and [fault.kind for fault in faults] == [NOT_JSON], (content, faults)
    return str(faults[0])


class Trees(unittest.TestCase):
    """What is read."""

    def test_values_are_those_of_python(self) -> None:
        texts = (
            SAMPLE,
            "1",
            " [ ] ",
            "{}",
            '"\\ud83d\\ude00\\b\\f\\n\\r\\t\\/\\\\\\""',
            "[[[]],{}]",
        )
        for text in texts:
            self.assertEqual(json.loads(text), plain(tree(text)))

    def test_each_value_and_key_has_its_place(self) -> None:
        root = tree(SAMPLE)
        self.assertEqual(Place(1, 1), root.place)
        items = member(root, "a").value
        assert isinstance(items, tuple) and isinstance(root.value, Object)
        self.assertEqual([Place(2, 9), Place(2, 12), Place(2, 20)], [it.place for it in items])
        self.assertEqual([Place(2, 3), Place(3, 3)], [it.place for it in root.value.members])

    def test_words_of_a_text_have_places_behind_escapes_too(self) -> None:
        node = member(member(tree(SAMPLE), "b"), "c\u00e9")
        self.assertEqual(Place(3, 20), node.place)
        self.assertEqual([("x\ty", Place(3, 21)), ("z", Place(3, 26))], list(node.words()))

    def test_columns_count_characters_and_not_bytes(self) -> None:
        node = member(tree('{"\u00e9\U0001f600": "a b"}'), "\u00e9\U0001f600")
        self.assertEqual([("a", Place(1, 9)), ("b", Place(1, 11))], list(node.words()))

    def test_a_key_may_stand_twice(self) -> None:
        self.assertEqual({"a": 2}, plain(tree('{"a": 1, "a": 2}')))

    def test_brackets_stand_within_each_other_up_to_the_limit(self) -> None:
        tree("[" * MOST_DEPTH + "]" * MOST_DEPTH)
        deep = ("[" * (MOST_DEPTH + 1)).encode()
        self.assertEqual("1:128: brackets are nested more than 127 deep", said(deep))

    def test_only_what_a_float_holds_is_a_number(self) -> None:
        for text in ("1e308", "-0", "0e99999", "1e-999", "1" + "0" * 308):
            tree(text)
        for text in ("1e309", "-1e309", "1" + "0" * 309):
            self.assertEqual("1:1: the number is too large", said(text.encode()))

    def test_a_file_that_rdbg_cannot_read_is_a_failure(self) -> None:
        tree(" " * (MOST_BYTES - 2) + "{}")
        with self.assertRaisesRegex(Failure, "1,048,577 bytes .at most 1,048,576 are allowed"):
            read(b" " * (MOST_BYTES - 1) + b"{}")


class Causes(unittest.TestCase):
    """What is said of what is no JSON."""

    def expect(self, cases: Dict[bytes, str]) -> None:
        self.assertEqual(list(cases.values()), [said(content) for content in cases])

    def test_commas(self) -> None:
        many = "extra comma"
        cases = {b"[1,\n]": f"1:3: {many}", b'{"a": 1,}': f"1:8: {many}", b"[1,,2]": f"1:4: {many}"}
        cases[b"{,}"] = f"1:2: {many}"
        cases[b"[,1]"] = "1:2: missing value before ,"
        cases[b'{"a": 1\n "b": 2}'] = "1:8: missing comma"
        cases[b'["a"\n "b"]'] = "1:5: missing comma"
        cases[b'{"a": 1; "b": 2}'] = "1:8: expected a comma, found a semicolon"
        self.expect(cases)

    def test_comments(self) -> None:
        comment = "JSON has no comments (.fw files do)"
        cases = {b"{\n // x\n}": f"2:2: {comment}", b"[1, # x\n 2]": f"1:5: {comment}"}
        cases[b"{} /* x */"] = f"1:4: {comment}"
        cases[b'{"a": 1 // x\n}'] = f"1:9: {comment}"
        self.expect(cases)

    def test_numbers(self) -> None:
        cases = {b'{"a": +5}': "1:7: '+5': JSON numbers have no plus sign"}
        cases[b"[007]"] = "1:2: '007': JSON numbers have no leading zeros (write 7)"
        cases[b"[0x1F]"] = "1:2: '0x1F': JSON numbers are decimal (write 31)"
        cases[b"[.5]"] = "1:2: '.5': a decimal point needs digits on both sides"
        cases[b"[5.]"] = "1:2: '5.': a decimal point needs digits on both sides"
        cases[b"[-]"] = "1:2: '-' is not a number"
        cases[b"[10u]"] = "1:2: '10u' is not a JSON number (use digits only)"
        cases[b"[NaN]"] = "1:2: 'NaN' is not a JSON value (did you mean a number?)"
        self.expect(cases)

    def test_quotes(self) -> None:
        cases = {b"{'a': 1}": "1:2: strings need double quotes, not single quotes"}
        cases[b"{a: 1}"] = '1:2: keys need double quotes (write "a")'
        cases[b"[recv]"] = "1:2: 'recv' is not a JSON value (write \"recv\" for a string)"
        cases['["a", \u201cb\u201d]'.encode()] = '1:7: \u201c is not a JSON quote (use ")'
        cases[b'["a,\n "b"]'] = '1:2: the string that begins here has no closing " on its line'
        cases[b'["a'] = '1:2: the string that begins here has no closing " on its line'
        cases[b'["a", "b"c"]'] = "1:10: extra quote or missing comma"
        self.expect(cases)

    def test_brackets(self) -> None:
        cases = {b'{"a": [1': "1:9: unexpected end of file: the [ at 1:7 needs a closing ]"}
        cases[b'{"a": 1\n'] = "2:1: unexpected end of file: the { at 1:1 needs a closing }"
        cases[b'{"a": [1}'] = "1:9: unexpected }: the [ at 1:7 needs a closing ]"
        cases[b'[{"a": 1]'] = "1:9: unexpected ]: the { at 1:2 needs a closing }"
        cases[b"{}}"] = "1:3: unmatched }"
        self.expect(cases)

    def test_colons(self) -> None:
        cases = {b'{"a" = 1}': "1:6: expected a colon after the key, found ="}
        cases[b'{"a" 1}'] = "1:6: missing colon after the key"
        cases[b'{"a"}'] = "1:5: missing colon and value after the key"
        cases[b'{"a":}'] = "1:6: missing value before }"
        cases[b'["a": 1]'] = "1:5: unexpected colon in a list (keys belong in an object, { .. })"
        self.expect(cases)

    def test_characters(self) -> None:
        cases = {b'["a\tb"]': "1:4: a string cannot contain a tab (escape control characters)"}
        cases[b'["\x01"]'] = "1:3: a string cannot contain U+0001 (escape control characters)"
        cases[b'["\\x"]'] = "1:3: \\x is not a JSON escape (write \\\\ for a backslash)"
        cases[b'["\\u12"]'] = "1:3: \\u must be followed by four hexadecimal digits"
        cases[
            b'["\\ud800"]'
        ] = "1:3: \\ud800 is half of a surrogate pair, and the other half is missing"
        cases[
            b"[\xc2\xa01]"
        ] = "1:2: U+00A0 is not white space in JSON (use spaces, tabs or line breaks)"
        self.expect(cases)

    def test_files(self) -> None:
        empty = "1:1: the file is empty (an application is one JSON object, { .. })"
        cases = {b"": empty, b" \n": empty}
        cases[b"{}\n{}"] = "2:1: unexpected text after the end of the application"
        cases[
            b"\xef\xbb\xbf{}"
        ] = "1:1: unexpected byte order mark (save the file as UTF-8 without one)"
        cases[b"\xff\xfe{\0}\0"] = "1:1: the file is UTF-16 (save it as UTF-8)"
        cases[b'{\n"\xc3\xa9\xe9"}'] = "2:3: byte 0xe9 is not UTF-8 (save the file as UTF-8)"
        self.expect(cases)


class Agreement(unittest.TestCase):
    """What Python's own reader takes, where the two don't differ by intent."""

    def test_cut_off_at_each_place_the_sample_is_refused(self) -> None:
        content = SAMPLE.strip().encode()
        messages: List[Any] = [said(content[:at]) for at in range(len(content))]
        self.assertEqual(len(content), len(messages))


if __name__ == "__main__":
    unittest.main()
