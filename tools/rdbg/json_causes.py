"""Messages for the usual mistakes in JSON, with what would be right."""
import contextlib
import re
from typing import Optional, Tuple

from rdbg import wording
from rdbg.digits import is_digits

CLOSES = {"[": "]", "{": "}"}
COMMA = "extra comma"
WORD = re.compile(r"[A-Za-z_][A-Za-z0-9_]*")
NUMBER_LIKE = re.compile(r"[+-]?[0-9A-Za-z_.]+(?:(?<=[eE])[+-][0-9]*)?")
QUOTES = "\u2018\u2019\u201a\u201b\u201c\u201d\u201e\u201f\u00ab\u00bb\u0060\u00b4"
# What stands where a value could, in small letters, and what is written in its place.
VALUES = wording.by_word(
    {"true": "true", "false": "false", "null": "null none", "a number": "nan inf infinity"}
)


def shown(sign: str) -> str:
    """A character, or its number where it can't be seen."""
    return sign if sign.isprintable() and sign != " " else f"U+{ord(sign):04X}"


def nowhere(text: str, at: int) -> Optional[str]:
    """What stands nowhere in JSON outside of texts."""
    sign = text[at]
    if text.startswith(("//", "/*"), at) or sign == "#":
        return "JSON has no comments (.fw files do)"
    if sign == "\ufeff":
        return "unexpected byte order mark (save the file as UTF-8 without one)"
    if sign == "'":
        return "strings need double quotes, not single quotes"
    if sign in QUOTES:
        return f'{sign} is not a JSON quote (use ")'
    if sign.isspace() or not sign.isprintable():
        return f"{shown(sign)} is not white space in JSON (use spaces, tabs or line breaks)"
    return None


def no_value(text: str, at: int) -> str:
    """Why no value begins here."""
    sign = text[at]
    if sign in ",]}":
        return f"missing value before {sign}"
    if sign in "+-.":
        return number(text, at)
    found = WORD.match(text, at)
    if found:
        word = wording.shown(found.group())
        meant = VALUES.get(word.lower())
        hint = f"did you mean {meant}?" if meant else f'write "{word}" for a string'
        return f"'{word}' is not a JSON value ({hint})"
    return f"expected a value, found {shown(sign)}"


def number(text: str, at: int) -> str:
    """Why a number is none."""
    found = NUMBER_LIKE.match(text, at)
    word = wording.shown(found.group() if found else text[at])
    if re.fullmatch(r"[+-]", word):
        return f"'{word}' is not a number"
    if word.startswith("+"):
        return f"'{word}': JSON numbers have no plus sign"
    if re.match(r"-?0[xXbBoO]", word):
        with contextlib.suppress(ValueError):
            return f"'{word}': JSON numbers are decimal (write {int(word, 0)})"
        return f"'{word}': JSON numbers are decimal"
    if re.match(r"-?0[0-9]", word):
        plain = word.lstrip("-0") or "0"
        hint = f" (write {plain})" if is_digits(plain) and word[0] != "-" else ""
        return f"'{word}': JSON numbers have no leading zeros{hint}"
    if re.match(r"-?\.", word) or re.fullmatch(r"-?[0-9]+\.", word):
        return f"'{word}': a decimal point needs digits on both sides"
    return f"'{word}' is not a JSON number (use digits only)"


def begins_value(text: str, at: int) -> bool:
    """Whether a value could begin here."""
    return re.compile(r'["{\[0-9A-Za-z_+-]').match(text, at) is not None


def no_comma(text: str, behind: int, at: int, bracket: str) -> Tuple[int, str]:
    """What is wrong behind a value, which ended at `behind`, and where, but for a comma."""
    sign = text[at]
    if sign == ":" and bracket == "]":
        return at, "unexpected colon in a list (keys belong in an object, { .. })"
    if sign == ":":
        return at, "unexpected colon after a value"
    if sign == ";":
        return at, "expected a comma, found a semicolon"
    if text[behind - 1] == '"' and behind == at and WORD.match(text, at):
        return behind, "extra quote or missing comma"
    if begins_value(text, at):
        return behind, "missing comma"
    return at, f"expected a comma or {bracket}, found {shown(sign)}"


def no_key(text: str, at: int) -> str:
    """Why no key begins here."""
    sign = text[at]
    if sign == ",":
        return COMMA
    word = WORD.match(text, at)
    if word:
        return f"keys need double quotes (write {wording.quoted(word.group())})"
    if begins_value(text, at):
        return "expected a key in double quotes, a colon and a value"
    return f"expected a key, found {shown(sign)}"


def no_colon(text: str, at: int) -> str:
    """Why there is no colon behind a key."""
    if text[at] in ",}":
        return "missing colon and value after the key"
    if text[at] in "=;":
        return f"expected a colon after the key, found {text[at]}"
    if text[at - 1] == '"' and WORD.match(text, at):
        return "missing colon, or the key before it ends at the wrong quote"
    return "missing colon after the key"


def behind_end(text: str, at: int) -> str:
    """What stands behind the end of the one value."""
    if text[at] in "]}":
        return f"unmatched {text[at]}"
    return nowhere(text, at) or "unexpected text after the end of the application"


def in_text(text: str, start: int, at: int) -> Tuple[int, str]:
    """What is wrong with a text that ends at no quote, or with a character in it; and where."""
    if at >= len(text) or text[at] in "\r\n":
        return start, 'the string that begins here has no closing " on its line'
    if text[at] == "\\":
        return at, escape(text, at)
    sign = "a tab" if text[at] == "\t" else shown(text[at])
    return at, f"a string cannot contain {sign} (escape control characters)"


def escape(text: str, at: int) -> str:
    """Why an escape is none."""
    sign = text[at + 1 : at + 2]
    half = re.compile(r"\\u[0-9A-Fa-f]{4}").match(text, at)
    if half:
        return f"{half.group()} is half of a surrogate pair, and the other half is missing"
    if sign == "u":
        return "\\u must be followed by four hexadecimal digits"
    if not sign or sign in "\r\n":
        return "the string ends with a \\ at the end of its line"
    return f"\\{shown(sign)} is not a JSON escape (write \\\\ for a backslash)"
