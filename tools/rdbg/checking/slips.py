"""What a word was meant to be that can't stand where it does: `portMAX_DELAY` for `max`. And what
a line is for which a line of C was written."""
import re
from typing import Dict, Iterator, Match, Optional, Sequence, Tuple

from rdbg.digits import is_digits
from rdbg.operands import ACTIONS, KIND_OF, MOST_NUMBER, Scope, so_many
from rdbg.wording import by_word, nearest

YES, NO = "pdtrue true 1", "pdfalse false 0"
# What C calls the words of operands, by the symbols of these.
CONSTANTS: Dict[str, Dict[str, str]] = {
    "T": by_word({"max": "portmax_delay forever infinite -1"}),
    "ACTION": {name.lower(): word for name, word in ACTIONS.items()},
    "WISH": by_word({"all": YES, "any": NO}),
    "CLR": by_word({"clear": YES, "keep": NO}),
    "clear|dec": by_word({"clear": YES, "dec": NO}),
    "HEX": by_word({"-": 'null none ""'}),
    "N": by_word({"1": "pdtrue pdpass true", "0": "pdfalse pdfail false"}),
}
SUFFIX = "(?:u?l{0,2}|l{1,2}u)"
C_NUMBERS = (
    (re.compile(rf"(?i)\+?([0-9][0-9_']{{0,20}}){SUFFIX}"), 10),
    (re.compile(rf"(?i)0x([0-9a-f_']{{1,16}}){SUFFIX}"), 16),
    (re.compile(r"(?i)0b([01_']{1,64})"), 2),
)
BINARY = re.compile(r"0[bB][01][01_']*")
SHIFT = re.compile(rf"(?i)\(?1{SUFFIX}<<([0-9]{{1,2}}){SUFFIX}\)?|BIT_?([0-9]{{1,2}})")


def as_number(word: str) -> Optional[int]:
    """The number that C reads in a word: `0x10`, `10u`, `(1<<3)`, `BIT_3`, `0b101`, `1_000`."""
    shift = SHIFT.fullmatch(word)
    if shift:
        return 1 << int(shift.group(1) or shift.group(2))
    for pattern, base in C_NUMBERS:
        found = pattern.fullmatch(word)
        if found:
            return int(re.sub("[_']", "", found.group(1)) or "0", base)
    return None


def number_slip(symbol: str, word: str, scope: Scope) -> Optional[str]:
    """What is wrong with a number, or what number a word is."""
    limits = scope.limits(symbol)
    if limits is None:
        return None
    least, most = limits
    if re.fullmatch(r"-[0-9]{1,10}", word) and symbol in ("N", "V"):
        return f"write {(1 << 32) - int(word[1:])}" if int(word[1:]) else "write 0"
    value = as_number(word)
    if value is not None and least <= value <= most:
        return f"write {value}"
    if value is not None and value > MOST_NUMBER:
        return f"the largest number is {MOST_NUMBER}"
    if symbol == "I" and value is not None:
        return f'"notes" gives each task {so_many(scope.entries)}'
    if symbol == "L" and not scope.in_lines and re.fullmatch(r"[A-Za-z_]\w*:?", word):
        return "a jump takes the number of an instruction, counted from 0"
    return None


def is_binary(word: str) -> bool:
    """Whether a word is a binary number as C has it, whatever else it may be."""
    return BINARY.fullmatch(word) is not None


def as_bytes(word: str) -> str:
    """The bytes of a binary number, the highest first, as an instruction has them."""
    bits = re.sub("[_']", "", word[2:])
    return f"{int(bits, 2):0{2 * ((len(bits) + 7) // 8)}x}"


def bytes_slip(word: str) -> Optional[str]:
    """What is wrong with bytes."""
    if is_binary(word):
        return f"write {as_bytes(word)}"
    if re.fullmatch(r"0[xX]([0-9A-Fa-f]{2})+", word):
        return f"write {word[2:]}"
    one = re.fullmatch(r"0[xX]([0-9A-Fa-f])", word)
    if one:
        return f"write 0{one[1]}"
    if re.fullmatch(r"[0-9A-Fa-f]+", word):
        return "each byte has two digits" if len(word) % 2 else "at most 256 bytes"
    return None


def slips(symbol: str, word: str, scope: Scope) -> Iterator[Optional[str]]:
    """What may be meant by a word that is no such operand, the likeliest first."""
    small, bare = word.lower(), word.strip("(){},;&\"'\t ")
    meant = CONSTANTS.get(symbol, {}).get(small)
    if meant is None and symbol in ("V", "T"):
        meant = CONSTANTS["N"].get(small)
    yield f"write {meant}" if meant else None
    if symbol in ("R", "V", "T") and small != word and scope.fits(symbol, small):
        yield f"write {small}"
    if symbol == "R" and re.fullmatch(r"[0-7]", word):
        yield f"did you mean r{word}?"
    yield bytes_slip(word) if symbol == "HEX" else number_slip(symbol, word, scope)
    for it in (bare, bare.lower()):
        if it != word and scope.fits(symbol, it):
            yield f"write {it}"
    if "\t" in word:
        yield "separate words with spaces, not tabs"
    near = nearest(word, scope.names.get(symbol, KIND_OF[symbol].words()))
    yield f"did you mean '{near}'?" if near else None


def slip(symbol: str, word: str, scope: Scope) -> str:
    """What to write in place of a word that is no such operand; empty where nothing is near."""
    return next(filter(None, slips(symbol, word, scope)), "")


A, B = "(?P<a>[rR][0-7])", "(?P<b>[rR][0-7])"
N, L = r"(?P<n>-?[^\s=!<>&*]+)", "(?P<l>[A-Za-z0-9_]+)"
# The instruction of each, its operands by their names; that of `take` is `add`, of what is below 0.
STATEMENTS: Tuple[Tuple[str, str], ...] = (
    (rf"{A} ?\+\+|\+\+ ?(?P<b>[rR][0-7])", "add a 1"),
    (rf"inc {A}", "add a 1"),
    (rf"{A} ?--|-- ?(?P<b>[rR][0-7])", "take a 1"),
    (rf"dec {A}", "take a 1"),
    (rf"{A} ?= ?{B}", "move a b"),
    (rf"(?:mov|ld|lda) {A} {B}", "move a b"),
    (rf"{A} ?\+= ?{N}", "add a n"),
    (rf"{A} ?= ?(?P=a) ?\+ ?{N}", "add a n"),
    (rf"(?:addi|inc) {A} {N}", "add a n"),
    (rf"{A} ?-= ?{N}", "take a n"),
    (rf"{A} ?= ?(?P=a) ?- ?{N}", "take a n"),
    (rf"(?:sub|subi|dec) {A} {N}", "take a n"),
    (rf"{A} ?= ?{N}", "set a n"),
    (rf"(?:mov|movi|ld|ldi|li|lda) {A} {N}", "set a n"),
    (rf"(?:goto|jmp|br|b) {L}", "jump l"),
    (rf"(?:jz|beqz|cbz|brz) {A} {L}", "jumpz a l"),
    (rf"if (?:! ?{A}|{B} ?== ?0) (?:goto|jump|jmp) {L}", "jumpz a l"),
)
REGISTER = re.compile("[rR][0-7]")
NOISE = re.compile(r"[\s(),;]+")


def plain_number(word: str, in_lines: bool, is_taken: bool) -> Optional[str]:
    """A number, or what it is below 0, as an instruction has it. None where it isn't one."""
    sign, digits = (-1, word[1:]) if word.startswith("-") else (1, word)
    sign = -sign if is_taken else sign
    if REGISTER.fullmatch(digits) or not digits:
        return None
    if in_lines:
        plain = re.fullmatch(r"[A-Za-z0-9_]+", digits)
        return ("-" if sign < 0 else "") + digits if plain else None
    value = as_number(digits)
    return None if value is None or value >> 32 else str(sign * value & 0xFFFF_FFFF)


def written_as(found: Match[str], instruction: str, in_lines: bool) -> Optional[str]:
    """The instruction with the operands that were found."""
    parts: Dict[str, Optional[str]] = found.groupdict()
    first, *symbols = instruction.split(" ")
    operands = []
    for symbol in symbols:
        word = parts.get(symbol) or (parts.get("b") if symbol == "a" else symbol)
        text = plain_number(word or "", in_lines, first == "take") if symbol in "n1" else word
        if text is None or symbol == "l" and not (in_lines or is_digits(text)):
            return None
        operands.append(text.lower() if symbol in "ab" else text)
    return " ".join(["add" if first == "take" else first, *operands])


def statement(words: Sequence[str], in_lines: bool) -> Optional[str]:
    """What a statement on registers is written as, if it is one: `r1++` is `add r1 1`."""
    text = NOISE.sub(" ", " ".join(words)[:100]).strip()
    for pattern, instruction in STATEMENTS:
        found = re.fullmatch(pattern, text)
        made = written_as(found, instruction, in_lines) if found else None
        if made is not None:
            return f"'{text}' is not an instruction (use {made})"
    if re.match(r"r[0-7] ?[-+*/&|^<>]?=|r[0-7]$", text):
        return "an instruction cannot begin with a register (to change one, use set, add or move)"
    return None
