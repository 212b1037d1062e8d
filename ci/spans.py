"""Reads the body of a function: its tokens, and where its expressions, arguments, operators, fields
and statements stand."""
import dataclasses
import re

TOKEN = re.compile(
    r"""//[^\n]*|/\*.*?\*/|b?"(?:\\.|[^"\\])*"|b?'(?:\\[^']*|[^\\'\n])'|'[A-Za-z_]\w*"""
    r"""|\d\w*|[A-Za-z_]\w*|\.\.=|\.\.|::|->|=>|==|!=|<=|>=|<<|>>|&&|\|\||[-+*/|&^%]=|\S""",
    re.DOTALL,
)
CLOSING = {"(": ")", "[": "]", "{": "}"}
LEVELS = [["||"], ["&&"], ["==", "!=", "<", "<=", ">", ">="], ["|"], ["^"], ["&"], ["<<", ">>"]]
LEVELS += [["+", "-"], ["*", "/", "%"]]
# How firmly each operator holds what stands beside it.
FIRMNESS = {operator: at for at, level in enumerate(LEVELS) for operator in level}
COMPARISONS, ARITHMETIC = set(LEVELS[2]), {"+", "-", "*", "/", "%", "|", "&", "^"}
ASSIGNMENTS = {"=", "+=", "-=", "*=", "/=", "|=", "&=", "^=", "%="}
OPENERS = set("as else if in let match mut move return while for".split())
NO_VALUE = {";", ",", ")", "]", "}", "=>"}


def tokens_of(text):
    """The tokens of a text, without comments, each with its first place and the one behind it."""
    found = [(it[0], it.start(), it.end()) for it in TOKEN.finditer(text)]
    return [it for it in found if not it[0].startswith(("//", "/*"))]


def words_of(text):
    return [word for word, _, _ in tokens_of(text)]


def is_value_end(word):
    """Whether a value may end with the token, so that an operator behind it stands between two."""
    return word in (")", "]", "?", "}", "$") or word[-1] in "\"'" or is_name(word)


def is_name(word):
    return (word[0].isalnum() or word[0] == "_") and word not in OPENERS


def is_tight(words, at, in_closure):
    """Whether no room stands between a token and the one before it."""
    word, last = words[at], words[at - 1]
    before = words[at - 2] if at > 1 else ""
    if word in (")", "]", ";", ",", ".", "?", ":", "::") or word[:2] == ".." and last not in ",{":
        return True
    if last in ("(", "[", ".", "::", "..", "..=") or in_closure and "|" in (word, last):
        return True
    if last in ("&", "*", "-", "!") or last == "&&" and before:
        return not is_value_end(before or "(") or last == "!" and word in ("(", "[")
    if word == "!":
        return is_name(last) and words[at + 1 : at + 2] in (["("], ["["])
    return word in ("(", "[") and is_value_end(last) and last != "}"


def written(words):
    """Tokens as text, of which the same tokens are read."""
    text, in_closure = "", False
    for at, word in enumerate(words):
        opens = word == "|" and not in_closure and (not at or not is_value_end(words[at - 1]))
        text += word if not at or is_tight(words, at, in_closure) else f" {word}"
        in_closure = opens or in_closure and (word != "|")
    return text if words_of(text) == list(words) else " ".join(words)


@dataclasses.dataclass(frozen=True)
class Span:
    """Tokens from first to before last."""

    first: int
    last: int


class Unread(Exception):
    """What stands there is no expression that this reads."""


class Body:
    """The body of a function between its braces, with what was read of it, by first token."""

    def __init__(self, text, opens, closes):
        self.text = text[opens + 1 : closes]
        self.tokens = tokens_of(self.text)
        self.words = [word for word, _, _ in self.tokens]
        self.partner = self.partners()
        self.values, self.statements, self.lists, self.binaries = set(), set(), set(), set()
        self.shorthands, self.conditions, self.arms = set(), set(), set()
        self.block(0, len(self.words))

    def partners(self):
        """The closing bracket of each opening one."""
        partner, open_ones = {}, []
        for at, word in enumerate(self.words):
            if word in CLOSING:
                open_ones.append(at)
            elif word in CLOSING.values() and open_ones:
                partner[open_ones.pop()] = at
        return partner

    def word(self, at):
        return self.words[at] if at < len(self.words) else ""

    def is_spaced(self, at):
        """Whether there is room before the token, as before what stands between two values."""
        return at > 0 and self.tokens[at][1] > self.tokens[at - 1][2]

    def until(self, at, end, *words):
        """The first place from there at which one of the words stands in no brackets."""
        while at < end and self.words[at] not in words:
            at = self.partner.get(at, at) + 1
        return at

    # What follows reads from a token on, notes what it finds, and returns where it ends.

    def block(self, at, end):
        """The statements of a block."""
        while at < end:
            first = at
            try:
                at = self.statement(at, end)
            except Unread:
                at = min(self.until(at, end, ";") + 1, end)
            if at <= first:
                raise Unread(f"no statement at {first}")
            self.statements.add(Span(first, at))

    def statement(self, at, end):
        if self.words[at] == "let":
            equals = self.until(at, end, "=", ";")
            at = self.value(equals + 1, end) if self.word(equals) == "=" else equals
            if self.word(at) == "else":
                at = self.braces(at + 1)
            return min(self.until(at, end, ";") + 1, end)
        if self.words[at] == "{":
            return self.braces(at)
        if self.words[at] in ("if", "match", "while", "for", "loop"):
            behind = self.primary(at, end, True)[-1]
            if self.word(behind) not in (".", "?", ";") or behind >= end:
                return behind
        at = self.value(at, end)
        return at + 1 if at < end and self.words[at] == ";" else at

    def braces(self, at):
        if self.word(at) != "{" or at not in self.partner:
            raise Unread("a block has no brace")
        self.block(at + 1, self.partner[at])
        return self.partner[at] + 1

    def value(self, at, end, floor=0, is_bare=False):
        """A value, with operators that hold as firmly or more. A bare one has no braces behind."""
        first = at
        if at < end and self.words[at] in ("return", "break"):
            behind = at + 1
            return behind if self.word(behind) in NO_VALUE else self.value(behind, end, 0, is_bare)
        at = self.unary(at, end, is_bare)
        while at < end:
            word = self.words[at]
            if word in FIRMNESS and self.is_spaced(at) and FIRMNESS[word] >= floor:
                behind = self.value(at + 1, end, FIRMNESS[word] + 1, is_bare)
                self.binaries.add((Span(first, at), at, Span(at + 1, behind)))
                at = behind
            elif word in ("..", "..=") and floor == 0:
                bare = word == ".." and self.word(at + 1) in NO_VALUE | {"{"}
                at = at + 1 if bare else self.value(at + 1, end, 1, is_bare)
            elif word in ASSIGNMENTS and floor == 0:
                return self.value(at + 1, end, 0, is_bare)
            else:
                break
            self.values.add(Span(first, at))
        return at

    def unary(self, at, end, is_bare):
        first = at
        if at >= end:
            raise Unread("a value is missing")
        if self.words[at] in ("&", "!", "*", "-", "&&"):
            at += 2 if self.word(at + 1) == "mut" else 1
            at = self.unary(at, end, is_bare)
            self.values.add(Span(first, at))
            return at
        if self.words[at] in ("..", "..="):
            bare = self.word(at + 1) in NO_VALUE
            return at + 1 if bare else self.value(at + 1, end, 1, is_bare)
        if self.words[at] in ("|", "||", "move"):
            return self.closure(at, end)
        ends = self.primary(at, end, is_bare)
        while True:
            self.values |= {Span(first, last) for last in ends}
            at = ends[-1]
            ends = self.postfix(at, end)
            if not ends:
                return at

    def closure(self, at, end):
        at += self.words[at] == "move"
        if self.words[at] == "|":
            at = self.until(at + 1, end, "|")
        at += 1
        return self.braces(at) if self.word(at) == "{" else self.value(at, end)

    def postfix(self, at, end):
        """Where what hangs on a value ends, or nothing where nothing does."""
        word = self.word(at)
        if at >= end:
            return []
        if word == "?":
            return [at + 1]
        if word == "." and self.word(at + 1):
            behind = self.generics(at + 2)
            return [self.list(behind) if self.word(behind) == "(" else behind]
        if word in ("(", "[") and not self.is_spaced(at):
            return [self.list(at)]
        if word == "as":
            return [self.path(at + 1)]
        return []

    def generics(self, at):
        """Behind the types that a call names, if it does."""
        if self.word(at) != "::" or self.word(at + 1) != "<":
            return at
        depth, at = 1, at + 2
        while depth and at < len(self.words):
            depth += (self.words[at] == "<") - self.words[at].count(">")
            at += 1
        return at

    def path(self, at):
        at += 1
        while self.word(at) == "::":
            at = self.generics(at) if self.word(at + 1) == "<" else at + 2
        return at

    def list(self, at):
        """What stands in brackets, between commas."""
        if at not in self.partner:
            raise Unread("brackets are open")
        end, parts, first = self.partner[at], [], at + 1
        while first < end:
            last = self.until(first, end, ",")
            try:
                behind = self.value(first, last)
            except Unread:
                behind = first
            if behind == last:
                parts.append(Span(first, last))
            first = last + 1
        self.lists.add((Span(at + 1, end), tuple(parts)))
        return end + 1

    def primary(self, at, end, is_bare):
        word = self.words[at]
        if word in ("(", "["):
            return [self.list(at)]
        if word == "{":
            return [self.braces(at)]
        if word == "if":
            return [self.when(at, end)]
        if word in ("match", "while", "for", "loop", "unsafe"):
            return [getattr(self, f"of_{word}")(at, end)]
        if not re.match(r"[\w\"']", word) or word in ("let", "else", "fn", "as", "in"):
            raise Unread(f"no value begins with '{word}'")
        at = self.path(at)
        if self.word(at) == "!" and self.word(at + 1) in CLOSING and not self.is_spaced(at):
            return [self.list(at + 1)]
        is_record = self.words[at - 1][0].isupper() and self.word(at) == "{"
        if is_record and not is_bare:
            return [self.record(at)]
        return [at]

    def record(self, at):
        """The fields of a value with names."""
        end, first, parts = self.partner[at], at + 1, []
        while first < end:
            last = self.until(first, end, ",")
            if last == first + 1:
                self.shorthands.add(Span(first, last))
            elif self.words[first] == "..":
                self.value(first + 1, last)
            elif self.word(first + 1) == ":":
                self.value(first + 2, last)
                parts.append(Span(first + 2, last))
            first = last + 1
        self.lists.add((Span(at + 1, end), tuple(parts)))
        return end + 1

    def condition(self, at, end):
        """A condition up to its block, or the pattern and the value of `let`."""
        if self.word(at) == "let":
            equals = self.until(at, end, "=")
            at = self.value(equals + 1, end, FIRMNESS["=="], True)
            while self.word(at) == "&&":
                at = self.condition(at + 1, end)
            return at
        behind = self.value(at, end, 0, True)
        self.conditions.add(Span(at, behind))
        return behind

    def when(self, at, end):
        at = self.braces(self.condition(at + 1, end))
        while self.word(at) == "else":
            if self.word(at + 1) == "if":
                return self.when(at + 1, end)
            at = self.braces(at + 1)
        return at

    def of_while(self, at, end):
        return self.braces(self.condition(at + 1, end))

    def of_loop(self, at, end):
        return self.braces(at + 1)

    of_unsafe = of_loop

    def of_for(self, at, end):
        at = self.until(at, end, "in")
        return self.braces(self.value(at + 1, end, 0, True))

    def of_match(self, at, end):
        at = self.value(at + 1, end, 0, True)
        if self.word(at) != "{":
            raise Unread("a match has no brace")
        last, at = self.partner[at], at + 1
        while at < last:
            at = self.arm(at, last)
        return last + 1

    def arm(self, at, end):
        first, arrow = at, self.until(at, end, "=>")
        guard = self.until(at, arrow, "if")
        if guard < arrow:
            self.condition(guard + 1, arrow)
        pattern = Span(first, guard)
        for name in range(first, guard):
            self.of_pattern(name)
        try:
            at = self.value(arrow + 1, end)
        except Unread:
            at = self.until(arrow + 1, end, ",")
        self.arms.add((pattern, Span(arrow + 1, at)))
        return at + 1 if self.word(at) == "," else at

    def of_pattern(self, at):
        """Notes a number, a name or a text of a pattern as a value."""
        if re.match(r"\d|b?[\"']|[A-Z]", self.words[at]) and self.word(at - 1) != "::":
            self.values.add(Span(at, self.path(at)))

    def text_of(self, span):
        return self.words[span.first : span.last]


def in_order(spans):
    return sorted(spans, key=lambda it: (it.first, it.last))


def body_of(text, function):
    """The body of a function of a source's text."""
    return Body(text, function.opens, function.closes)
