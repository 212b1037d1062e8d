"""Checks what a page says of the sources, at the places that the page marks.

A marker is a comment of Markdown, which no reader sees: `<!-- check KIND: WHAT -->`. It stands in the paragraph, list
item or table row that makes the statement, and that must have the value as readers see it.

| Marker | It holds if |
|---|---|
| `check constant: FILE NAME = 81` | FILE declares the constant NAME with this value |
| `check chain: rd_a rd_b rd_c` | each crate depends on the one before, and no chain to the last one is longer |
| `check files: Peek = 2 rd_app, 7 rd_calls` | so many files of exactly these crates name the word in code, definitions or proofs |
| `check projections: 7` | so many definitions have a row for each phase |

A number is written with commas on the page, or as a word from five to ten. Files are written as '`Peek`: 2 files of
`rd_app`, 7 of `rd_calls`'.
"""
import ast
import operator
import re

MARKER = re.compile(r"<!-- check (\w+): (.*?) -->", re.DOTALL)
CONSTANT = re.compile(r"\bconst ([A-Z][A-Z_]+): \w+ = ([^;]+);")
PROJECTION = re.compile(r"^abbrev pub \w+ : Phase → .*\n\w+ Run =", re.MULTILINE)
NUMBER_WORDS = {5: "five", 6: "six", 7: "seven", 8: "eight", 9: "nine", 10: "ten"}
LIMITS = {"u8": 2**8 - 1, "u32": 2**32 - 1}
OPERATORS = {ast.Add: operator.add, ast.Sub: operator.sub, ast.Mult: operator.mul}
COMMENTS = {".rt": re.compile(r"//.*"), ".antt": re.compile(r"(?<!\S)--.*")}
# Crates of tests, which name what they like.
TEST_CRATES = {"rd_rows", "rd_part_rows", "rd_search_rows", "rd_scarce"}


class WrongMarker(Exception):
    """A marker that cannot be read, or that does not hold."""


def code_of(file):
    """Returns the text of a source without its comments."""
    return COMMENTS[file.suffix].sub("", file.read_text(errors="replace"))


def block_around(page, start, end):
    """Returns the paragraph, list item or table row around a marker, in one line and without markers."""
    line_start, line_end = page.rfind("\n", 0, start) + 1, page.find("\n", end)
    first = line_start
    if not page.startswith("|", line_start):
        first = max(page.rfind(it, 0, start) + 1 for it in ("\n\n", "\n- ", "\n* "))
        blank = page.find("\n\n", end)
        line_end = blank if blank >= 0 else len(page)
    said = page[first : line_end if line_end >= 0 else len(page)]
    return " ".join(MARKER.sub("", said).split())


def has_number(said, number):
    """Whether a text has a number as readers see it."""
    forms = [f"{number:,}", NUMBER_WORDS.get(number, "")]
    return any(form and re.search(rf"(?<![\d,]){form}(?![\d,])", said) for form in forms)


class Constants:
    """The constants of the sources: of one file, or by name wherever they are."""

    def __init__(self, top):
        self.top, self.anywhere = top, {}
        for file in sorted(top.glob("crates/*/src/**/*.rt")):
            for name, value in CONSTANT.findall(code_of(file)):
                self.anywhere.setdefault(name, value)

    def value_of(self, node, inside):
        """Returns the value of an expression of numbers and constants, or nothing."""
        if isinstance(node, ast.Constant) and isinstance(node.value, int):
            return node.value
        if isinstance(node, ast.Name):
            text = inside.get(node.id, self.anywhere.get(node.id))
            return None if text is None else self.number(text, inside)
        if isinstance(node, ast.BinOp) and type(node.op) in OPERATORS:
            left, right = self.value_of(node.left, inside), self.value_of(node.right, inside)
            return None if None in (left, right) else OPERATORS[type(node.op)](left, right)
        return None

    def number(self, text, inside):
        """Returns the number that a constant's text stands for, or nothing."""
        limit = re.fullmatch(r"(u8|u32)::MAX", text.strip())
        if limit:
            return LIMITS[limit[1]]
        try:
            return self.value_of(ast.parse(" ".join(text.split()), mode="eval").body, inside)
        except SyntaxError:
            return None

    def check(self, what, said):
        found = re.fullmatch(r"(\S+) (\w+) = (\d+)", what)
        if not found:
            raise WrongMarker(f"'{what}' is not FILE NAME = NUMBER")
        file, name, number = self.top / found[1], found[2], int(found[3])
        inside = dict(CONSTANT.findall(code_of(file))) if file.is_file() else {}
        value = self.number(inside[name], inside) if name in inside else None
        if value != number:
            raise WrongMarker(f"{found[1]}: {name} is {value}, not {number}")
        if not has_number(said, number):
            raise WrongMarker(f"the page does not say {number:,}")


class Chains:
    """The dependencies of crates, as crates.txt has them."""

    def __init__(self, top):
        self.below = {}
        for line in (top / "crates.txt").read_text().splitlines():
            name, colon, words = line.partition("#")[0].partition(":")
            if colon:
                self.below[name.split()[0]] = words.split()

    def longest(self, crate):
        """Returns the length of the longest chain that ends in a crate."""
        below = [self.longest(it) for it in self.below[crate] if it in self.below]
        return 1 + max(below, default=0)

    def check(self, what, said):
        crates = what.split()
        for lower, upper in zip(crates, crates[1:]):
            if lower not in self.below.get(upper, []):
                raise WrongMarker(f"{upper} does not depend on {lower}")
        longest = self.longest(crates[-1]) if crates[-1] in self.below else 0
        if len(crates) != longest:
            raise WrongMarker(f"a chain of {len(crates)} is not the longest, which has {longest}")
        unnamed = [crate for crate in crates if f"`{crate}`" not in said]
        if unnamed:
            raise WrongMarker(f"the page does not name {', '.join(unnamed)}")


class Files:
    """How many files of each crate name a word in code, definitions or proofs."""

    def __init__(self, top):
        self.texts = {}
        for file in sorted(top.glob("crates/*/**/*")):
            parts = file.relative_to(top / "crates").parts
            if file.suffix in COMMENTS and parts[1] in ("src", "specs", "proofs"):
                if parts[0] not in TEST_CRATES and parts[-1] != "tests.rt":
                    self.texts.setdefault(parts[0], []).append(code_of(file))

    def naming(self, word):
        """Returns the number of files that name a word, by crate."""
        named = re.compile(rf"\b{word}\b")
        counts = {crate: sum(map(bool, map(named.search, it))) for crate, it in self.texts.items()}
        return {crate: count for crate, count in counts.items() if count}

    def check(self, what, said):
        word, equals, counts = what.partition(" = ")
        parts = [part.split() for part in counts.split(",")]
        if not equals or any(len(part) != 2 or not part[0].isdigit() for part in parts):
            raise WrongMarker(f"'{what}' is not WORD = NUMBER CRATE, ..")
        marked = {crate: int(count) for count, crate in parts}
        actual = self.naming(word)
        if marked != actual:
            due = ", ".join(f"{count} {crate}" for crate, count in actual.items())
            raise WrongMarker(f"{word} is named by {due}")
        first, *others = [f"{count} of `{crate}`" for crate, count in marked.items()]
        first = first.replace(" of", " file of" if first.startswith("1 ") else " files of", 1)
        if f"`{word}`: {', '.join([first, *others])}" not in said:
            raise WrongMarker(f"the page does not say `{word}`: {', '.join([first, *others])}")


class Projections:
    """The definitions that have a row for each phase."""

    def __init__(self, top):
        text = code_of(top / "crates/rd_state/specs/Phases.antt")
        self.count = len(PROJECTION.findall(text))

    def check(self, what, said):
        if what != str(self.count):
            raise WrongMarker(f"phases have {self.count} projections")
        if not has_number(said, self.count):
            raise WrongMarker(f"the page does not say {self.count}")


KINDS = {"constant": Constants, "chain": Chains, "files": Files, "projections": Projections}
# Statements that must be reported, with a marker that does not hold or does not fit its sentence.
REPORTED = (
    "80 bytes<!-- check constant: crates/rd_reply/src/reply.rt MAX_REPLY = 80 -->",
    "80 bytes<!-- check constant: crates/rd_reply/src/reply.rt MAX_REPLY = 81 -->",
    "81 bytes<!-- check constant: crates/rd_wait/src/prio_list.rt MAX_REPLY = 81 -->",
    "`rd_wait`, `rd_queue`, `rd_state`<!-- check chain: rd_wait rd_queue rd_state -->",
    "`SetEntry`: 1 file of `rd_state`<!-- check files: SetEntry = 1 rd_state -->",
    "six projections<!-- check projections: 6 -->",
    "seven<!-- check nothing: 7 -->",
)


def wrong_markers(checkers, page):
    """Yields the place of each marker of a page that does not hold, and why."""
    for found in MARKER.finditer(page):
        kind, what = found[1], " ".join(found[2].split())
        try:
            if kind not in checkers:
                raise WrongMarker(f"'{kind}' is no kind of marker: {', '.join(checkers)}")
            checkers[kind].check(what, block_around(page, found.start(), found.end()))
        except WrongMarker as wrong:
            yield found.start(), str(wrong)


def wrong_statements(top, pages):
    """Yields a message for each marked statement of the pages (texts by path) that does not hold."""
    checkers = {kind: make(top) for kind, make in KINDS.items()}
    for path, page in pages.items():
        for at, wrong in wrong_markers(checkers, page):
            yield f"{path}:{page.count(chr(10), 0, at) + 1}: {wrong}"
    for page in REPORTED:
        if not list(wrong_markers(checkers, page)):
            yield f"ci/markers.py: '{page}' is not reported"
