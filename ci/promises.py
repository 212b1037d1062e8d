"""The promises that a table says, held against the sources: each call that carries one is there,
and has the clauses that are named, and no clause of a call is said twice.

A row's last cell has calls, each with its clauses behind a colon: '`play`: `step`, `valid`;
`State::copy`'. What stands in parentheses is definitions, and no clause. What a page quotes in
blocks stands so in the sources, however it is broken into lines there.
"""
import re

FUNCTION = re.compile(r"^( *)(?:pub(?:\(crate\))? )?(?:const )?fn (\w+)", re.MULTILINE)
OWNER = re.compile(
    r"^(?:pub )?"
    r"(?:impl\b(?:<[^{]*?>(?=\s+\w))?\s+(?:[\w:]+(?:<[^{]*?>)?\s+for\s+)?(\w+)|trait (\w+))",
    re.MULTILINE,
)
HEAD = "| Promise | Carried by |"
CLAUSE = re.compile(r"\bensures (\w+)\s*\{")
ASIDE = re.compile(r"\([^()]*\)")
NAMED = re.compile(r"`([\w:]+)`")
BLOCK = re.compile(r"^```\n(.*?)^```$", re.MULTILINE | re.DOTALL)


def clauses_of(top):
    """The names of the clauses of each function: a free one by its name, one of a type by both."""
    found = {}
    for file in sorted(top.glob("crates/*/src/**/*.rt")):
        text = file.read_text()
        owners = [(it.start(), it[1] or it[2]) for it in OWNER.finditer(text)]
        functions = list(FUNCTION.finditer(text))
        for it, following in zip(functions, [*functions[1:], None]):
            names = CLAUSE.findall(text[it.end() : following.start() if following else len(text)])
            owner = next((name for at, name in reversed(owners) if at < it.start()), "")
            key = f"{owner}::{it[2]}" if it[1] and owner else it[2]
            found.setdefault(key, set()).update(names)
    return found


def carried_by(cell):
    """The calls of a cell, each with the clauses that it names."""
    for part in ASIDE.sub("", cell).split(";"):
        calls, colon, clauses = part.partition(": ")
        named = NAMED.findall(calls)
        for call in named:
            yield call, NAMED.findall(clauses) if colon and call == named[-1] else []


def rows_of(page):
    """The rows of a page's tables of promises, each with its line and its last cell."""
    is_there = False
    for at, line in enumerate(page.splitlines(), 1):
        cells = line.strip("|").split(" | ")
        if line.startswith(HEAD):
            is_there = True
        elif not line.startswith("|"):
            is_there = False
        elif is_there and len(cells) == 2:
            yield at, cells[1]


def wrong_promises(clauses, page):
    """What a page's rows name that isn't among the clauses of functions, or twice."""
    said = set()
    for at, cell in rows_of(page):
        for call, named in carried_by(cell):
            if call not in clauses:
                yield at, f"there is no call {call}"
            for clause in named or [""]:
                told = f"{call}: {clause}" if clause else call
                if clause and clause not in clauses.get(call, set()):
                    yield at, f"there is no clause {told}"
                if told in said:
                    yield at, f"{told} is said twice"
                said.add(told)


def misquoted(top, page):
    """The lines of a page's blocks that stand nowhere in code and definitions."""
    files = [*top.glob("crates/*/src/**/*.rt"), *top.glob("crates/*/specs/*.antt")]
    texts = [" ".join(file.read_text().split()) for file in files]
    for found in BLOCK.finditer(page):
        for line in found[1].splitlines():
            if not any(" ".join(line.split()) in text for text in texts):
                yield page.count("\n", 0, found.start()) + 1, f"'{line}' isn't in the sources"
