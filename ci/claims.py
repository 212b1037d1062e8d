"""Compares tables, links and file lengths of the pages with the sources.

A row of a path names a file of a crate and, after a comma, functions that it has. A row of changes has their tags; the
page has a row for each tag. A row of definitions has a crate, files of its specs/ and their number of lines, each file
after those that it uses; so are they listed in the first lines of a crate's lib.rt. Links of Markdown lead to files.
Functions and files that are too long are named by CONTRIBUTING. Other statements are marked (`markers.py`).
"""
import re

from functions import functions_of, homes_in
from markers import code_of

DEFINED = re.compile(r"\| `(rd_\w+)` \| ((?:`\w+`(?:, )?)+) \| (\d+) \|")
STEP = re.compile(r"`(rd_\w+/src/\w+\.rt)`, (`\w+`(?:, `\w+`)*)")
TAGGED = re.compile(r"\| ([A-Z]\w*\([^|]*?) \| (\d+(?:, \d+)*) \|")
CHANGE = re.compile(r"\b([A-Z]\w*)\(")
TAG = re.compile(r"/// `(\w+)`: .*\npub const \w+: u8 = (\d+);")
USED = re.compile(r"^use Rattle\.(rd_\w+)\.specs\.(\w+)\.", re.MULTILINE)
NAMED = re.compile(r"`(\w+)`")
LINK = re.compile(r"\]\(([^)#\s]+)[^)]*\)")
INDEX = "docs/README.md"
DECISIONS = "docs/decisions/"
MOST_LINES, MOST_LINES_OF_FILE = 40, 600


class Roads:
    """The functions that are named beside their files, as rows of a road."""

    def __init__(self, top):
        self.top = top

    def wrong_in(self, text):
        for found in STEP.finditer(text):
            file = self.top / "crates" / found[1]
            code = code_of(file) if file.is_file() else ""
            for name in NAMED.findall(found[2]):
                if not re.search(rf"\bfn {name}\b", code):
                    yield found.start(), f"{found[1]} has no function {name}"


class Tags:
    """Primitive changes with the number of each, which stands beside its name in rd_bytes."""

    def __init__(self, top):
        text = (top / "crates/rd_bytes/src/tag.rt").read_text()
        self.names = {int(number): name for name, number in TAG.findall(text)}

    def wrong_in(self, text):
        for found in TAGGED.finditer(text):
            names, numbers = CHANGE.findall(found[1]), list(map(int, found[2].split(", ")))
            # (one change may have a number for each of its kinds)
            names += names[-1:] * (len(numbers) - len(names))
            for name, number in zip(names, numbers):
                if self.names.get(number) != name:
                    yield found.start(), f"{number} isn't the tag of {name}"


class AllTags(Tags):
    """That a page which has rows of changes and their tags has a row for each tag."""

    def wrong_in(self, text):
        rows = list(TAGGED.finditer(text))
        said = {int(number) for found in rows for number in found[2].split(", ")}
        if rows and said != set(self.names):
            yield rows[0].start(), f"tags differ from rd_bytes: {sorted(said ^ set(self.names))}"


class Definitions:
    """Files of definitions: that each stands behind those that it uses, and their lines."""

    def __init__(self, top):
        self.top = top

    def file(self, crate, name):
        return self.top / f"crates/{crate}/specs/{name}.antt"

    def wrong_in(self, text):
        rows = [
            (it.start(), it[1], NAMED.findall(it[2]), int(it[3])) for it in DEFINED.finditer(text)
        ]
        left = [(crate, name) for _, crate, names, _ in rows for name in names]
        for at, crate, names, lines in rows:
            for name in names:
                left.remove((crate, name))
                said = self.file(crate, name)
                for used in USED.findall(said.read_text() if said.is_file() else ""):
                    if used in left:
                        yield at, f"{crate}: {name} stands before {used[1]} of {used[0]}"
            files = [self.file(crate, name) for name in names]
            lacking = [file.stem for file in files if not file.is_file()]
            if lacking:
                yield at, f"{crate} has no definitions {', '.join(lacking)}"
            elif lines != (are := sum(len(file.read_text().splitlines()) for file in files)):
                yield at, f"{crate}: {lines} is said, and these files have {are} lines"


def first_lines(file):
    """What a source says of itself at its head, as one line."""
    lines = file.read_text().splitlines()
    return " ".join(line[3:].strip() for line in lines if line.startswith("//!"))


def wrong_at_heads(top):
    """Pages and definitions that a crate's first lines name and that aren't there, or stand before
    what they use."""
    for file in sorted(top.glob("crates/*/src/lib.rt")):
        crate, said = file.parts[-3], first_lines(file)
        for page in re.findall(r"docs/[\w/]+\.md", said):
            if not (top / page).is_file():
                yield f"crates/{crate}/src/lib.rt: {page} isn't there"
        listed = re.search(r"reading order \(`specs/`\): ([^.]+)\.", said)
        left = NAMED.findall(listed[1]) if listed else []
        while left:
            definitions = top / f"crates/{crate}/specs/{left.pop(0)}.antt"
            text = definitions.read_text() if definitions.is_file() else ""
            used = [name for other, name in USED.findall(text) if other == crate and name in left]
            if used or not text:
                after = f"stands before {used[0]}" if used else "isn't there"
                yield f"crates/{crate}/src/lib.rt: {definitions.stem} {after}"


def long_functions(top):
    """The functions of Rattle with more lines between their braces, and where they stand."""
    for folder in sorted(top.glob("crates/*")):
        for file in sorted(folder.glob("src/**/*.rt")):
            text = file.read_text()
            inside = str(file.relative_to(folder))
            for it in functions_of(folder.name, inside, text, homes_in(folder.name, folder)):
                if text.count("\n", it.opens, it.closes) - 1 > MOST_LINES:
                    yield it.path.rpartition("::")[2], f"{folder.name}/{inside}"


def long_files(top):
    """The files with more lines."""
    globs = ("crates/*/s*/**/*", "crates/*/proofs/**/*", "tools/**/*.py", "ci/*", "bench/*", "rdbg")
    found = {
        file for it in globs for file in top.glob(it) if file.is_file() and file.suffix != ".tsv"
    }
    for file in sorted(found):
        if len(file.read_bytes().splitlines()) > MOST_LINES_OF_FILE:
            yield str(file.relative_to(top))


def too_long(top):
    """What has too many lines: how a page names it, and what is wrong."""
    for name, where in long_functions(top):
        yield name, f"{where}: {name} has more than {MOST_LINES} lines, and stands nowhere"
    for file in long_files(top):
        yield file, f"{file} has more than {MOST_LINES_OF_FILE} lines, and stands nowhere"


def broken_links(folder, text):
    """The links of a page in this folder that lead nowhere."""
    for found in LINK.finditer(text):
        if "://" not in found[1] and not (folder / found[1]).exists():
            yield found.start(), f"{found[1]} isn't there"


def unlisted(pages):
    """Yields a message for each page of docs/, decisions excepted, that the index does not link to."""
    linked = {f"docs/{it}" for it in LINK.findall(pages[INDEX])}
    for path in pages:
        if path.startswith("docs/") and not path.startswith(DECISIONS) and path != INDEX:
            if path not in linked:
                yield f"{INDEX}: no link to {path}"


def flat(text):
    """A page without its blocks of code, with a space for each line's end, its places as before."""
    text = re.sub(r"```.*?```", lambda it: re.sub(r"[^\n]", " ", it[0]), text, flags=re.DOTALL)
    return text.replace("\n", " ")


# What must be missed, a text for each sort.
WRONG = {
    Roads: "`rd_wait/src/prio_list.rt`, `index_of`",
    Tags: "| SetTick(tick), SetTurn(turn) | 1, 3 | the same |",
    AllTags: "| SetTick(tick) | 1 | the same |",
    Definitions: "| `rd_wait` | `TaskList` | 1 |",
}


def wrong_claims(top, pages):
    """What pages (a text for each path) say that isn't so, each with its path and its line."""
    judges = [judge(top) for judge in WRONG]
    for path, text in pages.items():
        said = flat(text)
        found = [it for judge in judges for it in judge.wrong_in(said)]
        found += broken_links((top / path).parent, said)
        for at, wrong in found:
            yield f"{path}:{text.count(chr(10), 0, at) + 1}: {wrong}"
    yield from unlisted(pages)
    yield from wrong_at_heads(top)
    if not list(unlisted({INDEX: "", "docs/NONE.md": ""})):
        yield "ci/documents: a page is listed that isn't"
    found = list(too_long(top))
    for name, wrong in found:
        if f"`{name}`" not in pages["CONTRIBUTING.md"]:
            yield f"CONTRIBUTING.md: {wrong}"
    if not found:
        yield "ci/documents: nothing is too long"
    for judge in judges:
        if not list(judge.wrong_in(WRONG[type(judge)])):
            yield f"ci/documents: '{WRONG[type(judge)]}' is taken for true"
    if not list(broken_links(top, "[none](none.md)")):
        yield "ci/documents: a link to nowhere is taken for one"
