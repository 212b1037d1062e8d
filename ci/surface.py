"""Compares docs/decisions/SURFACE.md with the sources.

Each row of the page names a public item: what a reader looks for, the item as it is declared, its file, and, if the
declaration differs from what is looked for, why. A function is written with its parameters and its result, as
`Owner::name(parameters) -> Result`; its type parameters and bounds are left out. A type, trait or constant is written
with its first word, as `struct Queue`.
"""
import re

from functions import blanked

PAGE = "docs/decisions/SURFACE.md"
HEAD = re.compile(r"^\| Looked for \| Declared as \| File \| Why it differs \|$")
ROW = re.compile(r"`([^`]+)`")
OWNER = re.compile(
    r"^(?:pub )?(?:impl\b(?:<[^{]*?>(?=\s+\w))?\s+(?:[\w:]+(?:<[^{]*?>)?\s+for\s+)?(\w+)|trait (\w+))",
    re.MULTILINE,
)
FUNCTION = re.compile(r"^( *)(pub )?(?:const )?fn (\w+)", re.MULTILINE)
ITEM = re.compile(r"^(pub )((?:struct|enum|trait|const) \w+)", re.MULTILINE)
RESULT = re.compile(
    r"\s*->\s*(.+?)(?=\s*(?:\{|;)|\n\s*(?:requires|ensures|where|decreases)\b)", re.DOTALL
)
CLOSING = {"(": ")", "<": ">"}


def closing_at(text, at):
    """Returns the index after the bracket that closes the one at `at`."""
    opening, closing = text[at], CLOSING[text[at]]
    depth = 0
    for index in range(at, len(text)):
        is_arrow = text[index - 1 : index + 1] in ("->", "=>")
        if text[index] == opening:
            depth += 1
        elif text[index] == closing and not is_arrow:
            depth -= 1
            if depth == 0:
                return index + 1
    raise ValueError(f"nothing closes {text[at:at + 20]!r}")


def in_one_line(text):
    """Returns a declaration in one line, without the comma after its last parameter."""
    flat = " ".join(text.split())
    return re.sub(r",? ?([)>\]])", r"\1", re.sub(r"([(<\[]) ", r"\1", flat))


def signature_at(text, found, owner):
    """Returns the declaration of the function found there, with the name of its owner."""
    at = found.end()
    if text[at] == "<":
        at = closing_at(text, at)
    end = closing_at(text, at)
    result = RESULT.match(text, end)
    said = f"{owner}::{found[3]}" if owner else found[3]
    told = f"{said}{text[at:end]}" + (f" -> {result[1]}" if result else "")
    return in_one_line(told)


def declared_in(text):
    """Yields each public function, type, trait and constant of a source, as the page writes it."""
    text = blanked(text)
    owners = [(it.start(), it[1] or it[2], bool(it[2])) for it in OWNER.finditer(text)]
    for found in FUNCTION.finditer(text):
        before = [it for it in owners if it[0] < found.start()] if found[1] else []
        owner, is_trait = before[-1][1:] if before else ("", False)
        if found[2] or is_trait:
            yield signature_at(text, found, owner)
    for found in ITEM.finditer(text):
        yield found[2]


def rows_of(page):
    """Yields the rows of the page's tables: the line, what is declared, the file, and the reason."""
    is_table = False
    for at, line in enumerate(page.splitlines(), 1):
        if HEAD.match(line):
            is_table = True
        elif not line.startswith("|"):
            is_table = False
        elif is_table and not line.startswith("|---"):
            yield at, [cell.strip() for cell in line.strip("|").split(" | ")]


def name_of(declared):
    """Returns the name of a declaration: `Queue` of `struct Queue`, or what stands before the parameters."""
    return declared.partition("(")[0].split()[-1]


def wrong_rows(page, sources):
    """Yields each row that the sources contradict, with its line. `sources` has texts by path."""
    for at, cells in rows_of(page):
        if len(cells) != 4:
            yield at, "a row has four cells"
            continue
        name, declared, file, why = cells
        there = set(declared_in(sources[file.strip("`")])) if file.strip("`") in sources else set()
        for each in ROW.findall(declared):
            if each not in there:
                yield at, f"{file} does not declare `{each}`"
        if not why and name != ", ".join(map(name_of, ROW.findall(declared))):
            yield at, f"{name} is declared otherwise, and the row does not say why"


def read_sources(top):
    """Returns the text of each source by its path."""
    files = sorted(top.glob("crates/*/src/**/*.rt"))
    return {str(file.relative_to(top)): file.read_text() for file in files}


# Planted changes of a source, each of which must be reported: a name, a parameter, a result type.
SAMPLE = """impl Ring {
    pub fn pop(&mut self, count: usize) -> Option<u8>
        ensures { result ≡ None }
    {
        None
    }
}
"""
SAMPLE_PAGE = """| Looked for | Declared as | File | Why it differs |
|---|---|---|---|
| Ring::pop | `Ring::pop(&mut self, count: usize) -> Option<u8>` | `ring.rt` | |
"""
PLANTED = [("pop", "take"), ("count: usize", "count: u32"), ("Option<u8>", "Option<u16>")]


def reports(source):
    """Whether some row of the sample page is reported wrong for a source."""
    return any(True for _ in wrong_rows(SAMPLE_PAGE, {"ring.rt": source}))


def wrong_surface(top, texts):
    """Yields what the page says that the sources contradict, and which planted change of a source goes unreported."""
    for at, wrong in wrong_rows(texts[PAGE], read_sources(top)):
        yield f"{PAGE}:{at}: {wrong}"
    if reports(SAMPLE):
        yield "ci/surface.py: a page that agrees with its source is reported"
    for old, new in PLANTED:
        if not reports(SAMPLE.replace(old, new)):
            yield f"ci/surface.py: `{new}` in place of `{old}` is not reported"
    if next(rows_of(texts[PAGE]), None) is None:
        yield f"{PAGE}: there are no rows"
