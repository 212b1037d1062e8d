"""Reads planted bugs: edits that stand as files, and bodies that a list says to make by rules."""
import dataclasses
import difflib
import pathlib
import re

from bodies import crate_of, made, rows_of
from crate_words import Unmade
from functions import functions_of, homes_in
from repository import TOP
from spans import tokens_of, words_of

# The suffix of what stands in a list and not as a file.
OF_A_ROW = ".row"
# The suffix of a file of several edits, which are named as if they stood in a folder of its name.
OF_SEVERAL = ".edits"
BEGINS = re.compile(r"^edit: (\w+)\n", re.MULTILINE)


@dataclasses.dataclass(frozen=True)
class Patch:
    """Lines of a file, from first to before last, and those that stand there instead."""

    file: str
    first: int
    last: int
    lines: list


@dataclasses.dataclass(eq=False)
class Edit:
    """A planted bug, with what it changes and what became of it."""

    crate: str
    path: pathlib.Path
    patches: list = dataclasses.field(default_factory=list)
    functions: set = dataclasses.field(default_factory=set)
    site: object = None
    fails: list = dataclasses.field(default_factory=list)
    is_alone: bool = False
    # The texts that it gives to its function's own proof files, by file.
    proofs: dict = dataclasses.field(default_factory=dict)
    verdict: str = ""
    # Of a refused one: on what grounds, and the goals that the check left of its functions.
    grounds: str = ""
    goals: list = dataclasses.field(default_factory=list)
    expected: str = ""
    # Of one that a row says to make: the row.
    row: object = None

    @property
    def names(self):
        """By what names docs/decisions/PROOFS.md may have it."""
        own = f"{self.crate} {self.path.stem}"
        return [own, self.row.body(self.crate)] if self.row else [own]


class Unfit(Exception):
    """Why an edit doesn't apply."""


def parts_of(file):
    """The lines of each edit of a file of several, by name. Those before the first are of all."""
    of_all, *parts = BEGINS.split(file.read_text())
    return {name: of_all + lines for name, lines in zip(parts[::2], parts[1::2])}


def text_of(path):
    """The lines of an edit."""
    is_part = path.parent.suffix == OF_SEVERAL
    return parts_of(path.parent)[path.stem] if is_part else path.read_text()


def take_out(path):
    """Takes an edit out of the files."""
    if path.parent.suffix != OF_SEVERAL:
        path.unlink()
        return
    of_all, *parts = BEGINS.split(path.parent.read_text())
    kept = [it for it in zip(parts[::2], parts[1::2]) if it[0] != path.stem]
    if kept:
        path.parent.write_text(of_all + "".join(f"edit: {name}\n{lines}" for name, lines in kept))
    else:
        path.parent.unlink()


def span_of(name, crate, file, text):
    """The places in the text between which the function of that name stands, or all of it."""
    if not name:
        return 0, len(text)
    functions = functions_of(crate, file, text)
    found = [it for it in functions if f"::{it.path}".endswith(f"::{name}")]
    if len(found) != 1:
        raise Unfit(f"{len(found)} functions of {file} are named {name}")
    lines = text.splitlines(keepends=True)
    first = len("".join(lines[: found[0].first]))
    return first, first + len("".join(lines[found[0].first : found[0].last + 1]))


def places_of(text, old):
    """Where the old text stands: to the letter, or else by its words, however they are laid out."""
    if old in text:
        return [(it.start(), it.end()) for it in re.finditer(re.escape(old), text)]
    tokens, words = tokens_of(text), words_of(old)
    ends = range(len(words), len(tokens) + 1)
    slices = [tokens[at - len(words) : at] for at in ends if words]
    return [(it[0][1], it[-1][2]) for it in slices if [word for word, _, _ in it] == words]


def replaced(text, span, old, new):
    first, last = span
    found = places_of(text[first:last], old)
    if len(found) != 1:
        raise Unfit(f"an 'old:' text stands {len(found)} times, and not once")
    begins, ends = found[0]
    return text[: first + begins] + new + text[first + ends :]


def edited_files(edit, folder):
    """The texts that the edit makes, by file. Later pairs apply to what the earlier ones made."""
    file, function, old, texts = None, None, None, {}
    for line in text_of(edit.path).splitlines():
        key, _, text = line.partition(":")
        text = text[1:] if text.startswith(" ") else text
        if key == "file":
            file, function = text.strip(), None
        elif key == "fn":
            function = text.strip()
        elif key == "fails":
            edit.fails.append(text.strip())
        elif key == "expected":
            edit.expected = text
        elif key == "old":
            old = text
        elif key == "new":
            if not file or not old:
                raise Unfit("a 'new:' line stands before any 'file:' or 'old:' line")
            if file not in texts and not (folder / file).is_file():
                raise Unfit(f"there is no file {file}")
            before = texts[file] if file in texts else (folder / file).read_text()
            span = span_of(function, edit.crate, file, before)
            texts[file], old = replaced(before, span, old, text), None
    if not texts:
        raise Unfit("it has no 'old:' and 'new:' pair")
    return texts


def patches_between(file, before, after):
    before, after = before.splitlines(keepends=True), after.splitlines(keepends=True)
    changes = difflib.SequenceMatcher(None, before, after, autojunk=False).get_opcodes()
    return [
        Patch(file, first, last, after[new_first:new_last])
        for kind, first, last, new_first, new_last in changes
        if kind != "equal"
    ]


def innermost(functions, patch):
    last = max(patch.last - 1, patch.first)
    around = [it for it in functions if it.first <= patch.first and last <= it.last]
    return around[-1] if around else None


def functions_named(names, crate, folder, homes):
    """The paths of the crate's functions of these names."""
    found = set()
    for source in (folder / "src").rglob("*.rt"):
        file = str(source.relative_to(folder))
        paths = [it.path for it in functions_of(crate, file, source.read_text(), homes)]
        ends = tuple(f"::{name}" for name in names)
        found |= {path for path in paths if f"::{path}".endswith(ends)}
    if len(found) < len(names):
        raise Unfit(f"a function that is to fail is not there: {', '.join(names)}")
    return found


def is_proof_of(file, paths):
    """Whether the file is one of the proof files of these functions."""
    homes = [proofs_of(pathlib.Path(), path) for path in paths if path]
    return pathlib.Path(file).parent in homes


def read_edit(crate, path, folder):
    """The planted bug that stands as this file, or in the crate's list by its name."""
    return (read_row if path.suffix == OF_A_ROW else read_file)(crate, path, folder)


def read_row(crate, path, folder):
    """The bug that a row of the crate's list says to make."""
    row = rows_of(crate)[path.stem]
    edit = Edit(crate, path, row=row)
    try:
        body = made(crate_of(crate), row)
    except Unmade as error:
        edit.verdict = f"it can't be made: {error}"
        return edit
    edit.patches = [Patch(body.file, body.first, body.last, body.lines)]
    edit.functions = {body.path}
    edit.site = body.file, crate_of(crate).functions[body.path][1]
    return edit


def read_file(crate, path, folder):
    """The edit, with the functions that it changes, and None among them where it changes something
    else and doesn't say which functions are to fail for it. The proof files of a function that it
    changes go with that function."""
    edit, homes, sites = Edit(crate, path), homes_in(crate, folder), {}
    try:
        texts = edited_files(edit, folder)
        for file in sorted(texts, key=lambda it: it.startswith("proofs/")):
            before = (folder / file).read_text()
            is_source = file.startswith("src/")
            functions = functions_of(crate, file, before, homes) if is_source else []
            patches = patches_between(file, before, texts[file])
            edit.patches += patches
            if is_proof_of(file, sites):
                edit.proofs[file] = texts[file]
                continue
            for function in (innermost(functions, patch) for patch in patches):
                sites[function and function.path] = file, function
        if not edit.patches:
            raise Unfit("it changes nothing")
        edit.functions, edit.is_alone = {*sites}, None in sites
        edit.site = next(iter(sites.values())) if len(sites) == 1 and not edit.is_alone else None
        if edit.fails:
            edit.functions = functions_named(edit.fails, crate, folder, homes)
    except Unfit as error:
        edit.verdict = f"it doesn't apply: {error}"
    return edit


def overlap(one, other):
    last, other_last = max(one.last, one.first + 1), max(other.last, other.first + 1)
    return one.file == other.file and one.first < other_last and other.first < last


def fits_beside(edit, batch):
    if edit.is_alone or batch[0].is_alone:
        return False
    patches = [patch for other in batch for patch in other.patches]
    if any(overlap(patch, other) for patch in edit.patches for other in patches):
        return False
    return not any(edit.functions & other.functions for other in batch)


def batches_of(edits):
    """The edits in as few batches as their functions allow."""
    batches = []
    for edit in edits:
        room = next((batch for batch in batches if fits_beside(edit, batch)), None)
        if room:
            room.append(edit)
        else:
            batches.append([edit])
    return batches


def proofs_of(folder, path):
    return folder.joinpath("proofs", *path.split("::")[1:])


def can_stand_twice(folder, edit):
    """Whether a copy of the edit's function may stand beside it."""
    if not edit.site or edit.site[1].is_of_trait:
        return False
    proofs, name = proofs_of(folder, edit.site[1].path), edit.site[1].path.split("::")[-1]
    cycle, closures = proofs.with_name(f"+{name}"), proofs.parent / "fn" / name
    return not cycle.exists() and not closures.exists()


def files_of(planted):
    """The edits of a folder, as files, whether a file has one or several."""
    several = planted.glob(f"*{OF_SEVERAL}")
    return [
        *planted.glob("*.edit"),
        *(it / f"{name}.edit" for it in several for name in parts_of(it)),
    ]


def edits_of(crate):
    """The crate's planted bugs, by name: edits, and rows of its list, all as if they were files."""
    planted = TOP / "crates" / crate / "planted"
    rows = [planted / f"{name}{OF_A_ROW}" for name in rows_of(crate)]
    return tuple(sorted([*files_of(planted), *rows]))
