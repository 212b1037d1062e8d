"""Writes the lists of planted bugs that rules make: which files are rows, what was found of each,
and which bodies no list has."""
import dataclasses
import itertools

from bodies import crate_of, list_of, made, named, rows_of, untried, written_list
from edits import OF_A_ROW, edits_of, files_of, read_edit, read_file, take_out, text_of
from repository import TOP
from spans import words_of
from verdicts import REFUSED

# Lines of an edit that a row says as well.
SAID_BY_ROWS = {"file", "fn", "old", "new"}


def source_edited(edit):
    """The text of the source that the bug changes, with the bug."""
    crate, file = crate_of(edit.crate), edit.site[0]
    lines, new, at = crate.texts[file].splitlines(keepends=True), [], 0
    for patch in sorted(edit.patches, key=lambda it: it.first):
        new += lines[at : patch.first] + patch.lines
        at = patch.last
    return "".join(new + lines[at:])


def words_edited(edit):
    """The words of the body of the function that the bug changes, or of none where it changes no
    function alone, or more than its body."""
    crate, files = crate_of(edit.crate), {patch.file for patch in edit.patches}
    if not edit.site or edit.site[1].path not in crate.functions or files != {edit.site[0]}:
        return ()
    file, function = crate.functions[edit.site[1].path]
    old, new = crate.texts[file], source_edited(edit)
    ends = len(new) - (len(old) - function.closes)
    is_around = new[: function.opens + 1] == old[: function.opens + 1]
    is_around = is_around and new[ends:] == old[function.closes :]
    return tuple(words_of(new[function.opens + 1 : ends])) if is_around else ()


def row_of(edit):
    """The row that makes the body that the edit makes, word for word, or none."""
    says = {line.partition(":")[0] for line in text_of(edit.path).splitlines()}
    words = words_edited(edit) if says <= SAID_BY_ROWS and not edit.verdict else ()
    crate = crate_of(edit.crate)
    found = words and named(crate, edit.site[1].path, list(words))
    if not found or set("\t\n") & set("".join(map(str, dataclasses.astuple(found)))):
        return None
    body = made(crate, found)
    lines = crate.texts[body.file].splitlines(keepends=True)
    whole = "".join(lines[: body.first] + body.lines + lines[body.last :])
    is_same = body.file == edit.site[0] and words_of(whole) == words_of(source_edited(edit))
    return dataclasses.replace(found, name=edit.path.stem) if is_same else None


def list_edits(crate):
    """Has a row of the crate's list say each of its edits that a rule makes. Returns how many."""
    folder, rows = TOP / "crates" / crate, [*rows_of(crate).values()]
    for path in sorted(files_of(folder / "planted")):
        row = row_of(read_file(crate, path, folder))
        if row:
            rows.append(row)
            list_of(crate).write_text(written_list(rows))
            take_out(path)
    rows_of.cache_clear()
    return len(rows)


def note(edits):
    """Has the lists say by which clauses each body was refused."""
    for crate in {edit.crate for edit in edits if edit.row}:
        rows = dict(rows_of(crate))
        for edit in edits:
            if edit.crate == crate and edit.row and edit.verdict == REFUSED and edit.goals:
                known = f"{edit.grounds}: {', '.join(edit.goals)}"
                rows[edit.row.name] = dataclasses.replace(edit.row, known=known)
        list_of(crate).write_text(written_list(rows.values()))


def more_of(crate, share, most):
    """So many bodies that are planted nowhere, of the share of them, as if the list had them."""
    folder = TOP / "crates" / crate
    planted = [read_edit(crate, path, folder) for path in edits_of(crate)]
    done = {(it.site[1].path, words_edited(it)) for it in planted if it.site and not it.verdict}
    number, count = (share.number, share.count) if share else (0, 1)
    found = itertools.islice(untried(crate_of(crate), done), number, number + most * count, count)
    for at, row in enumerate(found, 1):
        name = f"more_{at}"
        rows_of(crate)[name] = dataclasses.replace(row, name=name)
        yield folder / "planted" / f"{name}{OF_A_ROW}"
