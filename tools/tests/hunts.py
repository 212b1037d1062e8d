"""Hunts for the tests: on an example or a file, by the companion's words."""
import contextlib
import io
import pathlib
import re
from typing import List, Sequence, Tuple

from rdbg.client import Session
from rdbg.main import main
from tests.paths import EXAMPLES


def path(name: str) -> str:
    """The file of an example."""
    return str(EXAMPLES / f"{name}.json")


def said(*words: str) -> Tuple[int, List[str], List[str]]:
    """The status of `rdbg hunt` on these words, and the lines of its two outputs."""
    output, errors = io.StringIO(), io.StringIO()
    with contextlib.redirect_stdout(output), contextlib.redirect_stderr(errors):
        try:
            status = main(["hunt", *words])
        except SystemExit as ended:
            status = ended.code if isinstance(ended.code, int) else 1
    return status, output.getvalue().splitlines(), errors.getvalue().splitlines()


def replayed(file: str, lines: List[str]) -> List[str]:
    """What the program by itself answers to lines."""
    with Session.run(file) as session:
        return list(session.tell_all(lines))


def written(folder: str, text: str, name: str = "application.json") -> str:
    """The path of a file with this text."""
    file = pathlib.Path(folder) / name
    file.write_text(text)
    return str(file)


FOUND = re.compile(r"found(?: \d+)?: .*, at (\d+)(?:, (?:without|with (\d+)) surprises?)?$")


def found(said: Sequence[str]) -> List[Tuple[int, int]]:
    """With how many surprises and moves each find is, as it was said."""
    heads = filter(None, map(FOUND.match, said))
    return [(int(it[2] or 0), int(it[1])) for it in heads]


TRIED = re.compile(r"searched: ([\d,]+) states?, ([\d,]+) moves?,")


def states(said: Sequence[str]) -> int:
    """How many states were gone through, as it was said."""
    return next(int(it[1].replace(",", "")) for it in map(TRIED.match, said) if it)
