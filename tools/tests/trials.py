"""Folders of applications with their goals, for the tests."""
import contextlib
import io
import json
import pathlib
from typing import Any, List, Tuple

from rdbg.main import main


def tested(*words: str) -> Tuple[int, List[str], List[str]]:
    """The status of `rdbg test` on these words, and the lines of its two outputs."""
    output, errors = io.StringIO(), io.StringIO()
    with contextlib.redirect_stdout(output), contextlib.redirect_stderr(errors):
        try:
            status = main(["test", *words])
        except SystemExit as ended:
            status = ended.code if isinstance(ended.code, int) else 1
    return status, output.getvalue().splitlines(), errors.getvalue().splitlines()


def listing(folder: str, *cases: Any) -> str:
    """A folder with a file that lists these cases."""
    (pathlib.Path(folder) / "goals.json").write_text(json.dumps({"cases": cases}, indent=1))
    return folder
