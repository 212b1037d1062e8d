"""Files and folders of the current user alone that exist for as long as a block runs."""
import contextlib
import os
import pathlib
import shutil
import tempfile
from typing import Iterator

from rdbg.atomic_file import PRIVATE_MODE
from rdbg.ending import ENDING, MADE
from rdbg.failure import trying
from rdbg.links import Folder


@contextlib.contextmanager
def temporary_folder() -> Iterator[pathlib.Path]:
    """Yields an empty folder."""
    with ENDING.held():
        made = tempfile.mkdtemp()
        MADE.add(made)
    try:
        yield pathlib.Path(made)
    finally:
        shutil.rmtree(made, ignore_errors=True)
        MADE.discard(made)


@contextlib.contextmanager
def temporary_file(name: str, text: str, what: str) -> Iterator[str]:
    """Yields the path of a new file of this name and text, in a folder of its own.

    Raises `Failure`, which says that `what` cannot be written, if that fails."""
    with contextlib.ExitStack() as ends:
        with trying(f"write {what}"):
            path = str(ends.enter_context(temporary_folder()) / name)
            with Folder(os.path.realpath(path)) as folder:
                flags = os.O_WRONLY | os.O_CREAT | os.O_EXCL
                number = folder.open(folder.name, flags, PRIVATE_MODE)
            with os.fdopen(number, "w", encoding="utf-8") as file:
                file.write(text)
        yield path
