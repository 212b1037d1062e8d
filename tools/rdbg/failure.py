"""Errors that end a tool with one line for its user, and without a traceback."""
import contextlib
from typing import Callable, Iterator, Type

from rdbg.printable import printable


class Failure(Exception):
    """Why a tool cannot go on, as one line, and its exit status: 1 if rdbg or the application is to
    blame, 2 for wrong arguments and for files that cannot be read or written."""

    def __init__(self, message: str, status: int = 1) -> None:
        super().__init__(message)
        self.status = status


@contextlib.contextmanager
def trying(action: str) -> Iterator[None]:
    """Turns an `OSError` of the block into a `Failure` that says what could not be done.

    The action names its file as the user wrote it, as in `read FILE`."""
    try:
        yield
    except OSError as error:
        raise Failure(f"cannot {printable(action)}: {error.strerror or error}", 2) from None


def of_words(message: str) -> Failure:
    """Returns a failure that the command line, or a file, is to blame for."""
    return Failure(message, 2)


@contextlib.contextmanager
def turned(
    into: Callable[[str], Exception], *kinds: Type[Exception], of: str = ""
) -> Iterator[None]:
    """Turns errors of these kinds into another one with the same message, after the name of what
    they concern, if that is given."""
    try:
        yield
    except kinds as wrong:
        raise into(f"{of}: {wrong}" if of else str(wrong)) from None
