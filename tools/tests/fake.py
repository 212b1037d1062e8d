"""A program that isn't rdbg: it answers lines as a test says, and then ends or goes on."""
import contextlib
import os
import pathlib
import socket
import stat
import sys
import tempfile
import threading
from typing import Callable, Iterator, Optional, Sequence
from unittest import mock

TEXT = """#!{python} -B
import sys
answers = {answers!r}
for answer in answers:
    if not sys.stdin.readline():
        break
    sys.stdout.write(answer)
    sys.stdout.flush()
sys.stderr.write({error!r})
sys.exit({status})
"""


@contextlib.contextmanager
def program(answers: Sequence[str], error: str = "", status: int = 0) -> Iterator[str]:
    """The path of a program that writes the nth answer for the nth line, and ends after the last.
    As long as it is there, companions start it in place of rdbg."""
    with tempfile.TemporaryDirectory() as folder:
        file = pathlib.Path(folder) / "rdbg"
        text = TEXT.format(python=sys.executable, answers=list(answers), error=error, status=status)
        file.write_text(text)
        file.chmod(file.stat().st_mode | stat.S_IXUSR)
        with mock.patch.dict(os.environ, {"RDBG_PROGRAM": str(file)}):
            yield str(file)


@contextlib.contextmanager
def port(answer: Callable[[str], Optional[bytes]]) -> Iterator[int]:
    """A port at which one connection is answered: to each line it is sent what `answer` says of
    it. It is closed where that is none, and behind what ends with a byte 0."""

    def serve() -> None:
        with contextlib.suppress(OSError), listener.accept()[0] as connection:
            with connection.makefile("rb") as lines:
                for line in lines:
                    said = answer(line.decode().rstrip("\n"))
                    connection.sendall((said or b"").rstrip(b"\0"))
                    if said is None or said.endswith(b"\0"):
                        return

    with socket.socket() as listener:
        listener.bind(("127.0.0.1", 0))
        listener.listen()
        thread = threading.Thread(target=serve, daemon=True)
        thread.start()
        yield int(listener.getsockname()[1])
    thread.join(10)
