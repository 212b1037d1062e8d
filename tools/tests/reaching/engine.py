"""The engine of `rdreach`: what it is told, and what it answers."""
import subprocess
from typing import IO, List, NamedTuple, Sequence, Tuple

PATIENCE = 60


class Ended(NamedTuple):
    """What came of an engine: its answers, what it said on standard error, and its status."""

    answers: List[str]
    errors: str
    status: int


def answers_in(output: str) -> List[str]:
    """The answers of an output. Each is some lines, and an empty one ends it."""
    *answers, rest = output.split("\n\n")
    assert rest == "", rest
    return answers


def talk(words: Sequence[str], said: bytes) -> Ended:
    """What an engine that is started by these words answers to all of this."""
    ran = subprocess.run(
        words, input=said, stdout=subprocess.PIPE, stderr=subprocess.PIPE, timeout=PATIENCE
    )
    return Ended(answers_in(ran.stdout.decode()), ran.stderr.decode(), ran.returncode)


class Engine:
    """An engine that is told one line after the other."""

    def __init__(self, words: Sequence[str]) -> None:
        pipe = subprocess.PIPE
        self._process = subprocess.Popen(words, stdin=pipe, stdout=pipe, stderr=pipe)

    def __enter__(self) -> "Engine":
        return self

    def __exit__(self, *cause: object) -> None:
        self._process.kill()
        self._process.communicate()

    def ask(self, line: str) -> str:
        """What it answers to a line; nothing more is told it until that is there."""
        self.tell(line)
        lines: List[bytes] = []
        while not lines or lines[-1] not in (b"\n", b""):
            lines.append(self._ends()[1].readline())
        return b"".join(lines[:-1]).decode().rstrip("\n")

    def tell(self, line: str) -> None:
        """Tells it a line."""
        told, _ = self._ends()
        told.write(f"{line}\n".encode())
        told.flush()

    def deafen(self) -> None:
        """Nobody reads any more what it answers."""
        self._ends()[1].close()

    def wait(self) -> int:
        """Its status, once it has ended."""
        return self._process.wait(PATIENCE)

    def _ends(self) -> Tuple[IO[bytes], IO[bytes]]:
        assert self._process.stdin is not None and self._process.stdout is not None
        return self._process.stdin, self._process.stdout
