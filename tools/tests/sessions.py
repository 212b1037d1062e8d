"""Finds the sessions of a document, and runs them as a reader would.

A session is a fenced block that begins with `$`. Each line that begins so is a command for the
shell, with the next lines where it ends with a backslash, and with its here-document where it has
one; below it stands what it prints, on standard output and standard error. All sessions of a
document run one after the other in one scratch folder, where `./rdbg` and `examples/` are."""
import dataclasses
import os
import pathlib
import re
import shutil
import subprocess
import tempfile
from typing import Iterator, List, Tuple

from tests.paths import EXAMPLES, WRAPPER

BLOCK = re.compile(r"^```\w*\n(\$ .*?)^```$", re.MULTILINE | re.DOTALL)
HERE = re.compile(r"<<'?(\w+)'?(?= |$)")


@dataclasses.dataclass(frozen=True)
class Command:
    """A command of the shell, what it must print, and the line of the document where it stands."""

    line: int
    text: str
    output: str


def cut(lines: List[str]) -> Tuple[List[str], List[str]]:
    """The lines of the command that the first one begins, and the rest."""
    last = next(at for at, line in enumerate(lines) if not line.endswith("\\"))
    here = HERE.search(lines[last])
    end = last + 1 if here is None else lines.index(here[1]) + 1
    return lines[:end], lines[end:]


def commands(document: str) -> Iterator[Command]:
    """The commands of all sessions of a document, in order."""
    for block in BLOCK.finditer(document):
        at = document.count("\n", 0, block.start(1)) + 1
        lines = block[1].splitlines()
        while lines:
            command, rest = cut(lines)
            following = (place for place, line in enumerate(rest) if line.startswith("$ "))
            end = next(following, len(rest))
            text = "\n".join([command[0][2:], *command[1:]])
            yield Command(at, text, "".join(f"{line}\n" for line in rest[:end]))
            at += len(command) + end
            lines = rest[end:]


def wrong(document: pathlib.Path) -> Iterator[str]:
    """What each command prints that isn't as the document has it."""
    with tempfile.TemporaryDirectory() as folder:
        scratch = pathlib.Path(folder)
        shutil.copytree(EXAMPLES, scratch / "examples")
        (scratch / "rdbg").symlink_to(WRAPPER)
        environment = {**os.environ, "RDBG_HISTORY": str(scratch / "history"), "LC_ALL": "C.UTF-8"}
        for command in commands(document.read_text()):
            ran = subprocess.run(
                ["bash", "-c", command.text],
                cwd=scratch,
                env=environment,
                stdin=subprocess.DEVNULL,
                stdout=subprocess.PIPE,
                stderr=subprocess.STDOUT,
                timeout=60,
            )
            printed = ran.stdout.decode("utf-8", "replace")
            if printed != command.output:
                place = f"{document.name}:{command.line}: {command.text}"
                yield f"{place}\n--- is written ---\n{command.output}--- is ---\n{printed}"
