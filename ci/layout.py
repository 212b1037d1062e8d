"""The files of an installed rdbg, as a folder: for `./rdbg install` and for ci/release.

bin/rdbg is a small script (tools/installed). lib/rdbg holds the programs, the tools, and the file
`release`: its head names the commit, and its lines are the SHA-256 of every other file, as
`sha256sum -c` reads them. share holds the pages, the examples, the editors' files, the manual
pages, the completions and the licences.
"""
import dataclasses
import hashlib
import pathlib
import shutil
import subprocess
import sys
from typing import Dict, Iterable, Iterator, List

from libraries import copyright_text

RELEASE = pathlib.Path("lib/rdbg/release")
PROGRAMS = ("rdbg", "rdreach")
# The place of each file or folder of the repository.
COPIED = {
    "bin/rdbg": "tools/installed",
    "lib/rdbg/tools/companion": "tools/companion",
    "lib/rdbg/tools/wrapper": "tools/wrapper",
    "lib/rdbg/tools/rdbg": "tools/rdbg",
    "share/rdbg/docs": "docs",
    "share/rdbg/examples": "examples",
    "share/rdbg/editors": "tools/editors",
    "share/rdbg/README.md": "README.md",
    "share/rdbg/CHANGELOG.md": "CHANGELOG.md",
}
# The place of what the tools print, and the words that ask for it.
PRINTED = {
    "share/bash-completion/completions/rdbg": ("completion", "bash"),
    "share/zsh/site-functions/_rdbg": ("completion", "zsh"),
}
MANUAL_PAGES = "share/man/man1"
COPYRIGHT = "share/doc/rdbg/copyright"
EXECUTABLE, PLAIN = 0o755, 0o644


@dataclasses.dataclass(frozen=True)
class Program:
    """A built program, and a word on its proof. `built_sum` is its SHA-256 before it was stripped,
    and empty if it was not."""

    file: pathlib.Path
    proof: str
    built_sum: str = ""


@dataclasses.dataclass(frozen=True)
class Facts:
    """The version, the commit and the kit of an installation."""

    version: str
    commit: str
    kit: str
    logic: str


def read_version(top: pathlib.Path) -> str:
    """Returns the version, which only the file VERSION holds."""
    return (top / "VERSION").read_text().strip()


def find_facts(top: pathlib.Path, commit: str) -> Facts:
    """Returns the facts about the sources below `top`, with the kit of this machine.

    Ends the program if there is a kit that cannot name itself: the release would claim to have been
    built by none.
    """
    try:
        asked = subprocess.run(["rt", "version"], stdout=subprocess.PIPE, stderr=subprocess.DEVNULL)
        words = asked.stdout.decode().split()
    except OSError:
        asked, words = None, []
    if asked is not None and asked.returncode:
        sys.exit("`rt version` failed, so the kit can't be named")
    is_known = len(words) == 3 and words[1] == "logic"
    kit, logic = (words[0], words[2]) if is_known else ("no-kit", "unknown")
    return Facts(read_version(top), commit, kit, logic)


def run_tool(top: pathlib.Path, *words: str) -> str:
    """Runs a tool and returns what it prints."""
    asked = [sys.executable, "-B", str(top / "tools/companion"), *words]
    how = {"stdin": subprocess.DEVNULL, "stdout": subprocess.PIPE, "check": True}
    return subprocess.run(asked, **how).stdout.decode()


def files_below(folder: pathlib.Path) -> Iterator[pathlib.Path]:
    """Yields the files below a folder in the order of their names, except byte code."""
    for file in sorted(folder.rglob("*")):
        if file.is_file() and "__pycache__" not in file.parts:
            yield file


def sha256(file: pathlib.Path) -> str:
    """Returns the SHA-256 of a file."""
    return hashlib.sha256(file.read_bytes()).hexdigest()


def copy(source: pathlib.Path, place: pathlib.Path) -> None:
    """Copies a file or a folder."""
    place.parent.mkdir(parents=True, exist_ok=True)
    if source.is_dir():
        shutil.copytree(source, place, ignore=shutil.ignore_patterns("__pycache__", "*.pyc"))
    else:
        shutil.copy(source, place)


def write(place: pathlib.Path, text: str) -> None:
    """Writes a file, and creates the folders above it."""
    place.parent.mkdir(parents=True, exist_ok=True)
    place.write_text(text, encoding="utf-8")


def fill(top: pathlib.Path, tree: pathlib.Path, programs: Dict[str, Program], facts: Facts) -> None:
    """Fills an empty folder, which nobody else can write to, from the sources below `top`."""
    for name, source in COPIED.items():
        copy(top / source, tree / name)
    for name, program in programs.items():
        place = tree / "lib/rdbg" / name
        copy(program.file, place)
        place.chmod(EXECUTABLE)
    for name, words in PRINTED.items():
        write(tree / name, run_tool(top, *words))
    (tree / MANUAL_PAGES).mkdir(parents=True)
    run_tool(top, "--manuals", str(tree / MANUAL_PAGES), facts.version)
    write(tree / COPYRIGHT, copyright_text(top))
    write_release(tree, files_below(tree), programs, facts)


def write_release(
    tree: pathlib.Path,
    files: Iterable[pathlib.Path],
    programs: Dict[str, Program],
    facts: Facts,
    package: str = "",
) -> None:
    """Writes lib/rdbg/release: the facts, and the SHA-256 of each of these files.

    `package` names the package that manages the files, if there is one.
    """
    head = {**dataclasses.asdict(facts), **{name: it.proof for name, it in programs.items()}}
    for name, program in programs.items():
        if program.built_sum:
            head[f"{name}-unstripped"] = program.built_sum
    if package:
        head["package"] = package
    lines: List[str] = [f"# {name} {value}\n" for name, value in head.items()]
    lines += [f"{sha256(it)}  {it.relative_to(tree)}\n" for it in sorted(files)]
    write(tree / RELEASE, "".join(lines))
