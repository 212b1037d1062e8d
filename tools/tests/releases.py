"""Releases for the tests, made in a repository without crates, with programs that are already
built."""
import importlib
import os
import pathlib
import shutil
import subprocess
import sys
from typing import Any, List, Tuple

from rdbg.client import program
from rdbg.reaching.asking import program as reach
from tests.paths import TOP

# What a release is made of, without the crates.
PARTS: Tuple[str, ...] = (
    "ci",
    "docs",
    "examples",
    "licences",
    "tools/companion",
    "tools/editors",
    "tools/rdbg",
)
PARTS += ("tools/installed", "tools/wrapper", "rdbg", "crates.txt", ".gitignore")
PARTS += ("CHANGELOG.md", "LICENSE", "README.md", "VERSION")
WHO = {"GIT_AUTHOR_NAME": "a", "GIT_AUTHOR_EMAIL": "a", "GIT_COMMITTER_NAME": "a"}
WHEN = {"GIT_COMMITTER_EMAIL": "a", "GIT_AUTHOR_DATE": "@1000000000 +0000"}
WHEN["GIT_COMMITTER_DATE"] = "@1000000000 +0000"


def git(top: pathlib.Path, *words: str) -> str:
    """Returns what git prints in a repository."""
    environment = {**os.environ, **WHO, **WHEN}
    asked = ["git", "-C", str(top), *words]
    ran = subprocess.run(asked, env=environment, check=True, stdout=subprocess.PIPE)
    return ran.stdout.decode().strip()


def repository(top: pathlib.Path) -> None:
    """Makes a repository with one commit of the sources as they are."""
    for part in PARTS:
        source, place = TOP / part, top / part
        place.parent.mkdir(parents=True, exist_ok=True)
        if source.is_dir():
            shutil.copytree(source, place, ignore=shutil.ignore_patterns("__pycache__"))
        else:
            shutil.copy(source, place)
    git(top, "init", "-q")
    git(top, "add", "-A")
    git(top, "commit", "-q", "-m", "all")


def run(top: pathlib.Path, *words: str) -> "subprocess.CompletedProcess[str]":
    """Runs ci/release in a repository."""
    asked = [str(top / "ci/release"), *words]
    pipe = subprocess.PIPE
    return subprocess.run(asked, stdout=pipe, stderr=pipe, universal_newlines=True)


def unproved() -> List[str]:
    """Returns the words that make a release of the programs under test."""
    return ["--programs", program(), reach(), "--unproved"]


def instructions(file: pathlib.Path) -> List[List[str]]:
    """Returns the instructions of a Containerfile, each with its operands."""
    text = file.read_text().replace("\\\n", " ")
    lines = [line.strip() for line in text.splitlines()]
    return [line.split(None, 1) for line in lines if line and not line.startswith("#")]


def module(name: str) -> Any:
    """Imports a module of ci/."""
    place = str(TOP / "ci")
    sys.path.insert(0, place)
    try:
        return importlib.import_module(name)
    finally:
        sys.path.remove(place)


def release(top: pathlib.Path, out: pathlib.Path) -> List[pathlib.Path]:
    """Makes a release and returns its files: the .tar.gz, the Debian package and the others."""
    ran = run(top, "--out", str(out), *unproved())
    assert ran.returncode == 0, ran.stderr
    return [pathlib.Path(line) for line in ran.stdout.splitlines()]
