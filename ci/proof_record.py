#!/usr/bin/env python3
"""Records which programs the gate has proved, in out/proof-record.

usage: ci/proof_record.py SUM

SUM is what `ci/sum proved` printed before the proof began. The record holds it, the kit, and the
SHA-256 of both programs as they were built. It is not written if the sources have another sum now.
`ci/release` makes a release only of sources and programs that the record names.
"""
import hashlib
import os
import pathlib
import subprocess
import sys

sys.dont_write_bytecode = True
from repository import TOP

PROGRAMS = ("crates/rdbg/out/rdbg", "crates/rdreach/out/rdreach")
RECORD = "out/proof-record"
GATE = "run the gate, .ci/run"


class NoRecord(Exception):
    """Why a release of proved programs cannot be made."""


def run(*words):
    """Returns what a command prints."""
    try:
        ran = subprocess.run(words, check=True, stdout=subprocess.PIPE, text=True)
    except (OSError, subprocess.CalledProcessError) as error:
        raise NoRecord(f"{words[0]} failed: {error}") from None
    return ran.stdout.strip()


def current(top):
    """Returns the record that would be written of the sources and programs as they are."""
    found = {"sources": run(top / "ci/sum", "proved"), "kit": run("rt", "version")}
    for name in PROGRAMS:
        try:
            found[name] = hashlib.sha256((top / name).read_bytes()).hexdigest()
        except FileNotFoundError:
            raise NoRecord(f"{name} is missing: {GATE}") from None
    return found


def check(top):
    """Raises `NoRecord`, naming what differs, unless the gate has proved the sources and the
    programs that are there now."""
    try:
        lines = (top / RECORD).read_text().splitlines()
    except FileNotFoundError:
        raise NoRecord(f"{RECORD} is missing, so nothing is known to be proved: {GATE}") from None
    recorded = dict(line.split(" ", 1) for line in lines if " " in line)
    for name, value in current(top).items():
        if recorded.get(name) != value:
            what = {"sources": "crates", "kit": "the kit"}.get(name, name)
            told = f"{name} {recorded.get(name, 'nothing')} in {RECORD}, {value} now"
            raise NoRecord(f"{what} changed since the gate proved it ({told}): {GATE}")


def record(top, before):
    """Writes the record. Raises `NoRecord` if the sources are not those of `before`."""
    found = current(top)
    if found["sources"] != before:
        raise NoRecord(f"the crates changed during the proof ({before}, {found['sources']} now)")
    (top / "out").mkdir(exist_ok=True)
    made = top / f"{RECORD}.{os.getpid()}"
    made.write_text("".join(f"{name} {value}\n" for name, value in found.items()))
    os.replace(made, top / RECORD)


def main(words):
    if len(words) != 1:
        print(__doc__, file=sys.stderr)
        return 2
    try:
        record(pathlib.Path(TOP), words[0])
    except NoRecord as error:
        print(f"ci/proof_record.py: {error}", file=sys.stderr)
        return 1
    return 0


if __name__ == "__main__":
    sys.exit(main(sys.argv[1:]))
