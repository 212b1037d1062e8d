"""Programs for Linux on x86-64: how to recognize and strip them, and which C library they need."""
import pathlib
import re
import shutil
import struct
import subprocess
from typing import Iterator, List

# The beginning of a 64-bit ELF file, and the place and the number of the machine.
MAGIC, MACHINE, X86_64 = b"\x7fELF\x02\x01", slice(18, 20), b"\x3e\x00"
HEADER_BYTES, LOADED = 64, 1
NEEDS = re.compile(rb"\bGLIBC_(\d+(?:\.\d+)+)\b")
STRIP = ("strip", "--strip-all", "--remove-section=.comment")


class NotStripped(Exception):
    """Why a program could not be stripped."""


def is_program(content: bytes) -> bool:
    """Whether these are the bytes of a program for x86-64."""
    return content.startswith(MAGIC) and content[MACHINE] == X86_64


def segments(content: bytes) -> Iterator[bytes]:
    """Yields each segment that is loaded, after its entry in the table of segments."""
    table, each, count = (
        struct.unpack_from("<Q", content, 32)[0],
        *struct.unpack_from("<HH", content, 54),
    )
    for at in range(table, table + each * count, each):
        (kind,) = struct.unpack_from("<I", content, at)
        if kind == LOADED:
            offset, _, _, size = struct.unpack_from("<4Q", content, at + 8)
            yield content[at : at + each] + content[max(offset, HEADER_BYTES) : offset + size]


def strip(program: pathlib.Path, place: pathlib.Path) -> None:
    """Copies a program without its symbols.

    Raises `NotStripped` if anything that is loaded would change, apart from the file's header, or
    if `strip` fails.
    """
    shutil.copyfile(program, place)
    try:
        ran = subprocess.run([*STRIP, str(place)], stdout=subprocess.PIPE, stderr=subprocess.STDOUT)
    except OSError as error:
        raise NotStripped(f"cannot start strip: {error.strerror} (install binutils)") from None
    if ran.returncode:
        raise NotStripped(f"strip: {ran.stdout.decode().strip()}")
    if [*segments(program.read_bytes())] != [*segments(place.read_bytes())]:
        raise NotStripped(f"strip changes what {program} loads")


def needed_libc(programs: List[pathlib.Path]) -> str:
    """Returns the oldest version of the C library that these programs run with; empty if none."""
    found = [it.decode() for file in programs for it in NEEDS.findall(file.read_bytes())]
    return max(found, key=lambda it: [int(part) for part in it.split(".")], default="")
