"""The libraries that are linked into the programs, and the licences of all that is installed.

They come from the kit, which has the sources of each library in a folder of its name. The folder
`licences` of the repository holds a text for each library whose licence is known.
"""
import dataclasses
import pathlib
import re
from typing import Dict, Iterator, List, Set

EXPAT, DUAL = "MIT", "MIT OR Apache-2.0"
UNICODE = "Unicode-3.0"
GCC = "GPL-3.0-or-later WITH GCC-exception-3.1"
GLIBC = "LGPL-2.1-or-later"
# SPDX's word for a licence that nobody states.
UNKNOWN = "NOASSERTION"


@dataclasses.dataclass(frozen=True)
class Library:
    """A library of the kit: its licence as an SPDX expression, and what to know about it."""

    name: str
    licence: str
    about: str
    # Its files in the kit, if they are not those of a folder of its name.
    files: str = ""


LIBRARIES = (
    Library("arrayvec", DUAL, "a port of the Rust crate arrayvec"),
    Library("clap", DUAL, "a port of the Rust crate clap"),
    Library("fast_float", DUAL, "after the Rust crate fast-float2"),
    Library("hex", DUAL, "after the Rust crate hex"),
    Library("indexmap", DUAL, "a port of the Rust crate indexmap"),
    Library("itoa", DUAL, "after the Rust crate itoa"),
    Library("json", UNKNOWN, "the kit's own; the kit states no licence for it"),
    Library("serde_json", DUAL, "after the Rust crate serde_json"),
    Library("smallvec", DUAL, "a port of the Rust crate smallvec"),
    Library(
        "std",
        UNKNOWN,
        "the Rattle standard library: std, std_alloc, std_collections, std_heap, std_io, core, io,"
        " os and libc; the kit states no licence for it, except that core's parser of numbers"
        " follows the Rust crate fast-float2 (MIT OR Apache-2.0)",
    ),
    Library("strsim", EXPAT, "a port of the Rust crate strsim"),
    Library("thiserror", DUAL, "after the Rust crate thiserror"),
    Library(
        "crtbegin",
        GCC,
        "the start-up code of GCC",
        "toolchain/lib/crtbeginS.o toolchain/lib/crtendS.o",
    ),
    Library(
        "crt1",
        GLIBC,
        "the start-up code of the C library",
        "toolchain/lib/Scrt1.o toolchain/lib/crti.o toolchain/lib/crtn.o",
    ),
    Library("unicode", UNICODE, "tables in core", "rattle/core/src/char/*"),
)
# The parts of the standard library, as names in a program have them.
STANDARD = ("std", "std_alloc", "std_collections", "std_heap", "std_io", "core", "io", "os", "libc")
DEP5 = "https://www.debian.org/doc/packaging-manuals/copyright-format/1.0/"
HEAD = f"""\
Format: {DEP5}
Upstream-Name: rdbg
Upstream-Contact: Birdcobalt <rdbg@birdcobalt.example>
Comment: Paths that begin with rattle/ or toolchain/ are those of the kit, whose code is linked into
 the programs lib/rdbg/rdbg and lib/rdbg/rdreach. Of several licences of a library, the first applies.
"""
# What Debian calls a licence.
SHORT_NAMES = {
    EXPAT: "Expat",
    UNICODE: "Unicode-3.0",
    GCC: "GPL-3+ with GCC-Runtime exception",
    GLIBC: "LGPL-2.1+ with linking exception",
    UNKNOWN: "none-stated",
}
NONE_STATED = """\
The kit with which the programs are built includes no licence text for this library.
"""


def libraries_named(crates: str) -> Set[str]:
    """Returns the libraries of the kit that crates.txt names: every word that is no crate of it."""
    lines = [line.partition("#")[0].partition(":") for line in crates.splitlines()]
    own = {name.strip() for name, _, _ in lines}
    return {word for _, _, words in lines for word in words.split()} - own


def holders(text: str, name: str) -> List[str]:
    """Returns the copyright lines of a licence text."""
    found = re.findall(r"^Copyright\s+(?:\(c\)|©)\s*(.+?)\.?$", text, re.MULTILINE)
    authors = f"the authors of the Rust crate {name}"
    return [it if re.search("[A-Za-z]", it) else f"{it}, {authors}" for it in found] or [authors]


def indented(text: str) -> str:
    """Returns a text as a field of several lines."""
    return "".join(f" {line.rstrip() or '.'}\n" for line in text.strip().splitlines())


def paragraph(files: str, owners: List[str], licence: str, about: str = "") -> str:
    """Returns the paragraph on some files."""
    joined = "\n           ".join(owners)
    comment = f"Comment: {about}\n" if about else ""
    return f"\nFiles: {files}\nCopyright: {joined}\nLicense: {licence}\n{comment}"


def permission(text: str) -> str:
    """Returns what a licence text says below its title and its copyright lines."""
    return text[text.index("Permission is hereby granted") :]


def paragraphs(top: pathlib.Path) -> Iterator[str]:
    """Yields the paragraphs of the page, with the licence texts at the end."""
    own = (top / "LICENSE").read_text(encoding="utf-8")
    texts: Dict[str, str] = {"Expat": permission(own)}
    yield HEAD
    yield paragraph("*", holders(own, "rdbg"), "Expat")
    for each in LIBRARIES:
        licence = SHORT_NAMES[each.licence.partition(" OR ")[0]]
        owners = ["unknown"]
        if each.licence != UNKNOWN:
            text = (top / "licences" / each.name).read_text(encoding="utf-8")
            owners = holders(text, each.name)
            texts.setdefault(licence, text)
        else:
            texts.setdefault(licence, NONE_STATED)
        yield paragraph(each.files or f"rattle/{each.name}/*", owners, licence, each.about)
    for name, text in sorted(texts.items()):
        yield f"\nLicense: {name}\n{indented(text)}"


def copyright_text(top: pathlib.Path) -> str:
    """Returns the licences of all that is installed, in Debian's machine-readable format."""
    return "".join(paragraphs(top))
