"""The Debian package of a release."""
import email.utils
import hashlib
import os
import pathlib
import shutil
import subprocess
import textwrap

from elf import needed_libc
from packing import EXECUTABLE, Stamp, gzipped, settle

MAINTAINER = "Birdcobalt <rdbg@birdcobalt.example>"
# Where Debian has what stands elsewhere in a .tar.gz.
MOVED = {"share/zsh/site-functions": "share/zsh/vendor-completions"}
CONTROL = """\
Package: rdbg
Version: {version}
Section: devel
Priority: optional
Architecture: amd64
Depends: libc6 (>= {libc}), python3 (>= 3.8)
Installed-Size: {size}
Maintainer: {maintainer}
Description: reverse debugger for models of FreeRTOS applications
 Each task of a firmware is a short script of kernel calls, which rdbg runs
 forwards and backwards, a move at a time, on one to sixteen cores. It also
 decides whether any interleaving of the tasks can reach a given state.
"""
CHANGELOG = """\
rdbg ({version}) unstable; urgency=medium

{changes}

 -- {maintainer}  {date}
"""
CHANGES = "Version {}. /usr/share/rdbg/CHANGELOG.md lists the changes."
COMPILE = """\
#!/bin/sh
# Compiles the tools, so that they start fast for users who may not write to their folder.
set -e
if [ "$1" = configure ]; then
    python3 -m compileall -q /usr/lib/rdbg/tools/rdbg > /dev/null || true
fi
"""
CLEAN = """\
#!/bin/sh
set -e
find /usr/lib/rdbg/tools -name __pycache__ -type d -prune -exec rm -rf {} +
"""
SCRIPTS = {"postinst": COMPILE, "prerm": CLEAN}


class NotPacked(Exception):
    """Why the package could not be made."""


def changelog(stamp: Stamp) -> str:
    """Returns the changelog in Debian's format."""
    changes = textwrap.fill(
        CHANGES.format(stamp.version), 78, initial_indent="  * ", subsequent_indent="    "
    )
    return CHANGELOG.format(
        version=stamp.debian_version,
        changes=changes,
        maintainer=MAINTAINER,
        date=email.utils.formatdate(stamp.seconds),
    )


def size_of(tree: pathlib.Path) -> int:
    """Returns the installed size in KiB, as Debian counts it: files rounded up, folders 1."""
    files = [*tree.rglob("*")]
    return sum(-(-it.stat().st_size // 1024) if it.is_file() else 1 for it in files)


def copy_tree(tree: pathlib.Path, root: pathlib.Path, stamp: Stamp) -> None:
    """Copies a folder to where Debian has it below /usr, with manual pages packed."""
    shutil.copytree(tree, root / "usr")
    for name, place in MOVED.items():
        (root / "usr" / place).parent.mkdir(parents=True, exist_ok=True)
        (root / "usr" / name).rename(root / "usr" / place)
    for file in sorted((root / "usr/share/man").rglob("*.1")):
        file.with_name(f"{file.name}.gz").write_bytes(gzipped(file.read_bytes()))
        file.unlink()
    packed = root / "usr/share/doc/rdbg/changelog.gz"
    packed.write_bytes(gzipped(changelog(stamp).encode()))


def write_control(root: pathlib.Path, stamp: Stamp) -> None:
    """Writes the control files of a package."""
    programs = [root / "usr/lib/rdbg" / name for name in ("rdbg", "rdreach")]
    about = {"version": stamp.debian_version, "libc": needed_libc(programs), "size": size_of(root)}
    if not about["libc"]:
        raise NotPacked(f"{programs[0]} needs no version of the C library")
    files = sorted(it for it in (root / "usr").rglob("*") if it.is_file())
    sums = [f"{hashlib.md5(it.read_bytes()).hexdigest()}  {it.relative_to(root)}\n" for it in files]
    control = root / "DEBIAN"
    control.mkdir()
    (control / "control").write_text(CONTROL.format(maintainer=MAINTAINER, **about))
    (control / "md5sums").write_text("".join(sums))
    for name, text in SCRIPTS.items():
        (control / name).write_text(text)
        (control / name).chmod(EXECUTABLE)


def write_deb(root: pathlib.Path, stamp: Stamp, place: pathlib.Path) -> None:
    """Writes a Debian package of a folder that `copy_tree` has made."""
    write_control(root, stamp)
    settle(root, stamp.seconds)
    words = ["dpkg-deb", "--root-owner-group", "-Zgzip", "-z9", "--build", str(root), str(place)]
    environment = {**os.environ, "SOURCE_DATE_EPOCH": str(stamp.seconds), "LC_ALL": "C"}
    pipe = subprocess.PIPE
    try:
        ran = subprocess.run(words, env=environment, stdout=pipe, stderr=pipe)
    except OSError as error:
        raise NotPacked(f"cannot start dpkg-deb: {error.strerror}") from None
    if ran.returncode:
        raise NotPacked(f"dpkg-deb: {ran.stderr.decode().strip()}")
