"""A root in which there is nothing but some of Debian's packages, as this machine has them: what
Debian needs itself, and Python. There a package is installed as on a machine that is new.

It takes root, since only root enters another one.
"""
import os
import pathlib
import re
import shutil
import subprocess
from typing import Iterator, List, Sequence, Set, Tuple

# Packages that the root has besides those that are essential, and those that these need.
BESIDES = ("python3",)
# What nobody needs to run a program.
LEFT_OUT = re.compile(r"/usr/share/(doc|man|locale|info|lintian|zoneinfo)(/|$)")
STATUS = pathlib.Path("/var/lib/dpkg")
ASKED = "${Package}\\t${Essential}\\t${db:Status-Status}\\t${Pre-Depends}, ${Depends}\\n"
# Devices and processes are there, for as long as a command goes on, in no other root.
ENTERED = """
mount --rbind /dev "$1/dev"
mount -t proc proc "$1/proc"
exec chroot "$1" /usr/bin/env -i HOME=/opt PATH=/usr/sbin:/usr/bin:/sbin:/bin "${@:2}"
"""
NEW = ("unshare", "--mount", "--pid", "--fork", "--kill-child", "bash", "-c", ENTERED, "bash")


def said(*words: str) -> str:
    """What a program prints."""
    return subprocess.run(words, stdout=subprocess.PIPE, check=True).stdout.decode()


def named(dependencies: str) -> Iterator[List[str]]:
    """The packages that are named, alternatives together."""
    for each in dependencies.split(","):
        names = (re.match(r"\s*([a-z0-9][a-z0-9.+-]*)", it) for it in each.split("|"))
        found = [it[1] for it in names if it]
        if found:
            yield found


def needed() -> List[str]:
    """The packages of such a root, of those that are installed here."""
    rows = [it.split("\t") for it in said("dpkg-query", "-W", "-f", ASKED).splitlines()]
    installed = {row[0]: row[3] for row in rows if row[2] == "installed"}
    essential = [row[0] for row in rows if row[1] == "yes" and row[0] in installed]
    found: Set[str] = set()
    left = [*essential, *BESIDES]
    while left:
        name = left.pop()
        if name in found:
            continue
        found.add(name)
        for names in named(installed[name]):
            left += [it for it in names if it in installed][:1]
    return sorted(found)


def copy(source: str, place: str) -> None:
    """Copies a file, a link or a folder without what is in it."""
    if os.path.islink(source):
        if not os.path.lexists(place):
            os.symlink(os.readlink(source), place)
    elif os.path.isdir(source):
        os.makedirs(place, exist_ok=True)
    elif os.path.isfile(source):
        shutil.copy2(source, place)


class Root:
    """A root in a folder."""

    def __init__(self, top: pathlib.Path) -> None:
        self.top = top
        for name in ("bin", "sbin", "lib", "lib64"):
            (top / "usr" / name).mkdir(parents=True)
            (top / name).symlink_to(f"usr/{name}")
        for name in (
            "dev",
            "proc",
            "opt",
            "tmp",
            "etc",
            "var/lib/dpkg/info",
            "var/lib/dpkg/updates",
        ):
            (top / name).mkdir(parents=True)
        packages = needed()
        for path in said("dpkg-query", "-L", *packages).splitlines():
            if path.startswith("/") and path != "/." and not LEFT_OUT.match(path):
                copy(path, f"{top}{path}")
        self._know(packages)
        for name in ("passwd", "group"):
            shutil.copy(f"/usr/share/base-passwd/{name}.master", top / "etc" / name)

    def _know(self, packages: Sequence[str]) -> None:
        """Has dpkg know there which packages are installed."""
        place = self.top / "var/lib/dpkg"
        (place / "status").write_text(said("dpkg-query", "-s", *packages) + "\n")
        for name in packages:
            for file in (*STATUS.glob(f"info/{name}.list"), *STATUS.glob(f"info/{name}:*.list")):
                shutil.copy(file, place / "info")

    def words(self, *words: str) -> List[str]:
        """The words that start a command there."""
        return [*NEW, str(self.top), *words]

    def run(
        self, *words: str, given: str = "", status: int = 0
    ) -> "subprocess.CompletedProcess[str]":
        """What comes of a command there, which ends with this status."""
        ran = subprocess.run(
            self.words(*words),
            input=given,
            stdout=subprocess.PIPE,
            stderr=subprocess.PIPE,
            universal_newlines=True,
            timeout=300,
        )
        assert ran.returncode == status, f"{words}: {ran.returncode}: {ran.stdout}{ran.stderr}"
        return ran


def can_be() -> bool:
    """Whether this machine and this user can have such a root."""
    programs: Tuple[str, ...] = ("dpkg-query", "unshare", "chroot", "mount")
    return os.geteuid() == 0 and all(map(shutil.which, programs))
