"""The files of a release besides the .tar.gz: the Debian package as lintian sees it, the list of
what it consists of, the extension for VS Code, the Containerfile, and the sums."""
import hashlib
import json
import os
import pathlib
import re
import shutil
import subprocess
import tarfile
import tempfile
import unittest
import zipfile
from typing import Any, Dict, List, Set
from xml.etree import ElementTree

from rdbg import manual_pages
from rdbg.client import program
from rdbg.reaching.asking import program as reach
from tests import releases
from tests.paths import TOP
from tests.strangers import IS_ROOT, become

VERSION = (TOP / "VERSION").read_text().strip()
VSCODE = TOP / "tools/editors/vscode"
# The instructions of a Containerfile.
INSTRUCTIONS = "FROM ARG COPY RUN WORKDIR USER ENV ENTRYPOINT CMD".split()


def printed(*words: str) -> str:
    """Returns what a program prints."""
    return subprocess.run(words, stdout=subprocess.PIPE, check=True).stdout.decode()


class Made:
    """A release, and its files by how their names end."""

    folder: pathlib.Path
    files: Dict[str, pathlib.Path]


def setUpModule() -> None:
    """Makes it, once."""
    if shutil.which("dpkg-deb") is None or shutil.which("strip") is None:
        raise unittest.SkipTest("dpkg-deb and strip make the package")
    folder = tempfile.TemporaryDirectory()
    unittest.addModuleCleanup(folder.cleanup)
    Made.folder = pathlib.Path(folder.name)
    releases.repository(Made.folder / "sources")
    made = releases.release(Made.folder / "sources", Made.folder / "out")
    Made.files = {it.name.rpartition(".")[2]: it for it in made}


class Package(unittest.TestCase):
    """The Debian package."""

    def setUp(self) -> None:
        self.file = Made.files["deb"]

    def content(self, name: str) -> bytes:
        """Returns a file of the package."""
        words = ["dpkg-deb", "--fsys-tarfile", str(self.file)]
        with subprocess.Popen(words, stdout=subprocess.PIPE) as process:
            assert process.stdout is not None
            found = b""
            with tarfile.open(fileobj=process.stdout, mode="r|") as tar:
                for each in tar:
                    file = tar.extractfile(each) if each.name == name else None
                    if file is not None:
                        found = file.read()
            process.stdout.read()
        return found

    @unittest.skipIf(shutil.which("lintian") is None, "lintian isn't there")
    def test_lintian_finds_nothing(self) -> None:
        words = ["lintian", "--no-cfg", "--fail-on", "error,warning", str(self.file)]
        ran = subprocess.run(words, stdout=subprocess.PIPE, stderr=subprocess.STDOUT)
        found = [it for it in ran.stdout.decode().splitlines() if it[:2] in ("E:", "W:")]
        self.assertEqual(([], 0), (found, ran.returncode), ran.stdout.decode())

    def test_its_fields(self) -> None:
        contact = printed("dpkg-deb", "--field", str(self.file), "Maintainer").strip()
        self.assertRegex(contact, r"^[^<]+ <[^@ ]+@[^@ ]+>$")
        changes = subprocess.run(
            ["gzip", "-dc"],
            input=self.content("./usr/share/doc/rdbg/changelog.gz"),
            stdout=subprocess.PIPE,
            check=True,
        ).stdout.decode()
        self.assertTrue(changes.startswith(f"rdbg ({VERSION}~unproved) unstable; urgency="))
        self.assertIn(f"\n -- {contact}  Sun, 09 Sep 2001 01:46:40 -0000\n", changes)

    def test_its_sums(self) -> None:
        folder = Made.folder / "unpacked"
        subprocess.run(["dpkg-deb", "-R", str(self.file), str(folder)], check=True)
        words = ["md5sum", "--strict", "--quiet", "--check", "DEBIAN/md5sums"]
        subprocess.run(words, cwd=folder, check=True)
        listed = (folder / "DEBIAN/md5sums").read_text().splitlines()
        files = {str(it.relative_to(folder)) for it in (folder / "usr").rglob("*") if it.is_file()}
        self.assertEqual(files, {it.split("  ")[1] for it in listed})

    def test_it_is_stripped_and_else_the_same(self) -> None:
        elf = releases.module("elf")
        for name, built in (("rdbg", program()), ("rdreach", reach())):
            before, after = pathlib.Path(built).read_bytes(), self.content(f"./usr/lib/rdbg/{name}")
            self.assertEqual(list(elf.segments(before)), list(elf.segments(after)))
            self.assertNotIn(b".symtab\0", after)

    def test_manual_pages(self) -> None:
        listed = printed("dpkg-deb", "--contents", str(self.file))
        pages = set(re.findall(r"/man1/rdbg-(\w+)\.1\.gz$", listed, re.MULTILINE))
        self.assertEqual({*manual_pages.words()}, pages)
        self.assertLess({"sh", "reach", "run", "serve", "trace", "room", "check", "test"}, pages)

    def test_the_licences(self) -> None:
        text = self.content("./usr/share/doc/rdbg/copyright").decode()
        self.assertTrue(text.startswith("Format: https://www.debian.org/doc/packaging-manuals/"))
        fields = [dict(re.findall(r"^(\w+): (.*)$", it, re.MULTILINE)) for it in text.split("\n\n")]
        for each in fields[1:]:
            self.assertIn("License", each)
            self.assertTrue("Files" not in each or each["Copyright"], each)
        used = {it["License"] for it in fields if "Files" in it}
        self.assertEqual(used, {it["License"] for it in fields[1:] if "Files" not in it})
        self.assertIn("rattle/std/*", {it.get("Files") for it in fields})


class Libraries(unittest.TestCase):
    """The libraries that are linked into the programs, by the list that licences are made of."""

    def setUp(self) -> None:
        self.module: Any = releases.module("libraries")
        self.names = {it.name for it in self.module.LIBRARIES}

    def test_those_that_crates_name(self) -> None:
        named = self.module.libraries_named((TOP / "crates.txt").read_text())
        self.assertEqual(set(), named - self.names)

    def test_their_licences(self) -> None:
        known = {it.name for it in self.module.LIBRARIES if it.licence != self.module.UNKNOWN}
        self.assertEqual(known, {it.name for it in (TOP / "licences").iterdir()})

    @unittest.skipIf(shutil.which("nm") is None, "nm isn't there")
    def test_those_in_the_programs(self) -> None:
        found: Set[str] = set()
        for file in (program(), reach()):
            found |= set(re.findall(r" \w (\w+)::", printed("nm", file)))
        own = {it for it in found if it.startswith("rd_") or it in ("rdbg", "rdreach")}
        self.assertLess({"clap", "std_alloc"}, found)
        self.assertEqual(set(), found - own - self.names - {*self.module.STANDARD})


class Bill(unittest.TestCase):
    """The list in SPDX."""

    def setUp(self) -> None:
        self.made: Dict[str, Any] = json.loads(Made.files["json"].read_text())

    def test_what_spdx_asks_for(self) -> None:
        self.assertEqual(
            ("SPDX-2.3", "CC0-1.0"), (self.made["spdxVersion"], self.made["dataLicense"])
        )
        self.assertEqual("2001-09-09T01:46:40Z", self.made["creationInfo"]["created"])
        elements = [*self.made["packages"], *self.made["files"]]
        names = [it["SPDXID"] for it in elements]
        self.assertEqual(len(names), len(set(names)))
        for name in names:
            self.assertRegex(name, r"^SPDXRef-[A-Za-z0-9.-]+$")
        for each in self.made["packages"]:
            self.assertTrue(each["name"] and each["downloadLocation"])
        for row in self.made["relationships"]:
            ends = {row["spdxElementId"], row["relatedSpdxElement"]}
            self.assertEqual(set(), ends - {*names, "SPDXRef-DOCUMENT"})

    def test_the_files(self) -> None:
        with tarfile.open(Made.files["gz"]) as tar:
            sums = {}
            for each in tar.getmembers():
                content = tar.extractfile(each)
                if content is not None:
                    name = "./" + each.name.partition("/")[2]
                    sums[name] = hashlib.sha256(content.read()).hexdigest()
        listed = {it["fileName"]: it["checksums"][1]["checksumValue"] for it in self.made["files"]}
        self.assertEqual(sums, listed)

    def test_the_libraries(self) -> None:
        names = {it["SPDXID"]: it["name"] for it in self.made["packages"]}
        rows = self.made["relationships"]
        linked = {
            names[it["relatedSpdxElement"]]
            for it in rows
            if it["relationshipType"] == "STATIC_LINK"
        }
        self.assertEqual({it.name for it in releases.module("libraries").LIBRARIES}, linked)

    def test_what_is_handed_out(self) -> None:
        packages = {it["name"]: it for it in self.made["packages"]}
        for ending in ("gz", "deb", "vsix"):
            file = Made.files[ending]
            summed = packages[file.name]["checksums"][0]["checksumValue"]
            self.assertEqual(hashlib.sha256(file.read_bytes()).hexdigest(), summed)


class Extension(unittest.TestCase):
    """The extension for VS Code."""

    def setUp(self) -> None:
        packed = zipfile.ZipFile(Made.files["vsix"])
        self.addCleanup(packed.close)
        self.packed = packed

    def test_its_files(self) -> None:
        names = self.packed.namelist()
        self.assertEqual(["extension.vsixmanifest", "[Content_Types].xml"], names[:2])
        files = {f"extension/{it.relative_to(VSCODE)}": it for it in VSCODE.rglob("*")}
        self.assertEqual({*files, "extension/LICENSE.txt"}, set(names[2:]))
        for name, file in files.items():
            self.assertEqual(file.read_bytes(), self.packed.read(name))
            mode = self.packed.getinfo(name).external_attr >> 16
            self.assertEqual(bool(file.stat().st_mode & 0o100), bool(mode & 0o100), name)
        self.assertEqual({(2001, 9, 9, 1, 46, 40)}, {it.date_time for it in self.packed.infolist()})

    def test_its_manifest(self) -> None:
        top = ElementTree.fromstring(self.packed.read("extension.vsixmanifest"))
        space = {"v": "http://schemas.microsoft.com/developer/vsx-schema/2011"}
        identity = top.find("v:Metadata/v:Identity", space)
        assert identity is not None
        package = json.loads((VSCODE / "package.json").read_text())
        told = {key.lower(): identity.get(key) for key in ("Id", "Version", "Publisher")}
        expected = {"id": package["name"], **{it: package[it] for it in ("version", "publisher")}}
        self.assertEqual(expected, told)
        paths = {str(it.get("Path")) for it in top.findall("v:Assets/v:Asset", space)}
        self.assertEqual(set(), paths - set(self.packed.namelist()))

    def test_the_types_of_its_files(self) -> None:
        top = ElementTree.fromstring(self.packed.read("[Content_Types].xml"))
        known = {str(it.get("Extension") or it.get("PartName")) for it in top}
        for name in self.packed.namelist():
            if name != "[Content_Types].xml":
                ending = pathlib.PurePosixPath(name).suffix
                self.assertTrue(ending in known or f"/{name}" in known, name)

    def test_it_starts_the_rdbg_on_the_path(self) -> None:
        place = Made.folder / "home/.vscode/extensions/rdbg"
        subprocess.run(["tar", "-C", str(Made.folder), "-xzf", str(Made.files["gz"])], check=True)
        rdbg = Made.folder / Made.files["gz"].name.replace(".tar.gz", "") / "bin"
        for info in self.packed.infolist():
            file = place / info.filename
            file.parent.mkdir(parents=True, exist_ok=True)
            file.write_bytes(self.packed.read(info))
            file.chmod(info.external_attr >> 16 & 0o777)
        environment = {"PATH": f"{rdbg}:{os.environ['PATH']}", "HOME": str(Made.folder / "home")}
        words = [str(place / "extension/adapter"), "--version"]
        ran = subprocess.run(words, env=environment, stdout=subprocess.PIPE, check=True)
        self.assertIn(f"rdbg {VERSION} at commit", ran.stdout.decode())


class Differences(unittest.TestCase):
    """What `ci/release --check` says of a file that the commit does not give."""

    def check(self, other: pathlib.Path) -> str:
        """Returns what it prints."""
        words = ["--check", str(other), *releases.unproved()]
        ran = releases.run(Made.folder / "sources", *words)
        self.assertEqual((1, ""), (ran.returncode, ran.stderr), ran.stdout)
        return ran.stdout

    def test_a_text(self) -> None:
        other = Made.folder / "SHA256SUMS"
        other.write_bytes(b"x" + (Made.folder / "out/SHA256SUMS").read_bytes()[1:])
        self.assertEqual(f"{other}: line 1 differs\n", self.check(other))

    def test_an_extension(self) -> None:
        other = Made.folder / "other.vsix"
        with zipfile.ZipFile(Made.files["vsix"]) as before, zipfile.ZipFile(other, "w") as after:
            for name in before.namelist():
                after.writestr(name, before.read(name))
        said = f"{other}: extension.vsixmanifest: its mode is 600, and 644 is expected\n"
        self.assertEqual(said, self.check(other))

    def test_the_same(self) -> None:
        words = ["--check", str(Made.files["json"]), *releases.unproved()]
        ran = releases.run(Made.folder / "sources", *words)
        self.assertEqual((0, ""), (ran.returncode, ran.stderr), ran.stdout)


@IS_ROOT
class Attacks(unittest.TestCase):
    """Another user can write to the folder in which a release is put."""

    def test_a_link_under_the_name_of_a_file(self) -> None:
        with tempfile.TemporaryDirectory() as folder:
            out, victim = pathlib.Path(folder) / "out", pathlib.Path(folder) / "victim"
            os.chmod(folder, 0o755)
            out.mkdir()
            out.chmod(0o777)
            victim.write_text("ten years of work")
            words = ["ln", "-s", str(victim), str(out / Made.files["gz"].name)]
            subprocess.run(words, preexec_fn=become, check=True)
            made = releases.release(Made.folder / "sources", out)
            self.assertEqual("ten years of work", victim.read_text())
            self.assertEqual(Made.files["gz"].read_bytes(), made[0].read_bytes())
            self.assertFalse(made[0].is_symlink())


class Sums(unittest.TestCase):
    """SHA256SUMS and the Containerfile."""

    def test_each_file_has_its_sum(self) -> None:
        out = Made.folder / "out"
        words = ["sha256sum", "--strict", "--quiet", "--check", "SHA256SUMS"]
        subprocess.run(words, cwd=out, check=True)
        listed = {it.split("  ")[1] for it in (out / "SHA256SUMS").read_text().splitlines()}
        self.assertEqual({it.name for it in out.iterdir()} - {"SHA256SUMS"}, listed)

    def test_the_containerfile(self) -> None:
        rows: List[List[str]] = releases.instructions(Made.folder / "out/Containerfile")
        self.assertEqual(set(), {word for word, _ in rows} - {*INSTRUCTIONS})
        self.assertEqual("FROM", rows[0][0])
        values = dict(rows)
        self.assertEqual(f"PACKAGE={Made.files['deb'].name}", values["ARG"])
        self.assertEqual(["rdbg"], json.loads(values["ENTRYPOINT"]))
        self.assertIsInstance(json.loads(values["CMD"]), list)
        copied = values["COPY"].replace("${PACKAGE}", Made.files["deb"].name).split()[:-1]
        for name in copied:
            self.assertTrue((Made.folder / "out" / name).is_file(), name)
        plain = dict(releases.instructions(TOP / "ci/Containerfile"))
        self.assertEqual(f"PACKAGE=rdbg_{VERSION}_amd64.deb", plain["ARG"])


if __name__ == "__main__":
    unittest.main()
