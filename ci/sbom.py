"""The list of what a release consists of, as SPDX 2.3 in JSON: the packages, each file with its
checksums, and the libraries that are linked into the programs."""
import hashlib
import json
import pathlib
import re
import time
from typing import Any, Dict, List

from layout import PROGRAMS, Facts
from libraries import LIBRARIES, UNKNOWN, Library

OWNER = "Organization: Birdcobalt (rdbg@birdcobalt.example)"
DOCUMENT, RDBG, LIBC = "SPDXRef-DOCUMENT", "SPDXRef-rdbg", "SPDXRef-libc6"
NAMESPACE = "https://birdcobalt.example/spdx/{}-{}"
Entry = Dict[str, Any]


def checksum(kind: str, content: bytes) -> Dict[str, str]:
    """Returns a checksum as SPDX writes it."""
    return {"algorithm": kind, "checksumValue": hashlib.new(kind, content).hexdigest()}


def identifier(name: str) -> str:
    """Returns an identifier of SPDX that holds a name. Other characters become their codes."""
    return "SPDXRef-" + re.sub(r"[^A-Za-z0-9.]", lambda it: f"-{ord(it[0]):x}-", name)


def file_entry(tree: pathlib.Path, file: pathlib.Path) -> Entry:
    """Returns the entry of a file."""
    content, name = file.read_bytes(), str(file.relative_to(tree))
    return {
        "SPDXID": identifier(f"file-{name}"),
        "fileName": f"./{name}",
        "checksums": [checksum("SHA1", content), checksum("SHA256", content)],
        "licenseConcluded": UNKNOWN,
        "licenseInfoInFiles": [UNKNOWN],
        "copyrightText": UNKNOWN,
    }


def verification_code(files: List[Entry]) -> str:
    """Returns the code of a package, which depends on the contents of all of its files."""
    sums = sorted(it["checksums"][0]["checksumValue"] for it in files)
    return hashlib.sha1("".join(sums).encode()).hexdigest()


def package_entry(name: str, version: str, licence: str, about: str, **more: Any) -> Entry:
    """Returns the entry of a package."""
    return {
        "SPDXID": identifier(name),
        "name": name,
        "versionInfo": version,
        "downloadLocation": UNKNOWN,
        "filesAnalyzed": False,
        "licenseConcluded": licence,
        "licenseDeclared": licence,
        "copyrightText": UNKNOWN,
        "comment": about,
        **more,
    }


def artefact_entry(file: pathlib.Path, version: str) -> Entry:
    """Returns the entry of a file that is handed out."""
    entry = package_entry(file.name, version, "MIT", "a file of this release")
    entry.update(packageFileName=file.name, supplier=OWNER)
    entry["checksums"] = [checksum("SHA256", file.read_bytes())]
    return entry


def library_entry(library: Library, kit: str) -> Entry:
    """Returns the entry of a library that is linked into the programs."""
    return package_entry(library.name, kit, library.licence, library.about, supplier=UNKNOWN)


def relationship(first: str, kind: str, second: str) -> Entry:
    """Returns how two entries are related."""
    return {"spdxElementId": first, "relationshipType": kind, "relatedSpdxElement": second}


def relationships(files: List[Entry], artefacts: List[Entry]) -> List[Entry]:
    """Returns what describes, contains and links what."""
    made = [relationship(DOCUMENT, "DESCRIBES", RDBG)]
    made += [relationship(RDBG, "CONTAINS", it["SPDXID"]) for it in files]
    for each in artefacts:
        made.append(relationship(DOCUMENT, "DESCRIBES", each["SPDXID"]))
        if not each["name"].endswith(".vsix"):
            made.append(relationship(each["SPDXID"], "CONTAINS", RDBG))
    for name in PROGRAMS:
        program = identifier(f"file-lib/rdbg/{name}")
        made += [relationship(program, "STATIC_LINK", identifier(it.name)) for it in LIBRARIES]
        made.append(relationship(program, "DYNAMIC_LINK", LIBC))
    return made


def write_sbom(
    tree: pathlib.Path,
    artefacts: List[pathlib.Path],
    facts: Facts,
    seconds: int,
    place: pathlib.Path,
) -> None:
    """Writes the list for the files below `tree` and the files that are handed out."""
    files = [file_entry(tree, it) for it in sorted(tree.rglob("*")) if it.is_file()]
    rdbg = package_entry("rdbg", facts.version, "MIT", f"commit {facts.commit}", supplier=OWNER)
    rdbg.update(filesAnalyzed=True, licenseInfoFromFiles=[UNKNOWN])
    rdbg["packageVerificationCode"] = {"packageVerificationCodeValue": verification_code(files)}
    handed_out = [artefact_entry(it, facts.version) for it in artefacts]
    kit = f"{facts.kit} logic {facts.logic}"
    packages = [rdbg, *handed_out, *(library_entry(it, kit) for it in LIBRARIES)]
    about = "the C library of the system, which is not part of the release"
    libc = package_entry("libc6", "", UNKNOWN, about)
    del libc["versionInfo"]
    packages.append(libc)
    made = {
        "spdxVersion": "SPDX-2.3",
        "dataLicense": "CC0-1.0",
        "SPDXID": DOCUMENT,
        "name": f"rdbg-{facts.version}",
        "documentNamespace": NAMESPACE.format(place.name, facts.commit),
        "creationInfo": {
            "created": time.strftime("%Y-%m-%dT%H:%M:%SZ", time.gmtime(seconds)),
            "creators": [OWNER, "Tool: ci-release"],
        },
        "packages": packages,
        "files": files,
        "relationships": relationships(files, handed_out),
    }
    place.write_text(json.dumps(made, indent=1, sort_keys=True) + "\n", encoding="utf-8")
