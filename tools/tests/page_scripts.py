"""The scripts of the pages, as they are joined, and a look at them, and at those for editors:
`python3 -B -m tests.page_scripts` names each thing in them, and in their tests, that a rule of
`javascript/eslint.json` forbids."""
import json
import os
import pathlib
import subprocess
import sys
from typing import Dict, Iterator, Sequence, Tuple

from rdbg.page.document import SCRIPTS, joined_scripts
from rdbg.rooms import web_document
from rdbg.tracing.page import document as run_document
from tests.paths import TOP

HERE = pathlib.Path(__file__).resolve().parent / "javascript"
PAGES: Dict[str, Tuple[pathlib.Path, ...]] = {
    "run": (*SCRIPTS, *run_document.SCRIPTS),
    "room": (*SCRIPTS, *web_document.SCRIPTS),
}
EDITORS = TOP / "tools" / "editors"
# What pages use of a browser, and tests and editors of node.
BROWSER = (
    "Blob EventSource ResizeObserver URL URLSearchParams addEventListener clearTimeout document"
    " fetch getComputedStyle history innerHeight localStorage location matchMedia navigator"
    " requestAnimationFrame sessionStorage setTimeout window"
).split()
NODE = "__dirname __filename clearTimeout global module process require setTimeout".split()
# Where Debian's programs find their modules, with any node.
MODULES = "/usr/share/nodejs"


def file_at(files: Sequence[pathlib.Path], line: int) -> Tuple[pathlib.Path, int]:
    """Of which file a line of joined scripts is, and which line of it."""
    begins = [joined_scripts(files[:at]).count("\n") + 1 for at in range(len(files))]
    begin, file = max(it for it in zip(begins, files) if it[0] <= line)
    return file, line - begin + 1


def faults(text: str, known: Sequence[str]) -> Iterator[Tuple[int, str]]:
    """The faults of a script, which knows these names: the line of each, and what it is."""
    words = ["eslint", "--no-eslintrc", "--config", str(HERE / "eslint.json"), "--format", "json"]
    words += [f"--global={','.join(known)}", "--stdin"]
    environment = {**os.environ, "NODE_PATH": MODULES}
    given = {"input": text, "env": environment, "universal_newlines": True}
    ran = subprocess.run(words, stdout=subprocess.PIPE, **given)  # type: ignore[call-overload]
    for it in json.loads(ran.stdout)[0]["messages"]:
        yield it["line"], f"{it['message']} ({it['ruleId']})"


def main() -> int:
    """Says what is wrong, once each."""
    found = set()
    for files in PAGES.values():
        for line, fault in faults(joined_scripts(files), BROWSER):
            file, own = file_at(files, line)
            found.add((str(file), own, fault))
    for file in (*HERE.glob("*.js"), *EDITORS.rglob("*.js")):
        found |= {(str(file), *it) for it in faults(file.read_text(encoding="utf-8"), NODE)}
    for path, line, fault in sorted(found):
        print(f"{os.path.relpath(path)}:{line}: {fault}")
    return 1 if found else 0


if __name__ == "__main__":
    sys.exit(main())
