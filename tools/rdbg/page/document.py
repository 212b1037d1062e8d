"""Builds a page: one HTML file that contains its style and scripts. Its content security policy lets
no other script run, and nothing be fetched unless it says so."""
import base64
import hashlib
import html
import json
import pathlib
import re
from typing import Mapping, Sequence

from rdbg.printable import printable

Files = Sequence[pathlib.Path]
HERE = pathlib.Path(__file__).resolve().parent
# The scripts of all pages that show runs, each after those that it uses.
SCRIPTS = tuple(
    HERE / f"{name}.js"
    for name in (
        "run words signs segments arrangement lanes painter timeline tables folds panels search"
        " lane_panel dragging viewer"
    ).split()
)
STYLE = HERE / "style.css"
# The parts of HTML that these pages share, by the name of their placeholder.
PARTS = {
    **{name: f"{name}.html" for name in "header finding lanes state help".split()},
    "script-panel": "script.html",
}
POLICY = "default-src 'none'; img-src data:"


def text_of(file: pathlib.Path) -> str:
    """Returns the text of a file."""
    return file.read_text(encoding="utf-8")


def joined_scripts(files: Files) -> str:
    """Joins scripts into one with a scope of its own."""
    return "\n".join(['"use strict";', "(() => {", *map(text_of, files), "})();"])


def json_of(values: Mapping[str, object]) -> str:
    """Returns values as JSON that is safe inside an HTML element."""
    text = json.dumps(values, separators=(",", ":"))
    return text.replace("<", "\\u003c").replace(">", "\\u003e").replace("&", "\\u0026")


def digest(text: str) -> str:
    """Returns the hash by which the policy names a script or a style."""
    return "sha256-" + base64.b64encode(hashlib.sha256(text.encode()).digest()).decode()


def filled(text: str, values: Mapping[str, str]) -> str:
    """Replaces the placeholders of a text by values."""
    return re.sub(r"\{\{(.*?)\}\}", lambda found: values[found[1]], text)


def body_of(file: pathlib.Path, values: Mapping[str, str], beside_slider: str = "") -> str:
    """Returns the body of a page from a file, with the shared parts filled in."""
    parts = {name: text_of(HERE / part) for name, part in PARTS.items()}
    moving = filled(text_of(HERE / "moving.html"), {"beside-slider": beside_slider})
    return filled(text_of(file), {**parts, "moving": moving, **values})


def document(
    title: str, body: str, scripts: Files, styles: Files = (), policy: str = POLICY
) -> str:
    """Returns the whole page of a body, with these scripts and styles after the shared ones."""
    style = "\n" + "".join(map(text_of, (STYLE, *styles)))
    script = f"\n{joined_scripts((*SCRIPTS, *scripts))}\n"
    allowed = f"{policy}; style-src '{digest(style)}'; script-src '{digest(script)}'"
    values = {
        "policy": allowed,
        "title": html.escape(printable(title)),
        "style": style,
        "body": body,
        "script": script,
    }
    return filled(text_of(HERE / "page.html"), values)
