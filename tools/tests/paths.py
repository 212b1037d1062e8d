"""Where the repository's parts are, for the tests."""
import pathlib

TOP = pathlib.Path(__file__).resolve().parents[2]
DOCS = TOP / "docs"
EXAMPLES = TOP / "examples"
COMPANION = TOP / "tools" / "companion"
WRAPPER = TOP / "rdbg"
