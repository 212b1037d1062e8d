"""Where the byte code of the companions is kept, so that the next start needn't make it again.

In a checkout that is below `out/`, as all that is built. Where they are installed it is beside the
sources, as Python has it by itself. In a folder that can't be written, or is somebody else's, none
is written, and all the same they start."""
import importlib.machinery
import os
import sys
from types import CodeType
from typing import Optional

TOOLS = os.path.dirname(os.path.dirname(os.path.abspath(__file__)))
TOP = os.path.dirname(TOOLS)
BELOW_OUT = os.path.join(TOP, "out", "pycache")


def is_within(path: str) -> bool:
    """Whether a folder is that of the companions, or within it."""
    whole = os.path.abspath(path)
    return whole == TOOLS or whole.startswith(os.path.join(TOOLS, "rdbg"))


def is_own() -> bool:
    """Whether the companions are the user's own. (Files of root would be in others' way.)"""
    return os.stat(TOOLS).st_uid == os.geteuid()


class Loader(importlib.machinery.SourceFileLoader):
    """Loads the modules of a checkout; Python's own stay where they are."""

    def get_code(self, fullname: str) -> Optional[CodeType]:
        """The code of a module, from below `out/` where it is there."""
        before = sys.pycache_prefix, sys.dont_write_bytecode
        sys.pycache_prefix, sys.dont_write_bytecode = BELOW_OUT, not is_own()
        try:
            return super().get_code(fullname)
        finally:
            sys.pycache_prefix, sys.dont_write_bytecode = before


def finder(path: str) -> importlib.machinery.FileFinder:
    """What finds modules in a folder of the companions. Raises `ImportError` for any other."""
    if not is_within(path):
        raise ImportError(path)
    return importlib.machinery.FileFinder(path, (Loader, importlib.machinery.SOURCE_SUFFIXES))


def keep() -> None:
    """Keeps byte code from now on."""
    sys.dont_write_bytecode = bool(sys.flags.dont_write_bytecode) or not is_own()
    if os.path.isfile(os.path.join(TOP, "crates.txt")):
        sys.path_hooks.insert(0, finder)
        for path in list(filter(is_within, sys.path_importer_cache)):
            del sys.path_importer_cache[path]
