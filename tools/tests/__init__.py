"""Tests of the companions. Those that need the program start the one that RDBG_PROGRAM names, or
where nobody says so the one that is built without proof."""
import os

os.environ.setdefault("RDBG_WRAPPER_WORDS", "--unproved")
