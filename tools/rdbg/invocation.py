"""How users call rdbg: `./rdbg` in a checkout, `rdbg` if it is installed."""
import os
import pathlib

CHECKOUT = pathlib.Path(__file__).resolve().parents[2]


def command() -> str:
    """What a user types to call rdbg, for messages and pages. The script that starts a tool sets
    it."""
    called = os.environ.get("RDBG_CALLED")
    return called or ("./rdbg" if (CHECKOUT / "crates.txt").is_file() else "rdbg")
