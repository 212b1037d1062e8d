"""Explains what is wrong with a command line that the program refused."""
from typing import Dict, List, Optional, Sequence, Tuple

from rdbg import invocation
from rdbg.digits import natural
from rdbg.wording import nearest, shown

MILLION = 1_000_000
# For each option the name of its value, and its range if it is a number.
OPTIONS: Dict[str, Tuple[str, Optional[Tuple[int, int]]]] = {
    "--app": ("FILE", None),
    "--port": ("PORT", (1, 65_535)),
    "--sessions": ("COUNT", (1, 64)),
    "--moves": ("COUNT", (1, MILLION)),
    "--history": ("COUNT", (2, MILLION)),
}
OF_COMMAND = {
    "run": ("--app", "--moves", "--history"),
    "serve": ("--app", "--port", "--sessions", "--moves", "--history"),
}
NEEDED = {"run": (), "serve": ("--app", "--port", "--sessions")}


def unknown(word: str, words: Sequence[str]) -> str:
    """Says that a word is not one of these, with a suggestion."""
    near = nearest(word, words)
    meant = f"did you mean '{near}'?" if near else f"see {invocation.command()} --help"
    return f"unknown command '{word}' ({meant})"


def wrong_value(option: str, value: Optional[str]) -> Optional[str]:
    """Says what is wrong with the value of an option, also if it is missing."""
    name, limits = OPTIONS[option]
    if value is None:
        return f"{option} needs a value {name}"
    # (the program takes a plus sign before a number)
    if limits is not None and natural(value[value.startswith("+") :], limits[1], limits[0]) is None:
        return f"{option} must be {limits[0]} to {limits[1]}, found '{shown(value)}'"
    return None


def wrong_option(command: str, option: str) -> str:
    """Says why a word is not an option of a command."""
    options = OF_COMMAND[command]
    if option in OPTIONS:
        return f"{command} has no option {option}"
    if not option.startswith("-"):
        return f"unexpected '{option}' (to name a model, use --app FILE)"
    near = nearest(option, options)
    meant = f"did you mean {near}?" if near else f"see {invocation.command()} help {command}"
    return f"{command} has no option {option} ({meant})"


def why(words: Sequence[str]) -> Optional[str]:
    """Says why the program refuses the words `run ..` or `serve ..`, if a reason is found."""
    command, *rest = words
    seen: List[str] = []
    while rest:
        option, has_value, value = rest.pop(0).partition("=")
        if option not in OF_COMMAND[command]:
            return wrong_option(command, option)
        if option in seen:
            return f"{option} is given twice"
        seen.append(option)
        found = wrong_value(option, value if has_value else rest.pop(0) if rest else None)
        if found is not None:
            return found
    lacking = [option for option in NEEDED[command] if option not in seen]
    return f"{command} needs {', '.join(lacking)}" if lacking else None
