"""Reads what a check says of planted bugs: which are refused, and on what grounds. And which are
known to get through, from docs/decisions/PROOFS.md."""
import functools
import re

from repository import TOP

REFUSED, LET_THROUGH = "refused", "let through"
PAGE = "docs/decisions/PROOFS.md"
HEADING = "## What `ci/planted` lets through"
# On what grounds a bug is refused, the best first.
BY_VALUES, OPEN_CLAUSE, PROOF_ALONE = "by values", "at an open clause", "for a proof alone"
FATE = re.compile(r"^(?:fn|struct|enum|impl|trait|const|static) (\S+): (.*)$", re.MULTILINE)
# (a long error goes on in lines that are indented)
ERROR = re.compile(
    r"^(?:\./)?((?:src|specs|proofs)/\S+?):(\d+):\d+: error(?:\[[\w-]+\])?:? ?(.*(?:\n  .*)*)$",
    re.MULTILINE,
)
COMPILED = re.compile(r"^crate \w+: modules ", re.MULTILINE)
PROVED = re.compile(r"^logic=proved ", re.MULTILINE)
CONSEQUENCE = re.compile(r"\b(?:it calls|it passes|a call of)\b")
OWN_FAILURE = re.compile(r"did not prove|expected answers in|^not proved")
# (of a function, right above the line that says what became of it)
OPEN_GOAL = re.compile(r"^note: \S+: it is not proved that (.*) \(`(\S+)`\)(.*)$")
OF_A_LOOP = re.compile(r"the loop holds|the loop ends|the measure")
HAS_VALUES = "allow values at which this goal is false"
TAKEN_AWAY = re.compile(r"has no field|is not in scope|has no `|was not admitted")
UNREAD = re.compile(
    r"is not in scope|has no field|is no name|operand is missing|expected the end|cannot continue"
)


def belongs_to(path, function):
    """Whether the path is the function's, or that of a closure in it."""
    return path == function or path.replace("::fn::", "::", 1).startswith(f"{function}::")


def is_unread(text):
    """Whether an error says that a clause can't be read, and not that it doesn't hold."""
    return bool(UNREAD.search(re.sub(r"`[^`]*`", "", text)))


def stands_on_unread_proof(said, function):
    """Whether all errors in the function's proof files are that they name what isn't there."""
    folder = "proofs/" + "/".join(function.split("::")[1:]) + "/"
    errors = [text for file, _, text in ERROR.findall(said) if file.startswith(folder)]
    return bool(errors) and all(TAKEN_AWAY.search(text) for text in errors)


def fate_of(said, function, words):
    """Whether the function failed by itself, is proved, or why that can't be told."""
    if words.startswith("proved"):
        return LET_THROUGH
    if "borrow checker" in words or f"does not cover `{function}`" in said:
        return "the borrow checker doesn't cover its function"
    if "did not prove" not in words:
        if CONSEQUENCE.search(words):
            return "its function calls one that isn't proved"
        if stands_on_unread_proof(said, function):
            return "a proof names what the edit took away"
    return REFUSED if OWN_FAILURE.search(words) else f"the check says '{words[:120]}'"


def fates_of(said, edit, twin):
    """What became of each of the edit's functions, or of the twin of its function, by path."""
    is_whole = None in edit.functions
    judged = {twin} if twin else edit.functions
    return [
        (path, fate_of(said, path, words))
        for path, words in FATE.findall(said)
        if is_whole or any(belongs_to(path, function) for function in judged)
    ]


def goals_left(said):
    """The goals that the check left of each function: what isn't proved, its name, and how far the
    search came."""
    left, goals = {}, []
    for line in said.splitlines():
        goal, fate = OPEN_GOAL.match(line), FATE.match(line)
        if goal:
            goals.append(goal.groups())
        if fate:
            left[fate[1]], goals = [*left.get(fate[1], []), *goals], []
    return left


def grounds_of(said, edit, twin):
    """On what grounds the edit is refused, and the names of the goals that say so."""
    left = goals_left(said)
    failed = [path for path, fate in fates_of(said, edit, twin) if fate == REFUSED]
    goals = [goal for path in failed for goal in left.get(path, [])]
    clauses = [(name, how) for what, name, how in goals if not OF_A_LOOP.search(what)]
    broken = [name for name, how in clauses if HAS_VALUES in how]
    if broken:
        return BY_VALUES, broken
    names = [name for name, _ in clauses] or [name for _, name, _ in goals]
    return (OPEN_CLAUSE if clauses else PROOF_ALONE), names


def verdict_of(said, edit, twin):
    """What became of the edit's functions, or of the twin of its function."""
    is_whole = None in edit.functions
    fates = FATE.findall(said)
    stands = all(words.startswith("proved") for path, words in fates if path in edit.functions)
    if twin and not stands:
        return "its function isn't proved as it stands"
    found = {fate for _, fate in fates_of(said, edit, twin)}
    if REFUSED in found:
        return REFUSED
    if not found:
        return "the check has no line for its function"
    others = sorted(found - {LET_THROUGH})
    if not others and is_whole and not PROVED.search(said):
        return "the crate isn't proved, but no function failed by itself"
    return others[0] if others else LET_THROUGH


@functools.lru_cache(maxsize=None)
def known_through():
    """The bugs that are known to get through, by name, with the tests that fail with each."""
    _, heading, text = (TOP / PAGE).read_text().partition(f"\n{HEADING}\n")
    if not heading:
        raise SystemExit(f"{PAGE}: there is no '{HEADING}'")
    rows = [re.split(r"(?<!\\)\|", line) for line in text.partition("\n## ")[0].splitlines()]
    named = [row for row in rows if len(row) == 5 and row[1].strip().startswith("`")]
    return {row[1].strip(" `").replace("\\|", "|"): row[3].strip() for row in named}


def is_known(edit):
    """Whether the list of what gets through has the bug."""
    return any(name in known_through() for name in edit.names)
