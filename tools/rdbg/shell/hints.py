"""Hints on refusals: what is wrong with a line and, for a syntax error, what was probably meant."""
import re
from typing import Callable, Dict, List, Optional, Sequence, Tuple

from rdbg import commands, kinds, record
from rdbg.goals import words as goal_words
from rdbg.goals.meant import as_number, with_operator, with_subject
from rdbg.goals.reading import NoGoal
from rdbg.replies import Refused
from rdbg.shell.glossary import GOALS, HINTS, REFUSALS
from rdbg.shell.shell import Shell
from rdbg.wording import counted, nearest


def no_such(shell: Shell, line: str) -> str:
    """Hint on NoSuch: which name, core, register or entry does not exist."""
    command = commands.read(line)
    if command is None:
        return "a name, core, register or notification entry does not exist"
    is_asked = command.condition is not None
    texts = (missing(shell, *pair, is_asked) for pair in zip(command.symbols, command.words))
    return "; ".join(filter(None, texts)) or "what the line names does not exist"


def missing(shell: Shell, symbol: str, it: str, is_asked: bool) -> str:
    """What does not exist that a word of a command refers to; `is_asked` for a condition."""
    application = shell.target.application
    if symbol in kinds.OF_SYMBOL:
        return missing_name(shell, kinds.OF_SYMBOL[symbol].word, it, is_asked)
    if symbol == "R" and int(it) > 7:
        return "registers have the numbers 0 to 7"
    cores, notes = (application.cores, application.notes) if application else (0, 0)
    if symbol == "C" and 0 < cores <= int(it):
        return f"the target has {counted(cores, 'core')}, numbered from 0"
    if symbol == "I" and 0 < notes <= int(it):
        entries = "one notification entry" if notes == 1 else f"{notes} notification entries"
        return f"each task has {entries}, numbered from 0"
    return ""


def missing_name(shell: Shell, kind: str, name: str, is_asked: bool) -> str:
    """That there is nothing of this kind and name, and what there is instead."""
    names = shell.target.names
    of_kind = names.of_kind(kind)
    if name in of_kind:
        return ""
    others = names.kinds_of(name)
    if others and is_asked:
        of_task = f"`phase {name} WORD`, `pc {name} OP N`, `reg {name} R OP N`"
        word = kinds.OF_WORD[others[0]].amount
        of_object = f"`{word} {name} OP N`" if word else "it has no condition"
        return f"'{name}' is a {others[0]}: {of_task if others[0] == 'task' else of_object}"
    if others:
        return f"'{name}' is a {others[0]}: `show {others[0]} {name}`"
    near = nearest(name, of_kind)
    if near:
        return f"{kind} '{name}' is not defined (did you mean '{near}'?)"
    there = f"there are {', '.join(of_kind)}" if of_kind else f"the model has no {kind}"
    return f"{kind} '{name}' is not defined; {there}"


def no_task(shell: Shell, line: str) -> str:
    """Hint on NoTask: where the tasks are."""
    if not shell.target.can_afford(len(shell.target.names.lines())):
        return "no task is running on this core; see `show cores`"
    look = shell.look()
    running = [f"{name} on core {core}" for core, name in enumerate(look.cores.running) if name]
    places = [(it.name, it.phase.place) for it in look.tasks.values() if it.phase.place]
    waiting = [f"{name} waits at {place}" for name, place in places]
    there = ", ".join([*running, *waiting]) or "all tasks have ended"
    return f"no task is running on this core: {there}" + (
        "" if running else "; `tick` lets time pass"
    )


def nothing_undone(shell: Shell, line: str) -> str:
    """Hint on NothingUndone: how many moves can be redone."""
    if not shell.target.is_own:
        return "fewer moves are undone; see `show moves`"
    undone = shell.target.places().undone
    count = f"only {counted(undone, 'move')} can be redone" if undone else "no move can be redone"
    return f"{count}; a new move discards undone moves"


def moves_full(shell: Shell, line: str) -> str:
    """Hint on MovesFull: how many moves are left."""
    limits = shell.target.limits
    if limits is None:
        return "the limit of the server is reached; go back, and then on from there"
    left = limits.moves - shell.target.place
    more = "" if limits.moves == commands.MOST_COUNT else ", or start sh with --moves 1000000"
    fits = f"only {counted(left, 'move')} left" if left else "no moves left"
    return f"{fits} (--moves {limits.moves}); go back{more}"


def too_far(shell: Shell, kept: int) -> str:
    """Hint on TooFar: how far `back` can go if `kept` moves are recorded."""
    base = max(0, shell.target.place - kept)
    if not kept:
        return (
            record.given_up(f"the records before place {base}")
            if base
            else "the target is at boot: there is no move to undo"
        )
    return f"only {counted(kept, 'move')} can be undone; `goto {base}` undoes all of them"


# What each kind of edit requires.
BAD_EDITS = {
    "pc": "the task must be in phase run, and its script must have instruction N; see `info tasks`",
    "group": "the bits must be at most 16777215",
    "item": "the item must exist (0 is the front), and the bytes must be as many as an item has",
    "byte": "the byte must exist (0 is the front), and the value must be at most 255",
}
Words = List[str]
# A repair returns corrected words and the reason. It returns the same words, or `None`, if it does
# not apply.
Repair = Callable[[Shell, Words], Optional[Tuple[Words, str]]]
COUNTS = {"forward": "100", record.BACK: "1", record.REDO: "1"}


def lower_case(shell: Shell, words: Words) -> Optional[Tuple[Words, str]]:
    """Writes words and names in lower case."""
    lower = [word if commands.is_bytes(word) else word.lower() for word in words]
    return lower, "commands and names are lower case"


def strip_marks(shell: Shell, words: Words) -> Optional[Tuple[Words, str]]:
    """Removes quotes, parentheses and punctuation around words."""
    bare = [re.sub(r"^[\"'`(]+|[\"'`);,]+$", "", word) for word in words]
    return [word for word in bare if word], "commands have no quotes, parentheses or commas"


def space_operators(shell: Shell, words: Words) -> Optional[Tuple[Words, str]]:
    """Puts spaces around operators."""
    apart = re.sub(r"([<>=!]=?|==)", r" \1 ", " ".join(words))
    return apart.split(), "put spaces around an operator"


def replace_operators(shell: Shell, words: Words) -> Optional[Tuple[Words, str]]:
    """Replaces operators other than =, < and >."""
    for at, word in enumerate(words):
        found = with_operator(words, at)
        if found is not None:
            count = 1 if word == "==" else 2  # (the number changes too, except after ==)
            was, now = (" ".join(it[at : at + count]) for it in (words, found))
            return found, f"write {now} for {was}"
    return None


# Why a number is not accepted, by its first two characters.
NUMBERS = dict.fromkeys(("0x", "0b"), "numbers are decimal")
NUMBERS.update(dict.fromkeys(("ma", "po"), "only scripts have max; write the number"))


def replace_numbers(shell: Shell, words: Words) -> Optional[Tuple[Words, str]]:
    """Writes numbers in decimal, and registers, cores and watches as their numbers."""
    found, reason = list(words), ""
    for at, word in enumerate(words):
        number = as_number(word) if at else None
        if number is not None:
            found[at], reason = number, NUMBERS.get(word[:2], "a number consists of digits")
        elif re.fullmatch(r"r[0-7]", word) and "reg" in words[:at]:
            found[at], reason = word[1:], "write the register as a number"
        elif re.fullmatch(r"core_?[0-9]", word):
            found[at], reason = word[-1], "write the core as a number"
        elif words[0] == "unwatch" and commands.is_watch(word):
            found[at], reason = word[1:], "write the watch as a number"
    return found, reason


def name_kind(shell: Shell, words: Words) -> Optional[Tuple[Words, str]]:
    """Adds or corrects the kind in `show KIND NAME`."""
    if words[0] != "show" or len(words) < 2:
        return None
    word = words[1]
    if len(words) > 2 and word.endswith("s") and word[:-1] in kinds.OF_WORD:
        return ["show", word[:-1], *words[2:]], f"the kind is '{word[:-1]}'"
    there = shell.target.names.kinds_of(word) if len(words) == 2 else []
    return (["show", there[0], word], "`show` takes a kind and a name") if there else None


def add_count(shell: Shell, words: Words) -> Optional[Tuple[Words, str]]:
    """Adds a missing COUNT."""
    if words[0] not in COUNTS:
        return None
    longer = [*words, COUNTS[words[0]]]
    return (longer, "COUNT is missing") if commands.read(" ".join(longer)) else None


def add_subject(shell: Shell, words: Words) -> Optional[Tuple[Words, str]]:
    """Adds the word with which a condition begins."""
    found = with_subject(words, 1, shell.target.names) if words[1:] else None
    return (found, "a condition begins with a word such as count, pc or phase") if found else None


def drop_equals(shell: Shell, words: Words) -> Optional[Tuple[Words, str]]:
    """Removes the operator before a phase."""
    plain = [word for word in words if word != "=" or "phase" not in words]
    return plain, "write the phase without ="


def correct_command(shell: Shell, words: Words) -> Optional[Tuple[Words, str]]:
    """Replaces a misspelt command."""
    if words[0] in commands.WORDS:
        return None
    near = nearest(words[0], commands.WORDS)
    return ([near, *words[1:]], f"unknown command '{words[0]}'") if near else None


REPAIRS: Tuple[Repair, ...] = (
    lower_case, strip_marks, space_operators, replace_operators, replace_numbers, correct_command,
    add_subject, drop_equals, name_kind, add_count,
)  # fmt: skip


def syntax(shell: Shell, line: str) -> str:
    """Hint on Syntax: why a line is not a command, and what may have been meant."""
    words = line.split()
    if not words:
        return "an empty line is not a command"
    if words[0] == "show" and len(words) == 2 and words[1] in SHOWN:
        return SHOWN[words[1]]
    known = start_hint(shell, words[0]) or HINTS.get(words[0])
    hint = known or goal_error(shell, words) or joined_conditions(words[1:])
    return hint or suggest_line(shell, line) or describe_error(shell, words)


def start_hint(shell: Shell, word: str) -> str:
    """Hint on a command that starts a program in gdb; empty for other commands, and at boot."""
    place = shell.target.place
    if word not in BEGINS or not place:
        return ""
    limits = shell.target.limits
    if limits is not None and place >= limits.moves:
        last = f"the target is at {place}, the last place that --moves {limits.moves} allows"
        return f"{last}; `goto 0` goes back to boot"
    return f"the target is at {place}; `until COND 1000` continues, `goto 0` goes back to boot"


# gdb's commands that start a program.
BEGINS = ("run", "r", "start")
JOINING = ("and", "or", "not", "&&", "||", "&", "|", "!")


def joined_conditions(words: Sequence[str]) -> str:
    """Hint on a watch with several conditions; empty if these words are not several."""
    found = next((word for word in words if word.lower() in JOINING), None)
    if found is None or not any(word in STARTS or commands.is_watch(word) for word in words):
        return ""
    return (
        f"a watch takes one condition, without `{found}`; `until! GOAL` and `rc! GOAL` take several"
    )


def goal_error(shell: Shell, words: Sequence[str]) -> str:
    """What is wrong with the goal after `until` or `back until`; empty if there is no goal."""
    behind = words[2:] if words[:2] == ["back", "until"] else words[1:]
    if behind and (words[0] == "until" or len(behind) < len(words) - 1):
        try:
            goal_words.counted(behind, shell.scope())
        except NoGoal as wrong:
            return str(wrong)
    return ""


STARTS = tuple(form.word for form in commands.CONDITIONS)
ALL = "`info objects` shows all objects"
SHOWN = {
    "tasks": "`info tasks` shows all tasks",
    "task": "`show task` needs a name; `info tasks` shows all tasks",
    "all": "`info tasks` and `info objects` show everything",
    "watch": "type `show watches`, or `info watches` to see the conditions too",
    "core": "type `show cores` or `where`",
    **{word: ALL for word in ("objects", *(kind.key for kind in kinds.OBJECTS))},
}


def suggest_line(shell: Shell, line: str) -> str:
    """Suggests a line that may have been meant, and says why; empty if none is found."""
    words = line.split()
    reasons = ["separate words by spaces, not tabs"] if "\t" in line else []
    repaired = words
    for repair in REPAIRS:
        found = repair(shell, repaired)
        if found is not None and found[0] not in ([], repaired):
            repaired, reason = found
            reasons.append(reason)
    text = " ".join(repaired)
    # (the prompt accepts `until` without a COUNT)
    texts = [text, f"{text} 1"] if repaired[:1] == ["until"] else [text]
    if reasons and any(commands.read(it) is not None for it in texts):
        return f"{'; '.join(reasons)}: `{text}`"
    return ""


def describe_error(shell: Shell, words: Sequence[str]) -> str:
    """Says what is expected at the first wrong word of a line."""
    from rdbg.shell.words import BY_NAME

    shapes = [shape for shape in commands.SHAPES if shape.form.word == words[0]]
    if not shapes and words[0] in GOALS:
        first = words[0]
        return f"`{first}` is a goal: `until {first}` runs to it, `rc {first}` goes back to it"
    if not shapes:
        near = nearest(words[0], [*commands.WORDS, *BY_NAME])
        meant = f"did you mean '{near}'? " if near else ""
        return f"unknown command '{words[0]}' ({meant}'help' lists all)"
    if words[0] == "step":
        return "`step` needs a core number or the name of a task; `s` makes the next default move"
    most = max(shape.fitting(words) for shape in shapes)
    best = [shape for shape in shapes if shape.fitting(words) == most]
    forms = " or ".join(dict.fromkeys(f"`{shape.form.text}`" for shape in best[:3]))
    if any(len(shape.symbols) == most for shape in best):
        return f"unexpected '{' '.join(words[most:])}': the form is {forms}"
    wanted = list(dict.fromkeys(shape.symbols[most] for shape in best))
    conditions = STARTS if {*STARTS} <= {*wanted} else ()
    texts = [f"a condition ({', '.join(STARTS)} ..)"] if conditions else []
    texts += [describe(symbol) for symbol in wanted if symbol not in conditions]
    expected = " or ".join(texts)
    if list(words) == ["until"]:
        expected += ", or another goal (see `help until`)"
    other = "" if most == len(words) else f", found '{words[most]}'"
    return f"expected {expected} after `{' '.join(words[:most])}`{other}"


def describe(symbol: str) -> str:
    """What a symbol stands for, with its range or choices."""
    known = commands.SYMBOLS.get(symbol)
    if known is None:
        return f"`{symbol}`"
    is_plain = known.choices in (known.noun, "its name")
    return known.noun if is_plain else f"{known.noun} ({known.choices})"


Hint = Callable[[Shell, str], str]
# Refusals whose hint depends on the line.
OF_LINES: Dict[str, Hint] = {
    "Syntax": syntax,
    "NoSuch": no_such,
    "NoTask": no_task,
    "MovesFull": moves_full,
    "NothingUndone": nothing_undone,
    "BadEdit": lambda shell, line: BAD_EDITS.get("".join(commands.words_of(line)[1:2]), ""),
}


def refusal(shell: Shell, line: str, refused: Refused) -> str:
    """Returns a hint on the refusal of a line."""
    if refused.name == "TooFar":
        return too_far(shell, refused.number or 0)
    if refused.name in OF_LINES:
        return OF_LINES[refused.name](shell, line)
    return REFUSALS.get(refused.name, "").format(number=refused.number)
