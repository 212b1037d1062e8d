"""`help`: the meaning of words in replies, of gdb's commands and of FreeRTOS names."""
import re
import textwrap
from typing import Dict, List, Sequence, Tuple

from rdbg import commands, instructions
from rdbg.checking import freertos
from rdbg.driving.target import Unable
from rdbg.invocation import command
from rdbg.shell.shell import Shell
from rdbg.shell.views import REGISTERS

WIDTH = 96
PHASES: Dict[str, str] = {
    "run": "the task can execute its next instruction; it is on a core, or ready for one",
    "wait": "the task is blocked in a call, shown as wait:PLACE:DEADLINE. wait:recv:jobs:10 waits"
    " until tick 10 at the latest; the deadline max means no time limit",
    "again": "the task was woken and has not run since, shown as again:DEADLINE. Its next step"
    " retries the call, which fails if another task was faster",
    "given": "the task was woken with the bits of an event group; its next step returns them",
    "ended": "the task has executed `end` and never runs again",
    "failed": "a call made an error that it cannot report, such as SetFull or BadBits, where the"
    " kernel would assert; the task never runs again",
}
GOALS: Dict[str, str] = {
    "asleep": "no core is busy, at least one task is blocked, and no blocked task has a deadline,"
    " so only ticks are left. It never holds if a task never blocks, such as one that plays an"
    " interrupt and ends in a jump; use `until sleeps TASK` then",
    "finished": "all tasks have ended",
    "stuck": "no core is busy and no task has a deadline: `asleep`, `finished`, or no task is"
    " blocked and at least one has failed",
    "failed": "at least one task is in phase failed; `failed TASK` asks about one task",
    "ended": "`ended TASK`: the task is in phase ended",
    "at": "`at TASK N`: the task's next instruction is N, or it is blocked there; N may be a label",
    "waits": "`waits TASK`: the task is in phase wait; `waits TASK recv QUEUE`, or another place,"
    " restricts the call",
    "runs": "`runs TASK`: the task is on a core",
    "wakes": "`wakes TASK`: the task was blocked before the move and is not blocked after it",
    "sleeps": "`sleeps TASK`: the task is blocked without a time limit",
    "changes": "`changes QUEUE`, or another object: the move changed the object's contents",
}
# {number} is replaced by the number in the refusal.
REFUSALS: Dict[str, str] = {
    "NoTask": "no task is running on the core; `where` shows which task is on which core",
    "TickLimit": "the tick has reached its maximum, 4294967295; `back` takes ticks back",
    "TooFar": "TooFar N: only N moves can be taken back",
    "NothingUndone": "there are not that many undone moves to redo",
    "MovesFull": "the limit of --moves is reached",
    "Held": "session {number} holds the wheel; you can look, but not move, until it gives the wheel"
    " back",
    "NoSuch": "there is no core, register, notification entry or name like this",
    "BadEdit": "the edit is not possible: the task is not in phase run, the item or byte does not"
    " exist, or the value is too large",
    "NoIsr": 'the application has profile 1; set `"profile": 2` in its file to allow interrupts',
    "WatchesFull": "the session has 16 watches, the maximum; list them with `info watches` and"
    " remove one with `unwatch N`",
    "NoWatch": "the session has no watch with this number; list them with `info watches`",
    "NotHolder": "this session does not hold the wheel, so it cannot give it; `show wheel` shows"
    " which session does",
    "HistoryFull": "the history has no entry left, and each line needs one, looks included; see"
    " `help history`",
    "NoMemory": "out of memory",
    "Syntax": "the line is not a command: a word is missing, superfluous, or of the wrong form",
    "LineTooLong": "the line has more than 1024 bytes; the session ends",
    "Broken": "the session's records do not match the history, which is a bug in rdbg",
    "Full": "the server has reached its number of sessions and accepts no other",
}
FAULTS: Dict[str, str] = {
    "L1 NotJson": "the text is not JSON",
    "L2 Shape": "a key is unknown or missing, or a value has the wrong type",
    "L3 Limit": "a number, or the length of a list, is outside its limits",
    "L4 Name": "a name is malformed, used twice, or not defined",
    "L5 Instr": "an instruction is invalid, or a script does not end in `end` or `jump`",
    "L6 OverwriteLength": "`over` is used on a queue whose length is not 1",
    "L7 Memory": "out of memory",
}
TERMS: Dict[str, str] = {
    "goal": "a GOAL is a condition (COND), or `asleep`, `at TASK N` and others, combined with and,"
    " or, not. `until GOAL` runs to it, `rc GOAL` goes back to it; with `!`, to the move that made"
    " it true. See `help until`",
    "registers": "each task has registers r0 to r7; r0 is the result of its last call"
    " (docs/reference/calls.md). Show them with `print r0 TASK` or `info registers TASK`; set one"
    " with `poke reg TASK R N`",
    "isr": "an interrupt is a move that no task makes. It never blocks, and answers 1, or 0 if"
    " nothing changed. A task that it wakes takes a core at once if its priority is high enough",
    "turn": "the core after the one that made the last step, or 0 after a tick; you may step any"
    " core",
    "tick": "block times are counted in ticks; a run makes a tick after one instruction of each"
    " busy core",
    "ready": "the task can run, but no core is free for it",
    "met": "a run, or a way back, reached a place where its condition or goal holds",
    "limit": "a run made COUNT moves without meeting the goal; other interleavings may meet it",
    "start": "a way back reached boot; the condition held at no earlier place",
    "room": "in an `rdbg room`, lines that begin with # show what others do. `# who` lists the"
    " sessions, `# say TEXT` sends a message to all, `moves` shows what was done, `# wheel` asks"
    " for the wheel, `# name NAME` sets your name",
    "deepest": "the number of moves in the longest run that the search visited",
    "within": "`within 9 moves it comes from anywhere`: from every reachable place, at most 9 moves"
    " can lead to the goal",
    "lines": "`(22 lines asked)`: how many lines sh sent to rdbg to find the place",
    "echo": "`set echo on` prints each line that sh sends to rdbg, after >",
}
CONSTANTS: Dict[str, str] = {
    "portMAX_DELAY": "max, as a block time: no time limit",
    "pdTRUE": "1",
    "pdPASS": "1",
    "pdFALSE": "0",
    "pdFAIL": "0",
    "errQUEUE_FULL": "0",
    "errQUEUE_EMPTY": "0",
    "pdMS_TO_TICKS": "the number of ticks itself, because block times are in ticks",
}
# What a name of FreeRTOS looks like.
CALLED = re.compile(
    r"(u|ul|ux|x|v|pv|pc|e)(Queue|Task|Event|Stream|Message|Semaphore|Timer|CoRoutine|Port)\w*"
    r"|(pd|err|port|task|config|trace)[A-Z_]\w*|INCLUDE_\w+"
)
WORDS: List[str] = [*PHASES, *GOALS, *REFUSALS, "GOAL", *TERMS, *REGISTERS]
WORDS += [word for fault in FAULTS for word in fault.split()]


def meanings_of(word: str) -> List[str]:
    """The meanings of a word, one sentence each."""
    found = [f"phase {word}: {PHASES[word]}"] if word in PHASES else []
    if word in GOALS:
        found.append(f"goal {word}: {GOALS[word]}")
    refusal = next((name for name in REFUSALS if name.lower() == word.lower()), None)
    if refusal:
        found.append(f"no {refusal}: {REFUSALS[refusal]}".format(number="N"))
    fault = next((it for it in FAULTS if word.lower() in it.lower().split()), None)
    if fault:
        where = f"`{command()} check FILE` shows where"
        found.append(f"refused as {fault}: {FAULTS[fault]}; {where}")
    term = "registers" if word in REGISTERS else word.lower()
    if term in TERMS and word.lower() not in GOALS:
        found.append(TERMS[term])
    return found


def freertos_help(word: str) -> str:
    """How a model writes a name of FreeRTOS or of C; empty if it is not such a name."""
    name = freertos.called(word)
    if name in CONSTANTS:
        return f"{name} is written {CONSTANTS[name]}"
    plain = re.sub("Static$", "", name)
    known = freertos.sentence(word) or (freertos.sentence(plain) if plain != name else "")
    calls = "docs/reference/calls.md lists the calls that are"
    return known or (f"{name} is not modelled; {calls}" if CALLED.fullmatch(name) else "")


# What to type instead of a command of gdb.
OF_GDB: Dict[str, str] = {
    "run r": "the target is already at boot: type `step 0` or `until COND 1000`; `goto 0` returns"
    " to boot",
    "start": "the target is already at boot: type `step 0` or `until COND 1000`",
    "kill k": "`goto 0` goes back to boot, `quit` ends",
    "file": "name the file when you start: `rdbg sh FILE`; `reload` reads it again",
    "attach": "`rdbg sh --port P` attaches to `rdbg serve`",
    "detach": "`wheel give` gives the wheel back, `quit` ends",
    "bt backtrace": "tasks have no stack frames here; `where` shows what each core does next,"
    " `moves` shows what led here",
    "frame f": "tasks have no stack frames; try `where` or `info worker`",
    "finish fin": "there are no functions; `until! phase worker run` runs until the task's call"
    " returns",
    "advance adv": "`until pc worker = 3 1000` runs to instruction 3 of a task",
    "thread t": "refer to a task by name: `step worker`, `info worker`, `list worker`",
    "set set!": "to change a setting, `set echo on` or `set moves on`; to change the target,"
    " `poke reg K R N`",
    "call": "only a script makes calls; `poke pc K N` sets the next instruction of a task",
    "jump j": "`poke pc worker 3` sets the next instruction of a task in phase run",
    "x": "the model has no memory to examine; try `show queue Q`, `show stream B` or `info"
    " objects`",
    "rwatch": "rdbg cannot watch reads; `until changes Q` runs until the contents of Q change",
    "awatch": "`until changes Q` runs until the contents of Q change",
    "catch": "run to an event with `until failed`, `until asleep` or `until wakes TASK`",
    "commands": "a watch has no commands; `continue` stops when a watch turns true",
    "hbreak": "there is one kind of breakpoint: `break`, or `tbreak` for one stop",
    "condition": "the condition is the watch itself: `break count jobs > 0`",
    "ignore": "`continue` stops at every hit; repeat it",
    "record": "rdbg records every move, and you can take back any of them",
    "checkpoint": "each place has a number, the moves made so far: note it, and return with `goto"
    " N`",
    "restart": "`goto N` goes to any place, `goto 0` to boot",
    "signal handle": "interrupts are `isr send Q HEX` and `isr notify K I N ACTION`; they need"
    " profile 2",
    "stop interrupt": "press Ctrl-C to stop a run",
    "shell": "sh runs no shell commands; use Ctrl-Z, or another terminal",
    "ptype whatis": "`info objects` lists the objects and their kinds",
    "disassemble disas": "`list TASK` shows the script of a task",
    "up down": "tasks have no stack frames; try `where` or `info TASK`",
}
HINTS = {word: hint for words, hint in OF_GDB.items() for word in words.split()}


def format_forms(title: str, of: Sequence[Tuple[str, str]]) -> List[str]:
    """A title, and below it one line for each form with what it does."""
    width = max(len(form) for form, _ in of)
    return [title, *(f"  {form.ljust(width)}  {does}" for form, does in of)]


def overview() -> str:
    """The first screen of the help: all commands."""
    from rdbg.shell.words import WORDS

    own = [(", ".join([it.form, *it.short[:1]]), it.does) for it in WORDS]
    rdbg = " ".join(sorted(commands.WORDS))
    more = (
        "`help rdbg` describes them. Also try `help COND` for conditions, `help GOAL` for goals,\n"
        "`help send` for an instruction, `help xQueueSend` for a FreeRTOS name, and\n"
        "`help NoTask` for a refusal."
    )
    keys = "Enter repeats the last line, Tab completes, # starts a comment, Ctrl-C stops a run."
    return "\n".join([*format_forms("Commands:", own), f"Commands of rdbg: {rdbg}", more, keys])


HISTORY = (
    "Each line that rdbg answers takes one entry of its history, looks included. The history has"
    " at most 1000000 entries. sh uses looks to show what a move did; `set moves off` avoids them."
    " A full history accepts no more lines. Before that happens, type `reload` to make the same"
    " moves in a new program with an empty history, or `save FILE` and replay that file later."
)


def help_on(shell: Shell, words: Sequence[str]) -> None:
    """Executes `help [WORD]`."""
    if not words:
        shell.say(overview())
        return
    word = words[0]
    found = [*own_help(word), *rdbg_help(word), *instruction_help(word)]
    meanings = [*meanings_of(word), *([HISTORY] if word == "history" else [])]
    if not found and not meanings:
        meanings = [text for text in (HINTS.get(word), freertos_help(word)) if text]
    found += [line for text in meanings for line in textwrap.wrap(text, WIDTH)]
    if not found:
        raise Unable(f"no help for '{word}'; `help` lists all commands")
    shell.say(shell.in_its_names("\n".join(found)))


def own_help(word: str) -> List[str]:
    """The help on a command of sh."""
    from rdbg.shell.words import BY_NAME

    it = BY_NAME.get(word)
    if it is None:
        return []
    also = [f"  also: {', '.join(it.short)}"] if it.short else []
    return [f"{it.form}: {it.does}", *also, *(f"  {line}" for line in it.more.splitlines())]


def rdbg_help(word: str) -> List[str]:
    """The help on the commands and conditions of rdbg that have this word."""
    found = [(it.text, it.does) for it in commands.FORMS if word in (it.word, "rdbg")]
    lines = format_forms("Commands of rdbg:", found) if found else []
    uses = any("COND" in text for text, _ in found) or word.lower() in ("cond", "conditions")
    conditions = [(it.text, it.does) for it in commands.CONDITIONS if uses or it.word == word]
    if conditions:
        lines += format_forms("Conditions (COND; OP is =, < or >):", conditions)
    return lines


def instruction_help(word: str) -> List[str]:
    """The help on an instruction of scripts."""
    name = freertos.called(word).lower()
    named = (it for it in instructions.FORMS if name in (each.lower() for each in it.freertos))
    form = instructions.form_of(word) or next(named, None)
    if form is None:
        return []
    stands = f" ({', '.join(form.freertos)})" if form.freertos else ""
    return textwrap.wrap(f"in a script, {form.text}{stands}: {form.does}; r0: {form.answer}", WIDTH)
