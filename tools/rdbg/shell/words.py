"""The commands of sh: one table for what they do, for help and for Tab."""
import functools
from typing import Callable, Dict, NamedTuple, Optional, Sequence, Tuple

from rdbg import commands
from rdbg.driving.target import Unable
from rdbg.invocation import command
from rdbg.reaching import asking
from rdbg.shell import glossary, paces, reach, replay, seek, sourcing, steps, views
from rdbg.shell.shell import Shell
from rdbg.wording import rows

SETTINGS = ("moves", "echo")
Do = Callable[[Shell, Sequence[str]], None]


class Word(NamedTuple):
    """A command of sh: its form, what it does, its aliases, and what Tab offers after it (symbols
    as in rdbg's forms, `|` between words)."""

    form: str
    does: str
    run: Do
    short: Tuple[str, ...] = ()
    behind: Tuple[str, ...] = ()
    more: str = ""

    @property
    def name(self) -> str:
        """Its first word."""
        return self.form.split(" ")[0]


GOALS = (
    "GOAL is one of these, or several joined by and, or, not and ( ):\n"
    "  COND                  a condition (`help COND`), also bits G & MASK = N\n"
    "  reg K R = reg K2 R2   two registers are equal\n"
    "  at TASK N             its next instruction is N, or the label N\n"
    "  waits TASK [recv Q]   it is blocked [in this call]; sleeps TASK: without a time limit\n"
    "  runs, ended, failed TASK\n"
    "  failed                some task has failed\n"
    "  finished              all tasks have ended\n"
    "  asleep                some tasks are blocked, and only ticks are left\n"
    "  stuck                 asleep, or all tasks have ended or failed\n"
    "  wakes TASK, changes QUEUE (or another object): about one move\n"
    "COUNT limits the moves [default: 10000].\n"
    "`(22 lines asked)` is the number of lines that sh sent to rdbg to find the place.\n"
    "A run follows one interleaving of many. If it does not meet GOAL, another may: `reach GOAL`\n"
    "searches all of them."
)
SAVE = (
    f"`{command()} run --app FILE < found.commands` replays the file up to this place and state.\n"
    "sh checks that at once with a new program. `save` overwrites only files that this prompt\n"
    "saved; `save! FILE` overwrites any file whose name ends in .commands."
)
PACE = (
    "After `pace 5..20`, each busy core makes 5 to 20 moves between two ticks in go, until! and\n"
    "continue. Moves count from the one that put the task on its core, and include those of step\n"
    "and tick. A wait of 5 ticks then lasts longer than five instructions. `pace none` removes\n"
    "the pace. forward, s and until COND always make the default moves.\n"
    "After `interrupts ping`, ping occurs in such runs at each tick where its declaration allows\n"
    "it, and searches allow no other interrupt. Without this command, searches allow every\n"
    "interrupt of the model. `interrupts none` turns all of them off."
)
RELOAD = (
    "sh starts a new program with the file as it is now and repeats the moves up to the first\n"
    "that differs (in its instruction, its result, or the tasks that it wakes); `redo 1` makes\n"
    "that move. Watches are kept. If the file has errors, or you press Ctrl-C, the target stays\n"
    "as it is."
)
QUESTION = (
    "GOAL is a goal as for `until`, but not about one move (wakes, changes). Default: the goal of\n"
    "the last until, rc, reach, lost or doomed.\n"
    "{}\n"
    "The target stays where it is. Ctrl-C stops the search."
)
AGAIN = (
    "Use it to check a fix. sh reads the file again, repeats the moves as `reload` does, and asks\n"
    "the last question of `reach`, `lost` or `doomed` again from the same place. It asks from\n"
    "boot if the moves up to that place have changed."
)
EXPRESSIONS = (
    "EXPR is one of these:\n"
    "  a part of a task: r0 to r7, pc, data, phase, notes; without a name, of each running task\n"
    "  the name of a task or an object\n"
    "  a goal, which holds or fails\n"
    "  a computation with amounts as in conditions (count jobs), their short forms (jobs.count,\n"
    "  worker.r0) and numbers, and + - * / % & | ^ << >> ( ) = != < <= > >=\n"
    "Numbers are integers of any size and may be negative."
)
SOURCE = (
    "It stops at the first line that is refused. At the start, sh executes .rdbginit from your\n"
    "home folder and then from the model's folder, if these files belong to you. They cannot\n"
    "save files. `--nx` skips them."
)
SAVE_ANEW = functools.partial(replay.save, is_anew=True)


def word(run: Do, row: str, more: str = "") -> Word:
    """Makes a command from its row: form, what it does, aliases, what can follow."""
    form, does, *cells = rows(row)[0]
    short, behind = (tuple(cell.split()) for cell in (*cells, "", "")[:2])
    return Word(form, does, run, short, behind, more)


def leave(shell: Shell, words: Sequence[str]) -> None:
    """Executes `quit`."""
    shell.is_done = True


def put(shell: Shell, words: Sequence[str]) -> None:
    """Executes `set moves|echo on|off`."""
    on_off = ("off", "on")
    if not words:
        shell.say(f"moves {on_off[shell.shows_moves]}, echo {on_off[shell.shows_lines]}")
    elif len(words) != 2 or words[0] not in SETTINGS or words[1] not in on_off:
        echo = "`set echo on|off` shows the lines that sh sends to rdbg"
        raise Unable(f"`set moves on|off` shows what each move did; {echo}")
    elif words[0] == "moves":
        shell.shows_moves = words[1] == "on"
    else:
        shell.shows_lines = words[1] == "on"


WORDS: Tuple[Word, ...] = (
    word(views.where, "where | show each core's task, its next instruction and line | w"),
    word(
        views.info,
        "info tasks|objects|NAME | show a table, or everything about one task or object | i | INFO",
        "Also: info cores, watches, history, registers TASK.",
    ),
    word(views.listing, "list [TASK] | show a script with the next instruction marked | l | K"),
    word(
        views.tell,
        "print EXPR | show r0 worker, worker.pc, jobs, count jobs + 1, or if a goal holds"
        " | p output inspect | PART K",
        EXPRESSIONS,
    ),
    word(
        views.display,
        "display [EXPR] | show EXPR now and after each line that moves the target | | PART K",
        EXPRESSIONS,
    ),
    word(views.undisplay, "undisplay [N ..] | remove display N; without N, all displays"),
    word(steps.step, "step TASK [COUNT] | execute instructions of TASK on whichever core | | K"),
    word(steps.tick, "tick COUNT | let COUNT ticks pass"),
    word(
        steps.forward,
        "s [COUNT] | make the next COUNT default moves | n si stepi next ni nexti",
    ),
    word(
        steps.back,
        "rs [COUNT] | undo the last COUNT moves"
        " | rn rsi rni reverse-step reverse-stepi reverse-next undo",
    ),
    word(steps.interrupt, "isr NAME | make interrupt NAME of the model occur"),
    word(paces.put, "pace M..N | set the moves of each busy core between two ticks", PACE),
    word(
        paces.go, "go COUNT [ticks] | make COUNT moves at the pace, or let COUNT ticks pass", PACE
    ),
    word(paces.interrupts, "interrupts NAME .. | let these interrupts occur by themselves", PACE),
    word(seek.until, "until GOAL [COUNT] | run until GOAL holds | | GOAL", GOALS),
    word(seek.run_to, "until! GOAL [COUNT] | run until GOAL turns true | | GOAL!", GOALS),
    word(
        seek.back,
        "rc [GOAL] | go back to where GOAL holds, or to the last watchpoint hit"
        " | reverse-continue | GOAL!",
        GOALS,
    ),
    word(seek.back_to, "rc! GOAL | go back to where GOAL turned true | | GOAL!", GOALS),
    word(
        seek.carry_on,
        "continue [COUNT] | run to a watchpoint hit, a failed task, or a standstill | c cont",
    ),
    word(
        steps.break_at,
        "break TASK PC | set a watch at an instruction; also break FILE:LINE, break COND"
        " | b | BREAK",
    ),
    word(
        steps.break_once,
        "tbreak TASK PC | as break, but continue or rc removes the watch at its hit | tb | BREAK",
    ),
    word(steps.delete, "delete N | remove watch N | d"),
    word(replay.moves, "moves [COUNT|all] | list the last moves and what each did | | all"),
    word(steps.goto, "goto PLACE | go to the place after PLACE moves | g"),
    word(replay.save, "save FILE | write the moves as commands that rdbg replays | | FILE", SAVE),
    word(SAVE_ANEW, "save! FILE | as save, and overwrite an existing file | | FILE", SAVE),
    word(replay.reload, "reload | read the file again and repeat the moves", RELOAD),
    word(sourcing.source, "source FILE | execute the lines of a file | | FILE", SOURCE),
    *(
        word(reach.asks(it), f"{it.word} [GOAL] | {it.asks} | | GOAL!", QUESTION.format(it.more))
        for it in asking.QUESTIONS.values()
    ),
    word(reach.play, "play | make the moves of the run in the last answer"),
    word(reach.again, "again | reload, then ask the last question again", AGAIN),
    word(
        put,
        "set moves|echo on|off | show what moves did; show the lines sent to rdbg"
        " | | moves|echo on|off",
    ),
    word(glossary.help_on, "help [WORD] | show this list, or help on WORD | h ? | HELP"),
    word(leave, "quit | end the session, as Ctrl-D does | q exit"),
)
BACK = Word("back until GOAL", "as rc", seek.back_until)
SHOW = Word("show NAME", "show rdbg's view of NAME", views.show)
# The commands of sh by name and alias.
BY_NAME: Dict[str, Word] = {name: it for it in WORDS for name in (it.name, *it.short)}


def find(shell: Shell, words: Sequence[str]) -> Optional[Word]:
    """Returns the command of sh that a line begins with, or `None` if the line is rdbg's. Some
    words are commands of both."""
    first, second = words[0], "".join(words[1:2])
    names, application = shell.target.names, shell.target.application
    has_count = len(words) == 3 and commands.is_number(second) and commands.is_count(words[2])
    is_own: Dict[str, Callable[[], bool]] = {
        "show": lambda: len(words) == 2 and names.kinds_of(second) != [],
        "step": lambda: commands.is_name(second) or has_count,
        "isr": lambda: len(words) == 2 and bool(application and application.interrupt(second)),
        "tick": lambda: second != "",
        "until": lambda: seek.is_rdbgs(words[1:]) or seek.is_goal(words[1:], shell.scope()),
        "back": lambda: second == "until!"
        or (second == "until" and seek.is_goal(words[2:], shell.scope())),
        "set": lambda: len(words) == 1 or second in SETTINGS,
    }
    if first in is_own and not is_own[first]():
        return None
    return {**BY_NAME, "show": SHOW, "back": BACK}.get(first)
