"""Commands about the moves made so far: `moves` lists, `save` writes, and `reload` repeats them."""
import contextlib
import itertools
import os
import re
from typing import Callable, Dict, Iterator, List, Optional, Sequence, Tuple

from rdbg import commands, record, replies
from rdbg.atomic_file import identity, write_atomically
from rdbg.driving import trail
from rdbg.driving.interrupt import Interrupted
from rdbg.driving.journal import Run
from rdbg.driving.opening import begin, closed_if_wrong
from rdbg.driving.target import Limits, Target, Unable, read
from rdbg.driving.walk import Walk
from rdbg.effects import Move
from rdbg.failure import Failure, turned
from rdbg.files.source import Source, load
from rdbg.looks import Names
from rdbg.printable import printable
from rdbg.shell.notices import MOST_MOVES
from rdbg.shell.shell import Shell
from rdbg.wording import counted

# How the name of a file ends that may be written over.
ENDING = ".commands"
DEFAULT_MOVES = 20
CHUNK = 512
# The words of an instruction that are values, and not names.
VALUE = re.compile("[0-9]+|r[0-7]|max")
# The instruction whose word is bytes.
BYTES = "data"
# A condition that every application has.
ANY = "tick = 0"


def check_existing(shell: Shell, path: str, existing: os.stat_result, is_anew: bool) -> None:
    """Raises `Unable` if an existing file must not be written over. `is_anew` allows it for one
    that this prompt has not saved."""
    name = printable(path)
    if not path.endswith(ENDING):
        raise Unable(f"refusing to overwrite {name}: its name does not end in {ENDING}")
    if not is_anew and identity(existing) not in shell.saved:
        why = f"refusing to overwrite {name}, which this prompt did not save"
        raise Unable(f"{why} (use `save! {name}`)")


def write(shell: Shell, path: str, text: str, is_anew: bool) -> None:
    """Writes a file of commands. Raises `Unable` if it cannot or must not be written."""
    replaced: List[os.stat_result] = []

    def check(existing: os.stat_result) -> None:
        check_existing(shell, path, existing, is_anew)
        replaced.append(existing)

    try:
        with turned(Unable, Failure), write_atomically(path, is_private=True, check=check) as file:
            file.write(text)
            made = os.fstat(file.fileno())
    except ValueError:
        raise Unable(f"cannot write {path!r}: not a valid file name") from None
    # (the system may give the number of a replaced file to another one)
    shell.saved.difference_update(map(identity, replaced))
    shell.saved.add(identity(made))


def moves(shell: Shell, words: Sequence[str]) -> None:
    """Executes `moves [COUNT|all]`: lists the last moves, each with what it did."""
    is_all = words == ["all"]
    if not is_all and (words[1:] or not all(map(commands.is_count, words))):
        forms = "`moves` lists the last 20 moves, `moves 100` the last 100, `moves all` all"
        raise Unable(f"{commands.out_of_range(words)}{forms}")
    count = int(words[0]) if words and not is_all else DEFAULT_MOVES
    if shell.notices.is_room and not is_all and count <= MOST_MOVES:
        shell.notices.forget()
        shell.target.session.remark(f"# moves {count}")
        return
    places = shell.target.places()
    done, base = places.done, places.done - places.kept
    first = base + 1 if is_all else max(base + 1, done - count + 1)
    found: List[Move] = []
    with shell.wheel():
        if done > base:
            last = shell.target.places().done
            found, _ = trail.moves(shell.walk, first, last, None, shell.progress)
    if first > 1:
        shell.say(f".. {counted(first - 1, 'earlier move')}")
    for row in trail.rows(found):
        shell.say(row)
    shell.say(record.at(done, shell.target.places().undone))


def check_untrimmed(shell: Shell) -> None:
    """Raises `Unable` if the records of the first moves were given up."""
    shell.target.places()  # (others may have trimmed)
    if shell.target.base:
        raise Unable(f"the records of the first {counted(shell.target.base, 'move')} were trimmed")


def lines_to(shell: Shell, place: Optional[int] = None) -> List[str]:
    """Returns lines that lead from boot to a place on the way here, to here by default.

    `forward N` can be one of the lines of a target that nobody else moves: the journal has them,
    and the target is not asked. Raises `Unable` if a move is unknown.
    """
    check_untrimmed(shell)
    if shell.target.is_own:
        return [run.text for run in shell.target.journal.done(place)]
    return lines_at_port(shell)[:place]


def lines_of_moves(shell: Shell) -> List[str]:
    """Returns one line for each move that is done. Raises `Unable` if a move is unknown.

    The moves that `forward` chose are found in a program of their own, so that this takes no place
    in the history of the target.
    """
    check_untrimmed(shell)
    limits = shell.target.limits
    if limits is None:
        return lines_at_port(shell)
    runs = shell.target.journal.done()
    if not any(run.is_forward for run in runs):
        return [run.text for run in runs]
    target = begin(shell.source, Limits(limits.moves, commands.MOST_COUNT))
    with target.session:
        return list(lines_of_runs(shell, target, runs))


def lines_of_runs(shell: Shell, target: Target, runs: Sequence[Run]) -> Iterator[str]:
    """Makes runs on a new target, and yields one line for each of their moves."""
    walk, all_moves = Walk(target, shell.interrupt), sum(run.count for run in runs)
    for is_forward, several in itertools.groupby(runs, lambda run: run.is_forward):
        lines = [run.text for run in several]
        start = target.place
        for answer in in_chunks(shell, target, lines, "replayed"):
            read(answer)
        if not is_forward:
            yield from lines
            continue

        def show(made: int, of: int, what: str, before: int = start) -> None:
            """Shows how many of all moves were looked at."""
            shell.progress(before + made, all_moves, what)

        found, _ = trail.moves(walk, start + 1, target.place, Names(), show)
        yield from (move.line for move in found)


def lines_at_port(shell: Shell) -> List[str]:
    """Returns one line for each move of a target that others move too. Raises `Unable` if another
    session made an edit that cannot be seen from its effects."""
    done = shell.target.places().done
    if not done:
        return []
    found, _ = trail.moves(shell.walk, 1, done, shell.target.names, shell.progress)
    unknown = next((move for move in found if not move.line), None)
    if unknown is not None:
        raise Unable(
            f"move {unknown.place} is an edit by another session, which sh cannot determine"
        )
    return [move.line for move in found]


def save(shell: Shell, words: Sequence[str], is_anew: bool = False) -> None:
    """Executes `save FILE` and `save! FILE`: writes the moves as commands that rdbg replays."""
    if shell.is_starting:
        raise Unable("a start file cannot save files")
    if len(words) != 1:
        raise Unable("`save` needs one file name, such as `save found.commands`")
    file = words[0]
    if os.path.exists(file):
        check_existing(shell, file, os.stat(file), is_anew)
    with shell.wheel():
        lines = lines_of_moves(shell)
        look = shell.target.look()
    write(shell, file, "".join(f"{line}\n" for line in lines), is_anew)
    shell.say(f"saved {counted(len(lines), 'move')} in {printable(file)}")
    if shell.target.application is None:
        shell.say("not checked, because sh does not know the model's file")
        return
    target = begin(shell.source, shell.target.limits or Limits(commands.MOST_COUNT))
    with target.session:
        answers = in_chunks(shell, target, lines, "replayed")
        again = target.look()
    wrong = next((at for at, answer in enumerate(answers) if answer.startswith("no ")), None)
    if wrong is not None:
        shell.say(
            f"but a new program answers line {wrong + 1}, '{lines[wrong]}', with {answers[wrong]}"
        )
    elif again != look:
        shell.say("but a new program ends in another state: an edit by another session is missing")
    else:
        shell.say("checked: a new program replays them to this place and state")


def in_chunks(shell: Shell, target: Target, lines: Sequence[str], done: str) -> List[str]:
    """Returns the replies to many lines, and shows the progress at a terminal."""
    answers: List[str] = []
    for at in range(0, len(lines), CHUNK):
        shell.interrupt.check()
        answers += target.tell_all(lines[at : at + CHUNK])
        shell.progress(len(answers), len(lines), done)
    return answers


def reload(shell: Shell, words: Sequence[str]) -> None:
    """Executes `reload`: repeats the moves with the changed file, up to the first difference."""
    if shell.notices.is_room:
        shell.target.session.remark("# reload")
        return
    if shell.source is None or shell.target.limits is None:
        raise Unable("`reload` needs a program of its own; start `rdbg sh FILE` without --port")
    with staying():
        source = load(shell.source.path, shell.source.given)
    if source.faults or source.application is None:
        faults = "\n".join(f"{source.name}:{fault}" for fault in source.faults)
        raise Unable(f"{faults}\nthe target stays as it is")
    try:
        replayed(shell, source, shell.target.limits)
    except Interrupted:
        before = f"the target still has the old {shell.source.name}"
        shell.stopped(f"at {shell.target.place}; {before}")


def replayed(shell: Shell, source: Source, limits: Limits) -> None:
    """Repeats the moves with a new source, and continues with it."""
    done = shell.target.places().done
    if shell.target.base:
        first = counted(shell.target.base, "move")
        raise Unable(f"cannot repeat the moves: the records of the first {first} were trimmed")
    # (who was woken and moved is seen from tasks alone; of very many moves only who ran on which
    # core is laid side by side)
    tasks = Names(shell.target.names.tasks)
    names = tasks if shell.target.can_afford(trail.lines_for(done, tasks)) else Names()
    old = trail.moves(shell.walk, 1, done, names, shell.progress)[0] if done else []
    same = count_same(shell, source, limits, old, names)
    with staying():
        target = begin(source, limits)
    with closed_if_wrong(target.session):
        for number, text, reply in watch_again(target.tell, dict(shell.target.watches)):
            shell.say(f"removed watch {number}, {text}: {reply}")
        for answer in in_chunks(shell, target, [move.line for move in old[:same]], "made again"):
            read(answer)
        left = old[same:]
        was, now = first_difference(shell, target, left[0]) if left else ("", "")
    shell.target.session.close()
    shell.take(target, source)
    if not left:
        shell.say(f"all {done} moves are the same with the new {source.name}; at {target.place}")
        return
    shell.say(
        f"{target.place} of {done} moves are the same with the new {source.name}; the next one"
    )
    shell.say(f"  was  {was}\n  is   {now}")


def staying() -> "contextlib.AbstractContextManager[None]":
    """As long as something is read or begun anew; `Unable` says that the target stays as it is."""
    return turned(lambda why: Unable(f"{why}; the target stays as it is"), Failure)


def count_same(
    shell: Shell, source: Source, limits: Limits, old: Sequence[Move], names: Names
) -> int:
    """How many of these moves are the same on a source, from the first on: in a program of their
    own, so that the looks fill no history that is used later."""
    with staying():
        target = begin(source, limits)
    with target.session:
        looked = Names(target.names.tasks) if names.tasks else names
        before, same = target.look(looked), 0
        for at in range(0, len(old), trail.CHUNK):
            shell.interrupt.check()
            for move, answer, after in trail.made(target, old[at : at + trail.CHUNK], looked):
                if answer.startswith("no "):
                    return same
                if outcome(trail.between(target, before, after)) != outcome(move):
                    return same
                before, same = after, same + 1
            shell.progress(same, len(old), "compared")
    return same


def first_difference(shell: Shell, target: Target, move: Move) -> Tuple[str, str]:
    """Returns what a move did before and what it does on a new target, which then undoes it."""
    was = trail.moves(shell.walk, move.place, move.place)[0][0]
    before, place = target.look(), target.place
    answer = target.tell(move.line)
    if answer.startswith("no "):
        return was.row(), f"{move.line}: {answer}"
    now = trail.between(target, before, target.look())
    target.ask(f"back {target.place - place}", replies.Moved)
    return was.row(), now.row()


def outcome(move: Move) -> Tuple[object, ...]:
    """What makes two moves the same: who did which instruction with which objects, what it was
    answered, who was woken, left or took which core; not its numbers, registers and bytes."""
    words = (move.instruction or "").split()
    names = words[:1] + [it for it in words[1:] if words[0] != BYTES and not VALUE.fullmatch(it)]
    kinds = ("woke", "given", "time up", "left", "took", "turns")
    # (why a task left, but not until when it waits)
    effects = [
        (it.kind, it.name, it.core, it.how.split(" ")[0] if it.kind == "left" else "")
        for it in move.effects
        if it.kind in kinds
    ]
    return (move.kind, move.core, move.task, tuple(names), move.answer, tuple(effects))


def watch_again(tell: Callable[[str], str], watches: Dict[int, str]) -> List[Tuple[int, str, str]]:
    """Makes watches where there are none, under the same numbers. Those that are refused, as their
    names aren't there any more, are dropped, and answered, each with the reply."""
    dropped = []
    numbers = range(max(watches, default=-1) + 1)
    for number in numbers:
        reply = tell(f"watch {watches.get(number, ANY)}")
        if reply.startswith("no "):
            dropped.append((number, watches.pop(number), reply))
            tell(f"watch {ANY}")
    for number in sorted({*numbers} - {*watches}):
        tell(f"unwatch {number}")
    return dropped
