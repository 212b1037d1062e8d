"""The questions `reach`, `lost` and `doomed` to the search program, and `again` and `play`."""
from typing import Callable, List, Sequence, Tuple

from rdbg.driving import trail
from rdbg.driving.target import Unable
from rdbg.failure import Failure, turned
from rdbg.goals import words as goal_words
from rdbg.reaching import beside, losing, vacuity
from rdbg.reaching.asking import LOST, Question, ask_behind
from rdbg.reaching.handlers import WORD
from rdbg.reaching.said import Answer
from rdbg.shell import replay
from rdbg.shell.shell import Order, Reached, Shell


def asks(question: Question) -> Callable[[Shell, Sequence[str]], None]:
    """Makes the command that asks one of the questions about a goal, from here."""

    def ask(shell: Shell, words: Sequence[str]) -> None:
        goal = " ".join(words) or shell.goal
        if not goal:
            raise Unable(f"{question.lacks_goal('worker')}; see `help {question.word}`")
        with shell.wheel():
            lines, place = replay.lines_to(shell), shell.target.places().done
        answer, more = ask_program(shell, question, goal, lines)
        if not words:
            shell.say(f"goal: {goal} (the last one)")
        say(shell, question, answer, more, place)
        shell.goal = goal
        shell.reached = Reached(question, goal, place, answer.head())

    return ask


def again(shell: Shell, words: Sequence[str]) -> None:
    """Executes `again`: reads the file again and repeats the last question."""
    before = shell.reached
    if words or before is None:
        questions = "`reach`, `lost` or `doomed`"
        raise Unable(f"`again` repeats the last {questions} on the changed file; ask one first")
    replay.reload(shell, [])
    place = before.place if shell.target.places().done >= before.place else 0
    answer, more = ask_program(shell, before.question, before.goal, replay.lines_to(shell, place))
    where = f"from {place}" if place else "from boot"
    shell.say(f"{before.goal}, {where}: was {before.said}, is now {answer.head()}")
    say(shell, before.question, answer, more, place)
    shell.reached = before._replace(place=place, said=answer.head())


def ask_program(
    shell: Shell, question: Question, goal: str, lines: List[str]
) -> Tuple[Answer, List[str]]:
    """Returns the answer after these lines, at the pace of the prompt, and remarks on it. The
    interrupts chosen at the prompt may occur, or all of the model if none were chosen."""
    source = shell.source
    if source is None or shell.target.application is None:
        raise Unable(f"`{question.word}` needs the model's file; start `rdbg sh FILE`")
    names = shell.may_come()
    pace = [f"pace {shell.pace.text}"] if shell.pace is not None else []
    with turned(Unable, Failure):
        _, words = goal_words.for_search(goal.split(), shell.scope())
        with shell.interrupt.at_prompt():
            answer = ask_behind(source, lines, question, words, names, pace)
    more = [*beside.missed(answer, source)]
    more += beside.remarks(answer, source, names, bool(pace), "pace")
    empty = vacuity.find(shell.scope(), goal, question, answer)
    more += [empty.note] if empty else []
    if question is LOST and any(line.split(" ")[0] == WORD for line in lines):
        more.append("note: at each place, the search ignores interrupts that occurred before it")
    return answer, more


def say(shell: Shell, question: Question, answer: Answer, more: List[str], place: int) -> None:
    """Shows an answer and the remarks in `more`, and keeps its run, which begins at `place`. For
    `lost`, shows the move that lost the goal; the run begins before that move."""
    shell.say(answer.head())
    loss = losing.loss_of(answer)
    shell.lost, order = None, answer.order
    told: List[str] = []
    if loss is not None:
        order, place = loss.order, loss.before
        if loss.place:
            with shell.wheel():
                shell.lost = trail.moves(shell.walk, loss.place, loss.place)[0][0]
        move = shell.lost.row() if shell.lost else ""
        told += losing.told(loss, move, f"goto {loss.before}")
    shell.order = Order(place, order)
    for line in (*told, *losing.behind(question, answer, order), *more):
        shell.say(f"  {line}")


def play(shell: Shell, words: Sequence[str]) -> None:
    """Executes `play`: makes the moves of the run in the last answer."""
    order = shell.order
    which = "the last answer of `reach`, `lost` or `doomed`"
    if words or order is None or not order.lines:
        raise Unable(f"`play` makes the moves of the run in {which}; there is none")
    if shell.target.places().done != order.place:
        raise Unable(f"the run begins at {order.place}; use `goto {order.place}`, then `play`")
    with shell.wheel():
        start = shell.target.places().done
        reply = ""
        for line in order.lines:
            shell.interrupt.check()
            reply = shell.target.tell(line)
            if reply.startswith("no "):
                break
        shell.answer(reply)
        if reply.startswith("no "):
            shell.say(f"stopped at {shell.target.place}; the moves up to there are done")
        shell.after(start, None)
