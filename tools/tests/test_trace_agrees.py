"""A trace says the same as views alone do, asked move by move from boot, over random applications.

Beside the trace stands a reader of its own here: it reads views as texts, and takes what a move was
from the words of two of them."""
import json
import pathlib
import random
import tempfile
import unittest
from typing import Any, Dict, List, Optional, Tuple

from rdbg.client import Session
from rdbg.commands import ACTIONS
from rdbg.effects import LOCAL
from rdbg.driving.target import Limits
from rdbg.files.source import load
from rdbg.tracing.run import Line, Run, parts, plan
from rdbg.tracing.table import row_of
from tests.made import Maker

SEEDS = range(100)
KINDS = ("queue", "set", "stream", "message", "group")
# The word of a view behind which stands who waits, and no longer what an object holds.
WAITERS = {"queue": " recv ", "set": " wait ", "stream": " reader ", "message": " reader "}
Row = Tuple[str, ...]
Traced = Tuple[Row, Tuple[str, ...], Dict[int, Optional[str]]]


class ByViews:
    """A run that is asked move by move."""

    def __init__(self, session: Session, application: Dict[str, Any]) -> None:
        self.session, self.application = session, application
        self.tasks = [str(task["name"]) for task in application["tasks"]]
        self.codes = {str(task["name"]): task["code"] for task in application["tasks"]}

    def views(self) -> Dict[str, str]:
        """Each view by what it shows."""
        lines = ["cores", *(f"task {name}" for name in self.tasks)]
        for kind in KINDS:
            lines += [f"{kind} {it['name']}" for it in self.application.get(f"{kind}s", ())]
        told = self.session.tell_all(f"show {line}" for line in lines)
        return dict(zip(lines, told))

    def after(self, line: str, before: Dict[str, str]) -> Tuple[Dict[str, str], Row]:
        """The views behind a line that makes a move, and the move as a row."""
        reply = self.session.tell(line).split()
        place = reply[2]
        now = self.views()
        tick, turn = word_behind(now["cores"], "tick"), int(word_behind(now["cores"], "turn"))
        woken = [name for name in self.tasks if was_woken(before, now, name)]
        held = [of for of in now if content(of, before[of]) != content(of, now[of])]
        names = " ".join(sorted([*woken, *(of.split()[1] for of in held)]))
        if line.startswith("poke"):
            return now, (place, tick, "", "edit", "", line, "", names)
        if line.startswith("isr"):
            return now, (place, tick, "", "isr", "", line, reply[4], names)
        if line == "tick":
            return now, (place, tick, "", "tick", "", "", "", names)
        task = before["cores"].split()[1].split(",")[turn - 1]
        pc = word_behind(before[f"task {task}"], "pc")
        instruction = str(self.codes[task][int(pc)])
        answer = ""
        if instruction.split()[0] not in LOCAL:
            if word_behind(now[f"task {task}"], "phase") == "run":
                answer = word_behind(now[f"task {task}"], "regs").split(",")[0]
        return now, (place, tick, str(turn - 1), task, pc, instruction, answer, names)


def word_behind(view: str, word: str) -> str:
    """The word of a view that stands behind another."""
    words = view.split()
    return words[words.index(word) + 1]


def was_woken(before: Dict[str, str], now: Dict[str, str], name: str) -> bool:
    """Whether a task waited, and waits no more."""
    was, after = (word_behind(it[f"task {name}"], "phase") for it in (before, now))
    return was.startswith("wait:") and not after.startswith("wait:")


def content(of: str, view: str) -> str:
    """What an object holds, whoever waits at it; of anything else nothing."""
    kind = of.split()[0]
    if kind == "group":
        return word_behind(view, "bits")
    if kind not in WAITERS:
        return ""
    member = view.rsplit(" set ", 1)[1] if kind == "queue" else ""
    return view.split(WAITERS[kind])[0] + member


def traced(run: Run) -> List[Traced]:
    """Each move as such a row, who is on the cores behind it, and how its effects move them."""
    found: List[Traced] = []
    for part in parts(run, plan(run).pieces, 1):
        for move, look in zip(part.moves, part.looks):
            place, tick, core, who, pc, _, _ = row_of(move).cells
            does = move.instruction if move.kind == "step" else ""
            woken = [it.name for it in move.effects if it.kind in ("woke", "given", "time up")]
            held = [it.name for it in move.effects if it.kind == "holds"]
            answer = "" if move.answer is None else str(move.answer)
            text = move.line if move.kind in ("edit", "isr") else does or ""
            row = (place, tick, core, who, pc, text, answer, " ".join(sorted([*woken, *held])))
            seats: Dict[int, Optional[str]] = {}
            for it in move.effects:
                if it.kind == "left" and it.core is not None:
                    seats.setdefault(it.core, None)
                elif it.core is not None:
                    seats[it.core] = it.name
            found.append((row, tuple(name or "-" for name in look.cores.running), seats))
    return found


class Agrees(unittest.TestCase):
    """Random applications, each with a run of single moves."""

    def lines(
        self, dice: random.Random, target: ByViews, cores: int
    ) -> Tuple[List[str], List[Row]]:
        """A run, and its rows by views. Lines that are refused are left out."""
        made: List[str] = []
        rows: List[Row] = []
        before = target.views()
        for _ in range(25):
            task = dice.choice(target.tasks)
            steps = [f"step {dice.randrange(cores)}" for _ in range(8)]
            others = ["tick", "tick", f"poke reg {task} {dice.randrange(8)} 5"]
            line = dice.choice([*steps, *others, *self.interrupts(dice, target, task)])
            if not target.session.tell(line).startswith("ok at"):
                continue
            target.session.tell("back 1")
            before, row = target.after(line, before)
            made.append(line)
            rows.append(row)
        return made, rows

    def interrupts(self, dice: random.Random, target: ByViews, task: str) -> List[str]:
        """An interrupt of each sort, if the application has them."""
        if target.application["profile"] == 1:
            return []
        action = dice.choice(ACTIONS)
        told = [f"isr notify {task} 0 {dice.randrange(4)} {action}"]
        queues = [it["name"] for it in target.application.get("queues", ())]
        return [*told, f"isr send {dice.choice(queues)} 4142"] if queues else told

    def check(self, seed: int, path: pathlib.Path) -> int:
        """How many moves of this application were compared."""
        application = Maker(seed).application()
        path.write_text(json.dumps(application))
        with Session.run(str(path)) as session:
            target = ByViews(session, application)
            lines, rows = self.lines(random.Random(seed), target, application["cores"])
            running = list(target.views()["cores"].split()[1].split(","))
        told = tuple(Line(at, line) for at, line in enumerate(lines, 1))
        found = traced(Run(load(str(path)), told, Limits()))
        self.assertEqual(rows, [row for row, _, _ in found], f"application {seed}")
        with Session.run(str(path)) as session:
            seen = session.tell("show cores").split()[1].split(",")
        for row, cores, seats in found:
            for core, name in seats.items():
                seen[core] = name or "-"
            self.assertEqual(list(cores), seen, f"application {seed}, place {row[0]}")
        self.assertEqual(running, seen)
        return len(rows)

    def test_random_applications(self) -> None:
        with tempfile.TemporaryDirectory() as folder:
            path = pathlib.Path(folder) / "application.json"
            counts = [self.check(seed, path) for seed in SEEDS]
        self.assertGreater(sum(counts), 500)


if __name__ == "__main__":
    unittest.main()
