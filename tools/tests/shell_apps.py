"""Small random applications, for the tests of the shell."""
import json
import random
from typing import Dict, List

from rdbg.driving.opening import begin
from rdbg.driving.target import Limits, Target
from rdbg.files.source import Source, source

NAMES = {"Q": ["q0", "q1"], "S": ["s0"], "B": ["b0"], "M": ["m0"], "G": ["g0"]}
FORMS = (
    "send Q T", "front Q T", "recv Q T", "peek Q T", "over q1", "qreset Q", "count Q", "setadd Q S",
    "setdel Q S", "select S T", "swrite B T", "sread B ROOM T", "sreset B", "strig B LEVEL",
    "mwrite M T", "mread M ROOM T", "mreset M", "mnext M", "notify K 0 N ACTION", "query K 0 N inc",
    "take 0 clear T", "take 0 dec T", "nwait 0 0 1 T", "nclear K 0", "vclear K 0 1", "gset G BITS",
    "gclear G BITS", "gget G", "gwait G BITS WISH CLR T", "gsync G BITS BITS T", "set R N",
    "add R 4294967295", "move R R", "data HEX", "pack R", "unpack R", "jump L", "jumpz R L",
)  # fmt: skip


def word(chance: random.Random, symbol: str, tasks: List[str], length: int) -> str:
    """A word that can stand for a symbol."""
    choices: Dict[str, List[str]] = {
        **NAMES,
        "K": tasks,
        "T": ["0", "0", "1", "3", "max", "max"],
        "N": ["0", "1", "2"],
        "R": ["r0", "r1", "r2"],
        "L": [str(at) for at in range(length)],
        "HEX": ["41", "4142", "00ff"],
        "ROOM": ["1", "2", "8"],
        "LEVEL": ["1", "2"],
        "BITS": ["1", "2", "3"],
        "ACTION": ["none", "bits", "inc", "set", "setif"],
        "WISH": ["any", "all"],
        "CLR": ["keep", "clear"],
    }
    return chance.choice(choices[symbol]) if symbol in choices else symbol


def script(chance: random.Random, tasks: List[str]) -> List[str]:
    """A script: some instructions, and an end or a jump."""
    length = chance.randint(2, 6)
    code = []
    if chance.random() < 0.8:
        code.append("data 41")
    while len(code) < length - 1:
        form = chance.choice(FORMS).split()
        code.append(" ".join(word(chance, symbol, tasks, length) for symbol in form))
    last = f"jump {chance.randrange(length)}" if chance.random() < 0.8 else "end"
    return [*code, last]


def text(seed: int) -> str:
    """A random application as JSON."""
    chance = random.Random(seed)
    tasks = [f"t{number}" for number in range(chance.randint(1, 5))]
    made = {
        "profile": 2,
        "cores": chance.randint(1, 3),
        "notes": 1,
        "queues": [{"name": "q0", "length": 2, "item": 1}, {"name": "q1", "length": 1, "item": 2}],
        "sets": [{"name": "s0", "length": 3, "members": ["q0"]}],
        "streams": [{"name": "b0", "size": 4, "trigger": 2}],
        "messages": [{"name": "m0", "size": 12}],
        "groups": [{"name": "g0"}],
        "tasks": [
            {"name": name, "priority": chance.randint(0, 2), "code": script(chance, tasks)}
            for name in tasks
        ],
    }
    return json.dumps(made, indent=1)


def application(seed: int) -> Source:
    """A random application that rdbg accepts."""
    return source("random.json", text(seed).encode())


def started(seed: int, limits: Limits = Limits()) -> Target:
    """A program with a random application."""
    return begin(application(seed), limits)


def random_line(chance: random.Random, target: Target) -> str:
    """A line that may make a move."""
    cores = target.application.cores if target.application else 1
    task = chance.choice(target.names.tasks)
    edits = [
        f"poke reg {task} {chance.randint(0, 2)} {chance.randint(0, 3)}",
        f"poke pc {task} {chance.randint(0, 3)}",
        f"poke data {task} {chance.choice(['-', '42', '4243'])}",
        f"poke note {task} 0 {chance.randint(0, 2)}",
        f"poke group g0 {chance.randint(0, 3)}",
        f"poke item q0 0 {chance.choice(['01', '02'])}",
        f"poke item q1 0 {chance.choice(['0101', '0202'])}",
        f"poke byte b0 0 {chance.randint(0, 3)}",
    ]
    action = word(chance, "ACTION", [], 0)
    interrupts = [
        f"isr send q0 {chance.choice(['41', '4142', '-'])}",
        f"isr send q1 {chance.choice(['43', '4344'])}",
        f"isr notify {task} 0 {chance.randint(0, 2)} {action}",
    ]
    kind = chance.random()
    if kind < 0.55:
        return f"step {chance.randrange(cores)}"
    if kind < 0.7:
        return "tick"
    if kind < 0.8:
        return f"forward {chance.randint(1, 3)}"
    return chance.choice(edits if kind < 0.92 else interrupts)


def wander(chance: random.Random, target: Target, lines: int) -> None:
    """Makes some moves."""
    for _ in range(lines):
        target.tell(random_line(chance, target))
