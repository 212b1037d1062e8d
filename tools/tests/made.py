"""Applications made at random, the same ones each time: rdbg accepts all of them."""
import random
from typing import Any, Dict, List, Set

from rdbg.instructions import FORMS, InstructionForm
from rdbg.operands import KIND_OF
from rdbg.shapes import FILE, Key, Shape

NUMBERS = (0, 1, 2, 7, 10, 255, 256, 4096, (1 << 31) - 1, 1 << 31, (1 << 31) + 1, (1 << 32) - 1)
# Names that are words of other kinds, too.
WORDS = ("r0", "r1", "max", "length", "members", "item", "priority", "set", "task", "end", "any")
SMALL = "abcdefghijklmnopqrstuvwxyz"
PLURAL = {key.of.symbol: key.name for key in FILE.keys if key.of is not None}
REGISTERS = [f"r{number}" for number in range(8)]


class Maker:
    """Makes one application, as the values of its JSON."""

    def __init__(self, seed: int) -> None:
        self.dice = random.Random(seed)
        profile, cores = self.dice.choice([(1, 8), (2, 16)])
        self.file: Dict[str, Any] = {"profile": profile, "cores": self.dice.randint(1, cores)}
        self.members: Set[str] = set()

    def application(self) -> Dict[str, Any]:
        """The values of its JSON. What can be left out is there where it says something."""
        notes, tick = self.dice.randint(1, 4), self.dice.choice(NUMBERS)
        self.file.update({"notes": notes} if notes != 1 else {})
        self.file.update({"tick": tick} if tick != 0 else {})
        for key in FILE.keys:
            if key.of is not None:
                names = self.names(self.dice.randint(key.least, 5))
                things = [self.thing(key.of, name) for name in names]
                self.file.update({key.name: things} if things else {})
        for task in self.file["tasks"]:
            length = self.dice.choice([1, 2, 5, 20])
            task["code"] = [self.instruction(length, at + 1 == length) for at in range(length)]
        return self.file

    def names(self, count: int) -> List[str]:
        """So many names, no two the same."""
        found: Set[str] = set()
        while len(found) < count:
            rest = self.dice.choices(SMALL + "0123456789_", k=self.dice.randint(0, 15))
            name = "".join([self.dice.choice(SMALL), *rest])
            found.add(self.dice.choice([name, name, self.dice.choice(WORDS)]))
        return sorted(found)

    def thing(self, shape: Shape, name: str) -> Dict[str, Any]:
        """An object or a task; a task's script is made later."""
        made: Dict[str, Any] = {}
        for key in shape.keys:
            made[key.name] = name if key.holds == "name" else self.value(key, made)
        return made

    def value(self, key: Key, made: Dict[str, Any]) -> Any:
        """What a key holds."""
        if key.holds == "members":
            names = [it["name"] for it in self.file.get("queues", ())]
            free = [name for name in names if name not in self.members]
            chosen = self.dice.sample(free, self.dice.randint(0, len(free)))
            self.members.update(chosen)
            return chosen
        most = made[key.most_key] if key.most_key else key.most
        return self.dice.choice([key.least, most, self.dice.randint(key.least, most)])

    def instruction(self, length: int, is_last: bool) -> str:
        """An instruction of a script of this length."""
        while True:
            form = self.dice.choice(FORMS)
            named = [symbol for symbol in form.symbols if symbol in PLURAL]
            if is_last and form.word not in ("end", "jump"):
                continue
            if all(self.nameable(form, symbol) for symbol in named):
                words = [self.operand(form, symbol, length) for symbol in form.symbols]
                return " ".join([form.word, *words])

    def nameable(self, form: InstructionForm, symbol: str) -> List[str]:
        """The names that can stand in such an instruction."""
        things = self.file.get(PLURAL[symbol], ())
        return [it["name"] for it in things if form.word != "over" or it["length"] == 1]

    def operand(self, form: InstructionForm, symbol: str, length: int) -> str:
        """An operand."""
        if symbol in PLURAL:
            return self.dice.choice(self.nameable(form, symbol))
        if symbol == "HEX":
            digits = self.dice.choices("0123456789abcdefABCDEF", k=2 * self.dice.randint(0, 9))
            return "".join(digits) or "-"
        bounds = {"L": (0, length - 1), "I": (0, self.file.get("notes", 1) - 1), "ROOM": (1, 256)}
        if symbol in bounds:
            return str(self.dice.randint(*bounds[symbol]))
        registers = REGISTERS if symbol in ("R", "V", "T") else []
        others = [*registers, *KIND_OF[symbol].words(), *(["max"] * 3 if symbol == "T" else [])]
        numbers = list(map(str, NUMBERS)) if symbol in ("N", "V", "T") else []
        return self.dice.choice(numbers + others)
