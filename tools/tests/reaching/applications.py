"""Small applications made at random, the same ones each time, with all kinds of objects."""
from typing import Any, Dict, List

from tests.made import Maker

LAST_TICK = 4_294_967_295
BLOCK_TIMES = ("0", "0", "1", "2", "3", "max", "max", "max", "r1")
BYTES = ("-", "01", "0203", "040506")


class SmallMaker(Maker):
    """Makes one application of few places: numbers, scripts and objects are small."""

    def __init__(self, seed: int) -> None:
        super().__init__(seed)
        self.file = {"profile": 2, "cores": self.dice.choice([1, 1, 2, 2, 2, 3])}

    def application(self) -> Dict[str, Any]:
        """The values of its JSON."""
        self.file.update({"notes": 2} if self.dice.random() < 0.3 else {})
        if self.dice.random() < 0.1:
            self.file["tick"] = LAST_TICK - self.dice.randint(0, 3)
        self._objects()
        names = ["a", "b", "c"][: self.dice.choice([1, 2, 2, 3])]
        tasks = [{"name": name, "priority": self.dice.randint(0, 2)} for name in names]
        self.file["tasks"] = tasks
        for task in self.file["tasks"]:
            length = self.dice.randint(2, 5)
            task["code"] = [self.instruction(length, at + 1 == length) for at in range(length)]
        return self.file

    def _objects(self) -> None:
        """Queues, or another object or two."""
        queues = ["q", "p"][: self.dice.choice([0, 1, 1, 2])]
        made: Dict[str, List[Any]] = {"queues": [self._queue(name) for name in queues]}
        if self.dice.random() < 0.3:
            members = [name for name in queues if self.dice.random() < 0.7]
            made["sets"] = [{"name": "s", "length": self.dice.randint(1, 2), "members": members}]
        if self.dice.random() < 0.3:
            trigger = self.dice.randint(0, 3)
            made["streams"] = [{"name": "w", "size": self.dice.randint(3, 5), "trigger": trigger}]
        if self.dice.random() < 0.3:
            made["messages"] = [{"name": "m", "size": self.dice.randint(6, 12)}]
        if self.dice.random() < 0.3:
            made["groups"] = [{"name": "g"}]
        self.file.update({kind: objects for kind, objects in made.items() if objects})

    def _queue(self, name: str) -> Dict[str, Any]:
        length, item = self.dice.randint(1, 2), self.dice.randint(1, 2)
        return {"name": name, "length": length, "item": item}

    def operand(self, form: Any, symbol: str, length: int) -> str:
        """An operand, of few there are."""
        small = {
            "R": ("r0", "r1"),
            "T": BLOCK_TIMES,
            "N": ("0", "1", "2"),
            "V": ("0", "1", "2", "3", "r0"),
            "ROOM": ("1", "2", "4"),
            "HEX": BYTES,
        }
        return (
            self.dice.choice(small[symbol])
            if symbol in small
            else super().operand(form, symbol, length)
        )
