"""The goal `changes`: a move after which an object holds something else than before it."""
from typing import Dict, List, Optional, Tuple, cast

from rdbg import kinds, replies
from rdbg.driving.target import Target, read
from rdbg.driving.walk import Walk
from rdbg.goals.conditions import AMOUNTS, Condition
from rdbg.goals.ways import Way, latest, nearest, otherwise
from rdbg.looks import KINDS, Object, content_of

# Of each kind of object what its reply is.
REPLY_OF = {kind: reply for reply, kind in KINDS.items()}
# The instructions that can change an object and leave how much it holds.
HIDING: Dict[str, Tuple[str, ...]] = {
    kinds.QUEUE.word: ("over", "setadd", "setdel"),
    kinds.STREAM.word: ("strig",),
    kinds.MESSAGE.word: (),
    kinds.GROUP.word: (),
}


class Changes(Way):
    """What an object holds changes, whoever waits at it."""

    def __init__(self, target: Target, kind: str, name: str) -> None:
        self.kind, self.name, self.view = kind, name, f"show {kind} {name}"
        self.amount = kinds.OF_WORD[kind].amount
        self.text = f"changes {name}"
        self.target = target
        # Whether a move of a script can change it and leave how much it holds.
        words, application = HIDING.get(kind), target.application
        self.hides = words != ()
        if application is not None and words is not None:
            texts = (it.words() for task in application.tasks for it in task.code)
            self.hides = any(text[0] in words and text[1] == name for text in texts)

    def _amounts(self, walk: Walk) -> List[Condition]:
        """The conditions of which one holds wherever there is more or less in it than here."""
        content, amount = self._known(read(walk.target.tell(self.view))), self.amount
        number = AMOUNTS[amount](content, 0) if amount else 0
        return Condition(amount, self.name, number=number).others(False) if amount else []

    def next(self, walk: Walk, limit: int) -> Optional[int]:
        start = walk.place
        found = nearest(walk, self._amounts(walk), limit)
        end = start + limit if found is None else found - 1
        scanned = self._scan(walk, end) if self.hides else None
        return found if scanned is None else scanned

    def _scan(self, walk: Walk, end: int) -> Optional[int]:
        """The first place up or back to one where it isn't as it is here, by a look at each."""
        return otherwise(walk, end, self.view, lambda seen: content_of(self._known(seen)))

    def _known(self, seen: replies.Reply) -> Object:
        if not isinstance(seen, REPLY_OF[self.kind]):
            raise replies.Unreadable(str(seen))
        return cast(Object, seen)

    def last(self, walk: Walk) -> Optional[int]:
        if walk.place == 0:
            return None
        walk.goto(walk.place - 1)
        place, other = walk.place, latest(walk, self._amounts(walk))
        first = 0 if other is None else other + 1
        is_hidden = self.hides or self._was_edited(first, place)
        scanned = self._scan(walk, first) if is_hidden else None
        found = other if scanned is None else scanned
        return None if found is None else found + 1

    def _was_edited(self, first: int, last: int) -> bool:
        """Whether an edit between these places may have changed it and left its amount."""
        if self.kind in (kinds.MESSAGE.word, kinds.GROUP.word):
            return False
        if not self.target.is_own:
            return True
        made = self.target.by_hand.items()
        return any(it.line.split()[2] == self.name for place, it in made if first < place <= last)
