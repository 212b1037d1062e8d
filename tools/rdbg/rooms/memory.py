"""Replies that are given again as long as nothing has changed on which they hang."""
import collections
from typing import Counter, Dict, Optional, Tuple

from rdbg.commands import TARGET, WATCHES, WHEEL, Command

# So many replies are kept at the most.
MOST = 20_000
# Refusals that hang on more than a target and its sessions.
PASSING = ("no HistoryFull", "no NoMemory", "no Broken")


class Memory:
    """What was answered since something last changed. A line that changes nothing, or is refused,
    is answered as before, without a place of the program's history."""

    def __init__(self) -> None:
        # (how often the wheel has changed, and the watches of each session)
        self._wheel, self._watches = 0, collections.Counter()  # type: int, Counter[int]
        self._kept: Dict[Tuple[object, ...], str] = {}

    def _key(self, session: int, command: Command) -> Tuple[object, ...]:
        """What is answered alike as long as this stays: a look at what all share is for all."""
        hangs_on = command.form.hangs_on
        is_shared = command.form.is_look and WATCHES not in hangs_on
        wheel = self._wheel if WHEEL in hangs_on else 0
        watches = self._watches[session] if WATCHES in hangs_on else 0
        return (0 if is_shared else session), command.words, wheel, watches

    def known(self, session: int, command: Command) -> Optional[str]:
        """The reply that a line would have, where that is known."""
        return self._kept.get(self._key(session, command))

    def keep(self, session: int, command: Command, reply: str) -> None:
        """Takes note of a line and its reply."""
        changes = command.form.changes
        if reply.startswith("no ") or command.form.is_look:
            if len(self._kept) >= MOST:
                self._kept.clear()
            if reply not in PASSING:
                self._kept[self._key(session, command)] = reply
            return
        if TARGET in changes:
            self._kept.clear()
        self._wheel += WHEEL in changes
        self._watches[session] += WATCHES in changes
