"""`rdbg sh` at a pseudo-terminal: keys go in, what the screen would show comes out."""
import os
import pty
import re
import select
import signal
import sys
import time
from typing import Dict, Sequence

from tests.paths import COMPANION

PROMPT = r"\(rdbg \d+\) "
PATIENCE = 30.0


class Terminal:
    """A companion with a terminal of its own, started by what stands in `head`. It waits for what
    it expects, however long that takes on a busy machine."""

    def __init__(
        self, *words: str, environment: Dict[str, str], head: Sequence[str] = (), name: str = "sh"
    ) -> None:
        self.pid, self._fd = pty.fork()
        if self.pid == 0:
            os.environ.update(environment, TERM="dumb", COLUMNS="200")
            told = [*head, sys.executable, "-B", str(COMPANION), name, *words]
            os.execvp(told[0], told)
        self.screen = ""

    def expect(self, pattern: str, patience: float = PATIENCE) -> str:
        """What came until a pattern does, which is taken off the screen with it."""
        end = time.monotonic() + patience
        while True:
            found = re.search(pattern, self.screen)
            if found:
                before, self.screen = self.screen[: found.end()], self.screen[found.end() :]
                return before
            if time.monotonic() > end or not self._read():
                raise AssertionError(f"no '{pattern}' in {self.screen!r}")

    def _read(self) -> bool:
        ready, _, _ = select.select([self._fd], [], [], 0.2)
        if not ready:
            return True
        try:
            content = os.read(self._fd, 65_536)
        except OSError:
            return False
        self.screen += content.decode("utf-8", "replace").replace("\r\n", "\n")
        return bool(content)

    def type(self, keys: str) -> None:
        """Types keys."""
        os.write(self._fd, keys.encode())

    def ask(self, line: str) -> str:
        """What a line prints, up to the next prompt."""
        self.type(f"{line}\n")
        return self.expect(PROMPT)

    def interrupt(self, pattern: str) -> str:
        """Types Ctrl-C until a pattern comes: readline misses one that comes while it is at work on
        another key, and then has it at the next."""
        for _ in range(int(PATIENCE)):
            self.type("\x03")
            try:
                return self.expect(pattern, 1.0)
            except AssertionError:
                pass
        return self.expect(pattern)

    def end(self) -> int:
        """Waits until it ends, and answers its status."""
        while self._read():
            pass
        os.close(self._fd)
        _, status = os.waitpid(self.pid, 0)
        return os.WEXITSTATUS(status) if os.WIFEXITED(status) else -os.WTERMSIG(status)

    def kill(self) -> None:
        """Ends it, where a test has failed."""
        try:
            os.kill(self.pid, signal.SIGKILL)
            os.waitpid(self.pid, 0)
        except (ProcessLookupError, ChildProcessError):
            pass
