"""A room of which another user comes to each port that its programs have, as soon as it is there."""
import json
import subprocess
import sys
import unittest
from typing import Sequence

from tests import alone
from tests.paths import COMPANION
from tests.rooms import LOST
from tests.strangers import IS_ROOT, before

PORT, LINES = "7000", 120
# The room tries no way to tell whose a connection is: that takes a port for a moment.
KNOWN = "import rdbg.owners; rdbg.owners.find_lookup = lambda: rdbg.owners.search_tables"
# The system has no networks for programs, and of the first program sessions are taken once the
# other user has come to it.
TOGETHER = """
import time
from rdbg import owners
from rdbg.rooms import apart, host
apart.IS_TRIED, take = False, host.Host._take
def late(program, port, count):
    host.Host._take = take
    end = time.monotonic() + 600
    while not owners.clients_of(port) and time.monotonic() < end:
        time.sleep(0.01)
    take(program, port, count)
host.Host._take = late
"""


@IS_ROOT
class Attacked(unittest.TestCase):
    """It opens, and goes on with new programs."""

    def attacked(self, head: Sequence[str]) -> int:
        """At how many ports the other user came, while all was as it is without one."""
        companion = [*head, sys.executable, "-B", str(COMPANION)]
        ran = subprocess.run(
            [sys.executable, "-B", alone.__file__, LOST, PORT, str(LINES), *companion],
            stdout=subprocess.PIPE,
            stderr=subprocess.PIPE,
            text=True,
        )
        self.assertEqual(ran.returncode, 0, ran.stderr)
        listening, replies, output, errors, status, found = json.loads(ran.stdout)
        self.assertEqual(listening, f"listening {PORT}\n", errors)
        self.assertEqual(replies, ["ok at 1", "ok at 0"] * (LINES // 2))
        self.assertRegex(output, r"^(# .*\n)+(closed \d+\n){2,}$")
        self.assertEqual(status, 0, errors)
        return int(found)

    def test_no_port_of_a_program_is_found(self) -> None:
        self.assertEqual(1, self.attacked(before(KNOWN)))

    def test_others_take_sessions(self) -> None:
        self.assertLess(1, self.attacked(before(TOGETHER)))


if __name__ == "__main__":
    unittest.main()
