"""The session of docs/tutorials/two-engineers.md runs exactly as the page shows it."""
import re
import unittest
from typing import Dict, List

from rdbg.rooms.room import Member, Room
from rdbg.files.source import load
from tests.paths import DOCS
from tests.rooms import LOST

LINE = re.compile(r"(Ada|Bo ) (\S.*?)(?: {2,}(\S.*))?")
AUDIT = re.compile(r"^closed (\d+)$", re.MULTILINE)


class TwoEngineers(unittest.TestCase):
    """Plays the page's blocks, line by line, with two members of a room."""

    def test_the_session_of_the_tutorial(self) -> None:
        text = (DOCS / "tutorials" / "two-engineers.md").read_text()
        notices: List[str] = []
        room = Room(load(LOST))
        members: Dict[str, Member] = {
            name: room.join(name.lower(), notices.append) for name in ("Ada", "Bo")
        }
        count = 0
        for line in "\n".join(re.findall(r"```\n(.*?)```", text, re.DOTALL)).splitlines():
            found = LINE.fullmatch(line)
            if line.startswith(" ") and "# " in line:
                self.assertIn(line.strip(), notices)
            elif found and found[2].startswith("#"):
                notices.clear()
                members[found[1].strip()].remark(found[2])
            elif found:
                notices.clear()
                count += 1
                self.assertEqual(members[found[1].strip()].ask(found[2]), found[3], line)
        self.assertGreater(count, 15)
        (audit,) = room.close()
        shown = AUDIT.search(text)
        assert shown is not None
        self.assertEqual(audit.text(), shown[0])
        self.assertIn("".join(f"# {row}\n" for row in room.counts.rows()) + shown[0], text)

    def test_the_audit_of_the_guide(self) -> None:
        """The guide to rooms shows the same end."""
        end = re.compile(r"```\n(listening \d+\n(?:# .*\n)+closed \d+\n)```")
        tutorial = end.search((DOCS / "tutorials" / "two-engineers.md").read_text())
        guide = end.search((DOCS / "TOGETHER.md").read_text())
        assert tutorial is not None and guide is not None
        self.assertEqual(guide[1], tutorial[1])


if __name__ == "__main__":
    unittest.main()
