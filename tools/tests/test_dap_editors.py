"""docs/guides/editors.md and the folders for editors: what they say is so."""
import json
import pathlib
import re
import subprocess
import tempfile
import unittest
from typing import Any, Dict, List, Set

from rdbg import main
from rdbg.adapter.server import REQUESTS
from rdbg.adapter.setup import CAN
from tests.dap_client import Program, editor
from tests.dap_schema import Held
from tests.paths import DOCS, EXAMPLES, TOP
from tests.tables import codes, rows
from tests.test_dap_emacs import driven

PAGE = (DOCS / "guides/editors.md").read_text()
VSCODE = TOP / "tools" / "editors" / "vscode"
# The keys of the walk, by the rows of its table; F9 is on line 12.
WALK = """
(drive-key "<f5>")
(goto-char (point-min))
(forward-line 11)
(drive-key "<f9>")
(drive-key "<f5>")
(drive-key "<f8>")
(drive-key "<f8>")
(drive-key "<f11>" "poller")
(drive-key "<f11>" "worker")
(drive-key "<f7>")
(drive-key "<f7>")
(drive-key "<f11>" "worker")
(drive-output)
(drive-stop-where "changes jobs")
(drive-key "<f6>")
(drive-key "<f12>")
"""


def block(begins: str) -> str:
    """The block of the page that begins so."""
    found = re.search(rf"^```\n({re.escape(begins)}.*?)^```$", PAGE, re.MULTILINE | re.DOTALL)
    assert found is not None, begins
    return found[1]


def keys(head: str) -> Set[str]:
    """The keys that a table of the page lists."""
    return {key for row in rows(PAGE, head) for key in codes(row[:1])}


class Walks(unittest.TestCase):
    """The page's own session."""

    def test_the_walk_comes_to_the_fault_by_keys_alone(self) -> None:
        with tempfile.TemporaryDirectory() as folder:
            file = pathlib.Path(folder) / "lost.fw"
            make = [str(TOP / "rdbg"), "make", "--back", str(EXAMPLES / "lost_item.json")]
            subprocess.run([*make, "-o", str(file)], check=True)
            said = driven(WALK, str(file))
        output = block("1  core 0  worker 0").splitlines()
        stops = [line.split(" | ") for line in said if line not in output]
        at = [stop[2] for stop in stops]
        recv, poll = "recv jobs portMAX_DELAY", "recv jobs 0"
        lines = [recv, "send jobs 0", "end", "end", "jump L0", recv, recv, poll, "jump L0"]
        self.assertEqual(at[:9], lines)
        self.assertEqual([line for line in said if line in output], output)
        self.assertEqual(stops[9][1], "at 3: changes jobs")
        self.assertEqual(stops[10][1].split(",")[0], "at 4: tick 1")


class Folders(Held):
    """The folder for VS Code, and the settings."""

    def setUp(self) -> None:
        self.package: Dict[str, Any] = json.loads((VSCODE / "package.json").read_text())
        self.debugger: Dict[str, Any] = self.package["contributes"]["debuggers"][0]

    def test_the_settings_are_those_of_the_page(self) -> None:
        attributes = self.debugger["configurationAttributes"]
        split = {it for row in keys("| Key of `launch` | Meaning |") for it in row.split(", ")}
        self.assertEqual(set(attributes["launch"]["properties"]), split)
        found = keys("| Key of `attach` | Meaning |")
        self.assertEqual(set(attributes["attach"]["properties"]), found)
        self.assertEqual(attributes["attach"]["required"], ["port"])
        for name in self.package["contributes"]["configuration"]["properties"]:
            self.assertIn(f"`{name}`", PAGE)

    def test_the_files_are_there(self) -> None:
        language = self.package["contributes"]["languages"][0]
        self.assertTrue((VSCODE / language["configuration"]).is_file())
        json.loads((VSCODE / language["configuration"]).read_text())
        breaks = [it["language"] for it in self.package["contributes"]["breakpoints"]]
        self.assertEqual(breaks, [language["id"], "json", "c"])
        self.assertEqual(breaks, self.debugger["languages"])

    def test_what_the_folder_starts_does_what_the_configurations_say(self) -> None:
        found = json.loads(block('{\n  "version": "0.2.0"'))["configurations"]
        self.assertEqual([it["request"] for it in found], ["launch", "attach"])
        pipe = subprocess.PIPE
        words = [self.debugger["runtime"], str(VSCODE / self.debugger["program"])]
        with subprocess.Popen(words, stdin=pipe, stdout=pipe) as process:
            assert process.stdin is not None and process.stdout is not None
            client = Program(process.stdout, process.stdin, process)
            asked = {**found[0], "program": str(EXAMPLES / "lost_item.json")}
            client.ask("initialize", adapterID="rdbg", clientID="vscode")
            client.ask("launch", asked)
            client.event("initialized")
            client.ask("setExceptionBreakpoints", filters=["failed", "asleep"])
            self.assertEqual(client.stopped("configurationDone")["reason"], "entry")
            client.ask("disconnect")
            self.assertEqual(process.wait(30), 0)
        with editor() as client_at_port:
            client_at_port.ask("initialize")
            more = {"port": 1, "program": str(EXAMPLES / "lost_item.json")}
            said = client_at_port.refused("attach", {**found[1], **more})
            self.assertIn("cannot attach to port 1", said)

    def test_what_is_offered_is_answered(self) -> None:
        named: List[str] = []
        for name in CAN:
            found = re.fullmatch(r"(\w+?)Request", name)
            if found:
                named.append(found[1][0].lower() + found[1][1:])
        self.assertIn("restart", named)
        self.assertEqual(set(named) - set(REQUESTS), set())
        self.assertIn("dap", main.names())


if __name__ == "__main__":
    unittest.main()
