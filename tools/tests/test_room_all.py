"""Two terminals, a page in a browser, and Emacs, all on one target at once, with one audit at the
end."""
import os
import pathlib
import re
import subprocess
import unittest
from typing import IO, List

from tests.rooms import LOST, rows, talk
from tests.shell_terminal import PROMPT, Terminal
from tests.test_dap_emacs import DRIVER
from tests.web_rooms import OnPage, WebRoom, web_room

# What Emacs does: it goes on where a file comes that the test makes.
EDITOR = """
(defun drive-when (name)
  (drive-until (lambda () (file-exists-p (expand-file-name name (getenv "RDBG_SCRATCH"))))))
(drive-open "{file}")
(dap-debug (list :type "rdbg" :request "attach" :name "rdbg" :port {port} :as "editor"))
(drive-stopped)
(drive-when "taken")
(drive-thread "producer")
(drive-refused (drive-step))
(drive-when "free")
(drive-step "producer")
(drive-show "Objects" "queue jobs")
(drive-back)
(drive-end)
"""
REFUSED = "no Held 1"


class Editor:
    """Emacs with dap-mode, attached to a room."""

    def __init__(self, port: int, folder: pathlib.Path) -> None:
        self.folder = folder
        script = folder / "session.el"
        script.write_text(EDITOR.format(file=LOST, port=port))
        self.process = subprocess.Popen(
            ["stdbuf", "-oL", "emacs", "--batch", "-l", str(DRIVER), "-l", str(script)],
            env={**os.environ, "HOME": str(folder), "RDBG_SCRATCH": str(folder)},
            stdin=subprocess.DEVNULL,
            stdout=subprocess.PIPE,
            stderr=subprocess.PIPE,
            text=True,
        )

    def line(self) -> str:
        """The next line that it prints."""
        assert self.process.stdout is not None
        line = self.process.stdout.readline()
        if not line:
            raise AssertionError(self.process.communicate()[1][-4_000:])
        return line.rstrip("\n")

    def expect(self, pattern: str) -> str:
        """The next line of that form; of the moves of others it says what it will."""
        line = self.line()
        while not re.match(pattern, line):
            line = self.line()
        return line

    def go_on(self, name: str) -> None:
        """Makes the file that it waits for."""
        (self.folder / name).touch()

    def end(self) -> List[str]:
        """All lines up to its end."""
        said, errors = self.process.communicate(timeout=60)
        if self.process.returncode:
            raise AssertionError(errors[-4_000:])
        return said.splitlines()

    def kill(self) -> None:
        """Ends it, where a test has failed."""
        self.process.kill()
        streams: List[IO[str]] = [it for it in (self.process.stdout, self.process.stderr) if it]
        for stream in streams:
            stream.close()
        self.process.wait()


def tells(terminal: Terminal, line: str, pattern: str) -> None:
    """Types a line, and waits for what comes of it; what others do may come before."""
    terminal.type(f"{line}\n")
    terminal.expect(pattern)


class AtOnce(OnPage):
    """All that can attach to a room, on one target."""

    def test_two_terminals_a_page_and_an_editor(self) -> None:
        with talk() as kept, web_room(LOST, "--talk", str(kept)) as room:
            words = ["--port", str(room.port), LOST, "--name"]
            environment = {"RDBG_HISTORY": str(self.folder / "history")}
            left = Terminal(*words, "left", environment=environment)
            left.expect(PROMPT)
            right = Terminal(*words, "right", environment=environment)
            editor = Editor(room.port, self.folder)
            try:
                right.expect(PROMPT)
                self.visit(room)
                editor.expect(r"entry \| attached at 0")
                self.refused(left, right, editor)
                self.moved(left, right, editor)
                for terminal in (left, right):
                    terminal.type("\x04")
                    self.assertEqual(0, terminal.end())
                self.browser.visit("about:blank")
                self.ended(room, kept)
            finally:
                left.kill()
                right.kill()
                editor.kill()

    def refused(self, left: Terminal, right: Terminal, editor: Editor) -> None:
        """One has the wheel: each other one is told so where it asks, and asks for the wheel."""
        tells(left, "wheel take", r"\nok wheel\n")
        right.expect(r"# left: wheel take -> ok wheel\n")
        tells(right, "step 0", f"# left has the wheel: [^\\n]*\n{REFUSED}\n")
        self.click("#tick")
        self.said(f"tick -> {REFUSED}: left has the wheel")
        editor.go_on("taken")
        editor.expect(f"refused: .*{REFUSED}")
        self.click("#wish")
        left.expect(r"# web asks for the wheel\n")
        self.at(0)

    def moved(self, left: Terminal, right: Terminal, editor: Editor) -> None:
        """The wheel is free: each of the four moves, and all see it."""
        tells(left, "wheel give", r"\nok wheel\n")
        right.expect(r"# left: wheel give -> ok wheel\n")
        tells(right, "step 0", r"\nok at 1\n")
        self.at(1)
        self.click("#steps button:nth-child(2)")
        self.at(2)
        left.expect(r"# web: step 1 -> ok at 2, .*\n")
        editor.go_on("free")
        editor.expect(r"step \| at 3: producer 1 send jobs 0 -> 1, jobs 1/1")
        editor.expect("queue jobs = 1/1 41$")
        editor.expect(r"step \| at 2, before: producer 1 send jobs 0")
        self.assertEqual("terminated", editor.end()[-1])
        left.expect(r"# editor: back 1 -> ok at 2, .*\n")
        self.at(2)
        tells(left, "back 1", r"\nok at 1\n")
        self.at(1)

    def ended(self, room: WebRoom, kept: pathlib.Path) -> None:
        """One audit is of all; the talk has what each said, refusals with it."""
        self.assertRegex(room.end_well(), r"^(# .*\n)*closed \d+\n$")
        said = rows(kept)
        for name in ("right", "web", "editor"):
            self.assertIn(REFUSED, [reply for who, _, reply in said if who == name], name)
        moved = [(who, reply) for who, _, reply in said if reply.startswith("ok at")]
        places = {"right": "ok at 1", "web": "ok at 2", "editor": "ok at 3", "left": "ok at 1"}
        for name, reply in places.items():
            self.assertIn((name, reply), moved)


if __name__ == "__main__":
    unittest.main()
