"""`rdbg sh --port P` where what comes from the port is none of rdbg's: a terminal takes none of it
for its own."""
import subprocess
import sys
import unittest
from typing import Callable, Optional, Tuple

from tests import fake
from tests.dap_client import editor
from tests.paths import COMPANION
from tests.rooms import LOST

# What a terminal would clear its screen by, ring, call itself, or go back over; a letter stays.
WILD = "\x1b[2J\x07\x1b]0;mine\x07\x9b2J\x7f\x85\rh\xe4 \u4e2d"
PLAIN = "\\x1b[2J\\x07\\x1b]0;mine\\x07\\x9b2J\\x7f\\x85\\rh\xe4 \u4e2d"
KNOWN = {
    "# name ada": f"# you are ada, session 1; here: {WILD}\n",
    "show moves": "moves 0 undone 0 kept 0\n",
    "show cores": "cores - ready - tick 0 turn 0\n",
    "show wheel": f"# bo says: {WILD}\nwheel -\n",
    "wheel take": f"no {WILD}\n",
    "show watches": f"{WILD}\n",
    "tick": f"# bo: {WILD} -> ok at {'9' * 5_000}\nok at {'9' * 5_000}\n",
    "# who": f"{WILD}\n",
    "show queue jobs": "# no: it doesn't read\n\0",
    "# wheel": "# no: the wheel is free\n",
    "show task a": "# bo says: well\n\0",
    "show task b": "# the room has ended: closed 5\n\0",
}


def answer(line: str) -> Optional[bytes]:
    """What is answered to a line; what a prompt says around its lines isn't."""
    said = "" if line.startswith(("# does", "# did")) else KNOWN.get(line)
    return None if said is None else said.encode()


def ran(lines: str) -> Tuple[int, str, str]:
    """The status of a filter that is given these lines, and what it prints."""
    with fake.port(answer) as port:
        words = [sys.executable, "-B", str(COMPANION), "sh", "--port", str(port), "--name", "ada"]
        done = subprocess.run(
            words,
            input=lines.encode(),
            stdout=subprocess.PIPE,
            stderr=subprocess.PIPE,
            env={"PYTHONIOENCODING": "utf-8"},
        )
    return done.returncode, done.stdout.decode(), done.stderr.decode()


# A server that answers the first looks as rdbg does.
LOOKS = {
    "": b"no Syntax\n",
    "show moves": b"moves 0 undone 0 kept 0\n",
    "show cores": b"cores - ready - tick 0 turn 0\n",
}
YOU = b"# you are ada, session 1; here: nobody else\n"
FULL = "the history of the server is full, so it executes no more commands: no HistoryFull"
OTHER = "not an rdbg server, or another version of rdbg: no Syntax"
GARBAGE = "not an rdbg server: it answered '\ufffd\\x1b[2J'"


class NoServer(unittest.TestCase):
    """A server whose history is full, or that is not rdbg's: a line, status 2, no traceback."""

    def check(self, answers: Callable[[str], Optional[bytes]], why: str, *words: str) -> None:
        """Checks what each tool says of a server that answers so."""
        for tool in ("sh", "trace"):
            with self.subTest(tool, words=words), fake.port(answers) as port:
                told = [sys.executable, "-B", str(COMPANION), tool, "--port", str(port), *words]
                done = subprocess.run(
                    told, input=b"where\n", stdout=subprocess.PIPE, stderr=subprocess.PIPE
                )
                said = f"rdbg {tool}: port {port}: {why}\n"
                self.assertEqual((done.returncode, done.stderr.decode()), (2, said))

    def test_it_answers_the_same_to_everything(self) -> None:
        for words in ((), (LOST,)):
            self.check(lambda line: b"no Syntax\n", OTHER, *words)
            self.check(lambda line: b"\xff\x1b[2J\n", GARBAGE, *words)
            self.check(lambda line: b"no HistoryFull\n" if line else b"no Syntax\n", FULL, *words)
        closed = "the server accepts no more sessions: no HistoryFull"
        self.check(lambda line: b"no HistoryFull\n", closed)

    def test_it_answers_so_once_it_is_compared(self) -> None:
        for answer, why in ((b"no Syntax\n", OTHER), (b"no HistoryFull\n", FULL)):
            self.check(lambda line, answer=answer: LOOKS.get(line, answer), why, LOST)  # type: ignore[misc]
        self.check(lambda line: LOOKS.get(line, b"\xff\x1b[2J\n"), GARBAGE, LOST)

    def test_it_knows_names(self) -> None:
        for answer, why in ((b"no Syntax\n", OTHER), (b"no HistoryFull\n", FULL)):
            with fake.port(lambda line: YOU if line.startswith("# name") else answer) as port:
                told = ["sh", "--port", str(port), "--name", "ada"]
                done = subprocess.run(
                    [sys.executable, "-B", str(COMPANION), *told],
                    stdin=subprocess.DEVNULL,
                    stderr=subprocess.PIPE,
                )
                self.assertEqual(done.stderr.decode(), f"rdbg sh: port {port}: {why}\n")
                self.assertEqual(done.returncode, 2)

    def test_an_editor(self) -> None:
        for answer, why in ((b"no Syntax\n", OTHER), (b"no HistoryFull\n", FULL)):
            with fake.port(lambda line: answer if line else b"no Syntax\n") as port:
                with editor() as client:
                    client.ask("initialize")
                    self.assertEqual(f"port {port}: {why}", client.refused("attach", port=port))


class FalsePort(unittest.TestCase):
    """Each line, and what is seen of its reply."""

    def test_notices_and_names(self) -> None:
        status, output, _ = ran("show wheel\n")
        self.assertEqual(status, 0)
        self.assertEqual(
            output.splitlines(),
            [
                f"# you are ada, session 1; here: {PLAIN}",
                f"# bo says: {PLAIN}",
                "wheel -",
            ],
        )

    def test_replies(self) -> None:
        for line, reply in (
            ("wheel take", f"no {PLAIN}"),
            ("show watches", PLAIN),
            ("# who", PLAIN),
        ):
            with self.subTest(line):
                status, output, errors = ran(f"{line}\n")
                self.assertEqual(status, 1)
                why = "rdbg answered what no reply looks like"
                self.assertEqual(errors, f"rdbg sh: {why}: '{reply}'\n")
                self.assertTrue(output.replace("\n", "").isprintable(), repr(output))

    def test_why_a_connection_has_ended(self) -> None:
        closed = r"the room has ended: the server at port \d+ has closed the connection"
        ends = {
            "show queue jobs": r"the server at port \d+: it doesn't read",
            "# wheel\nquite": closed,
            "show task a": closed,
            "show task b": "the room has ended: closed 5",
        }
        for lines, why in ends.items():
            with self.subTest(lines):
                status, _, errors = ran(f"{lines}\n")
                self.assertEqual(status, 1)
                self.assertRegex(errors, f"^rdbg sh: {why}\n$")

    def test_a_number_of_five_thousand_digits(self) -> None:
        status, _, errors = ran("tick\n")
        self.assertEqual(status, 1)
        self.assertRegex(
            errors, r"^rdbg sh: rdbg answered what no reply looks like: 'ok at 9{194}'$"
        )


if __name__ == "__main__":
    unittest.main()
