"""What editors know of a text in lines: the words of both grammars, Emacs' mode, and what `check`
says while one types."""
import json
import os
import pathlib
import re
import subprocess
import tempfile
import unittest
from typing import Any, Dict, List, Set

from rdbg.files.source import source
from rdbg.firmware import blocks
from rdbg.firmware.meant import FIRST_WORDS
from rdbg.firmware.objects import OBJECTS, SETTINGS
from rdbg.instructions import FORMS
from tests.paths import DOCS, EXAMPLES, TOP, WRAPPER
from tests.tables import codes, rows

FOLDER = TOP / "tools" / "editors"
EMACS = (FOLDER / "emacs" / "rdbg-fw-mode.el").read_text()
PACKAGE: Dict[str, Any] = json.loads((FOLDER / "vscode" / "package.json").read_text())
GRAMMAR: Dict[str, Any] = json.loads((FOLDER / "vscode" / "rdbg-fw.tmLanguage.json").read_text())
# The kinds of words that both editors tell apart.
LISTS = ("lines", "blocks", "instructions", "operands")
TEXT = """cores 2   # of two
const STOP 1 << 2
queue jobs length 2 item 1
set all length 2 members jobs
/* a task
   of two */
task worker priority 2
again:
    loop
        recv jobs portMAX_DELAY // waits
        if r0 & STOP goto again
        while r1 = 3
            set r1 0x10
        end
        if !r0
            data "a # b"
        else
            break
        end
    end
    end

task other priority 1
    jump 0
"""
# What Emacs shows how: the first place of a text, and its face.
FACES = {
    "cores 2": "font-lock-type-face",
    "# of two": "font-lock-comment-delimiter-face",
    "of two */": "font-lock-comment-face",
    "STOP 1": "font-lock-variable-name-face",
    "1 << 2": "font-lock-constant-face",
    "set all": "font-lock-type-face",
    "again:": "font-lock-function-name-face",
    "loop": "font-lock-keyword-face",
    "recv": "font-lock-builtin-face",
    "portMAX": "font-lock-constant-face",
    "// waits": "font-lock-comment-delimiter-face",
    "goto again": "font-lock-keyword-face",
    "r1 = 3": "font-lock-variable-name-face",
    "set r1": "font-lock-builtin-face",
    "0x10": "font-lock-constant-face",
    "# b": "font-lock-string-face",
    "length 2 m": "font-lock-preprocessor-face",
}


def in_emacs(which: str) -> Set[str]:
    """A list of words of Emacs' mode."""
    found = re.search(rf"\(defconst rdbg-fw-{which}\n  '\(([^)]*)\)", EMACS)
    assert found is not None, which
    return set(re.findall(r'"([\w]+)"', found[1]))


def in_grammar(which: str) -> Set[str]:
    """The same of VS Code's grammar."""
    rule = GRAMMAR["repository"][which]
    text = rule["match"] if "match" in rule else rule["patterns"][0]["match"]
    alternatives = max(re.findall(r"\((?:\?:)?([a-z|]+)\)", text), key=len)
    return set(alternatives.split("|")) - {"set"}


class Words(unittest.TestCase):
    """Both grammars have the words that there are."""

    def test_both_have_the_same(self) -> None:
        for which in LISTS:
            self.assertEqual(in_emacs(which), in_grammar(which), which)

    def test_they_are_those_of_the_tables(self) -> None:
        lines, blocks_there, instructions, operands = map(in_emacs, LISTS)
        forms = {it.word for it in FORMS}
        self.assertEqual(lines | blocks_there | instructions, {*FIRST_WORDS, "goto"} - {"set"})
        self.assertLessEqual({*OBJECTS, *SETTINGS} - {"set"}, lines)
        self.assertEqual(blocks_there, {*blocks.WORDS, blocks.END, "goto", "wait"})
        self.assertEqual(instructions, {*forms, "give"} - {"set", "end"})
        page = (DOCS / "reference/calls.md").read_text()
        said = " ".join(
            code for row in rows(page, "| Line | What it says |") for code in codes(row)
        )
        self.assertLessEqual(
            set(re.findall(r"\b(?:length|priority|given|members)\b", said)), operands
        )
        written = {word for it in FORMS for text in it.texts() for word in text.split()[1:]}
        self.assertLessEqual({word for word in written if word.islower()}, operands)

    def test_the_text_is_one(self) -> None:
        self.assertEqual(source("text.fw", TEXT.encode()).faults, ())


class VsCode(unittest.TestCase):
    """The grammar and the problem matcher of VS Code."""

    def test_the_grammar_is_that_of_the_language(self) -> None:
        found = PACKAGE["contributes"]["grammars"][0]
        self.assertEqual(found["language"], PACKAGE["contributes"]["languages"][0]["id"])
        self.assertEqual(found["scopeName"], GRAMMAR["scopeName"])
        self.assertTrue((FOLDER / "vscode" / found["path"]).is_file())
        for it in GRAMMAR["patterns"]:
            self.assertIn(it["include"][1:], GRAMMAR["repository"])

    def test_its_expressions(self) -> None:
        lines = GRAMMAR["repository"]["lines"]["patterns"]
        for at, text, found in (
            (0, "queue jobs length 2 item 1", ("queue", "jobs")),
            (0, "  cores 2", ("cores", None)),
            (1, "set all length 2", ("set", "all")),
            (2, "#define STOP 4", ("#define", "STOP")),
        ):
            match = re.search(lines[at]["match"], text)
            assert match is not None
            self.assertEqual(match.groups(), found)
        self.assertIsNone(re.search(lines[1]["match"], "    set r1 3"))
        label = GRAMMAR["repository"]["labels"]["patterns"][0]["match"]
        self.assertEqual(re.findall(label, "again: loop"), ["again"])
        comment = GRAMMAR["repository"]["comments"]["patterns"][2]["match"]
        self.assertEqual(re.findall(comment, "x # of"), ["# of"])
        self.assertEqual(re.findall(comment, "#define X 1"), [])

    def test_the_matcher_reads_what_check_prints(self) -> None:
        matcher = PACKAGE["contributes"]["problemMatchers"][0]
        pattern = matcher["pattern"]
        with tempfile.TemporaryDirectory() as folder:
            file = pathlib.Path(folder) / "a task.fw"
            file.write_text(TEXT.replace("recv jobs", "recv jbos") + "    data 0b01\n    end\n")
            ran = subprocess.run([str(WRAPPER), "check", str(file)], stdout=subprocess.PIPE)
        found = [re.match(pattern["regexp"], it) for it in ran.stdout.decode().splitlines()]
        said = [match for match in found if match is not None]
        self.assertEqual(len(said), len(found) - 1)
        first = said[0]
        place = [first[pattern[key]] for key in ("file", "line", "column", "severity")]
        self.assertEqual(place, [str(file), "10", "14", None])
        self.assertIn("queue 'jbos' is not defined", first[pattern["message"]])
        self.assertIn(f"${matcher['name']}", (DOCS / "guides/editors.md").read_text())


class Emacs(unittest.TestCase):
    """Emacs' mode, in batch."""

    def setUp(self) -> None:
        folder = tempfile.TemporaryDirectory()
        self.addCleanup(folder.cleanup)
        self.folder = pathlib.Path(folder.name)

    def told(self, name: str, content: str, script: str) -> List[str]:
        """What a script of Emacs' prints in a file that has this text."""
        (self.folder / name).write_text(content)
        done = self.folder / "script.el"
        done.write_text(script)
        mode = FOLDER / "emacs" / "rdbg-fw-mode.el"
        words = ["emacs", "--batch", "-l", str(mode), str(self.folder / name), "-l", str(done)]
        ran = subprocess.run(
            words,
            env={**os.environ, "HOME": str(self.folder)},
            stdin=subprocess.DEVNULL,
            stdout=subprocess.PIPE,
            stderr=subprocess.PIPE,
            timeout=120,
        )
        self.assertEqual(ran.returncode, 0, ran.stderr.decode())
        return ran.stdout.decode().splitlines()

    def test_faces(self) -> None:
        asked = " ".join(f'"{text}"' for text in FACES)
        script = (
            "(font-lock-ensure)\n"
            f"(dolist (text '({asked})) (goto-char (point-min)) (search-forward text)\n"
            "  (let ((face (get-text-property (match-beginning 0) 'face)))\n"
            '    (princ (format "%s\\n" (if (consp face) (car face) face)))))\n'
        )
        self.assertEqual(dict(zip(FACES, self.told("a.fw", TEXT, script))), FACES)

    def test_indentation(self) -> None:
        script = "(indent-region (point-min) (point-max))\n(princ (buffer-string))\n"
        flat = "".join(f"{line.strip()}\n" for line in TEXT.splitlines())
        wanted = [it for it in TEXT.splitlines() if "of two */" not in it]
        said = [it for it in self.told("a.fw", flat, script) if "of two */" not in it]
        self.assertEqual(said, wanted)

    def faults(self, name: str, content: str) -> List[str]:
        """What flymake says of a file."""
        script = (
            "(flymake-start)\n"
            "(let ((end (+ (float-time) 60)))\n"
            "  (while (and (< (float-time) end)\n"
            "              (not (memq 'rdbg-check-flymake (flymake-reporting-backends))))\n"
            "    (accept-process-output nil 0.05)))\n"
            "(dolist (it (sort (flymake-diagnostics)\n"
            "                  (lambda (a b) (< (flymake-diagnostic-beg a) (flymake-diagnostic-beg"
            " b)))))\n"
            "  (goto-char (flymake-diagnostic-beg it))\n"
            '  (princ (format "%s %s:%s %s\\n" (flymake-diagnostic-type it) (line-number-at-pos)\n'
            "                 (1+ (current-column)) (flymake-diagnostic-text it))))\n"
        )
        return self.told(name, content, script)

    def test_what_is_wrong_in_lines(self) -> None:
        wrong = TEXT.replace("recv jobs", "recv jbos").replace("data", "data 0b01")
        said = self.faults("a.fw", wrong)
        places = [it.split(" ")[:2] for it in said]
        self.assertEqual(places, [[":error", "10:14"], [":note", "11:9"], [":error", "16:18"]])
        self.assertIn("queue 'jbos' is not defined (did you mean 'jobs'?)", said[0])
        noted = self.faults("a.fw", TEXT)
        self.assertEqual([it.split(" ")[:2] for it in noted], [[":note", "11:9"]])

    def test_what_is_wrong_in_json(self) -> None:
        text = (EXAMPLES / "lost_item.json").read_text()
        said = self.faults("a.json", text.replace("recv jobs max", "recv jobs"))
        self.assertEqual(len(said), 1)
        self.assertTrue(said[0].startswith(":error 6:48 task worker, instruction 0: "), said)


if __name__ == "__main__":
    unittest.main()
