"""What a page says beside its run: who made it of what, a note, and the question that it
answers."""
import contextlib
import io
import os
import pathlib
import time
import unittest
from typing import List, Tuple
from unittest import mock

from rdbg import client
from rdbg.main import main
from rdbg.reaching.asking import DOOMED, LOST as LOST_AT, REACH
from rdbg.reaching.said import read
from rdbg.tracing.page.asked import asked
from rdbg.tracing.page.note import as_html
from tests.page_shown import LOST, RUN, Shown
from tests.paths import EXAMPLES

STOLEN = EXAMPLES / "stolen_answer.json"
TEXT = """cores 1
notes 2
const STEP 1
task t priority 1
    // looks at a bit
    add r1 STEP   // never
    end
"""


def told(*words: str) -> Tuple[int, List[str]]:
    """The status of a companion, and what it says on standard error."""
    with contextlib.redirect_stderr(io.StringIO()) as errors:
        with contextlib.redirect_stdout(io.StringIO()):
            status = main(words)
    return status, errors.getvalue().splitlines()


class Notes(unittest.TestCase):
    """Markdown as HTML."""

    def test_blocks(self) -> None:
        for text, wanted in (
            ("one\ntwo\n\nthree", "<p>one two</p>\n<p>three</p>"),
            ("# A `b` #\ntext", "<h2>A <code>b</code></h2>\n<p>text</p>"),
            ("###### deep", "<h6>deep</h6>"),
            ("- a\n  more\n- b\n", "<ul><li>a more</li><li>b</li></ul>"),
            (
                "1. a\n   - b\n   - c\n2. d",
                "<ol><li>a<ul><li>b</li><li>c</li></ul></li><li>d</li></ol>",
            ),
            ("* a\n1. b", "<ul><li>a</li></ul>\n<ol><li>b</li></ol>"),
            ("```c\nif (a < b)\n\n  x;\n```\nend", "<pre>if (a &lt; b)\n\n  x;</pre>\n<p>end</p>"),
            ("    code\n\n    more\n\nend", "<pre>code\n\nmore</pre>\n<p>end</p>"),
            ("``a ` b``", "<p><code>a ` b</code></p>"),
            ("~~~\nopen", "<pre>open</pre>"),
            ("", ""),
        ):
            with self.subTest(text):
                self.assertEqual(wanted, as_html(text))

    def test_everything_is_escaped(self) -> None:
        text = "<script>x</script> & \"'\n\n`<b>`\n\n# <i>\n\n- <u>\n\n    <s>\n\n[x](javascript:y)"
        html = as_html(text)
        tags = {"p", "code", "h2", "ul", "li", "pre"}
        for part in html.split("<")[1:]:
            self.assertIn(part.split(">")[0].strip("/"), tags)
        self.assertNotIn("href", html)


class Said(unittest.TestCase):
    """Answers in words."""

    def test_each_answer(self) -> None:
        counts = "states 1 moves 2 deepest 3"
        for question, lines, words, lost in (
            (
                LOST_AT,
                ["lost at 8", "step 0"],
                "Lost at 8: .* 8 on, no run .* from place 7 one",
                8,
            ),
            (
                LOST_AT,
                ["lost at 0"],
                "Lost at 0: no run of any length .* from any place of this run",
                0,
            ),
            (LOST_AT, ["still", "step 0"], "Still: .* from the last place", None),
            (LOST_AT, ["full", "no memory"], "Undecided: full: no memory", None),
            (REACH, ["found", "step 0"], "Found: a run from place 5 reaches the goal", None),
            (REACH, ["never"], "Never: no run of any length from place 5", None),
            (REACH, ["not within 4 moves"], "Not within 4 moves: .* no run from place 5", None),
            (
                DOOMED,
                ["found", "step 0"],
                "Found: .* from which no run of any length",
                None,
            ),
            (DOOMED, ["never", "within 4 moves it comes"], "Never: .* (within 4 moves it", None),
            (DOOMED, ["full", "so"], "Undecided", None),
        ):
            with self.subTest(lines):
                it = asked(question, "g", read([*lines, counts]), 5, ["step 0"])
                self.assertRegex(it.said[0], words.replace("(", "\\("))
                self.assertEqual((lost, f"{question.word} g"), (it.lost, it.words))


class Made(Shown):
    """What a page is of, and who says what of it."""

    def test_what_it_is_of(self) -> None:
        self.show()
        made = self.browser.value("document.querySelector('#made-by').textContent")
        self.assertIn(f"Made on {time.strftime('%Y-%m-%d')} by rdbg", made)
        self.assertIn("isn't known to be proved", made)
        self.browser.value("document.querySelector('#made').open = true")
        for part, name, text in (
            ("application", "Model: lost_item.json", LOST.read_text()),
            ("lines", "Commands: run.commands", "".join(f"{it}\n" for it in RUN)),
        ):
            self.assertEqual(name, self.browser.text(f"#{part} summary"))
            self.browser.value(f"document.querySelector('#{part}').open = true")
            self.browser.settle()
            pre = f"document.querySelector('#{part} pre').textContent"
            self.assertEqual(text, self.browser.value(pre))

    def test_a_text_is_saved(self) -> None:
        path = self.folder / "talk.fw"
        path.write_text(TEXT)
        self.show(["step 0"], "-D", "STEP=3", application=path)
        self.browser.value("document.querySelector('#made').open = true")
        self.browser.value("document.querySelector('#application').open = true")
        self.browser.settle()
        self.assertEqual("Model: talk.fw -D STEP=3", self.browser.text("#application summary"))
        self.assertEqual("./rdbg sh talk.fw -DSTEP=3", self.browser.text("#way-where"))
        saved = self.folder / "saved"
        saved.mkdir()
        with self.browser.saving(saved):
            self.browser.click(*self.browser.middle("#application button"))
            end = time.monotonic() + 30
            while not (saved / "talk.fw").exists() and time.monotonic() < end:
                time.sleep(0.05)
        self.assertEqual(TEXT, (saved / "talk.fw").read_text())

    def test_a_title_and_a_note(self) -> None:
        note = self.folder / "note.md"
        note.write_text("# What <came>\n\n- of `jobs`\n")
        self.show(RUN, "--title", "A <job> is lost", "--note", str(note))
        self.assertEqual("A <job> is lost", self.browser.text("h1"))
        self.assertEqual("A <job> is lost", self.browser.value("document.title"))
        self.assertIn("lost_item.json: places 0 to 9; 9 moves", self.browser.text("#about"))
        self.assertEqual(["What <came>"], self.browser.texts("#note h2"))
        self.assertEqual(["jobs"], self.browser.texts("#note li code"))

    def test_where_it_opens(self) -> None:
        for words, place in (
            ((), 0),
            (("--at", "4"), 4),
            (("--at", "count jobs > 0"), 5),
            (("--at", "count jobs > 0", "--from", "7"), 6),
        ):
            with self.subTest(words):
                self.show(RUN, *words)
                self.assertEqual(place, self.reader.place())
        self.show(RUN, "--at", "4", link="#6")
        self.assertEqual(6, self.reader.place())


class Answers(Shown):
    """Pages that answer a question."""

    def test_where_it_was_lost(self) -> None:
        page = self.folder / "lost.html"
        commands = self.folder / "lost.commands"
        commands.write_text("".join(f"{it}\n" for it in RUN))
        for words in (
            ("trace", str(LOST), str(commands), "--ask", "lost at worker 1"),
            ("reach", str(LOST), "at worker 1", "--lost", "--from", str(commands)),
        ):
            with self.subTest(words[0]):
                told(*words, "--page", str(page))
                self.browser.open(page)
                self.check_lost()
        self.browser.open(page, "#3")
        self.assertNotIn("no return", self.browser.text("#readout"))
        drawn = self.reader.picture()
        self.browser.click(*self.browser.middle("#asked-place"))
        self.assertEqual(8, self.reader.place())
        self.browser.key("End")
        self.assertIn("after the point of no return", self.browser.text("#readout"))
        self.assertNotEqual(drawn, self.reader.picture())

    def check_lost(self) -> None:
        """Whether the page that is open answers where the job was lost."""
        self.assertEqual(8, self.reader.place())
        said = self.browser.text("#asked p")
        self.assertIn("lost at worker 1? Lost at 8: from place 8 on, no run", said)
        self.assertIn("Move 8: core 1: poller 0 recv jobs 0 -> 1", said)
        self.assertTrue(self.browser.text("#readout").endswith("-- the point of no return"))
        order = self.browser.value("document.querySelector('#order pre').textContent")
        self.assertEqual([*RUN, "back 2", "tick", "step 0"], order.split("\n"))

    def test_what_was_found(self) -> None:
        page = self.folder / "found.html"
        for words, said in (
            (
                ("reach", str(LOST), "reg poller 0 = 1"),
                "reach reg poller 0 = 1? Found: the run of",
            ),
            (("hunt", str(LOST), "reg poller 0 = 1"), "hunt reg poller 0 = 1? Found: the "),
            (("reach", str(STOLEN), "ended client", "--doomed"), "doomed ended client? Found: the"),
        ):
            with self.subTest(words):
                told(*words, "--page", str(page))
                self.browser.open(page)
                self.assertIn(said, self.browser.text("#asked p"))
                last = self.browser.value("Number(document.querySelector('#slider').max)")
                self.assertEqual(last, self.reader.place())

    def test_what_is_asked_at_the_end(self) -> None:
        self.show(RUN, "--ask", "asleep")
        said = self.browser.text("#asked p")
        self.assertIn("reach asleep? Never: no run of any length from place 9", said)
        self.show(RUN, "--ask", "reach reg poller 0 = 0")
        self.assertIn("Found: a run from place 9 reaches the goal", self.browser.text("#asked p"))
        self.assertEqual(9, self.reader.place())


class Words(unittest.TestCase):
    """The words that say it."""

    def test_words_that_cant_be(self) -> None:
        page = ("--page", os.devnull)
        for words, why in (
            (("--title", "x"), "--title requires --page"),
            (("--ask", "asleep", "--events", "-"), "--ask requires --page"),
            (("--ask", "asleap", *page), "--ask: word 1, 'asleap'"),
            (("--at", "12", *page), "--at 12 is out of range: the page has places 0 to 3"),
            (("--at", "tick > 9", *page), "--at: 'tick > 9' holds at none of the places 0 to 3"),
            (("--at", "x", *page), "--at: word 1, 'x'"),
            (("--note", "none.md", *page), "cannot read none.md: No such file"),
        ):
            with self.subTest(words):
                commands = mock.Mock(buffer=io.BytesIO(b"forward 3\n"))
                with mock.patch("sys.stdin", commands):
                    status, errors = told("trace", str(LOST), *words)
                self.assertEqual((2, 1), (status, len(errors)), errors)
                self.assertTrue(errors[0].startswith(f"rdbg trace: {why}"), errors)
        status, errors = told("trace", str(LOST), "--note", "-", *page)
        self.assertEqual((2, True), (status, "cannot both be standard input" in errors[0]))

    def test_reach_without_an_order(self) -> None:
        page = pathlib.Path(os.devnull)
        status, errors = told("reach", str(LOST), "failed", "--page", str(page))
        wanted = f"rdbg reach: no run to show, so {page} is not written"
        self.assertEqual((0, [wanted]), (status, errors))
        status, errors = told("reach", str(LOST), "asleep", "--page", "-")
        self.assertEqual((2, True), (status, "--page needs a file" in errors[0]))

    def test_version(self) -> None:
        said = "rdbg at commit 0123; kit; proved"
        with mock.patch.object(client, "of_wrapper", lambda: said):
            with mock.patch.dict(os.environ, {"RDBG_PROGRAM": "/x"}):
                self.assertEqual(f"rdbg at commit 0123; kit; {client.NAMED}", client.version())
            with mock.patch.dict(os.environ):
                os.environ.pop("RDBG_PROGRAM", None)
                self.assertEqual(said, client.version())
            self.assertIn("the port isn't known to be proved", client.version(port=True))
        with mock.patch.object(client, "of_wrapper", lambda: ""):
            self.assertIn("whose commit isn't known", client.version())
        lines = ["rdbg 1.0.0 at commit 0123; kit", "rdbg is proved; 45", "rdreach is proved; 67"]
        with mock.patch.object(client, "of_wrapper", lambda: "\n".join(lines)):
            with mock.patch.dict(os.environ, {"RDBG_PROGRAM": "/a/program"}):
                self.assertEqual(f"{lines[0]}; {client.NAMED}", client.version())
            self.assertEqual(f"{lines[0]}; {client.AT_A_PORT}", client.version(port=True))
            with mock.patch.dict(os.environ):
                os.environ.pop("RDBG_PROGRAM", None)
                self.assertEqual("; ".join(lines), client.version())


if __name__ == "__main__":
    unittest.main()
