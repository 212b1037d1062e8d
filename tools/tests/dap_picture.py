"""Makes the picture of docs/guides/editors.md: Emacs in a terminal, one step before the item is lost.

usage, in tools/: python3 -B -m tests.dap_picture FILE.png

It wants tmux, Emacs with dap-mode, and chromium. The program is that of `RDBG_PROGRAM`, or of the
wrapper."""
import html
import os
import pathlib
import re
import subprocess
import sys
import tempfile
import time
from typing import Dict, Iterator, List, Sequence, Tuple

from tests.chromium import Browser
from tests.paths import EXAMPLES, TOP

COLUMNS, ROWS = 124, 36
LIBRARY = TOP / "tools" / "editors" / "emacs" / "rdbg-dap.el"
STYLE = """
body {margin: 0; background: #1c1c1c; color: #d0d0d0; font: 15px/19px monospace}
pre {margin: 10px 14px; font: inherit}
"""
BASIC = ("#1c1c1c", "#d75f5f", "#87af5f", "#d7af5f", "#5f87d7", "#af87d7", "#5fafaf", "#d0d0d0")
CODE = re.compile(r"\x1b\[([0-9;]*)m")
INIT = f"""
(setq inhibit-startup-screen t make-backup-files nil initial-scratch-message nil)
(menu-bar-mode -1)
(load "{LIBRARY}" nil t)
"""
# The keys, each with what is shown once they have done their work.
KEYS: Tuple[Tuple[str, str], ...] = (
    ("F5", "L7 "),
    ("Down Down Down Down Down", "L12 "),
    ("F9", "L12 "),
    ("F5", "2  core 1  producer 0 data"),
    ("F8", "3  core 1  producer 1 send"),
    ("F8", "4  core 1  producer 2 end"),
    ("F11", "Step which task"),
    ("poller: Tab Enter", "5  core 1  poller 0 recv"),
    ("F11", "Step which task"),
    ("worker: Tab Enter", "6  core 0  worker 0 recv"),
    ("F7", "back at 5"),
    ("F7", "back at 4"),
)
# So many seconds anything may take, and pass before the picture is taken.
PATIENCE, PAUSE = 60.0, 4.0


def color(number: int) -> str:
    """One of the 256 colours."""
    if number < 16:
        return BASIC[number % 8]
    if number > 231:
        return "#" + f"{8 + 10 * (number - 232):02x}" * 3
    levels = (0, 95, 135, 175, 215, 255)
    at = number - 16
    return "#" + "".join(f"{levels[part]:02x}" for part in (at // 36, at // 6 % 6, at % 6))


def changed(style: Dict[str, str], codes: List[int]) -> Dict[str, str]:
    """A style behind some codes."""
    style = dict(style)
    while codes:
        code = codes.pop(0)
        if code == 0:
            style = {}
        elif code == 1:
            style["font-weight"] = "bold"
        elif code == 7:
            style.update({"background": "#b2b2b2", "color": "#1c1c1c"})
        elif code == 27:
            style = {}
        elif code in (38, 48) and codes[:1] == [5]:
            style["color" if code == 38 else "background"] = color(codes[1])
            codes = codes[2:]
        elif code in (39, 49):
            style.pop("color" if code == 39 else "background", None)
        elif 30 <= code <= 37 or 40 <= code <= 47:
            style["color" if code < 40 else "background"] = BASIC[code % 10]
    return style


def spans(text: str) -> Iterator[str]:
    """What a terminal shows, as HTML."""
    style: Dict[str, str] = {}
    for at, piece in enumerate(CODE.split(text)):
        if at % 2:
            style = changed(style, [int(it or 0) for it in piece.split(";")])
        elif piece:
            look = ";".join(f"{key}:{value}" for key, value in style.items())
            yield f'<span style="{look}">{html.escape(piece)}</span>'


class Terminal:
    """A terminal of tmux with Emacs in it."""

    def __init__(self, folder: pathlib.Path) -> None:
        file, init = folder / "lost.fw", folder / "init.el"
        init.write_text(INIT)
        make = [str(TOP / "rdbg"), "make", "--back", str(EXAMPLES / "lost_item.json")]
        subprocess.run([*make, "-o", str(file)], check=True)
        self._tmux = ["tmux", "-L", f"rdbg{os.getpid()}", "-f", "/dev/null"]
        environment = {**os.environ, "HOME": str(folder), "TERM": "xterm-256color"}
        words = ["new-session", "-d", "-x", str(COLUMNS), "-y", str(ROWS), "-c", str(folder)]
        emacs = f"emacs -nw -l {init} lost.fw"
        subprocess.run([*self._tmux, *words, emacs], env=environment, check=True)
        self.wait("lost.fw .*L1 ")

    def press(self, keys: str, then: str) -> None:
        """Presses keys, and waits until something is shown."""
        subprocess.run([*self._tmux, "send-keys", *keys.split()], check=True)
        self.wait(then)

    def wait(self, text: str) -> None:
        """Waits until something is shown."""
        end = time.monotonic() + PATIENCE
        while not re.search(text, CODE.sub("", self.shown())):
            if time.monotonic() > end:
                raise TimeoutError(f"{text} isn't shown:\n{self.shown()}")
            time.sleep(0.2)
        time.sleep(0.5)

    def shown(self) -> str:
        """What it shows."""
        words = [*self._tmux, "capture-pane", "-e", "-p"]
        return subprocess.run(words, stdout=subprocess.PIPE, check=True).stdout.decode()

    def close(self) -> None:
        """Ends it."""
        subprocess.run([*self._tmux, "kill-server"], check=False)


def main(words: Sequence[str]) -> int:
    """Makes it."""
    if len(words) != 1:
        print(__doc__, file=sys.stderr)
        return 2
    with tempfile.TemporaryDirectory() as scratch:
        folder = pathlib.Path(scratch)
        terminal = Terminal(folder)
        try:
            for keys, then in KEYS:
                terminal.press(keys, then)
            time.sleep(PAUSE)
            text = terminal.shown()
        finally:
            terminal.close()
        page = folder / "terminal.html"
        body = "".join(spans(text.rstrip("\n")))
        page.write_text(f'<meta charset="utf-8"><style>{STYLE}</style><pre>{body}</pre>')
        with Browser(1160, 19 * ROWS + 20) as browser:
            browser.open(page)
            browser.picture(pathlib.Path(words[0]))
    return 0


if __name__ == "__main__":
    sys.exit(main(sys.argv[1:]))
