"""A real browser without a window, Debian's chromium, driven over DevTools by pipes."""
import base64
import contextlib
import fcntl
import json
import os
import pathlib
import select
import shutil
import subprocess
import tempfile
import time
from types import TracebackType
from typing import Any, Dict, Iterator, List, Optional, Sequence, Tuple, Type

PROGRAM = "chromium"
# (as a script, since the browser wants its two pipes as descriptors 3 and 4)
STARTED = 'lines=$1 answers=$2; shift 2; exec "$@" 3<&"$lines" 4>&"$answers"'
WORDS = (
    "--headless=new",
    "--no-sandbox",
    "--disable-gpu",
    "--disable-dev-shm-usage",
    "--disable-extensions",
    "--disable-background-networking",
    "--no-first-run",
    "--hide-scrollbars",
    "--remote-debugging-pipe",
)
# From here on descriptors of one's own are no ones that a shell uses.
LEAST_DESCRIPTOR = 20
PATIENCE = 60.0
SHIFT = 8
Message = Dict[str, Any]
# Each key by its name: what the browser calls its place, its number, and the text that it types.
KEYS: Dict[str, Tuple[str, int, str]] = {
    "ArrowLeft": ("ArrowLeft", 37, ""),
    "ArrowUp": ("ArrowUp", 38, ""),
    "ArrowRight": ("ArrowRight", 39, ""),
    "ArrowDown": ("ArrowDown", 40, ""),
    "PageUp": ("PageUp", 33, ""),
    "PageDown": ("PageDown", 34, ""),
    "Home": ("Home", 36, ""),
    "End": ("End", 35, ""),
    "Enter": ("Enter", 13, "\r"),
    "Escape": ("Escape", 27, ""),
    "Tab": ("Tab", 9, ""),
}


# What the browser answers where another page has come in the place of the one that was asked.
GONE = (
    "Inspected target navigated or closed",
    "Execution context was destroyed.",
    "Cannot find default execution context",
)


class Missing(AssertionError):
    """There is no browser, or it doesn't answer."""


class Gone(AssertionError):
    """Another page has come in the place of the one that was asked."""


def high(descriptor: int) -> int:
    """The same end of a pipe, as a descriptor that no shell uses."""
    moved = fcntl.fcntl(descriptor, fcntl.F_DUPFD_CLOEXEC, LEAST_DESCRIPTOR)
    os.close(descriptor)
    return moved


class Browser:
    """A browser with one page, started with its address. What it says besides answers is kept:
    errors and requests."""

    def __init__(
        self,
        width: int = 1440,
        height: int = 900,
        program: str = PROGRAM,
        address: str = "about:blank",
    ) -> None:
        found = shutil.which(program)
        if found is None:
            raise Missing(
                f"{program} isn't installed: apt-get install -y --no-install-recommends {PROGRAM}"
            )
        self.folder = tempfile.TemporaryDirectory()
        self.errors: List[str] = []
        self.requests: List[str] = []
        self._number = 0
        self._read = b""
        self._session: Optional[str] = None
        self._start([found, *WORDS, f"--user-data-dir={self.folder.name}", address])
        try:
            self._open(width, height)
        except BaseException:
            self.close()
            raise

    def _start(self, words: Sequence[str]) -> None:
        theirs, self._lines = map(high, os.pipe())
        self._answers, their_answers = map(high, os.pipe())
        ends = (theirs, their_answers)
        shell = ["bash", "-c", STARTED, "bash", *map(str, ends), *words]
        self._said = tempfile.TemporaryFile()
        self._process = subprocess.Popen(
            shell,
            pass_fds=ends,
            stdin=subprocess.DEVNULL,
            stdout=self._said,
            stderr=self._said,
        )
        for end in ends:
            os.close(end)

    def _open(self, width: int, height: int) -> None:
        targets = self.call("Target.getTargets")["targetInfos"]
        self._attach(next(it["targetId"] for it in targets if it["type"] == "page"))
        self.size(width, height)

    def _attach(self, page: str) -> None:
        """Drives a page from now on."""
        attached = self.call("Target.attachToTarget", targetId=page, flatten=True)
        self._session = attached["sessionId"]
        for domain in ("Page", "Runtime", "Log", "Network"):
            self.call(f"{domain}.enable")
        # (what a processor works, however many others want it)
        self.call("Performance.enable", timeDomain="threadTicks")

    @contextlib.contextmanager
    def another_page(self) -> Iterator[None]:
        """Drives another page of the same browser, as long as the block goes on."""
        first, self._session = self._session, None
        page = self.call("Target.createTarget", url="about:blank")["targetId"]
        try:
            self._attach(page)
            yield
        finally:
            self._session = None
            self.call("Target.closeTarget", targetId=page)
            self._session = first
            self.call("Page.bringToFront")

    @contextlib.contextmanager
    def saving(self, folder: pathlib.Path) -> Iterator[None]:
        """Saves to a folder what the page offers, as long as the block goes on."""
        session, self._session = self._session, None
        self.call("Browser.setDownloadBehavior", behavior="allow", downloadPath=str(folder))
        self._session = session
        yield

    def __enter__(self) -> "Browser":
        return self

    def __exit__(
        self,
        kind: Optional[Type[BaseException]],
        error: Optional[BaseException],
        trace: Optional[TracebackType],
    ) -> None:
        self.close()

    def close(self) -> None:
        """Ends the browser."""
        os.close(self._lines)
        os.close(self._answers)
        try:
            self._process.wait(5)
        except subprocess.TimeoutExpired:
            self._process.kill()
            self._process.wait()
        self._said.close()
        try:
            self.folder.cleanup()
        except OSError:
            pass  # (processes of the browser may write there while they end)

    def call(self, method: str, **given: Any) -> Message:
        """What the browser answers to a call. Raises `Missing` where it doesn't."""
        self._number += 1
        message: Message = {"id": self._number, "method": method, "params": given}
        if self._session is not None:
            message["sessionId"] = self._session
        try:
            os.write(self._lines, json.dumps(message).encode() + b"\0")
        except OSError:
            raise Missing(self._end("has ended")) from None
        until = time.monotonic() + PATIENCE
        while True:
            answer = self._message(until)
            if answer.get("id") == self._number:
                if "error" in answer:
                    is_gone = answer["error"]["message"] in GONE
                    raise (Gone if is_gone else AssertionError)(f"{method}: {answer['error']}")
                result: Message = answer["result"]
                return result
            self._take(answer)

    def _message(self, until: float) -> Message:
        while b"\0" not in self._read:
            left = max(0.0, until - time.monotonic())
            if not select.select([self._answers], [], [], left)[0]:
                raise Missing(self._end("doesn't answer"))
            more = os.read(self._answers, 1 << 20)
            if not more:
                raise Missing(self._end("has ended"))
            self._read += more
        text, self._read = self._read.split(b"\0", 1)
        message: Message = json.loads(text)
        return message

    def _end(self, how: str) -> str:
        self._said.seek(0)
        said = self._said.read().decode("utf-8", "replace")
        return f"{PROGRAM} {how}; it said: {said[-2000:]}"

    def _take(self, event: Message) -> None:
        """Keeps what an event says of errors and requests."""
        method, given = event.get("method"), event.get("params", {})
        if method == "Runtime.exceptionThrown":
            details = given["exceptionDetails"]
            self.errors.append(details.get("exception", {}).get("description", details["text"]))
        elif method == "Runtime.consoleAPICalled":
            self.errors.append(f"console: {given['args']}")
        elif method == "Log.entryAdded":
            self.errors.append(f"log: {given['entry']['text']}")
        elif method == "Network.requestWillBeSent":
            self.requests.append(given["request"]["url"])

    def open(self, path: pathlib.Path, link: str = "") -> None:
        """Opens a file, and waits until it is there."""
        self.visit(f"{path.resolve().as_uri()}{link}")

    def visit(self, address: str) -> None:
        """Opens an address, and waits until what is there has been loaded."""
        self.call("Page.navigate", url="about:blank")
        self.errors.clear()
        self.requests.clear()
        self.call("Page.navigate", url=address)
        self.value(
            "new Promise((done) => document.readyState === 'complete' ? done()"
            " : addEventListener('load', () => done()))"
        )
        self.settle()

    def value(self, expression: str) -> Any:
        """The value of an expression on the page, or what a promise of it gives."""
        answer = self.call(
            "Runtime.evaluate", expression=expression, returnByValue=True, awaitPromise=True
        )
        if "exceptionDetails" in answer:
            raise AssertionError(f"{expression}: {answer['exceptionDetails']}")
        return answer["result"].get("value")

    def until(self, expression: str, seconds: float = PATIENCE) -> None:
        """Waits until an expression is true on the page, which may be loaded anew meanwhile, and
        what was asked for is shown. Raises `Missing` where it doesn't come."""
        end = time.monotonic() + seconds
        while not self._has_come(expression):
            if time.monotonic() > end:
                raise Missing(f"it doesn't come: {expression}")
            time.sleep(0.02)

    def _has_come(self, expression: str) -> bool:
        """Whether an expression is true; what was asked for is shown then."""
        with contextlib.suppress(Gone):
            if self.value(expression):
                self.settle()
                return True
        return False

    def settle(self) -> None:
        """Waits until what was asked for is shown."""
        picture = "requestAnimationFrame(() => requestAnimationFrame(done))"
        self.value(f"new Promise((done) => {picture})")

    def texts(self, selector: str) -> List[str]:
        """The texts of the elements, as they are shown."""
        found = f"[...document.querySelectorAll({json.dumps(selector)})]"
        texts: List[str] = self.value(f"{found}.map((it) => it.innerText.trim())")
        return texts

    def text(self, selector: str) -> str:
        """The text of the one element."""
        return self.texts(selector)[0]

    def rows(self, selector: str) -> List[List[str]]:
        """The cells of a table's rows that are shown."""
        found = f"[...document.querySelectorAll({json.dumps(selector + ' tbody tr')})]"
        cells = "[...row.cells].map((cell) => cell.textContent)"
        rows: List[List[str]] = self.value(
            f"{found}.filter((row) => !row.hidden).map((row) => {cells})"
        )
        return rows

    def key(self, key: str, shift: bool = False) -> None:
        """Presses a key, by its name or by the letter that it types, and lets it go."""
        place, number, text = KEYS.get(key, ("", 0, key))
        given: Message = {"key": key, "code": place, "windowsVirtualKeyCode": number}
        given.update({"modifiers": SHIFT} if shift else {})
        pressed = {"type": "keyDown", "text": text} if text else {"type": "rawKeyDown"}
        self.call("Input.dispatchKeyEvent", **given, **pressed)
        self.call("Input.dispatchKeyEvent", **given, type="keyUp")
        self.settle()

    def type(self, text: str) -> None:
        """Types letters."""
        for letter in text:
            self.key(letter)

    def middle(self, selector: str) -> Tuple[float, float]:
        """Where the middle of an element is, once it is in sight."""
        element = f"document.querySelector({json.dumps(selector)})"
        self.value(f"{element}.scrollIntoView({{block: 'nearest'}})")
        box = self.value(f"{element}.getBoundingClientRect().toJSON()")
        return box["x"] + box["width"] / 2, box["y"] + box["height"] / 2

    def click(self, x: float, y: float) -> None:
        """Clicks there."""
        at: Message = {"x": x, "y": y, "button": "left", "clickCount": 1}
        for kind in ("mousePressed", "mouseReleased"):
            self.call("Input.dispatchMouseEvent", type=kind, **at)
        self.settle()

    def drag(self, begin: Tuple[float, float], end: Tuple[float, float]) -> None:
        """Presses a button at a point, and lets it go at another."""
        points = (("mousePressed", begin), ("mouseMoved", end), ("mouseReleased", end))
        for kind, (x, y) in points:
            at: Message = {"x": x, "y": y, "button": "left", "buttons": 1, "clickCount": 1}
            self.call("Input.dispatchMouseEvent", type=kind, **at)
        self.settle()

    def wheel(self, x: float, y: float, delta: float) -> None:
        """Turns the wheel there."""
        at: Message = {"x": x, "y": y, "deltaX": 0, "deltaY": delta}
        self.call("Input.dispatchMouseEvent", type="mouseWheel", **at)
        self.settle()

    def size(self, width: int, height: int) -> None:
        """Gives the window a size."""
        self.call(
            "Emulation.setDeviceMetricsOverride",
            width=width,
            height=height,
            deviceScaleFactor=1,
            mobile=False,
        )

    def scheme(self, name: str) -> None:
        """Prefers `light` or `dark`."""
        features = [{"name": "prefers-color-scheme", "value": name}]
        self.call("Emulation.setEmulatedMedia", features=features)
        self.settle()

    def picture(self, path: pathlib.Path) -> None:
        """Writes a picture of what is in sight, as a PNG file."""
        path.write_bytes(base64.b64decode(self.call("Page.captureScreenshot")["data"]))

    def busy(self) -> float:
        """How many seconds a processor has worked for the page until now."""
        metrics = self.call("Performance.getMetrics")["metrics"]
        found: float = next(it["value"] for it in metrics if it["name"] == "TaskDuration")
        return found
