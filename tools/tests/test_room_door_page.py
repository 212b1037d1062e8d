"""A page of another origin, in the engineer's own browser, at the port for lines of a room."""
import contextlib
import http.server
import json
import threading
import unittest
from typing import Any, Iterator

from rdbg.client import LOCAL
from tests.browsing import Browsing
from tests.rooms import Caller, room, rows, talk

TIMES = 20
TRIES = """<!DOCTYPE html>
<title>other</title>
<body>
<form id="form" method="post" enctype="text/plain" target="frame"><textarea name="a"></textarea></form>
<iframe name="frame"></iframe>
<script>
const address = ADDRESS;
const body = "\\ntick\\nforward 3\\nwheel take\\n# say hello\\n";
const again = (count, act) => Array.from({ length: count }, act);
const form = document.getElementById("form");
form.action = address;
form.a.value = body;
const tries = [
  ...again(TIMES, () => fetch(address, { method: "POST", body, mode: "no-cors" })),
  ...again(TIMES, () => fetch(address, { method: "POST", body })),
  ...again(TIMES, () => fetch(address, { mode: "no-cors" })),
  ...again(TIMES, () => new Promise((done) => {
    const socket = new WebSocket(address.replace("http", "ws"));
    socket.onclose = done;
  })),
  ...again(TIMES, () => fetch(address.replace("http", "https"), { mode: "no-cors" })),
];
form.submit();
window.results = Promise.allSettled(tries).then((all) => all.length);
</script>
"""


class Other(http.server.BaseHTTPRequestHandler):
    """Serves the page of another origin, which knows an address."""

    address = ""

    def do_GET(self) -> None:
        """Answers the page."""
        self.send_response(200)
        self.send_header("Content-Type", "text/html")
        self.end_headers()
        text = TRIES.replace("ADDRESS", json.dumps(self.address)).replace("TIMES", str(TIMES))
        self.wfile.write(text.encode())

    def log_message(self, format: str, *args: Any) -> None:
        """Says nothing."""


@contextlib.contextmanager
def other(address: str) -> Iterator[str]:
    """The address of a page that knows another one."""
    Other.address = address
    server = http.server.ThreadingHTTPServer((LOCAL, 0), Other)
    thread = threading.Thread(target=server.serve_forever, daemon=True)
    thread.start()
    try:
        yield f"http://{LOCAL}:{server.server_address[1]}/"
    finally:
        server.shutdown()
        server.server_close()
        thread.join()


class Lines(Browsing):
    """What a page sends, by all ways that it has."""

    def test_nothing_is_done_of_it(self) -> None:
        with talk() as file, room("--talk", str(file)) as here, Caller(here.port, "left") as left:
            with other(f"http://{LOCAL}:{here.port}/") as elsewhere:
                self.browser.visit(elsewhere)
                self.assertEqual(self.browser.value("window.results"), 5 * TIMES)
            self.browser.visit("about:blank")
            self.assertEqual(left.ask("show moves"), "moves 0 undone 0 kept 0")
            self.assertEqual(left.ask("show wheel"), "wheel -")
            self.assertEqual(left.ask("tick"), "ok at 1")
            here.end()
            kept = [row for row in rows(file) if row[0] not in ("room", "left")]
            self.assertEqual([row for row in kept if row[1] != "#"], [])


if __name__ == "__main__":
    unittest.main()
