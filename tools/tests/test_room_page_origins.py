"""Pages of other origins, in the same browser: the room's page and its lines aren't for them."""
import contextlib
import http.server
import json
import threading
import unittest
from typing import Any, Dict, Iterator

from rdbg.client import LOCAL
from tests.web_rooms import OnPage, session, traded, web_room

TRIES = """<!DOCTYPE html>
<title>other</title>
<body>
<script>
const { address, key, token } = KNOWN;
const way = `${address}${token}/`;
const body = JSON.stringify({ page: "x", line: "step 0", key });
const headers = { "Content-Type": "application/json" };
const isThere = (it) => it || Promise.reject(it);
const tries = {
  read: () => fetch(address).then((it) => it.text()),
  blind: () => fetch(address, { mode: "no-cors" }).then((it) => it.text()).then(isThere),
  room: () => fetch(`${way}room`).then((it) => it.text()),
  key: () => fetch(`${address}in`, { method: "POST", body, headers }),
  line: () => fetch(`${way}line`, { method: "POST", body, headers }),
  plain: () => fetch(`${way}line`, { method: "POST", body, mode: "no-cors" })
    .then((it) => isThere(it.ok)),
  events: () => new Promise((done, fail) => {
    const events = new EventSource(`${way}events`);
    events.addEventListener("you", done);
    events.onerror = fail;
  }),
  frame: () => new Promise((done, fail) => {
    const frame = document.createElement("iframe");
    frame.onload = () => setTimeout(() => {
      try {
        isThere(frame.contentDocument.title.includes("room")).then(done, fail);
      } catch (error) {
        fail(error);
      }
    }, 300);
    frame.src = `${address}#${key}`;
    document.body.append(frame);
  }),
  // (what the room's page keeps, it keeps for itself)
  kept: () => {
    const found = localStorage.getItem("way") ?? sessionStorage.getItem("way") ?? document.cookie;
    return Promise.resolve(found).then(isThere);
  },
};
const tried = ([name, act]) => act().then(() => `${name} let in`, () => `${name} refused`);
window.results = Promise.all(Object.entries(tries).map(tried));
</script>
"""
NAMES = ("read", "blind", "room", "key", "line", "plain", "events", "frame", "kept")


class Other(http.server.BaseHTTPRequestHandler):
    """Serves the page of another origin, which knows all that lets somebody in."""

    known: Dict[str, str] = {}

    def do_GET(self) -> None:
        """Answers the page."""
        self.send_response(200)
        self.send_header("Content-Type", "text/html")
        self.end_headers()
        self.wfile.write(TRIES.replace("KNOWN", json.dumps(self.known)).encode())

    def log_message(self, format: str, *args: Any) -> None:
        """Says nothing."""


@contextlib.contextmanager
def other(**known: str) -> Iterator[str]:
    """The address of a page that knows all this of a room."""
    Other.known = known
    server = http.server.ThreadingHTTPServer((LOCAL, 0), Other)
    thread = threading.Thread(target=server.serve_forever, daemon=True)
    thread.start()
    try:
        yield f"http://{LOCAL}:{server.server_address[1]}/"
    finally:
        server.shutdown()
        server.server_close()
        thread.join()


class Origins(OnPage):
    """Pages that come from elsewhere, even where they know all that lets somebody in."""

    def test_another_origin_is_refused(self) -> None:
        self.spares_errors = True  # (the browser tells each refusal)
        with web_room() as room, session(room, "left") as left:
            self.visit(room, "ada")
            token = self.value("sessionStorage.getItem('way')").strip("/")
            address = room.address
            key = address.split("#")[1]
            for known in ({"key": key, "token": token}, {"key": "x", "token": "x"}):
                with other(address=room.said, **known) as elsewhere:
                    self.browser.visit(elsewhere)
                    results = self.value("window.results")
                self.assertEqual([f"{name} refused" for name in NAMES], results)
            self.assertEqual("moves 0 undone 0 kept 0", left.tell("show moves"))
            self.assertEqual("ok at 1", left.tell("tick"))
            # (nor did it use the key up)
            self.assertEqual((address, token), (room.address, traded(address)))

    def test_the_page_fetches_nothing_from_elsewhere(self) -> None:
        with web_room() as room, session(room, "left") as left:
            self.visit(room)
            left.tell("forward 5")
            self.at(5)
            for address in self.browser.requests:
                self.assertTrue(address.startswith(room.said), address)
            with other() as elsewhere:
                blocked = self.value(f"fetch('{elsewhere}').then(() => 'let out', () => 'kept in')")
            self.assertEqual("kept in", blocked)
            self.browser.errors.clear()


if __name__ == "__main__":
    unittest.main()
