"""The key of the address of a room's page: requests as bytes, without a browser."""
import concurrent.futures
import contextlib
import errno
import json
import os
import threading
import time
import unittest
from typing import Dict, List, Optional

from tests.test_room_web import got, served, status, traded


class Keys(unittest.TestCase):
    """The key of an address, which is good once."""

    def setUp(self) -> None:
        stack = contextlib.ExitStack()
        self.addCleanup(stack.close)
        self.here = stack.enter_context(served(4))
        self.said: List[str] = []
        self.here.key.say = lambda: self.said.append(self.here.address)

    def trade(self, key: str) -> Optional[str]:
        """What is given for a key; none where nobody is let in."""
        answer = traded(self.here, key)
        if status(answer) == 403:
            self.assertNotIn(self.here.token.encode(), answer)
            return None
        self.assertEqual(200, status(answer))
        values: Dict[str, str] = json.loads(answer.split(b"\r\n\r\n", 1)[1])
        return values["token"]

    def test_it_is_traded_once_and_another_one_is_said(self) -> None:
        keys = [self.here.key.text]
        for count in range(1, 4):
            self.assertEqual(self.here.token, self.trade(keys[-1]))
            self.assertEqual(count, len(self.said))
            keys.append(self.said[-1].split("#")[1])
            for used in keys[:-1]:
                self.assertIsNone(self.trade(used))
        self.assertEqual((4, 3), (len(set(keys)), len(self.said)))
        self.assertEqual({len(keys[0])}, {len(it) for it in keys})
        self.assertNotIn(self.here.token, keys)

    def test_others_are_refused_and_use_nothing_up(self) -> None:
        key = self.here.key.text
        for other in ("", "x", key[:-1], f"{key}x", key[::-1], "\u20ac", self.here.token):
            self.assertIsNone(self.trade(other), other)
        for path in ("/", f"/{key}", f"/{key}/", f"/{key}/room", f"/in?{key}"):
            got(self.here, path)
        self.assertEqual(([], key), (self.said, self.here.key.text))
        self.assertEqual(self.here.token, self.trade(key))

    def test_of_many_who_have_it_one_comes_in(self) -> None:
        key = self.here.key.text
        with concurrent.futures.ThreadPoolExecutor(12) as pool:
            given = list(pool.map(self.trade, [key] * 12))
        self.assertEqual([self.here.token], [it for it in given if it])
        self.assertEqual(1, len(self.said))

    def test_it_stays_good_where_the_next_one_cannot_be_said(self) -> None:
        def full() -> None:
            raise OSError(errno.ENOSPC, os.strerror(errno.ENOSPC))

        key, self.here.key.say = self.here.key.text, full
        answer = traded(self.here, key)
        self.assertEqual(503, status(answer))
        self.assertIn(b"cannot print its next address: No space left on device", answer)
        self.assertNotIn(self.here.token.encode(), answer)
        self.here.key.say = lambda: None
        self.assertEqual(self.here.token, self.trade(key))

    def test_who_has_a_wrong_one_waits_for_nobody(self) -> None:
        goes_on = threading.Event()
        self.addCleanup(goes_on.set)
        key, self.here.key.say = self.here.key.text, lambda: None if goes_on.wait() else None
        with concurrent.futures.ThreadPoolExecutor(1) as pool:
            first = pool.submit(self.trade, key)
            began = time.monotonic()
            self.assertIsNone(self.trade("x"))
            self.assertIn(b" 200 ", got(self.here, "/"))
            self.assertLess(time.monotonic() - began, 5.0)
            goes_on.set()
            self.assertEqual(self.here.token, first.result())


if __name__ == "__main__":
    unittest.main()
