"""Pages of long runs, and of many tasks: they are there, and are moved about in, without lag."""
import json
import unittest

from tests.long_runs import RUNS, opened, written
from tests.page_shown import LOST, Shown
from tests.pages import Asked, page_of

LONG = 20_000
# How many seconds of a processor the page of a long run may take to be there, and for a step.
OPENED, STEPPED = 1.0, 0.1


class Long(Shown):
    """Much to show."""

    def test_many_tasks(self) -> None:
        tasks = [
            {
                "name": f"task_{number}",
                "priority": number % 4,
                "code": [f"send q{number % 8} 2", "add r1 1", f"recv q{number % 7} 3", "jump 0"],
            }
            for number in range(32)
        ]
        queues = [{"name": f"q{number}", "length": 2, "item": 1} for number in range(8)]
        path = self.folder / "many.json"
        path.write_text(json.dumps({"profile": 1, "cores": 8, "queues": queues, "tasks": tasks}))
        self.show(["forward 60"], application=path, link="#60")
        self.assertEqual(32, len(self.browser.rows("#tasks")))
        self.assertEqual(Asked(path).behind(["forward 60"]), self.reader.answers())
        drawn = self.reader.picture()
        self.browser.value("document.querySelector('#lanes').scrollTop = 400")
        self.browser.settle()
        self.assertNotEqual(drawn, self.reader.picture())
        self.browser.value("document.querySelector('#lanes').focus()")
        here = self.browser.value("document.querySelector('#lanes').scrollTop")
        self.browser.key("ArrowUp")
        self.browser.value("new Promise((done) => setTimeout(done, 400))")
        self.assertLess(self.browser.value("document.querySelector('#lanes').scrollTop"), here)

    def test_it_is_made_and_there_within_bounds(self) -> None:
        # (a quarter of each run, in a quarter of its time; and in seconds of processors, since of
        # those by the clock a busy machine takes more)
        for whole in RUNS:
            run = whole._replace(moves=whole.moves // 4, seconds=whole.seconds / 4)
            with self.subTest(run.name):
                page, took = written(self.folder, run)
                self.assertLess(took.work, run.seconds)
                self.assertLess(page.stat().st_size, 1_500_000)
                self.assertLess(opened(self.browser, page).work, OPENED)
                self.browser.key("End")
                self.assertEqual(run.moves, self.reader.place())

    def test_a_long_run(self) -> None:
        page = page_of(self.folder, LOST, [f"forward {LONG}"])
        self.assertLess(page.stat().st_size, 2_000_000)
        took = opened(self.browser, page)
        self.browser.key("End")
        self.assertEqual(LONG, self.reader.place())
        self.assertEqual(["forward 20000"], self.reader.lines())
        for key in ("ArrowLeft", "PageUp", "0", "ArrowLeft"):
            self.browser.key(key)
            before = self.browser.busy()
            for _ in range(10):
                self.browser.key("ArrowLeft")
            self.assertLess((self.browser.busy() - before) / 10, STEPPED, key)
        self.assertLess(took.work, OPENED)
        here = self.reader.place()
        self.assertEqual(Asked(LOST).behind([f"forward {here}"]), self.reader.answers())


if __name__ == "__main__":
    unittest.main()
