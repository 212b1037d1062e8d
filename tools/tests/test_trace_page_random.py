"""Pages of random applications say at each place what rdbg says there."""
import json
import random
import unittest

from rdbg.client import Session
from tests.made import Maker
from tests.page_shown import Shown

SEEDS = range(8)


class Applications(Shown):
    """Applications with objects of all kinds."""

    def test_random_applications(self) -> None:
        path = self.folder / "application.json"
        count = 0
        for seed in SEEDS:
            application = Maker(seed).application()
            path.write_text(json.dumps(application))
            dice = random.Random(seed)
            task = application["tasks"][0]["name"]
            steps = [f"step {dice.randrange(application['cores'])}" for _ in range(9)]
            lines = [*steps, "tick", f"poke reg {task} 1 9", "forward 4"]
            with Session.run(str(path)) as session:
                answers = session.tell_all(lines)
                lines = [it for it, said in zip(lines, answers) if not said.startswith("no ")]
            with self.subTest(seed):
                self.show(lines, application=path)
                count += self.check_places(path, lines, 0, 4)
        self.assertGreater(count, 40)


if __name__ == "__main__":
    unittest.main()
