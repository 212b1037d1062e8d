"""A long run is looked at in pieces, by programs that are kept from one piece to the next."""
import unittest
from typing import List, Tuple
from unittest import mock

from rdbg.driving.target import Limits, Target
from rdbg.files.source import Source, load
from rdbg.tracing import run as runs
from rdbg.driving.parts import Part
from rdbg.tracing.run import Line, Run, parts, plan
from tests.paths import EXAMPLES

TURNS, LOST = (load(str(EXAMPLES / f"{name}.json")) for name in ("turns", "lost_item"))
SMALL = 8
# Moves that are taken back, edits and trims, each of which begins pieces of its own.
LINES = (
    *["forward 30", "back 12", "poke reg poller 3 7", "forward 9", "trim 5", "step 1", "tick"],
    *["trim 0", "forward 25", "back 3", "redo 2", "trim 40", "forward 1", "show cores"],
)


def run_of(source: Source, lines: Tuple[str, ...], limits: Limits = Limits()) -> Run:
    """A run of these lines."""
    return Run(source, tuple(Line(at, text) for at, text in enumerate(lines, 1)), limits)


class Pieces(unittest.TestCase):
    """What is looked at, and by how many programs."""

    def looked(self, run: Run, most: int, workers: int = 1) -> Tuple[List[Part], int, int]:
        """The parts of a run in pieces of so many moves at the most, how many programs were begun
        to look at them, and how many pieces there were."""
        begin, begun = Run.begin, []

        def counted(run: Run) -> Target:
            begun.append(begin(run))
            return begun[-1]

        with mock.patch.object(runs, "MOST_MOVES", most):
            pieces = plan(run).pieces
            with mock.patch.object(Run, "begin", counted):
                return list(parts(run, pieces, workers)), len(begun), len(pieces)

    def test_a_program_is_kept(self) -> None:
        # (5,000 lines are told once, and not once for each of the 625 pieces)
        run = run_of(TURNS, ("tick",) * 5_000)
        found, begun, count = self.looked(run, SMALL)
        self.assertEqual((1, 625), (begun, count))
        self.assertEqual(list(range(1, 5_001)), [it.place for part in found for it in part.moves])

    def test_pieces_are_as_whole_runs(self) -> None:
        run = run_of(LOST, LINES)
        whole, _, count = self.looked(run, 4_096)
        self.assertEqual(3, count)  # (up to each place before which a trim gave up the records)
        for workers in (1, 3):
            small, begun, count = self.looked(run, SMALL, workers)
            self.assertEqual((workers == 1, 8), (begun == 1, count))
            for name in ("moves", "looks"):
                self.assertEqual(
                    [it for part in whole for it in getattr(part, name)],
                    [it for part in small for it in getattr(part, name)],
                )

    def test_a_program_without_room_is_replaced(self) -> None:
        # (A look at the lost item takes 5 lines and the move 1, so 76 moves some 460 places; of the
        # 2,000 places a thousand are kept, so two pieces have room, and the next two in another.)
        run = run_of(LOST, ("forward 300",), Limits(300, 1_000 + 1_000))
        found, begun, count = self.looked(run, 100)
        self.assertEqual((2, 4), (begun, count))
        self.assertEqual(list(range(1, 301)), [it.place for part in found for it in part.moves])


if __name__ == "__main__":
    unittest.main()
