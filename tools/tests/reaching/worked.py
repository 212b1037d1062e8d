"""How many places examples have, and how many moves lead from one to another: of moves of cores and
of ticks alone, the boot included."""
from typing import Dict, Tuple

# By the laws of the turn and of the clock.
WORKED: Dict[str, Tuple[int, int]] = {
    "meeting_mended": (82, 218),
    "meeting": (200, 516),
    "lost_item": (176, 504),
    "uart": (5_000, 15_000),
    "waiting_order": (1_298, 3_682),
    "early_count": (124, 316),
    "stale": (244, 638),
    "lost_wakeup": (101_620, 430_920),
}
# By these and by that of what is counted and nobody reads: of all but the first there is no end
# without it.
UNREAD: Dict[str, Tuple[int, int]] = {
    "uart": (4_232, 12_696),
    "delay": (6, 10),
    "mutex": (63, 124),
    "turns": (8, 16),
    "sampler": (15, 30),
}
