"""A room's port: sockets as nc opens them, and who has the wheel."""
import unittest

from tests.rooms import Caller, room


class Callers(unittest.TestCase):
    """Connections as nc has them."""

    def test_replies_and_notices(self) -> None:
        with room() as here, Caller(here.port, "left") as left, Caller(here.port, "right") as right:
            self.assertEqual(left.expect("# right"), "# right joined, session 2")
            self.assertEqual(right.ask("step 1"), "ok at 1")
            self.assertEqual(left.expect("#"), "# right: step 1 -> ok at 1, producer 0 data 41")
            left.send("forward 2")
            told = [left.expect("") for _ in range(4)]
            self.assertEqual(told[0], "# left: forward 2 -> ok at 3")
            self.assertRegex(told[1], "^# 2  tick 1, poller took core 1 in turn")
            self.assertRegex(told[2], "^# 3  core 0  worker 0 recv jobs max, left core 0")
            self.assertEqual(told[3], "ok at 3")
            self.assertEqual(right.expect("# 2")[:3], "# 2")
            self.assertEqual(left.ask("show moves"), "moves 3 undone 0 kept 3")

    def test_a_guest_is_told_once_it_says_something(self) -> None:
        with room() as here, Caller(here.port, "left") as left, Caller(here.port) as guest:
            self.assertEqual(guest.expect("#"), "# you are guest1, session 2; here: left")
            self.assertEqual(guest.ask("tick"), "ok at 1")
            self.assertEqual(left.expect("#"), "# guest1 joined, session 2")
            self.assertEqual(left.expect("#")[:38], "# guest1: tick -> ok at 1, tick 1, pol")

    def test_one_that_says_nothing_is_told_after_a_moment(self) -> None:
        with room() as here, Caller(here.port, "left") as left, Caller(here.port):
            self.assertEqual(left.expect("#"), "# guest1 joined, session 2")

    def test_remarks(self) -> None:
        with room() as here, Caller(here.port, "left") as left, Caller(here.port, "right") as right:
            left.send("# who", "# say see you", "# wheel", "# name right", "# what", "wheel take")
            left.expect("# here: left (session 1), right (session 2)")
            left.expect("# left says: see you")
            left.expect("# no: the wheel is free")
            left.expect("# no: right is already here")
            left.expect("# no: unknown request; a line that begins with # is `# name NAME`, ")
            right.expect("# left says: see you")
            right.expect("# left: wheel take -> ok wheel")
            right.send("# who")
            right.expect("# here: left (session 1, has the wheel), right (session 2)")

    def test_a_line_without_its_end_is_one(self) -> None:
        with room() as here, Caller(here.port, "left") as left:
            left.connection.sendall(b"tick\r\n\nshow moves")
            left.connection.shutdown(1)
            replies = [line for line in left.rest() if line[0] != "#"]
            self.assertEqual(replies, ["ok at 1", "no Syntax", "moves 1 undone 0 kept 1"])


class Wheel(unittest.TestCase):
    """Who has the wheel, who is refused it, and who is away with it."""

    def test_each_refusal_is_told_to_who_asked(self) -> None:
        with room() as here, Caller(here.port, "left") as left, Caller(here.port, "right") as right:
            left.ask("wheel take")
            for line in ("step 0", "wheel take", "trim 0", "poke reg worker 0 1", "back 1"):
                right.send(line)
                right.expect("# left has the wheel: '# wheel' asks for it")
                right.expect("no Held 1")
            right.send("# wheel")
            right.expect("# right asks for the wheel")
            left.expect("# right asks for the wheel")
            left.ask("wheel give")
            self.assertEqual(right.ask("wheel take"), "ok wheel")

    def test_a_wheel_whose_holder_is_away(self) -> None:
        with room() as here, Caller(here.port, "right") as right:
            with Caller(here.port, "left") as left:
                left.ask("wheel take")
            right.expect("# left is away and still has the wheel")
            right.send("step 0")
            right.expect("# left has the wheel and is away: ")
            right.expect("no Held 2")
            right.send("# wheel")
            right.expect("# left is away: send `# wheel` again to free the wheel")
            right.send("# wheel")
            right.expect("# right freed the wheel: left is away")
            self.assertEqual(right.ask("step 0"), "ok at 1")

    def test_a_lost_terminal_has_its_wheel_again(self) -> None:
        with room() as here, Caller(here.port, "right") as right:
            with Caller(here.port, "left") as left:
                left.ask("wheel take")
                left.ask("watch count jobs > 0")
                left.connection.sendall(b"step 1\nstep")
            right.expect("# left is away and still has the wheel")
            with Caller(here.port, "left") as left:
                right.expect("# left joined, session 2")
                self.assertEqual(left.ask("show watches"), "watches 0:fails")
                self.assertEqual(left.ask("step 1"), "ok at 2")


if __name__ == "__main__":
    unittest.main()
