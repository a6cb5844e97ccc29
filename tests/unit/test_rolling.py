"""Tests the windows of a run that several servers follow, without a server: tests/rolling has the others."""
import contextlib
import io
import os
import tempfile
import unittest
from unittest import mock

from goodlock import rolling
from goodlock.commands.with_server import read_args
from goodlock.reports import Cycle, Member, Verdict
from goodlock.rolling import ENDED, LEFT_OUT, OPEN, SETTLING, Roller, Window, key_of, read_announcement


def cycle(verdict: Verdict, first: int = 0) -> Cycle:
    """A cycle of the first thread, under one of its two numbers, and thread 1."""
    return Cycle((0, 1), verdict, [Member(first, 20, (10,)), Member(1, 10, (20, 30))])


class Windows(unittest.TestCase):
    def setUp(self) -> None:
        folder = tempfile.TemporaryDirectory()
        self.addCleanup(folder.cleanup)
        self.roller = Roller(folder.name, 2, 2, 60)

    def add(self, number: int, **fields: object) -> Window:
        window = Window(number, 0, 2, ENDED)
        for name, value in fields.items():
            setattr(window, name, value)
        self.roller.windows.append(window)
        return window

    def numbers(self) -> list[int]:
        return [window.number for window in self.roller.windows]

    def test_ranges_of_windows_that_are_left_out(self) -> None:
        for number in (2, 3, 5, 7, 8, 9):
            self.roller.note_left_out(number)
        self.assertEqual(self.roller.left_out, [[2, 3], [5, 5], [7, 9]])

    def test_most_ranges(self) -> None:
        for at in range(rolling.MOST_RANGES + 1):
            self.roller.note_left_out(2 * at)
            self.assertEqual(len(self.roller.left_out), min(at + 1, 64))
        self.assertEqual(self.roller.left_out[0], [2, 2])

    def test_windows_without_a_server(self) -> None:
        for _ in range(3):
            window = self.roller.begin_window(7, None)
        self.assertEqual((window.number, window.state, window.events, window.first), (3, LEFT_OUT, None, 7))
        self.assertEqual((self.roller.left_out, self.roller.count_left_out), ([[1, 3]], 3))

    def test_the_last_windows_are_listed(self) -> None:
        for number in range(1, 18):
            self.add(number, events=100)
        self.add(18, state=OPEN)
        self.roller.forget()
        self.assertEqual((self.numbers(), self.roller.past_events), (list(range(2, 19)), 100))

    def test_windows_with_a_cycle_are_listed(self) -> None:
        for number in range(1, 259):
            self.add(number, new=1)
        for number in range(259, 276):
            self.add(number)
        self.roller.forget()
        self.assertEqual(self.numbers(), [*range(1, 257), *range(260, 276)])

    def test_reports_of_forgotten_windows_are_removed(self) -> None:
        for number in range(1, 18):
            path = os.path.join(self.roller.folder, f"{number}.report")
            open(path, "w").close()
            self.add(number, report=path)
        self.roller.forget()
        self.assertEqual(len(os.listdir(self.roller.folder)), 16)

    def test_a_cycle_is_new_once(self) -> None:
        first, second, third = (self.add(number) for number in range(3))
        self.roller.note_cycle(first, cycle(Verdict.POTENTIAL))
        self.roller.note_cycle(second, cycle(Verdict.POTENTIAL, 1_000_000_000))
        self.roller.note_cycle(second, cycle(Verdict.CONFIRMED, 1_000_000_000))
        for verdict in (Verdict.CONFIRMED, Verdict.POTENTIAL):
            self.roller.note_cycle(third, cycle(verdict))
        self.assertEqual([first.new, second.new, third.new], [1, 1, 0])
        totals = self.roller.state()["totals"]
        self.assertEqual(totals, {"windows": 0, "events": 0, "confirmed": 1, "potential": 0, "left_out": 0})

    def test_other_cycles_are_new(self) -> None:
        members = [Member(0, 20, (10,)), Member(1, 10, (20, 30))]
        keys = {key_of(Cycle((0, 1), Verdict.CONFIRMED, [members[0], other]))
                for other in (members[1], Member(2, 10, (20, 30)), Member(1, 11, (20, 30)), Member(1, 10, (20,)))}
        self.assertEqual(len(keys), 4)
        self.assertEqual(key_of(Cycle((0, 1), Verdict.CONFIRMED, members)), key_of(Cycle((1, 0), Verdict.CONFIRMED, members[::-1])))

    def test_most_known_cycles(self) -> None:
        window = self.add(1)
        with mock.patch.object(rolling, "MOST_KNOWN", 1):
            self.roller.note_cycle(window, cycle(Verdict.POTENTIAL))
            self.roller.note_cycle(window, Cycle((0, 1), Verdict.POTENTIAL, [Member(5, 6, (7,)), Member(8, 7, (6,))]))
            self.roller.note_cycle(window, cycle(Verdict.CONFIRMED))
        self.assertEqual((window.new, len(self.roller.known)), (2, 1))

    def test_an_open_window_settles(self) -> None:
        window = self.add(1, state=OPEN)
        self.roller.close_open()
        self.assertEqual(window.state, SETTLING)


class Lines(unittest.TestCase):
    def test_announcements(self) -> None:
        self.assertEqual(read_announcement("window 2 first 101 trace traces/a b.2.trace"), (101, "traces/a b.2.trace"))
        self.assertEqual(read_announcement("window 1 first 0 trace "), (0, ""))
        for line in ("", "window 1", "window 1 first x trace y", "windows 1 first 0 trace y", "window 1 first 0"):
            with self.assertRaises(ValueError, msg=line):
                read_announcement(line)

    def test_options(self) -> None:
        for words, values, command in ((["true", "--bound", "9"], (None, 2, 2, 60), ["true", "--bound", "9"]),
                                       (["--roll=d", "--bound", "8", "--every=1", "--settle", "86400", "--", "--x"], ("d", 8, 1, 86400), ["--x"])):
            args = read_args(words)
            self.assertEqual((args.roll, args.bound, args.every, args.settle), values)
            self.assertEqual(args.command, command)

    def test_wrong_options(self) -> None:
        for words, text in ((["--roll"], "argument --roll: expected one argument"), (["--rolls", "d", "x"], "unrecognized arguments: --rolls"),
                            (["--roll", "d"], "there is no command"), (["--roll=d", "--bound=1", "x"], "argument --bound: not 2 to 8"),
                            (["--roll=d", "--bound=9", "x"], "argument --bound: not 2 to 8"), (["--roll=d", "--every=0", "x"], "argument --every: not 1 to 3,600"),
                            (["--roll=d", "--every=3601", "x"], "argument --every: not 1 to 3,600"), (["--bound=3", "x"], "--bound needs --roll"),
                            (["--roll=d", "--settle=0", "x"], "argument --settle: not 1 to 86,400"), (["--roll=d", "--every=1.5", "x"], "argument --every: .*"),
                            (["--roll=d", "--settle=86401", "x"], "argument --settle: not 1 to 86,400")):
            errors = io.StringIO()
            with self.subTest(words=words), contextlib.redirect_stderr(errors), self.assertRaises(SystemExit) as ended:
                read_args(words)
            self.assertEqual(ended.exception.code, 2)
            self.assertRegex(errors.getvalue(), f"^with_server: {text}; --help explains the options\n$")


if __name__ == "__main__":
    unittest.main()
