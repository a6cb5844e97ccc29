"""Tests the events that from_std makes of a foreign trace."""
import io
import os
import unittest

from goodlock.commands import from_std
from goodlock.conversion import Conversion, converted
from goodlock.errors import InputError
from goodlock.limits import MOST_HELD_OF_RUN
from goodlock.traces import one_line
from written import InFolder, ends

BANK = """T0|fork(T1)|Bank.java:3
T0|fork(T2)|Bank.java:4
T1|acq(L1)|Bank.java:34
T1|req(L2)|Bank.java:35
T1|acq(L2)|Bank.java:35
T1|rel(L2)|Bank.java:36
T1|rel(L1)|Bank.java:37
T2|acq(L2)|Bank.java:54
T2|acq(L1)|Bank.java:55
T3|acq(L1)|Bank.java:80
T3|rel(L1)|Bank.java:81
T2|w(Bank.total[0])|56
T2|rel(L1)|
T2|rel(L2)|Bank.java:58
T3|r(Bank.total[0])|82
T0|fork(T3)|5
T0|join(T1)|Bank.java:6
T1|acq(L1)|Bank.java:34
"""


class Converts(InFolder):
    def convert(self, text: str) -> list[str]:
        """Converts a text to `out.trace`, and returns what the tool prints about it."""
        converter = from_std.Converter(self.write("in", text))
        conversion = converted("out.trace", converter.convert)
        return [*conversion.lines(), *converter.lines()]

    def events(self, name: str = "out.trace") -> str:
        return " ".join(line for line in self.read(name).splitlines() if not line.startswith("#"))

    def check_fault(self, text: str, message: str) -> None:
        with self.subTest(text=text[:60]), ends():
            with self.assertRaisesRegex(InputError, f"^in:{message}$"):
                self.convert(text)
            self.assertEqual(os.listdir(), ["in"])


class FromStd(Converts):
    def test_bank(self) -> None:
        printed = self.convert(BANK)
        self.assertEqual(self.events(), "0f1 1f2 1f3 2a1 2a2 2r2 2r1 3a2 3a1 3w1 3r1 3r2 0f4 4d1 1j2")
        self.assertEqual(printed, ["dropped, not lawful: HeldByOther 1, NotHeld 1, AlreadyForked 1, Ended 1", "left out: request 1"])
        for line in ["# thread 2 is T1", "# lock 1 is L1", "# at Bank.java:35"]:
            self.assertIn(line, self.read("out.trace").splitlines())

    def test_lines(self) -> None:
        """Each event has its line, where it is not the one after that of the event before. The fork of T0 is made of line 1, too."""
        self.convert(BANK)
        lines = [line for line in self.read("out.trace").splitlines() if line.startswith("# line") or not line.startswith("#")]
        self.assertEqual(lines, ["# line 1 of in", "0f1", "# line 1 of in", "1f2", "1f3", "2a1", "# line 5 of in", "2a2", "2r2", "2r1", "3a2",
                                 "3a1", "# line 12 of in", "3w1", "3r1", "3r2", "0f4", "# line 15 of in", "4d1",
                                 "# line 17 of in", "1j2"])

    def test_many_held_locks(self) -> None:
        """More locks may be held than in a trace."""
        acquires = [f"T1|acq(L{number})|{number}\n" for number in range(MOST_HELD_OF_RUN + 1)]
        self.assertEqual(self.convert("".join(acquires[:-1])), [])
        self.assertEqual(self.convert("".join(acquires)), ["dropped, not lawful: TooDeep 1"])

    def test_odd_names(self) -> None:
        text = "T1|acq(operator()(int))|ä b.cc:3\n\n# note\nT1|rel(operator()(int))\nmain thread | begin | x\n"
        printed = self.convert(text)
        self.assertEqual(self.events(), "0f1 1a1 1r1")
        self.assertIn("# at ä b.cc:3\n0f1\n# lock 1 is operator()(int)\n# line 1 of in\n1a1\n", self.read("out.trace"))
        self.assertEqual(printed, ["left out: begin 1"])

    def test_faults(self) -> None:
        form = r"it is not THREAD\|OPERATION\(TARGET\)\|LOCATION"
        for text, message in [
            ("T1|acq(L1)|1\nT1 acq L1\n", f"2: T1 acq L1: {form}"), ("T1|lock(L1)|1\n", r"1: T1\|lock\(L1\)\|1: there is no operation lock"),
            ("T1|acq|1\n", r"1: T1\|acq\|1: acq has no target"), ("|acq(L)|1\n", f"1: .*: {form}"), ("T1|acq(L|1\n", f"1: .*: {form}"),
            ("T1|a q(L)|1\n", f"1: .*: {form}"), ("T1||1\n", f"1: .*: {form}"), ("\x00\x01|", "1: .*: not text"),
            (" " * 20_000 + "x\n", f"1: .*: {form}"), ("T|a(" + " (" * 20_000 + "\n", f"1: .*: {form}"),
        ]:
            self.check_fault(text, message)


class Small(unittest.TestCase):
    def test_numbers(self) -> None:
        """Threads, locks and variables are numbered by themselves."""
        conversion = Conversion(io.StringIO())
        named = (("lock", "a"), ("lock", "b"), ("lock", "a"), ("thread", "a"), ("lock", "c"))
        self.assertEqual([conversion.number(kind, name) for kind, name in named], [1, 2, 1, 1, 3])

    def test_one_line(self) -> None:
        self.assertEqual(one_line("  a\t\nb  c "), "a b c")

