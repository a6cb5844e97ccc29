"""Tests what a result says of a group, its fingerprint, and the order of results."""
import hashlib
import unittest
from dataclasses import replace

from goodlock.groups import Pair, groups_of
from goodlock.locations import Root
from goodlock.reports import read_reports
from goodlock.results import LeftOut, Numbers, Run, State, Verdict, fingerprint_of, kept, numbered, numbers_of, ordered, result_of
from samples import CONFIRMED, HAPPENED, KNOWN, POTENTIAL, SUPPRESSED
from written import index_of

TRACE = """# thread 1 is teller
# at /top/src/bank.c:57 in main
0f1 0f2
# at /top/src/bank.c:34 in transfer < /top/src/main.c:7 in run
1a1
# at /top/src/bank.c:35 in transfer
1a2 1r2 1r1
# at /top/src/bank.c:34 in transfer
2a2
# at /top/src/bank.c:35 in transfer
2a1 2r1 2r2
"""
REPORT = """question 0 length 10 bound 2 cycles 1 confirmed 1
cycle 0 1 confirmed
  thread 1 lock 2 holds 1 place 3
  thread 2 lock 1 holds 2 place 7
  witness 0 1 2 6
"""


class OfGroup(unittest.TestCase):
    def setUp(self) -> None:
        self.index = index_of(TRACE)
        self.groups = groups_of(self.index, read_reports("bank.report", self.index, REPORT.splitlines()))[0]
        self.result = result_of(self.index, self.groups.ordered()[0], Root("/top"))

    def test_members(self) -> None:
        first, second = self.result.members
        self.assertEqual((first.thread, first.name, first.held), (1, "teller", (1,)))
        self.assertEqual((second.thread, second.name, second.held), (2, None, (2,)))
        self.assertEqual((first.hold.lock, first.hold.place, first.hold.location.text), (1, 2, "src/bank.c:34 in transfer"))
        self.assertEqual(first.hold.callers, ("/top/src/main.c:7 in run",))
        self.assertEqual((first.wait.lock, first.wait.place, first.wait.location.text), (2, 3, "src/bank.c:35 in transfer"))
        self.assertEqual((second.hold.lock, second.hold.place), (2, 6))
        self.assertEqual((second.wait.lock, second.wait.place), (1, 7))

    def test_rest(self) -> None:
        self.assertEqual((self.result.verdict, self.result.cycles, self.result.confirmed), (Verdict.CONFIRMED, 1, 1))
        self.assertEqual((self.result.example, self.result.traces, self.result.rule), ((0, 1), ("bank.trace",), "confirmed-deadlock"))
        assert self.result.witness
        self.assertEqual(self.result.witness.events, 4)
        self.assertEqual([(step.place, step.event) for step in self.result.witness.steps],
                         [(0, "forks thread 1"), (1, "forks thread 2"), (2, "acquires lock 1"), (6, "acquires lock 2")])

    def test_numbers(self) -> None:
        self.assertEqual(numbers_of(self.index, self.groups, 0, 1.5),
                         Numbers(events=10, threads=3, locks=2, dependencies=2, confirmed=1, seconds=1.5))

    def test_numbers_with_marks(self) -> None:
        index = index_of("# mark 1\n" + TRACE)
        groups = groups_of(index, read_reports("bank.report", index, REPORT.splitlines()))[0]
        self.assertEqual(numbers_of(index, groups, 1, 0), Numbers(10, 3, locks=1, dependencies=2, tried=1, happened=1))

    def test_text_of_potential(self) -> None:
        report = REPORT.replace("confirmed", "potential").replace("potential 1", "confirmed 0", 1).replace(" place 3", "")
        lines = [line for line in report.replace(" place 7", "").splitlines() if "witness" not in line]
        groups = groups_of(self.index, read_reports("bank.report", self.index, lines))[0]
        result = result_of(self.index, groups.ordered()[0], Root("/top"))
        self.assertEqual((result.verdict, result.witness, result.confirmed), (Verdict.POTENTIAL, None, 0))


class Text(unittest.TestCase):
    SIDES = ("a thread that holds the lock acquired at src/bank.c:34 in transfer waits at src/bank.c:35 in transfer; "
             "a thread that holds the lock acquired at src/bank.c:34 in transfer waits at src/bank.c:35 in transfer")
    CASES = [
        ("confirmed", CONFIRMED, f"Deadlock: {SIDES} (3 cycles, 2 confirmed). Choose one order."),
        ("one cycle", replace(CONFIRMED, cycles=1, confirmed=1), f"Deadlock: {SIDES} (1 cycle, 1 confirmed). Choose one order."),
        ("many traces", replace(CONFIRMED, cycles=1200, trace_count=3),
         f"Deadlock: {SIDES} (1,200 cycles in 3 traces, 2 confirmed). Choose one order."),
        ("happened", HAPPENED, f"Deadlock that happened: {SIDES}. Choose one order."),
        ("happened twice", replace(HAPPENED, trace_count=2), f"Deadlock that happened: {SIDES} (in 2 traces). Choose one order."),
        ("potential", replace(POTENTIAL, members=CONFIRMED.members),
         f"Potential deadlock: {SIDES} (1 cycle, 0 confirmed). Kept apart by a join. It is harmless."),
    ]

    def test_message(self) -> None:
        for name, result, message in self.CASES:
            with self.subTest(name):
                self.assertEqual(result.message, message)


class Fingerprint(unittest.TestCase):
    BANK = Pair("src/bank.c:34 in transfer", "src/bank.c:35 in transfer")
    AUDIT = Pair("src/audit.c:80 in audit", "src/bank.c:35 in transfer")
    WANTED = hashlib.sha256(
        b"[('src/audit.c in audit', 'src/bank.c in transfer'), ('src/bank.c in transfer', 'src/bank.c in transfer')]").hexdigest()
    SAME = [
        ("as it is", [AUDIT, BANK]),
        ("from the other member", [BANK, AUDIT]),
        ("other lines", [Pair("src/audit.c:7 in audit", "src/bank.c:8:3 in transfer"), BANK]),
        ("absolute names", [Pair(f"/top/{AUDIT.hold}", f"/top/{AUDIT.wait}"), BANK]),
        ("names with folders in between", [Pair(f"/top/build/../{AUDIT.hold}", f"./{AUDIT.wait}"), BANK]),
    ]
    OTHER = [
        ("another function", [Pair("src/audit.c:80 in review", AUDIT.wait), BANK]),
        ("another file", [Pair("lib/audit.c:80 in audit", AUDIT.wait), BANK]),
        ("outside of the root", [Pair(f"/topmost/{AUDIT.hold}", AUDIT.wait), BANK]),
        ("a third member", [AUDIT, BANK, BANK]),
    ]

    def test_same(self) -> None:
        for name, pairs in self.SAME:
            with self.subTest(name):
                self.assertEqual(fingerprint_of(pairs, Root("/top")), self.WANTED)

    def test_other(self) -> None:
        for name, pairs in self.OTHER:
            with self.subTest(name):
                self.assertNotEqual(fingerprint_of(pairs, Root("/top")), self.WANTED)

    def test_without_function(self) -> None:
        lines = [Pair("a.c:1", "a.c:2"), Pair("a.c:3", "a.c:4")]
        self.assertNotEqual(fingerprint_of(lines, Root("/")), fingerprint_of([Pair("a.c:1", "a.c:2"), Pair("a.c:3", "a.c:5")], Root("/")))

    def test_numbered(self) -> None:
        first, second, third = numbered([CONFIRMED, POTENTIAL, CONFIRMED], Root("/top"))
        self.assertEqual([result.fingerprint[64:] for result in (first, second, third)], [":1", ":1", ":2"])
        self.assertEqual(first.fingerprint[:64], third.fingerprint[:64])


    def test_numbered_by_evidence(self) -> None:
        weak = replace(CONFIRMED, verdict=Verdict.POTENTIAL)
        for name, results, numbers in [
            ("in order", [HAPPENED, CONFIRMED, weak], [":1", ":2", ":3"]),
            ("the other way", [weak, CONFIRMED, HAPPENED], [":3", ":2", ":1"]),
            ("equal evidence", [weak, CONFIRMED, weak, CONFIRMED], [":3", ":1", ":4", ":2"]),
        ]:
            with self.subTest(name):
                self.assertEqual([result.fingerprint[64:] for result in numbered(results, Root("/top"))], numbers)


class Order(unittest.TestCase):
    def test_ordered(self) -> None:
        happened_known = replace(HAPPENED, state=State.KNOWN)
        self.assertEqual(ordered([SUPPRESSED, KNOWN, POTENTIAL, happened_known, CONFIRMED, HAPPENED]),
                         [HAPPENED, CONFIRMED, POTENTIAL, happened_known, KNOWN, SUPPRESSED])

    def test_shown(self) -> None:
        run = Run("x", (CONFIRMED, POTENTIAL, KNOWN, SUPPRESSED), most=2)
        self.assertEqual(run.shown, [CONFIRMED, POTENTIAL])
        self.assertEqual(kept(run.results), [CONFIRMED, POTENTIAL, KNOWN])

    def test_remarks(self) -> None:
        run = Run("x", (CONFIRMED, POTENTIAL, SUPPRESSED), most=1, notes=("2 threads started in a way that is not seen",),
                  left_out=LeftOut(1, 20, 3), faults=(("a.trace", "line 1 is wrong"),), suppressions="known", unused=(4, 7))
        self.assertEqual(run.remarks, [
            "2 threads started in a way that is not seen",
            "a.trace: line 1 is wrong",
            "20 cycles in too many further groups, 3 confirmed",
            "1 group not shown",
            "known line 4 suppresses nothing",
            "known line 7 suppresses nothing",
        ])


if __name__ == "__main__":
    unittest.main()
