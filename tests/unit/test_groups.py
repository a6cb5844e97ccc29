"""Tests how cycles are grouped: by locations, with the first confirmed cycle as the example; and the limit of groups."""
import unittest

from goodlock.groups import Group, Groups, Location, Pair, advice_for, key_of, location_of, merge, pairs_of, sides_of
from goodlock.parts import Basis
from goodlock.reports import Cycle, Verdict
from written import cycles_of, ends, index_of


def at(line: int, function: str, *events: str) -> str:
    return f"# at src/bank.c:{line} in {function}\n" + " ".join(events) + "\n"


def section(thread: int, first: int, second: int, line: int, function: str) -> str:
    return (at(line, function, f"{thread}a{first}")
            + at(line + 1, function, f"{thread}a{second}", f"{thread}r{second}", f"{thread}r{first}"))


# Threads 1 and 2 acquire two locks in opposite orders in transfer, and so do 3 and 4. Audit ends before review begins.
BANK = "".join([
    at(57, "main", "0f1 0f2 0f3 0f4"), *(section(thread, 1 + thread % 2, 2 - thread % 2, 34, "transfer") for thread in (1, 2, 3, 4)),
    at(60, "main", "0f5"), section(5, 8, 9, 80, "audit"), at(61, "main", "0j5 0f6"), section(6, 9, 8, 90, "review")])
REPORT = """question 0 length 31 bound 2 cycles 3 confirmed 2
cycle 0 1 confirmed
  thread 1 lock 1 holds 2 place 5
  thread 2 lock 2 holds 1 place 9
  witness 0 1 4 8
cycle 2 3 confirmed
  thread 3 lock 1 holds 2 place 13
  thread 4 lock 2 holds 1 place 17
  witness 0 1 2 3 12 16
cycle 4 5 potential
  thread 5 lock 9 holds 8
  thread 6 lock 8 holds 9
"""
TRANSFER = Pair("src/bank.c:34 in transfer", "src/bank.c:35 in transfer")
AUDIT, REVIEW = Pair("src/bank.c:80 in audit", "src/bank.c:81 in audit"), Pair("src/bank.c:90 in review", "src/bank.c:91 in review")


def grouped(trace: str, report: str, **limits: int) -> tuple[Groups, list[bool]]:
    index = index_of(trace)
    first, cycles = cycles_of(index, report)
    groups = Groups(index, first, **limits)
    return groups, [groups.add(cycle) for cycle in cycles]


class ByLocation(unittest.TestCase):
    def test_counts_and_order(self) -> None:
        groups, _ = grouped(BANK, REPORT)
        found = [(group.cycles, group.confirmed, pairs_of(groups.index, group.sides)) for group in groups.ordered()]
        self.assertEqual(found, [(2, 2, [TRANSFER, TRANSFER]), (1, 0, [AUDIT, REVIEW])])
        self.assertEqual(groups.by_key.keys(), {(Basis.EVENTS, (TRANSFER, TRANSFER)), (Basis.EVENTS, (AUDIT, REVIEW))})

    def test_example_is_the_first_confirmed_one(self) -> None:
        mixed = REPORT.replace("0 1 confirmed", "0 1 potential").replace(" place 5", "").replace(" place 9", "").replace("  witness 0 1 4 8\n", "")
        groups, _ = grouped(BANK, mixed)
        first = groups.ordered()[0]
        self.assertEqual((first.cycles, first.confirmed, first.example.numbers, first.witness_length), (2, 1, (2, 3), 6))
        self.assertEqual([side.wait for side in first.sides], [13, 17])

    def test_cycles_that_stand_for_several(self) -> None:
        groups, _ = grouped(BANK, REPORT.replace("4 8\n", "4 8\n    and 3 more cycles at these lines, 2 of them confirmed\n"))
        self.assertEqual((groups.ordered()[0].cycles, groups.ordered()[0].confirmed), (5, 4))

    def test_without_locations(self) -> None:
        plain = "\n".join(line for line in BANK.split("\n") if not line.startswith("#"))
        groups, _ = grouped(plain, REPORT)
        self.assertEqual(len(groups.by_key), 3)
        self.assertIn(Pair("thread 1 lock 2", "thread 1 lock 1"), pairs_of(groups.index, groups.ordered()[0].sides))

    def test_marks(self) -> None:
        groups, kept = grouped("# mark 2\n" + BANK, REPORT)
        self.assertEqual((groups.tried, kept), (2, [False, False, True]))

    def test_limit(self) -> None:
        plain = "\n".join(line for line in BANK.split("\n") if not line.startswith("#"))
        for most, kept, further in [(2, [True, True, True], (0, 0)), (1, [True, False, True], (1, 1))]:
            groups, found = grouped(plain, REPORT, most=most)
            self.assertEqual((found, (groups.further, groups.further_confirmed)), (kept, further))

    def test_witnesses_that_are_kept(self) -> None:
        for whole, length in [(0, 0), (1, 4)]:
            groups, _ = grouped(BANK, REPORT, whole=whole)
            self.assertEqual(len(groups.ordered()[0].example.witness), length)

    def test_verdicts_with_values(self) -> None:
        """The strongest evidence is first, and gives a group its verdict and its witness. Each verdict has its own limits."""
        trace = "0f1 0f2\n" + "".join(f"# at a.c:{line}\n1a{lock} 1a{lock + 1} 1r{lock + 1} 1r{lock} 2a{lock + 1} 2a{lock} 2r{lock} 2r{lock + 1}\n"
                                      for line, lock in ((1, 10), (2, 20), (3, 30), (2, 40), (4, 50)))
        rows = ["potential", "no value", "confirmed", "potential", "no value"]
        report = "question 0 length 42 bound 2 cycles 5 confirmed 1\n"
        for at, row in enumerate(rows):
            lock, first, last = 10 * at + 10, 8 * at + 3, 8 * at + 7
            places = (f" place {first}", f" place {last}") if row == "confirmed" else ("", "")
            report += (f"cycle {2 * at} {2 * at + 1} {'confirmed' if row == 'confirmed' else 'potential'}\n  thread 1 lock {lock + 1} holds {lock}{places[0]}\n"
                       f"  thread 2 lock {lock} holds {lock + 1}{places[1]}\n")
            report += "  witness 0\n" if row == "confirmed" else ""
            report += f"    confirmed if no value decides: places {first} {last}\n      witness 0 1\n" if row == "no value" else ""
        groups, kept = grouped(trace, report, whole=1)
        self.assertEqual([(group.verdict, group.cycles, group.confirmed, group.no_value, group.example.witness) for group in groups.ordered()], [
            (Verdict.CONFIRMED, 1, 1, 0, [0]), (Verdict.NO_VALUE, 2, 0, 1, [0, 1]), (Verdict.NO_VALUE, 1, 0, 1, []), (Verdict.POTENTIAL, 1, 0, 0, [])])
        groups, kept = grouped(trace, report, most=1)
        self.assertEqual((kept, groups.further, groups.further_confirmed, groups.further_no_value), ([True, True, True, True, False], 1, 0, 1))
        self.assertEqual(groups.no_value, 2)

    def test_steps_of_a_long_witness(self) -> None:
        """Of 15 events the list shows the forks, the acquires of held locks, and the events before the last ones."""
        trace = "0f1 0f2\n" + "1w1 " * 10 + "1a10 1w2 1a20 1r20 1r10\n2a20 2a10 2r10 2r20\n"
        report = ("question 0 length 21 bound 2 cycles 1 confirmed 1\ncycle 0 1 confirmed\n  thread 1 lock 20 holds 10 place 14\n"
                  "  thread 2 lock 10 holds 20 place 18\n  witness " + " ".join(map(str, [*range(14), 17])) + "\n")
        group = grouped(trace, report)[0].ordered()[0]
        self.assertEqual([tuple(step) for step in group.steps], [(0, 0), (1, 0), (12, 10), (13, 0), (17, 0)])
        self.assertEqual((group.left_out, group.witness_length), (0, 15))


class Keys(unittest.TestCase):
    def test_rotation(self) -> None:
        a, b, c = Pair("a", "z"), Pair("b", "y"), Pair("c", "x")
        for pairs in [[a, b, c], [b, c, a], [c, a, b]]:
            self.assertEqual(key_of(pairs), (a, b, c))
        self.assertEqual(key_of([a, c, b]), (a, c, b))

    def test_sides(self) -> None:
        index = index_of(BANK)
        _, cycles = cycles_of(index, REPORT)
        self.assertEqual([tuple(side) for side in sides_of(index, cycles[2].members)], [(21, 22), (27, 28)])

    def test_merge(self) -> None:
        """The first group with the strongest evidence is kept, with the counts of all."""
        certain, no_value, potential = Verdict.CONFIRMED, Verdict.NO_VALUE, Verdict.POTENTIAL
        for verdicts, kept in [([potential, potential], 0), ([potential, certain, certain], 1), ([certain, potential], 0), ([certain, certain], 0),
                               ([potential, no_value, potential], 1), ([no_value, no_value], 0), ([no_value, certain], 1), ([certain, no_value], 0)]:
            groups: dict[str, Group] = {}
            made = [Group(Cycle((at,), verdict), [], 2, 2 * (verdict is certain), no_value=verdict is no_value) for at, verdict in enumerate(verdicts)]
            for group in made:
                merge(groups, "key", group)
            self.assertIs(groups["key"], made[kept])
            self.assertEqual((groups["key"].cycles, groups["key"].confirmed, groups["key"].no_value),
                             (2 * len(made), 2 * verdicts.count(certain), verdicts.count(no_value)))

    def test_location(self) -> None:
        for text, file, line, function in [
            ("bank.c:35 in transfer", "bank.c", 35, "transfer"), ("a b.c:3", "a b.c", 3, None), ("x.c:3:14 in f(int) in g", "x.c", 3, "f(int) in g"),
            ("C:/x.c:3", "C:/x.c", 3, None), ("x.c:0", None, None, None), ("thread 1 lock 2", None, None, None), ("", None, None, None),
        ]:
            self.assertEqual(location_of(text), Location(text, file, line, function))

    def test_long_location(self) -> None:
        for text in ["a:1" * 100_000, "a:1 in" * 100_000, ":1:1" * 100_000, "1" * 300_000, "a: " * 100_000]:
            with self.subTest(text=text[:10]), ends():
                location_of(text)

    def test_advice(self) -> None:
        for pairs, words in [([TRANSFER, TRANSFER], "One piece of code"), ([AUDIT, REVIEW], "2 pieces of code"),
                             ([AUDIT, Pair("thread 1 lock 2", "x.c:1")], "Acquire these locks in one order")]:
            self.assertTrue(advice_for(pairs).startswith(words))
