"""Tests how the results of many traces are merged, and that a result is the same after it was written and read."""
import json
import unittest
from dataclasses import replace
from typing import Any

from goodlock.formats.json import numbers_from, numbers_object, result_from, result_object
from goodlock.gates import Judge, Suppressions
from goodlock.locations import Root
from goodlock.merging import Merged, merged
from goodlock.results import LeftOut, Numbers, Result, State, Verdict
from samples import CONFIRMED, NO_VALUE, NOWHERE, NUMBERS, POTENTIAL
from written import InFolder

ROOT = Root("/top")
NOBODY = Judge(Suppressions(None, ROOT))


def written(*results: Result, **left_out: int) -> dict[str, Any]:
    """Returns what a job writes of a trace."""
    found = {"numbers": numbers_object(NUMBERS), "left_out": {**LeftOut()._asdict(), **left_out},
             "groups": [result_object(result) for result in results]}
    again: dict[str, Any] = json.loads(json.dumps(found))
    return again


class Again(unittest.TestCase):
    def test_same(self) -> None:
        reproduced = replace(CONFIRMED, reproduced=("reproduced in run 1, 0.50 s, 4 steps", "thread 1 waits"), reproduce="goodlock ..")
        for result in (CONFIRMED, POTENTIAL, NOWHERE, NO_VALUE, reproduced):
            plain = replace(result, fingerprint="", traces=())
            if plain.kept_apart:
                plain = replace(plain, kept_apart=replace(plain.kept_apart, further=""))
            with self.subTest(result.message):
                self.assertEqual(result_from(json.loads(json.dumps(result_object(result))), ROOT), plain)

    def test_numbers(self) -> None:
        numbers = Numbers(1, 2, 3, 4, 5, 6, 7, 8, 9.5, 10, 11)
        self.assertEqual(numbers_from(numbers_object(numbers)), numbers)

    def test_relative_to_another_root(self) -> None:
        found = written(CONFIRMED)
        found["groups"][0]["members"][0]["waits"]["location"] = "/top/src/bank.c:35 in transfer"
        self.assertEqual(result_from(found["groups"][0], ROOT).pairs, CONFIRMED.pairs)


class TwoResults(unittest.TestCase):
    FIRST = replace(CONFIRMED, traces=("a",))
    SECOND = replace(CONFIRMED, traces=("b",), cycles=10, confirmed=10, example=(7, 8))
    WEAK = replace(POTENTIAL, traces=("c",), members=CONFIRMED.members)

    def test_counts(self) -> None:
        both = merged(self.FIRST, self.SECOND)
        self.assertEqual((both.cycles, both.confirmed, both.trace_count, both.traces, both.example), (13, 12, 2, ("a", "b"), (0, 1)))

    def test_values(self) -> None:
        """What is confirmed if no value decides is stronger than a potential result, and weaker than a confirmed one."""
        for other, verdict, confirmed in ((self.WEAK, Verdict.NO_VALUE, 0), (self.FIRST, Verdict.CONFIRMED, 2)):
            for first, second in ((NO_VALUE, other), (other, NO_VALUE)):
                both = merged(first, second)
                self.assertEqual((both.verdict, both.cycles, both.confirmed, both.no_value), (verdict, 4 + other.cycles, confirmed, 3))

    def test_stronger(self) -> None:
        for first, second in ((self.FIRST, self.WEAK), (self.WEAK, self.FIRST)):
            both = merged(first, second)
            self.assertEqual((both.verdict, both.traces, both.trace_count, both.cycles), (Verdict.CONFIRMED, ("a",), 2, 4))
            self.assertEqual((both.witness, both.kept_apart, both.advice), (CONFIRMED.witness, None, CONFIRMED.advice))

    def test_first_traces(self) -> None:
        many = self.FIRST
        for name in "bcdef":
            many = merged(many, replace(self.SECOND, traces=(name,)))
        self.assertEqual((many.traces, many.trace_count), (("a", "b", "c"), 6))


class Traces(InFolder):
    def test_results(self) -> None:
        found = Merged(ROOT)
        found.add("a.trace", written(CONFIRMED, tried=1))
        found.add("b.trace", written(CONFIRMED, POTENTIAL, further=2, further_confirmed=1))
        results = found.results(NOBODY)
        self.assertEqual([(result.verdict, result.trace_count, result.traces) for result in results],
                         [(Verdict.CONFIRMED, 2, ("a.trace", "b.trace")), (Verdict.POTENTIAL, 1, ("b.trace",))])
        self.assertEqual([result.fingerprint[-2:] for result in results], [":1", ":1"])
        self.assertEqual(found.left_out, LeftOut(1, 2, 1))
        self.assertEqual(found.numbers, Numbers(24, 6, 4, 4, 4, 2, 0, 0, 0.5))

    def test_order(self) -> None:
        found = Merged(ROOT)
        found.add("a.trace", written(NOWHERE, CONFIRMED, POTENTIAL))
        found.add("b.trace", written(CONFIRMED, POTENTIAL))
        found.add("c.trace", written(POTENTIAL))
        self.assertEqual([(result.verdict.value, result.trace_count) for result in found.results(NOBODY)],
                         [("confirmed", 2), ("confirmed", 1), ("potential", 3)])

    def test_faults(self) -> None:
        found = Merged(ROOT)
        found.add("a.trace", None)
        found.add("b.trace", {"fault": "line 1 not understood"})
        self.assertEqual(found.faults, [("a.trace", "there is no result"),
                                        ("b.trace", "line 1 not understood")])
        self.assertEqual(found.results(NOBODY), [])

    HAPPENED = """question 0 length 4 bound 4 cycles 0 confirmed 0
    deadlock of 2 threads, which wait for each other
    thread 1 waits for lock 2 at src/bank.c:35 in transfer
    lock 1 since src/bank.c:34 in transfer
    thread 2 waits for lock 1 at src/bank.c:35 in transfer
    lock 2 since src/bank.c:34 in transfer
    1 reader-writer lock had readers
    window 2: a.2.report
"""

    def test_happened(self) -> None:
        self.write("a.report", self.HAPPENED)
        self.write("b.report", "question 0 length 4 bound 4 cycles 0 confirmed 0\n    1 reader-writer lock had readers\n")
        self.write("c.report", "no report\n    1 reader-writer lock had readers\n")
        found = Merged(ROOT)
        for name in ("a", "b", "c", "d"):
            found.add(f"{name}.trace", written(CONFIRMED))
        [result] = found.results(NOBODY)
        self.assertEqual((result.verdict, result.traces, result.trace_count), (Verdict.HAPPENED, ("a.trace",), 4))
        self.assertEqual(found.numbers.happened, 1)
        self.assertEqual(found.common_notes(), ("1 reader-writer lock had readers (in 2 traces)",))

    def test_happened_without_a_result(self) -> None:
        self.write("a.report", self.HAPPENED)
        found = Merged(ROOT)
        found.add("a.trace", {"fault": "not done after 600 seconds"})
        [result] = found.results(NOBODY)
        self.assertEqual((result.verdict, result.cycles, result.fingerprint[:64]),
                         (Verdict.HAPPENED, 0, self.fingerprint(CONFIRMED)))

    def fingerprint(self, result: Result) -> str:
        found = Merged(ROOT)
        found.add_result(result)
        return found.results(NOBODY)[0].fingerprint[:64]

    def test_judged(self) -> None:
        found = Merged(ROOT)
        found.add("a.trace", written(CONFIRMED, POTENTIAL))
        fingerprint = f"{self.fingerprint(CONFIRMED)}:1"
        results = found.results(Judge(Suppressions(self.write("known", "*audit\n"), ROOT), {fingerprint: Verdict.CONFIRMED}))
        self.assertEqual([(result.verdict, result.state) for result in results],
                         [(Verdict.CONFIRMED, State.KNOWN), (Verdict.POTENTIAL, State.SUPPRESSED)])


if __name__ == "__main__":
    unittest.main()
