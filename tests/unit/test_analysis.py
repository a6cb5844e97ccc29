"""Tests the results of reports: happened deadlocks, suppressions, baselines and reasons together."""
import unittest
from dataclasses import replace
from typing import Optional
from unittest import mock

from goodlock import analysis
from goodlock.analysis import merged_results, questions_of
from goodlock.gates import Judge, Suppressions
from goodlock.locations import Root
from goodlock.reports import Report
from goodlock.results import Question, Result, Verdict
from samples import CONFIRMED, POTENTIAL
from written import InFolder, environment, index_of

ROOT = Root("/top")
TRACE = """0f1 0f2 0f3 0f4
# at /top/a.c:1 in f
1a1
# at /top/a.c:2 in f
1a2 1r2 1r1
# at /top/a.c:1 in f
2a2
# at /top/a.c:2 in f
2a1 2r1 2r2
# at /top/b.c:1 in g
3a3
# at /top/b.c:2 in g
3a4 3r4 3r3
# at /top/b.c:3 in h
4a4
# at /top/b.c:4 in h
4a3 4r3 4r4
"""
HEAD = "question 0 length 20 bound 2 cycles 2 confirmed 1\n"
CYCLES = """cycle 0 1 confirmed
  thread 1 lock 2 holds 1 place 5
  thread 2 lock 1 holds 2 place 9
  witness 0 1 4 8
cycle 2 3 potential
  thread 3 lock 4 holds 3
  thread 4 lock 3 holds 4
"""
HAPPENED = """    deadlock of 2 threads, which wait for each other
    thread 3 waits for lock 4 at /top/b.c:2 in g
    lock 3 since /top/b.c:1 in g
    thread 4 waits for lock 3 at /top/b.c:4 in h
    lock 4 since /top/b.c:3 in h
    1 thread started in a way that is not seen
"""


class Questions(InFolder):
    def question(self, report: str = HEAD + CYCLES, suppressions: str = "", baseline: Optional[dict[str, Verdict]] = None,
                 most: int = 200) -> Question:
        judge = Judge(Suppressions(self.write("known", suppressions), ROOT), baseline)
        with environment(GOODLOCKD_PROGRAM="/nowhere"):
            [(_, question)] = questions_of(index_of(TRACE), self.write("x.report", report), ROOT, judge, most)
        return question

    def verdicts(self, question: Question) -> list[tuple[str, str]]:
        return [(result.verdict.value, result.state.value) for result in question.results]

    def test_groups(self) -> None:
        question = self.question()
        self.assertEqual(self.verdicts(question), [("confirmed", "new"), ("potential", "new")])
        self.assertEqual([result.pairs[0].hold for result in question.results], ["a.c:1 in f", "b.c:1 in g"])
        self.assertIsNone(question.results[0].kept_apart)
        apart = question.results[1].kept_apart
        assert apart
        self.assertIn("there is no program /nowhere", apart.heading)

    def test_happened(self) -> None:
        question = self.question(HEAD + HAPPENED + CYCLES)
        self.assertEqual(self.verdicts(question), [("happened", "new"), ("confirmed", "new")])
        self.assertEqual(question.notes, ("1 thread started in a way that is not seen",))
        self.assertIsNone(question.results[0].kept_apart)

    def test_happened_alone(self) -> None:
        question = self.question("question 0 length 20 bound 2 cycles 0 confirmed 0\n" + HAPPENED)
        self.assertEqual(self.verdicts(question), [("happened", "new")])
        self.assertEqual(question.results[0].cycles, 0)

    def test_suppressed(self) -> None:
        question = self.question(suppressions="a.c:* in f\n")
        self.assertEqual(self.verdicts(question), [("potential", "new"), ("confirmed", "suppressed")])

    def test_baseline(self) -> None:
        fingerprints = [result.fingerprint for result in self.question().results]
        question = self.question(baseline={fingerprints[0]: Verdict.CONFIRMED})
        self.assertEqual(self.verdicts(question), [("potential", "new"), ("confirmed", "known")])

    def test_only_what_is_shown_is_explained(self) -> None:
        cases: list[tuple[str, str, int, int]] = [("all", "", 2, 1), ("the first group", "", 1, 0), ("suppressed", "b.c:*\n", 2, 0)]
        for name, suppressions, most, explained in cases:
            with self.subTest(name), mock.patch.object(analysis, "reasons_of", return_value={}) as reasons:
                self.question(suppressions=suppressions, most=most)
                self.assertEqual(len(reasons.call_args.args[2]), explained)


class SeveralReports(unittest.TestCase):
    def question(self, *results: Result) -> Question:
        return Question(Report(0, 10, 2, 1, 1), results)

    def test_merged(self) -> None:
        weaker, later = replace(CONFIRMED, verdict=Verdict.POTENTIAL), replace(CONFIRMED, cycles=7)
        cases: list[tuple[str, list[Question], list[Result]]] = [
            ("the strongest evidence", [self.question(CONFIRMED), self.question(weaker, POTENTIAL)], [CONFIRMED, POTENTIAL]),
            ("the strongest evidence, later", [self.question(weaker), self.question(CONFIRMED)], [CONFIRMED]),
            ("the last one", [self.question(CONFIRMED), self.question(later)], [later]),
            ("none", [], []),
        ]
        for name, questions, results in cases:
            with self.subTest(name):
                self.assertEqual(merged_results(questions), results)


if __name__ == "__main__":
    unittest.main()
