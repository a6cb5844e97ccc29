"""Tests what is said of a refutation, with stand-ins for the program that prints it."""
import os
import unittest
from unittest.mock import patch

from goodlock import refutations
from goodlock.reasons import Reason, reasons_of
from goodlock.reports import Cycle, Report, Verdict
from written import InFolder, cycles_of, environment, index_of

# A fork and a join keep threads 1 and 2 apart: 1 ends before 2 begins.
TRACE = "0f1 1a10 1a20 1r20 1r10 0j1 0f2\n# at src/b.c:9 in f\n2a20 2a10 2r10 2r20\n"
REPORT = """question 0 length 11 bound 2 cycles 1 confirmed 0
cycle 0 1 potential
  thread 1 lock 20 holds 10
  thread 2 lock 10 holds 20
"""
EXPLAINED = """cycle 0 1 potential
  thread 1 lock 20 holds 10
  thread 2 lock 10 holds 20
  before place 8 its thread runs place 7
  place 7 needs place 6: fork or join
  place 6 needs place 5: earlier in its thread
  place 5 needs place 2: fork or join
  so place 2 must run: thread 1 cannot stop before it
"""
SENTENCES = [
    "Before place 8 (b.c:9), where it would wait for lock 10, thread 2 acquires lock 20 at place 7 (b.c:9).",
    "Thread 2 gets to place 7 (b.c:9) only after thread 0 forks it at place 6.",
    "Before place 6 thread 0 joins thread 1 at place 5.",
    "At place 5 thread 0 joins thread 1, so before that thread 1 acquires lock 20 at place 2.",
    "So thread 1 has passed place 2, before which it would have to wait.",
]
COMMAND = "goodlockd explain bank.trace --bound 2 --cycle 0,1"


class Explained(InFolder):
    def reason(self, trace: str = TRACE, report: str = REPORT) -> Reason:
        index = index_of(trace)
        first, cycles = cycles_of(index, report)
        return reasons_of(index, first, cycles)[0, 1]

    def with_program(self, script: str) -> Reason:
        """Returns the reason if this script is the program."""
        self.write("program", f"#!/bin/sh\n{script}\n")
        os.chmod("program", 0o755)
        with environment(GOODLOCKD_PROGRAM=os.path.abspath("program")):
            return self.reason()

    def printed(self, text: str) -> Reason:
        self.write("text", text)
        return self.with_program(f"exec cat {os.path.abspath('text')}")

    def test_sentences(self) -> None:
        reason = self.printed(EXPLAINED)
        self.assertEqual(reason.heading, "Kept apart by a fork and a join")
        self.assertEqual(reason.sentences, SENTENCES)
        self.assertTrue(reason.advice.startswith("If this is by design, the cycle is harmless."))
        self.assertEqual((reason.command, reason.note, reason.left_out, reason.further()), (COMMAND, "", 0, ""))
        self.assertEqual(reason.waits, [2, 8])

    def test_after_other_cycles(self) -> None:
        others = "cycle 0 2 confirmed\n  thread 1 lock 20 holds 10 place 2\n  witness 1\ncycle 1 2 potential\n  something else\n"
        self.assertEqual(self.printed(others + EXPLAINED).sentences, SENTENCES)

    def test_alone(self) -> None:
        """A cycle behind many others is explained alone."""
        self.write("text", EXPLAINED)
        reason = self.with_program(f'case "$*" in *" --cycle 0,1") exec cat {os.path.abspath("text")} ;; *) exec yes "cycle 7 8 potential" ;; esac')
        self.assertEqual(reason.sentences, SENTENCES)

    def test_what_does_not_fit(self) -> None:
        for old, new in [("lock 10 holds 20", "lock 10 holds 7"), ("so place 2 must", "so place 3 must"), ("place 7 needs", "place 99 needs"),
                         ("place 5 needs place 2:", "place 5 needs place 1:"), (": fork or join", ": fork"), (EXPLAINED[-52:], ""),
                         ("cycle 0 1", "cycle 0 2"), ("place 8 its", "place 99999999999 its")]:
            with self.subTest(old=old):
                reason = self.printed(EXPLAINED.replace(old, new))
                self.assertEqual(reason.heading, "The reason is not shown, since the program does not explain this cycle; "
                                 f"`{COMMAND}` prints it.")
                self.assertEqual((reason.sentences, reason.advice), ([], "Acquire the locks in one order."))

    def test_failing_programs(self) -> None:
        for script, fault in [("exit 3", "failed: status 3"), ("echo no >&2; exit 1", "failed: no")]:
            self.assertIn(fault, self.with_program(script).heading)
        with environment(GOODLOCKD_PROGRAM="/nowhere"):
            self.assertIn("since there is no program /nowhere (make builds it, GOODLOCKD_PROGRAM names another); ", self.reason().heading)

    def test_program_that_does_not_end(self) -> None:
        with patch.object(refutations, "MOST_SECONDS", 0.2):
            self.assertIn("since it was not explained in 0.2 seconds; ", self.with_program("exec sleep 1000").heading)

    def test_part_of_a_trace(self) -> None:
        index = index_of(TRACE + "2w1\n")
        first, cycles = cycles_of(index, REPORT)
        with environment(GOODLOCKD_PROGRAM="/nowhere"):
            reason = reasons_of(index, first, cycles)[0, 1]
        self.assertEqual((reason.command.split()[2], reason.note), ("FILE", " if FILE has the first 11 events"))


class Words(unittest.TestCase):
    def reason_with(self, refutation: refutations.Refutation) -> Reason:
        index = index_of(TRACE)
        report, cycles = cycles_of(index, REPORT)
        return Reason(index, report, cycles[0], refutation, "")

    def test_sections_and_reads(self) -> None:
        index = index_of("0f1 0f2 1a10 1r10 1w5 2d5 2a10 2r10\n")
        entries = [refutations.Entry("section", 3, [2, 6]), refutations.Entry("read", 4, [5])]
        refutation = refutations.Refutation()
        refutation.add(refutations.RefutationStep(entries, 1, 3, 6))
        refutation.add(refutations.RefutationStep(entries, 1, 6, None))
        reason = Reason(index, Report(0, 8, 2, 1, 0), Cycle((0, 1), Verdict.POTENTIAL), refutation, "")
        self.assertEqual(reason.heading, "Kept apart by a read and the order of critical sections")
        self.assertEqual(reason.sentences[:3], [
            "At place 6 thread 2 acquires lock 10; thread 1 acquired it before, at place 2, so it must have released it, at place 3.",
            "At place 5 thread 2 reads variable 5, and sees the value that thread 1 wrote at place 4.",
            "So thread 1 has passed place 3, before which it would have to wait. It may wait next before place 6."])
        self.assertTrue(reason.sentences[-1].endswith("It has no later place to wait."))
        self.assertTrue(reason.advice.startswith("Orders that swap two critical sections"))

    def test_long_step(self) -> None:
        """Of 15 reasons in one step the first eight and the last four are shown."""
        refutation = refutations.Refutation()
        refutation.add(refutations.RefutationStep([refutations.Entry("order", 1, [2])] * 15, 1, 2, None))
        reason = self.reason_with(refutation)
        self.assertEqual(len(reason.sentences), 14)
        self.assertEqual(reason.sentences[8], ".. 3 more of this kind")

    def test_many_steps(self) -> None:
        """Seven steps of three reasons and a conclusion: the first three are shown."""
        refutation = refutations.Refutation()
        for _ in range(7):
            refutation.add(refutations.RefutationStep([refutations.Entry("order", 1, [2])] * 3, 1, 2, 3))
        reason = self.reason_with(refutation)
        self.assertEqual((len(reason.sentences), reason.left_out), (12, 4))
        self.assertEqual(reason.further(), "4 further steps exclude the next places, until a thread has none left.")
        reason.left_out = 1
        self.assertEqual(reason.further(), "1 further step excludes the next place, until a thread has none left.")
