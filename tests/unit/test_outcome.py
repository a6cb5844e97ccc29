"""Tests what came out of a run that followed a schedule: what the collector has written of it, and what is said about it."""
from __future__ import annotations

import os
import unittest
from typing import Optional

from goodlock.agent.run import Run
from goodlock.agent.sites import Sites
from goodlock.reproduce.drive import deadlock_lines, failure_lines, how_of, without_recorder
from goodlock.reproduce.outcome import Outcome, read_outcome
from goodlock.reproduce.recorded import find_cycle
from goodlock.reproduce.schedule import Schedule
from test_reproduce import BANK, BANK_LOG, BANK_REPORT, LOCK, UNLOCK
from written import InFolder

# Site 1 is where the threads hold, site 2 where they wait: the places 2 and 3 of the bank, whose calls have the sites 3 and 4, at 0x30 and 0x40.
SITES = "1\t/nowhere/bank+0x30\n2\t/nowhere/bank+0x40\n3\t/nowhere/bank+0x80\n4\t/nowhere/bank+0x90\n"
DEADLOCK = """deadlock of 2 threads, which wait for each other
thread 1 waits for lock 7 at @2@
  lock 8 since @1@
  lock 9 since @1@
thread 2 waits for lock 8 at @4@
  lock 7 since @3@
"""


class OfBank(InFolder):
    """A run of the bank: thread 1 acquires locks 1 and 2, thread 2 the same ones in the opposite order."""

    def setUp(self) -> None:
        super().setUp()
        with open("bank.calls", "wb") as file:
            file.write(BANK_LOG)
        self.write("bank.trace", BANK.replace(" ", "\n") + "\n")
        self.write("bank.report", BANK_REPORT)
        self.schedule = find_cycle("bank", None).schedule
        os.mkdir("run.tmp")
        self.run_ = Run("run")
        self.write("run.tmp/sites", SITES)

    def outcome(self, text: str, deadlock: str = "") -> Optional[Outcome]:
        self.write("run.tmp/outcome", text)
        self.write("run.tmp/deadlock", deadlock)
        return read_outcome(self.run_)

    def pausing(self, is_early: bool = False) -> Schedule:
        """Returns the schedule that only pauses the members."""
        return Schedule(self.schedule.run, self.schedule.cycle, 100, is_early)


class Reads(OfBank):
    def test_values(self) -> None:
        found = self.outcome("verdict diverged\nmilliseconds 1500\nturn 4\nskipped 2\nextra 1\nprocess 77\nunproven 1\nclosed 1\n"
                             "lane 0 2 1\nlane 1 3 2\ndivergence 1 3 9 2 4\n")
        assert found
        self.assertEqual((found.verdict, found.milliseconds, found.turn, found.skipped, found.extra, found.process, found.unproven, found.closed),
                         ("diverged", 1500, 4, 2, 1, 77, 1, 1))
        self.assertEqual((found.lanes, found.divergence, found.waiters), ({0: (2, 1), 1: (3, 2)}, (1, 3, 9, 2, 4), []))

    def test_nothing(self) -> None:
        """The collector was killed before it wrote the verdict, or wrote nothing."""
        self.assertIsNone(self.outcome("milliseconds 10\n"))
        os.remove("run.tmp/outcome")
        self.assertIsNone(read_outcome(self.run_))

    def test_callers(self) -> None:
        found = self.outcome("verdict ended\n")
        assert found
        self.assertEqual([found.caller(text) for text in ("@1@", "@4@", "@9@", "", "?")], ["bank+0x30", "bank+0x90", "?", "?", "?"])


class Deadlocks(OfBank):
    def test_same(self) -> None:
        """It is that of the cycle if its threads hold and wait at the same code addresses, and unless all members were held at their acquires,
        if its threads and locks are the same too."""
        deadlock = DEADLOCK.replace("@4@", "@6@").replace("@3@", "@5@")
        self.write("run.tmp/sites", "1\t/nowhere/bank+0x30\n2\t/nowhere/bank+0x40\n5\t/nowhere/bank+0x80\n6\t/nowhere/bank+0x90\n")
        for text, is_same in [("verdict deadlock\nclosed 1\n", True), ("verdict deadlock\n", False)]:
            found = self.outcome(text, deadlock)
            assert found
            self.assertEqual((found.is_of(self.schedule), found.is_of(self.pausing())), (is_same, True))
        found = self.outcome("verdict deadlock\n", deadlock.replace("lock 7", "lock 2").replace("lock 8", "lock 1"))
        assert found
        self.assertTrue(found.is_of(self.schedule))

    def test_other(self) -> None:
        """Another deadlock waits elsewhere, or has another number of threads."""
        for deadlock in (DEADLOCK.replace("@2@", "@1@"), "deadlock of 1 thread, which waits for itself\nthread 1 waits for lock 7 at @2@\n  lock 7 since @1@\n"):
            found = self.outcome("verdict deadlock\nclosed 1\n", deadlock)
            assert found
            self.assertFalse(found.is_of(self.schedule))

    def test_lines(self) -> None:
        """A deadlock of the cycle has the numbers of locks of the recorded run. Of what a thread holds the lines show what another one wants."""
        found = self.outcome("verdict deadlock\nclosed 1\n", DEADLOCK)
        assert found
        sites = Sites(self.run_, 1)
        self.assertEqual(list(deadlock_lines(self.schedule, found, sites, True)), [
            "deadlock of 2 threads, which wait for each other", "thread 1 waits for lock 2 at bank+0x40", "  lock 1 since bank+0x30",
            "thread 2 waits for lock 1 at bank+0x90", "  lock 2 since bank+0x80"])
        self.assertEqual(list(deadlock_lines(self.schedule, found, sites, False))[:3], [
            "another deadlock of 2 threads, which wait for each other; its locks have the numbers of this run",
            "thread 1 waits for lock 7 at bank+0x40", "  lock 8 since bank+0x30"])

    def test_itself(self) -> None:
        found = self.outcome("verdict deadlock\n", "deadlock of 1 thread, which waits for itself\nthread 1 waits for lock 7 at @2@\n  lock 7 since @1@\n")
        assert found
        self.assertEqual(list(deadlock_lines(self.schedule, found, Sites(self.run_, 1), False))[0],
                         "another deadlock of 1 thread, which waits for itself; its locks have the numbers of this run")


class Failures(OfBank):
    def lines(self, text: str, schedule: Optional[Schedule] = None) -> list[str]:
        found = self.outcome(text)
        assert found
        return list(failure_lines(schedule or self.schedule, found, Sites(self.run_, 1)))

    def test_reasons(self) -> None:
        """The schedule of the bank has four steps: two forks, and the first acquire of each member."""
        self.assertEqual(self.lines("verdict ended\nturn 2\n"), ["the program has ended", "1 of 4 steps done"])
        self.assertEqual(self.lines("verdict escaped\n"), ["the members have reached their places, but did not stay in the calls of their locks"])
        self.assertEqual(self.lines("verdict ended\nunproven 1\n"),
                         ["threads seem to wait for each other, but the kernel does not show it: /proc/PID/task/TID/syscall cannot be read"])
        self.assertEqual(self.lines("verdict ended\n", self.pausing()), ["no deadlock happened"])

    def test_places(self) -> None:
        """The threads that have not made their next call. Thread 0 has made all four of its calls; thread 3 is not in the recorded run."""
        self.assertEqual(self.lines("verdict stuck\nturn 3\nlane 0 4 6\nlane 1 1 4\nlane 2 0 2\nlane 3 0 1\n")[2:], [
            "  thread 1 is before its acquire; next in the recorded run: acquire of lock 2 at bank.c:4 in bank",
            "  thread 2 waits for its turn; next in the recorded run: acquire of lock 2 at bank.c:8 in bank"])

    def test_divergence(self) -> None:
        for text, lines in [
            (f"divergence 1 1 {UNLOCK} 1 2", ["thread 1 diverged before place 3", "  recorded: acquire of lock 2 at bank.c:4 in bank", "  now: release at bank+0x40"]),
            (f"divergence 1 1 {LOCK} 1 2", ["thread 1 diverged before place 3", "  recorded: acquire of lock 2 at bank.c:4 in bank",
                                            "  now: acquire at bank+0x40, of another object or from another place"]),
            ("divergence 1 4 99 1 0", ["thread 1 diverged", "  recorded: no further call", "  now: a call"]),
        ]:
            self.assertEqual(self.lines(f"verdict diverged\n{text}\n"), lines)

    def test_how(self) -> None:
        plain, changed = self.outcome("verdict ended\n"), self.outcome("verdict ended\nskipped 1\nextra 2\n")
        assert plain and changed
        self.assertEqual(how_of(self.schedule, plain), "4 steps")
        self.assertEqual(how_of(self.schedule, changed), "4 steps, 1 call left out and 2 more than in the recorded run")
        self.assertEqual(how_of(self.pausing(), plain), "pauses of 100 ms")
        self.assertEqual(how_of(self.pausing(True), plain), "pauses of 100 ms also before the locks that the members hold")


class Callers(unittest.TestCase):
    def test_below_the_recorder(self) -> None:
        for callers, left in [(["a+0x1", "/r.so+0x2", "libc+0x3"], ["a+0x1"]), (["a+0x1", "b+0x2"], ["a+0x1", "b+0x2"]), (["/r.so+0x2", "a+0x1"], ["/r.so+0x2"])]:
            self.assertEqual(without_recorder(callers, "/r.so"), left)


if __name__ == "__main__":
    unittest.main()
