"""Tests what is read before the cycles of an agent's report: a deadlock that happened, and notes."""
import unittest
from dataclasses import replace

from goodlock.happened import deadlock_of, head_notes, with_happened
from goodlock.locations import Root
from goodlock.results import Verdict, fingerprint_of
from samples import CONFIRMED, POTENTIAL
from written import InFolder

ROOT = Root("/top")
TWO = """deadlock of 2 threads, which wait for each other
thread 1 waits for lock 2 at /top/src/bank.c:35 in transfer < src/main.c:7 in run
thread 1 from src/main.c:57 in main
lock 1 since src/bank.c:34 in transfer
lock 7 since src/log.c:3 in log
thread 2 waits for lock 1 at src/bank.c:35 in transfer
lock 2 since src/bank.c:34 in transfer""".splitlines()
JOIN = """deadlock of 2 threads, which wait for each other
thread 0 waits for thread 3 at src/main.c:60 in main
lock 1 since src/main.c:59 in main
thread 3 waits for lock 1 at src/work.c:8 in work
thread 3 from src/main.c:57 in main""".splitlines()
SELF = """deadlock of 1 thread, which waits for itself
thread 4 waits for lock 1 at a.c:8 in f
lock 1 since a.c:7 in f""".splitlines()


class Notes(InFolder):
    def test_head_of_a_report(self) -> None:
        head = "question 0 length 4 bound 2 cycles 1 confirmed 0\n    not examined:\n    no lock events\n    window 2: b.report\n    timed: x\n"
        for text, notes in [(f"{head}cycle 0 1 potential\n    lock 2 at a.c:3\n", ["no lock events", "window 2: b.report"]), (head[:49], []),
                            ("", []), ("no report\n    a note\n", [])]:
            self.assertEqual(head_notes(self.write("run.report", text)), notes, text)
        self.assertEqual(head_notes("missing.report"), [])


class Deadlock(unittest.TestCase):
    def test_two(self) -> None:
        result, others = deadlock_of(["first note", *TWO, "last note"], ROOT)
        assert result
        self.assertEqual(others, ["first note", "last note"])
        self.assertEqual(result.verdict, Verdict.HAPPENED)
        self.assertEqual(result.pairs, [("src/bank.c:34 in transfer", "src/bank.c:35 in transfer")] * 2)
        first, second = result.members
        self.assertEqual((first.thread, first.wait.lock, first.hold.lock, first.held, first.wait.place), (1, 2, 1, (1, 7), None))
        self.assertEqual((second.thread, second.wait.lock, second.hold.lock, second.held), (2, 1, 2, (2,)))
        self.assertEqual(first.wait.callers, ("src/main.c:7 in run",))
        self.assertTrue(result.advice.startswith("One piece of code acquires its locks in an order that depends on its caller."))
        self.assertEqual(fingerprint_of(result.pairs, ROOT), fingerprint_of(CONFIRMED.pairs, ROOT))

    def test_join(self) -> None:
        result, others = deadlock_of(JOIN, ROOT)
        assert result
        self.assertEqual(others, [])
        self.assertEqual(result.pairs, [("src/main.c:59 in main", "src/main.c:60 in main"), ("src/main.c:57 in main", "src/work.c:8 in work")])
        self.assertEqual([member.wait.target for member in result.members], ["the end of another thread", "lock 1"])
        self.assertEqual([member.hold.lock for member in result.members], [1, None])
        self.assertTrue(result.message.startswith(
            "Deadlock that happened: a thread that holds the lock acquired at src/main.c:59 in main waits at src/main.c:60 in main; a thread "
            "that was started at src/main.c:57 in main waits at src/work.c:8 in work. 2 pieces of code"), result.message)

    def test_join_of_a_thread_that_the_trace_does_not_start(self) -> None:
        result, _ = deadlock_of(JOIN[:-1], ROOT)
        assert result
        self.assertEqual(result.pairs[1], ("thread 3", "src/work.c:8 in work"))

    def test_itself(self) -> None:
        result, _ = deadlock_of(SELF, ROOT)
        assert result
        self.assertEqual(result.pairs, [("a.c:7 in f", "a.c:8 in f")])

    def test_none(self) -> None:
        self.assertEqual(deadlock_of(["thread 1 from a.c:3", "lock 1 since a.c:4"], ROOT), (None, ["thread 1 from a.c:3", "lock 1 since a.c:4"]))


class Merged(unittest.TestCase):
    def setUp(self) -> None:
        happened, _ = deadlock_of(TWO, ROOT)
        assert happened
        self.happened = happened

    def test_none(self) -> None:
        self.assertEqual(with_happened([CONFIRMED], None), [CONFIRMED])

    def test_another_group(self) -> None:
        self.assertEqual(with_happened([POTENTIAL], self.happened), [self.happened, POTENTIAL])

    def test_same_group(self) -> None:
        same = replace(CONFIRMED, verdict=Verdict.HAPPENED, advice=self.happened.advice)
        self.assertEqual(with_happened([POTENTIAL, CONFIRMED], self.happened), [same, POTENTIAL])

    def test_same_group_from_another_member(self) -> None:
        happened, _ = deadlock_of(JOIN, ROOT)
        assert happened
        turned = replace(happened, members=happened.members[::-1], verdict=Verdict.POTENTIAL, cycles=1)
        self.assertEqual([(result.verdict, result.cycles) for result in with_happened([turned], happened)], [(Verdict.HAPPENED, 1)])


if __name__ == "__main__":
    unittest.main()
