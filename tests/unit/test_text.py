"""Tests the text of summaries: what the head of a group says, its members, and what is left out."""
import unittest
from dataclasses import replace

from goodlock.formats.text import head_of, many_text, result_lines, summary_text
from goodlock.groups import location_of
from goodlock.reports import Report
from goodlock.results import LeftOut, Numbers, Question, Result, ResultMember, Run, Spot, State, Verdict
from samples import CONFIRMED, HAPPENED, HOLD, KNOWN, NO_VALUE, NOWHERE, POTENTIAL, SUPPRESSED, WAIT, run_of

REPORT = Report(0, 12, 2, 5, 3)


def lines_of(result: Result) -> list[str]:
    return list(result_lines(1, result))


def summary_of(*results: Result, run: Run = run_of(), **changes: object) -> list[str]:
    question = replace(Question(REPORT, results), **changes)
    return summary_text([question], run).splitlines()


class Groups(unittest.TestCase):
    HEADS = [
        ("confirmed", CONFIRMED, "group 1 confirmed: 3 cycles, 2 confirmed"),
        ("potential", POTENTIAL, "group 1 potential: 1 cycle"),
        ("known", KNOWN, "group 1 confirmed, known: 3 cycles, 2 confirmed"),
        ("happened", HAPPENED, "group 1 happened"),
        ("happened, with cycles", replace(CONFIRMED, verdict=Verdict.HAPPENED), "group 1 happened: 3 cycles, 2 confirmed"),
    ]

    def test_heads(self) -> None:
        for name, result, head in self.HEADS:
            with self.subTest(name):
                self.assertEqual(lines_of(result)[0], head)
        self.assertEqual(head_of(7, CONFIRMED, ""), "group 7 confirmed")

    def test_confirmed(self) -> None:
        self.assertEqual(lines_of(CONFIRMED)[1:], [
            "  thread 1 (teller)",
            f"    holds lock 1, acquired at {HOLD}",
            f"    waits for lock 2 at {WAIT}",
            "  thread 2",
            f"    holds lock 2, acquired at {HOLD}",
            f"    waits for lock 1 at {WAIT}",
            "  How it happens, in cycle 0 1 with 4 events:",
            "    0: thread 0 forks thread 1",
            "    .. 1 event",
            f"    2: thread 1 acquires lock 1    {HOLD}",
            f"    6: thread 2 acquires lock 2    {HOLD}",
            "    .. 1 event",
            f"    3: thread 1 waits for lock 2, which thread 2 holds    {WAIT}",
            f"    7: thread 2 waits for lock 1, which thread 1 holds    {WAIT}",
            "  Look at: Choose one order.",
        ])

    def test_potential(self) -> None:
        self.assertEqual(lines_of(POTENTIAL)[2:4] + lines_of(POTENTIAL)[7:], [
            "    holds lock 8, acquired at src/audit.c:80 in audit",
            "    wants lock 9 at src/audit.c:81 in audit",
            "  Kept apart by a join:",
            "    Thread 0 joins thread 5.",
            "    2 further steps.",
            "  In full: goodlockd explain bank.trace --bound 2 --cycle 4,5",
            "  Look at: It is harmless.",
        ])

    def test_reproduced(self) -> None:
        command = "agents/pthread/goodlock --reproduce bank --cycle 0,1 ./bank"
        found = lines_of(replace(POTENTIAL, reproduce=command))
        self.assertEqual((found[0], found[-2]), ("group 1 potential: 1 cycle", f"  Reproduce: {command}"))
        found = lines_of(replace(CONFIRMED, reproduced=("reproduced in run 1, 0.50 s, 4 steps", "thread 1 waits"), reproduce=command))
        self.assertEqual(found[0], "group 1 confirmed, reproduced: 3 cycles, 2 confirmed")
        self.assertEqual(found[-4:-1], ["  It was reproduced in run 1, 0.50 s, 4 steps:", "    thread 1 waits", f"  Reproduce: {command}"])
        self.assertNotIn("eproduce", "\n".join(lines_of(CONFIRMED)))

    def test_no_source_lines_and_names(self) -> None:
        first, second = NOWHERE.members
        spots = [replace(spot, has_source=False, name="bob") for spot in (first.hold, first.wait)]
        found = lines_of(replace(NOWHERE, members=(replace(first, hold=spots[0], wait=spots[1]), second)))
        self.assertEqual(found[1:4], ["  thread 1", "    holds lock 1 (bob)", "    waits for lock 2 (bob)"])

    def test_callers(self) -> None:
        first, second = CONFIRMED.members
        member = replace(first, wait=replace(first.wait, callers=("src/main.c:7 in run",)))
        self.assertEqual(lines_of(replace(CONFIRMED, members=(member, second)))[3], f"    waits for lock 2 at {WAIT} < src/main.c:7 in run")

    def test_a_wait_for_a_thread(self) -> None:
        main, work = location_of("main.c:60 in main"), location_of("work.c:8 in work")
        members = (ResultMember(0, Spot(location_of("main.c:59 in main"), 1), Spot(main), (1,)),
                   ResultMember(3, Spot(location_of("main.c:57 in main")), Spot(work, 1)))
        self.assertEqual(lines_of(replace(HAPPENED, members=members))[1:7], [
            "  thread 0",
            "    holds lock 1, acquired at main.c:59 in main",
            "    waits for the end of another thread at main.c:60 in main",
            "  thread 3",
            "    was started at main.c:57 in main",
            "    waits for lock 1 at work.c:8 in work",
        ])


class Summary(unittest.TestCase):
    def test_head(self) -> None:
        self.assertEqual(summary_of(CONFIRMED, POTENTIAL)[0],
                         "question 0: 12 events; cycles of at most 2 members: 5, confirmed 3, in 2 groups")

    def test_none(self) -> None:
        self.assertEqual(summary_of(report=Report(0, 12, 2, 0, 0))[1:], ["  Within the bound this run predicts no deadlock of this shape."])
        self.assertNotIn("predicts no deadlock", "\n".join(summary_of(HAPPENED, report=Report(0, 12, 2, 0, 0))))

    def test_left_out(self) -> None:
        found = summary_of(CONFIRMED, POTENTIAL, SUPPRESSED, run=replace(run_of(), most=1, suppressions="known", unused=(4,)),
                           left_out=LeftOut(1, 7, 2), notes=("the recording stopped before the program ended",))
        self.assertEqual(found[1:4], [
            "  the recording stopped before the program ended",
            "  1 cycle left out: a member does not wait, or not without end, since it tries to acquire its lock or has a timeout",
            "  7 cycles left out, 2 confirmed: these are in too many further groups",
        ])
        self.assertEqual(found[-5:], ["1 group not shown", "", "1 group with 3 cycles suppressed", "", "known line 4 suppresses nothing"])


class Many(unittest.TestCase):
    def test_text(self) -> None:
        results = (replace(CONFIRMED, traces=("a.trace", "b.trace"), trace_count=4), replace(HAPPENED, traces=("c.trace",)),
                   replace(POTENTIAL, state=State.KNOWN), SUPPRESSED)
        run = Run("traces", results, Numbers(40, confirmed=2, potential=1, tried=3), faults=(("d.trace", "line 1 not understood"),),
                  suppressions="known", unused=(4,), notes=("the recording stopped before the program ended (in 2 traces)",))
        self.assertEqual(many_text(run, 5).splitlines(), [
            "5 traces, 1 without a report; 40 events; 6 cycles, 2 confirmed, in 4 groups",
            "  3 cycles left out: a member does not wait, or not without end, since it tries to acquire its lock or has a timeout",
            "  the recording stopped before the program ended (in 2 traces)",
            "",
            "group 1 confirmed: 3 cycles in 4 traces, 2 confirmed",
            f"  a thread holds the lock acquired at {HOLD}",
            f"    and waits at {WAIT}",
            f"  a thread holds the lock acquired at {HOLD}",
            f"    and waits at {WAIT}",
            "  In a.trace as cycle 0 1, in b.trace",
            "  Look at: Choose one order.",
            "",
            "group 2 happened: in 1 trace",
            f"  a thread holds the lock acquired at {HOLD}",
            f"    and waits at {WAIT}",
            f"  a thread holds the lock acquired at {HOLD}",
            f"    and waits at {WAIT}",
            "  In c.trace",
            "  Look at: Choose one order.",
            "",
            "group 3 potential, known: 1 cycle in 1 trace, 0 confirmed",
            "  a thread holds the lock acquired at src/audit.c:80 in audit",
            "    and wants another at src/audit.c:81 in audit",
            "  a thread holds the lock acquired at src/audit.c:90 in review",
            "    and wants another at src/audit.c:91 in review",
            "  Kept apart by a join",
            "  In bank.trace as cycle 4 5",
            "  Look at: It is harmless.",
            "",
            "1 group with 3 cycles suppressed",
            "",
            "known line 4 suppresses nothing",
            "",
            "without a report",
            "  d.trace: line 1 not understood",
        ])

    def test_values(self) -> None:
        run = Run("traces", (replace(NO_VALUE, traces=("a.trace",)),), Numbers(40, confirmed=0, potential=1, no_value=3))
        self.assertEqual(many_text(run, 1).splitlines(), [
            "1 trace, 0 without a report; 40 events; 4 cycles, 0 confirmed, 3 if no value decides, in 1 group",
            "",
            "group 1 confirmed if no value decides: 4 cycles in 1 trace, 0 confirmed, 3 if no value decides",
            f"  a thread holds the lock acquired at {HOLD}",
            f"    and waits at {WAIT}",
            f"  a thread holds the lock acquired at {HOLD}",
            f"    and waits at {WAIT}",
            "  Kept apart only by what these reads see: bank.c:4 in is_open reads memory that a thread wrote after bank.c:3 in open",
            "  In a.trace as cycle 0 1",
            "  Look at: Choose one order.",
        ])


if __name__ == "__main__":
    unittest.main()
