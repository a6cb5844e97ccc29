"""Tests the agents' reports: the names of sites, the search in a window, and what is written, from files as the collector writes them."""
import contextlib
import io
import os
from collections.abc import Iterator, Sequence
from typing import Optional
from unittest.mock import patch

from goodlock.agent.gate import settings_from
from goodlock.agent.report import finish
from goodlock.agent.run import Run, shortly
from goodlock.agent.search import (HELPERS_OF_TRIES, LONG, NOT_SEARCHED, SIGNAL, TIME, WOKEN, Limit, Stopped, Window, add_waits, check, check_all,
                                   drop_part_of_line, grouped, has_waits, kind_of, results, search, without_tries)
from goodlock.agent import names
from goodlock.agent.sites import Sites, Source, name_lines_of, source_of
from goodlock.errors import InputError
from goodlock.limits import ENDS_OF_THREADS, FIRST_THREAD, HELPERS, TIMED_MARKERS, TRY_MARKERS, WAKE_UPS
from goodlock.reports import Cycle, Member, Report, Verdict, read_reports
from goodlock.traces import Index, read_trace
from written import END, HEADER, OPPOSITE_REPORT, InFolder, entry, event

SITES = "1\tmain.py:9 in main\n2\tbank.py:34 in transfer\tmain.py:7 in run\n3\tbank.py:35 in transfer\n4\t/usr/lib/threading.py:3 in run\tx.py:1 in f\n"
TRACE = "# at 1\n0f1\n0f2\n# at 2\n1a10\n# at 3\n1a20\n1r20\n1r10\n# at 2\n2a20\n# at 3\n2a10\n2r10\n2r20\n"
SUMMARY = "attached 1\nlock_events 8\nthreads 3\nread_locks 0\ncrowded_locks 0\nunseen 0\noverflowing 0\noff 0\ntruncated 0\nclash 0\nprocesses 0\n" \
          "cleared 0\nfutexes 0\nvalues 15\nframes 1\npython 0\nfollower 0\nfollows 0\nserver 0\njava 0\nno_log 3\nlogged 2000\nleft_out 0\n"
WRITTEN = """question 0 length 10 bound 2 cycles 1 confirmed 1
cycle 0 1 confirmed
  thread 1 lock 20 holds 10 place 3
    thread 1 from main.py:9 in main
    lock 20 at bank.py:35 in transfer
    lock 10 since bank.py:34 in transfer
  thread 2 lock 10 holds 20 place 7
    thread 2 from main.py:9 in main
    lock 10 at bank.py:35 in transfer
    lock 20 since bank.py:34 in transfer
  witness 0 1 2 6
"""


class OfRun(InFolder):
    def setUp(self) -> None:
        super().setUp()
        os.mkdir("run.tmp")
        self.run_ = Run("run", "/nowhere", 2)
        self.write("run.tmp/sites", SITES)
        self.write("run.tmp/summary", SUMMARY)
        self.write("run.tmp/processes", "")
        self.window(TRACE, OPPOSITE_REPORT)

    def search(self, number: int, bound: int) -> Window:
        return search(self.run_, number, self.run_.window(number, "trace"), bound)

    def window(self, trace: str, answer: str, number: int = 1) -> None:
        self.write(self.run_.window(number, "trace"), trace)
        self.write(f"run.tmp/{number}.answer", answer)
        self.write(f"run.tmp/{number}.window", "10 0\n10 20 1\n20 10 2\nend\n")

    def finish(self, windows: int = 1, gate: Sequence[str] = ()) -> tuple[int, str]:
        errors = io.StringIO()
        with contextlib.redirect_stderr(errors):
            return finish(self.run_, windows, 60, settings_from(gate)), errors.getvalue()


class Finishes(OfRun):
    def test_report(self) -> None:
        self.assertEqual(self.finish(), (1, "goodlock: 10 events, 1 cycle, 1 confirmed: run.report, run.trace\n"))
        self.assertEqual(self.read("run.report"), WRITTEN)
        self.assertEqual(self.read("run.trace").split("\n")[:5],
                         ["# at main.py:9 in main", "0f1", "0f2", "# at bank.py:34 in transfer", "1a10"])

    def test_callers(self) -> None:
        self.write("run.tmp/summary", SUMMARY.replace("frames 1", "frames 2"))
        self.finish()
        self.assertIn("    lock 10 since bank.py:34 in transfer < main.py:7 in run\n", self.read("run.report"))

    def test_notes(self) -> None:
        for old, new, note in [
            ("attached 1", "attached 0", "no events: the agent was not loaded; the program is statically linked, has other rights, or clears .*"),
            ("lock_events 8", "lock_events 0", "no lock events: the program has started 2 threads and called no lock function; .*"),
            ("attached 1", "attached 0\nfollower 1", "no events: the process could not open the shared memory of its collector; .*"),
            ("overflowing 0", "overflowing 1", "1 acquire beyond 31 held locks were recorded for an artificial thread"),
        ]:
            self.setUp()
            text = SUMMARY.replace("follower 0\n", "") if "follower" in new else SUMMARY
            self.write("run.tmp/summary", text.replace(old, new))
            self.assertRegex(self.finish()[1], f"^goodlock: {note}\ngoodlock: 10 events")
            self.assertRegex(self.read("run.report"), f"^question .*\n    {note}\ncycle")

    def test_values_of_java(self) -> None:
        plain = "values of plain fields"
        for values, notes in [("2", ["values of volatile fields and atomics: --memory atomics records them", plain]), ("3", [plain])]:
            self.window(TRACE, OPPOSITE_REPORT)
            self.write("run.tmp/summary", SUMMARY.replace("values 15", f"values {values}").replace("java 0", "java 1"))
            self.assertEqual(self.finish()[1].splitlines()[:-1], [f"goodlock: not examined: {note}" for note in notes])

    def test_what_was_not_examined(self) -> None:
        self.write("run.tmp/processes", "7 0 httpd\n8 0 httpd\n9 1 logger\n")
        for old, new, note in [
            ("crowded_locks 0", "crowded_locks 1", "1 reader-writer lock with more than 8 readers: what the further ones hold and wait for is no part of a cycle"),
            ("unseen 0", "unseen 2", "2 threads started in a way that is not seen: what came before the start is not ordered"),
            ("off 0", "off 1", "what came after the recording stopped, before the program ended"),
            ("truncated 0", "truncated 1", "what came after the trace ends, before the program did: it could not be written"),
            ("clash 0", "clash 1", "another agent streams to the same server, which takes one run: .*"),
            ("cleared 0", "cleared 1", "1 program started with an environment that lacks the agent's variables"),
            ("futexes 0", "futexes 3", "3 waits by futex calls: of locks that are made of atomics, or for values"),
            ("values 15", "values 3", "values in memory are not seen: compile the program with the options that goodlock --flags gcc .*"),
            ("values 15", "values 13", "values of plain memory: --memory is atomics"),
            ("values 15", "values 0", "values in memory: --memory is none"),
            ("values 15", "values 31", "some values in memory: there was no memory to follow them, or the run has more than 65,000 threads"),
            ("processes 0\ncleared 0\nfutexes 0\nvalues 15\nframes 1\npython 0\nfollower 0\nfollows 0", "processes 2\ncleared 0\nfutexes 0\n"
             "values 15\nframes 1\npython 0\nfollower 0\nfollows 1", r"further processes with threads, 2: httpd \(2\)"),
            ("processes 0", "processes 2", r"further processes with threads, 2: httpd \(2\); --trace-children makes a report of each"),
        ]:
            self.window(TRACE, OPPOSITE_REPORT)
            self.write("run.tmp/summary", SUMMARY.replace(old, new))
            self.assertRegex(self.finish()[1], f"^goodlock: not examined: {note}\ngoodlock: 10 events")
            self.assertRegex(self.read("run.report"), f"^question .*\n    not examined:\n      {note}\n    process 9: run.p9.report\ncycle")

    def test_a_name_with_another_separator(self) -> None:
        """A line ends at a line feed alone."""
        self.write("run.tmp/processes", "7 0 a\x0bb\u2028c\n")
        self.write("run.tmp/summary", SUMMARY.replace("processes 0", "processes 1"))
        self.assertIn("further processes with threads, 1: a\x0bb\u2028c; ", self.finish()[1])

    def test_libraries(self) -> None:
        self.write("run.tmp/libraries", "libc.so.6\nlibgomp.so.1\nlibQt5Core.so.5\nlibgomp.so.1\nlibgomps.so\n")
        self.finish()
        self.assertIn("\n    not examined:\n      the locks inside of libQt5Core, libgomp\n", self.read("run.report"))

    def test_java(self) -> None:
        """The agent for pthreads has seen a virtual machine; the agent for Java could not see all locks, or was not loaded."""
        monitors = "the monitors and locks of a program in Java, which are not seen here: agents/java records them"
        self.write("run.tmp/libraries", "libjvm.so\nlibgomp.so.1\n")
        self.finish()
        self.assertIn(f"\n    not examined:\n      {monitors}\n      the locks inside of libgomp\n", self.read("run.report"))
        self.setUp()
        self.write("run.tmp/unseen", "".join(f"the locks of C{at}\n" for at in range(6)))
        self.finish()
        self.assertRegex(self.read("run.report"), "\n    not examined:\n(?:      the locks of C[0-4]\n){5}      and 1 more of these\ncycle")
        self.setUp()
        self.write("run.tmp/summary", SUMMARY.replace("attached 1", "attached 0").replace("java 0", "java 1"))
        self.assertEqual(self.finish()[0], 1)
        self.assertIn("\n    no events: the virtual machine has not loaded the agent; a line above may say why\n", self.read("run.report"))

    def test_values_in_python(self) -> None:
        """The options of a compiler for C are no advice for a program in Python."""
        self.write("run.tmp/summary", SUMMARY.replace("values 15", "values 3").replace("python 0", "python 1"))
        self.finish()
        self.assertEqual(self.read("run.report"), WRITTEN)

    def test_runs_that_were_not_analysed(self) -> None:
        """A deadlock comes first, then the fact that the run was not analysed, or only in part."""
        for old, new, without, status in [
            ("", "", 0, 1), ("attached 1", "attached 0", 2, 1), ("off 0", "off 1", 3, 1), ("truncated 0", "truncated 1", 3, 1),
            ("lock_events 8", "lock_events 0", 2, 1), ("lock_events 8\nthreads 3", "lock_events 0\nthreads 1", 0, 1),
            ("lock_events 8\nthreads 3\nread_locks 0", "lock_events 0\nthreads 3\nread_locks 1", 0, 1), ("clash 0", "clash 1", 3, 1),
            ("processes 0", "processes 1", 3, 1), ("cleared 0", "cleared 1", 0, 1), ("unseen 0", "unseen 1", 0, 1),
        ]:
            for answer, wanted in [("question 0 length 10 bound 2 cycles 0 confirmed 0\n", without), (OPPOSITE_REPORT, status)]:
                self.setUp()
                self.write("run.tmp/summary", SUMMARY.replace(old, new))
                self.window(TRACE, answer)
                self.assertEqual(self.finish()[0], wanted, new)

    def test_deadlock_that_happened(self) -> None:
        self.write("run.tmp/deadlock", "deadlock of 2 threads, which wait for each other\nthread 1 waits for lock 20 at @3@\n  lock 10 since @2@\n")
        self.window(TRACE, "question 0 length 10 bound 2 cycles 0 confirmed 0\n")
        self.assertEqual(self.finish()[0], 1)
        self.assertEqual(self.read("run.report").splitlines()[1:], [
            "    deadlock of 2 threads, which wait for each other", "    thread 1 waits for lock 20 at bank.py:35 in transfer",
            "    lock 10 since bank.py:34 in transfer"])

    def test_suppressions_that_are_not_used(self) -> None:
        """They come last, and change no status. A run that was not analysed needs none."""
        for patterns, old, new, status, lines in [
            ("*transfer\n", "", "", 0, ["1 suppressed"]),
            ("*transfer\n# none\n*audit\n*transfer\n\n*journal\n", "", "", 0,
             ["1 suppressed", "known line 3 suppresses nothing", "known line 6 suppresses nothing"]),
            ("*audit\n", "", "", 1, ["1 new; --fail-on confirmed: 1 confirmed", "known line 1 suppresses nothing"]),
            ("*transfer\n*audit\n", "off 0", "off 1", 3, ["1 suppressed", "known line 2 suppresses nothing"]),
            ("*transfer\n*audit\n", "attached 1", "attached 0", 2, ["1 suppressed"]),
        ]:
            with self.subTest(patterns, new=new):
                self.setUp()
                self.write("known", patterns)
                self.write("run.tmp/summary", SUMMARY.replace(old, new))
                found, said = self.finish(gate=["--suppress=known"])
                self.assertEqual((found, said.partition("run.trace\n")[2].splitlines()), (status, [f"goodlock: {line}" for line in lines]))

    def test_suppressions_without_a_report(self) -> None:
        self.write("known", "*audit\n")
        self.window(TRACE, "broken\n")
        status, said = self.finish(gate=["--suppress=known"])
        self.assertEqual((status, "suppresses" in said), (2, False))

    def across(self, dependencies: str, answer: str) -> None:
        """The dependencies of all windows, and the report on what tools/reduce makes of them."""
        self.write("run.tmp/all", dependencies)
        self.write("run.tmp/0.answer", answer)

    def test_windows(self) -> None:
        """A window without a new cycle is removed; a cycle at the same lines counts for the first one. The dependencies show no other cycle."""
        self.window(TRACE, OPPOSITE_REPORT, 2)
        self.window(TRACE.replace("# at 3\n2a10", "# at 1\n2a10"), OPPOSITE_REPORT, 3)
        self.across(TRACE, OPPOSITE_REPORT.replace("length 10", "length 8"))
        note = "the order of events in different ones of the 3 windows, so that cycles across windows are potential: --keep-log is 0"
        self.assertEqual(self.finish(3), (1, f"goodlock: not examined: {note}\n"
                                             "goodlock: 30 events, 2 cycles, 2 confirmed: run.report, run.trace, run.3.report, run.3.trace\n"))
        self.assertIn("    window 3: run.3.report\n", self.read("run.report"))
        self.assertIn("    and 1 more cycle at these lines, 1 of them confirmed\n", self.read("run.report"))
        self.assertFalse(os.path.exists("run.2.trace") or os.path.exists("run.all.trace"))

    def test_across_windows(self) -> None:
        """A cycle that no window has is potential, at its lines. One that the orders of whole threads exclude is none."""
        for verdict, places, cycles in (("confirmed", (" place 3", " place 7"), 1), ("potential", ("", ""), 0)):
            self.setUp()
            for number in (1, 2):
                self.window("# at 2\n0a10\n", "question 0 length 1 bound 2 cycles 0 confirmed 0\n", number)
            report = OPPOSITE_REPORT.replace("length 10", "length 8")
            if verdict == "potential":
                report = report.replace("confirmed", "potential", 2).replace("potential 1", "confirmed 0", 1)
                report = report.replace(" place 3", "").replace(" place 7", "").replace("  witness 0 1 2 6\n", "")
            self.across(TRACE, report)
            self.assertEqual(self.finish(2)[0], 0)
            self.assertEqual(os.path.exists("run.all.report"), bool(cycles), places)
            self.assertEqual("    across windows: run.all.report\n" in self.read("run.report"), bool(cycles))
        self.setUp()
        self.window("# at 2\n0a10\n", "question 0 length 1 bound 2 cycles 0 confirmed 0\n")
        self.window("# at 2\n0a10\n", "question 0 length 1 bound 2 cycles 0 confirmed 0\n", 2)
        self.across(TRACE, OPPOSITE_REPORT.replace("length 10", "length 8"))
        self.write("run.tmp/summary", SUMMARY.replace("no_log 3", "no_log 1").replace("left_out 0", "left_out 7"))
        said = self.finish(2)[1]
        self.assertIn("different ones of the 2 windows, so that cycles across windows are potential: its log takes more than --keep-log\n", said)
        self.assertIn("not examined: 7 acquires under held locks in cycles across windows: the run has too many different ones\n", said)
        self.assertIn("goodlock: 2 events, 1 cycle, 0 confirmed: run.report, run.trace, run.all.report, run.all.trace\n", said)
        self.assertEqual(self.read("run.all.report").splitlines()[0], "question 0 length 8 bound 2 cycles 1 confirmed 0")
        self.assertIn("cycle 0 1 potential\n  thread 1 lock 20 holds 10\n", self.read("run.all.report"))
        self.assertIn("    potential: across windows: its members are in different windows", self.read("run.all.report"))
        self.assertEqual(self.read("run.all.trace").splitlines()[:3], ["# a further trace of run", "# at main.py:9 in main", "0f1"])

    def test_no_ring(self) -> None:
        """If the lock graph of all windows has no ring, no window and no log is read."""
        self.window("broken", "broken\n", 2)
        for number, edges in ((1, "10 20 1\n"), (2, "20 30 2\n")):
            self.write(f"run.tmp/{number}.window", f"10 0\n{edges}end\n")
        self.assertEqual(self.finish(2), (0, "goodlock: reduced from 2,000 events of the whole run: its lock graph has no cycle\n"
                                             "goodlock: 2000 events, 0 cycles, 0 confirmed: run.report, run.trace\n"))
        self.assertEqual(self.read("run.report").splitlines()[0], "question 0 length 0 bound 2 cycles 0 confirmed 0")
        self.assertEqual((self.read("run.trace"), os.path.exists("run.2.trace")), ("", False))

    def test_ring_across_windows(self) -> None:
        """The ring has an edge in each window; the first window has no ring."""
        for number, edges in ((1, "10 20 1\n"), (2, "20 10 2\n")):
            self.window("0a10\n", "question 0 length 1 bound 2 cycles 0 confirmed 0\n", number)
            self.write(f"run.tmp/{number}.window", f"1 0\n{edges}end\n")
        self.across(TRACE, OPPOSITE_REPORT.replace("length 10", "length 8"))
        self.assertIn(" 1 cycle, 0 confirmed: ", self.finish(2)[1])
        os.remove("run.tmp/2.window")  # the disk was full
        self.assertIn("goodlock: ", self.finish(2)[1])

    def test_waits_across_windows(self) -> None:
        """What the log lacks: the locks of joins and wake-ups. The windows that have them are searched, and reported if that shows a cycle."""
        for answer, said, is_whole in (
                ("question 0 length 1 bound 2 cycles 0 confirmed 0\n", "goodlock: 2000 events, 0 cycles, 0 confirmed: ", True),
                (OPPOSITE_REPORT.replace("20", "2499999999"), " 1 confirmed: run.report, run.trace, run.2.report, run.2.trace\n", False),
                (OPPOSITE_REPORT.replace("20", "2999999999"), " 1 confirmed: run.report, run.trace, run.2.report, run.2.trace\n", False),
                ("no\n", "goodlock: not examined: all cycles in 1 of 2 windows: no\n", False)):
            self.setUp()
            self.window("0a10\n", "question 0 length 1 bound 2 cycles 0 confirmed 0\n")
            self.window(TRACE.replace("20", answer.partition("lock ")[2].split(" ")[0] or "20"), answer, 2)
            for number in (1, 2):
                self.write(f"run.tmp/{number}.window", "10 0\nend\n")
            self.write("run.tmp/2.waited", "2\n")
            self.across(TRACE, "question 0 length 8 bound 2 cycles 0 confirmed 0\n")
            self.assertIn(said, text := self.finish(2)[1])
            self.assertEqual(" whole run: its lock graph has no cycle\n" in text, is_whole, answer)
            self.assertIn("not examined: cycles through joins and wake-ups whose members are in different windows\n", text)

    def test_no_report(self) -> None:
        for answer, reason in [("no\n", "no"), ("", "goodlockd prints no report"), (OPPOSITE_REPORT.replace("place 3", "place 9"), "run.trace:3: .*")]:
            self.setUp()
            self.window(TRACE, answer)
            status, text = self.finish()
            self.assertEqual(status, 2)
            self.assertRegex(text, f"^goodlock: there is no report: {reason}; the trace is kept: run.trace\n$")
            self.assertIn("# at bank.py:34 in transfer\n", self.read("run.trace"))

    def test_refused_event(self) -> None:
        self.window("0f1\n1a5\n0a5\n", "refused 10 HeldByOther at 2\n")
        self.assertIn("there is no report: run.trace:3: 0a5: thread 1 holds lock 5 since place 1; ", self.finish()[1])

    def test_no_program(self) -> None:
        os.remove("run.tmp/1.answer")
        self.assertIn("there is no report: [Errno 2] No such file or directory: '/nowhere'; the trace is kept", self.finish()[1])


class Searches(OfRun):
    def test_tried_and_timed(self) -> None:
        for marker, tried, confirmed, text in [(TRY_MARKERS, 1, 0, "cycles 0 confirmed 0\n    1 cycle left out: a member does not wait"),
                                               (TIMED_MARKERS, 0, 0, "cycles 0 confirmed 0\n    timed: this cycle ends when a timeout does\n")]:
            self.setUp()
            marked = TRACE.replace("# at 3\n1a20\n", f"1a{marker + 1}\n# at 3\n1a20\n1r{marker + 1}\n")
            report = OPPOSITE_REPORT.replace("length 10", "length 12").replace("lock 20 holds 10 place 3", f"lock 20 holds 10 {marker + 1} place 4")
            self.window(marked, report.replace("holds 20 place 7", "holds 20 place 9").replace("0 1 2 6", "0 1 2 3 8"))
            window = self.search(1, 2)
            self.assertEqual((window.tried, sum(found.confirmed for found in window.found)), (tried, confirmed))
            self.assertEqual(self.finish()[0], 0)
            self.assertIn(text, self.read("run.report"))
            self.assertIn(f"# mark {marker + 1}\n1a{marker + 1}\n", self.read("run.trace"))
        self.assertIn("    timed: thread 1 holds lock 10 since bank.py:34 in transfer\n", self.read("run.report"))
        self.assertNotIn(f"holds lock {TIMED_MARKERS + 1}", self.read("run.report"))

    def test_waiting_writer(self) -> None:
        """Thread 1 reads by part 21 and wants 9. Thread 2 holds 9 and wants to read by part 22. Thread 3 writes: it holds part 22, wants 21."""
        known = ("# lock 21 is a part of lock 20\n# thread 3 is auditor\n# lock 21 is a part of lock 20 for thread 1\n"
                 "# lock 22 is a part of lock 20 for thread 2\n")
        trace = "0f1\n0f2\n0f3\n1a21\n1a9\n1r9\n1r21\n2a9\n2a22\n2r22\n2r9\n3a20\n3a22\n3a21\n3r21\n3r22\n3r20\n"
        report = ("question 0 length 17 bound 3 cycles 1 confirmed 1\ncycle 0 1 3 confirmed\n  thread 1 lock 9 holds 21 place 4\n"
                  "  thread 2 lock 22 holds 9 place 8\n  thread 3 lock 21 holds 20 22 place 13\n  witness 0 1 2 3 7 11 12\n")
        for comment, cycles, confirmed, text in [("", 0, 0, "    1 cycle left out: a reader would wait for a writer that waits itself"),
                                                 ("# lock 20 prefers writers\n", 1, 1, "    if writers go first: a reader waits for")]:
            self.setUp()
            self.write("run.tmp/names", known + comment)
            self.window(trace, report)
            self.assertEqual(self.search(1, 3).writers_wait, 1 - cycles)
            self.assertEqual(self.finish()[0], 1 if cycles else 0)
            self.assertIn(f" cycles {cycles} confirmed {confirmed}\n", self.read("run.report"))
            self.assertIn(text, self.read("run.report"))
            self.assertIn("\n# lock 21 is a part of lock 20 for thread 1\n" + comment + "1a21\n", self.read("run.trace"))
        self.assertIn("\n    thread 3 is auditor\n    lock 21 is lock 20, read by thread 1\n", self.read("run.report"))

    def test_first_thread(self) -> None:
        """In a later window it has another number."""
        self.write("run.tmp/names", "# thread 0 is main\n# thread 10 is other\n# lock 21 is a part of lock 20 for thread 0\n# lock 0 is zero\n")
        for window, number in ((1, 0), (2, 1_000_000_000)):
            found = names.Names(self.run_, window)
            self.assertEqual((found.name_of("thread", number), found.name_of("thread", 10), found.name_of("lock", 0), found.name_of("lock", 21)),
                             ("main", "other", "zero", "lock 20, read by main"))

    def test_kinds(self) -> None:
        for held, kind in [((10,), "confirmed"), ((10, TRY_MARKERS + 2), "tried"), ((10, TIMED_MARKERS + 2), "timed"),
                           ((TRY_MARKERS + 2, TIMED_MARKERS + 2), "tried"), ((TRY_MARKERS - 1,), "confirmed")]:
            self.assertEqual(kind_of(Cycle((0, 1), Verdict.CONFIRMED, [Member(1, 20, held, 3), Member(2, 10, (20,), 7)])), kind)

    def test_too_many_groups(self) -> None:
        report = OPPOSITE_REPORT.replace("cycles 1 confirmed 1", "cycles 2 confirmed 2")
        other = "cycle 2 3 confirmed\n  thread 1 lock 40 holds 30 place 11\n  thread 2 lock 30 holds 40 place 15\n  witness 0 1 2 3 4 5 6 7 8 9 10 14\n"
        more = "# at 1\n1a30\n1a40\n1r40\n1r30\n2a40\n2a30\n2r30\n2r40\n"
        self.window(TRACE + more, report.replace("length 10", "length 18") + other)
        with patch("goodlock.agent.search.MOST_GROUPS", 1):
            self.assertEqual(self.search(1, 2).notes, ["1 cycle left out, 1 confirmed: these are in too many further groups"])
        self.assertEqual((len(self.search(1, 2).found), self.search(1, 2).notes), (2, []))

    def program(self, text: str, bound: int, graph: str = "10 0\n1 2 1\n2 3 2\n3 4 3\n4 1 4\nend\n") -> Window:
        """Searches with a script of the shell instead of goodlockd. In the graph there is a ring of four locks."""
        if os.path.exists("run.tmp/1.answer"):
            os.remove("run.tmp/1.answer")
        self.write("run.tmp/1.window", graph)
        self.write("answer", OPPOSITE_REPORT)
        self.write("program", f"#!/bin/sh\n{text}\n")
        os.chmod("program", 0o755)
        self.run_ = Run("run", os.path.abspath("program"), bound)
        check(self.run_, 1, Limit(60))
        return next(results(self.run_, 1, Limit(60)))[1]

    def test_bounds(self) -> None:
        """One after another, and none that can have no further cycle."""
        for bound, graph, asked in [(8, "1 2 1\n2 3 2\n3 1 3\n", "2 3"), (2, "1 2 1\n2 3 2\n3 1 3\n", "2"), (4, "1 2 1\n", "4"), (8, "", "8")]:
            self.setUp()
            window = self.program('echo "$4" >>asked; exec cat answer', bound, f"10 0\n{graph}end\n")
            self.assertEqual((" ".join(self.read("asked").split()), window.bound, window.why), (asked, bound, ""))
        self.program('echo "$4" >>asked; exec cat answer', 4, "10 0\n")  # was not written whole
        self.assertEqual(self.read("asked"), "8\n2\n3\n4\n")

    def test_search_that_ends_early(self) -> None:
        ends = '[ "$4" = 2 ] && exec cat answer; '
        for text, bound, why in [(f"{ends}kill -ALRM $PPID; exec sleep 60", 2, TIME), (f"{ends}kill -USR1 $PPID; exec sleep 60", 2, SIGNAL),
                                 (f"{ends}echo refused 23 ReportTooLong; exit 1", 2, LONG), (f"{ends}echo broken >&2; exit 1", 2, "broken"),
                                 ("kill -USR1 $PPID; exec sleep 60", NOT_SEARCHED, SIGNAL), ("echo refused 23 ReportTooLong", NOT_SEARCHED, LONG)]:
            with self.subTest(text):
                self.setUp()
                window = self.program(text, 4)
                self.assertEqual((window.bound, window.why, window.length, len(window.found)), (bound, why, 10, int(bound == 2)))
                status, said = self.finish()
                self.assertEqual(status, 1 if bound == 2 else 3)
                cycles = "cycles of more than 2 members, of at most 4" if bound == 2 else "all cycles"
                self.assertIn(f"goodlock: not examined: {cycles}: {why}\n", said)

    def test_report_that_is_read_in_part(self) -> None:
        """What was found stays, if there is no result of a smaller bound."""
        index = Index(read_trace("run.trace"))
        found = list(read_reports("run.trace", index, OPPOSITE_REPORT.splitlines()))

        def stops(number: int) -> Iterator[tuple[Report, Optional[Cycle]]]:
            yield from found[:number]
            raise Stopped(TIME)

        for number, groups in [(1, 0), (2, 1)]:
            window = grouped(self.run_, index, stops(number), 2)
            self.assertEqual((window.length, window.is_partial, window.why, len(window.found)), (10, True, TIME, groups))
        with self.assertRaises(Stopped):
            grouped(self.run_, index, stops(0), 2)
        for results_of, bound, is_partial in [([Window(10, 2), Window(10, 3, TIME, True)], 2, False), ([Window(10, 2, TIME, True)], 2, True)]:
            self.setUp()
            with patch("goodlock.agent.search.search", side_effect=results_of):
                window = self.program("", 4)
            self.assertEqual((window.bound, window.is_partial, window.why), (bound, is_partial, TIME))
            self.assertEqual(self.finish()[0], 3)
            self.assertIn("\n      a part of the cycles of 2 members, and larger ones: " if is_partial else "\n      cycles of more than 2 members",
                          self.read("run.report"))

    def test_no_time_at_all(self) -> None:
        """There is a report nevertheless."""
        with contextlib.redirect_stderr(io.StringIO()):
            self.assertEqual(finish(self.run_, 1, 0, settings_from([])), 3)
        self.assertEqual(self.read("run.report"), f"question 0 length 10 bound 1 cycles 0 confirmed 0\n    not examined:\n      all cycles: {TIME}\n")

    def test_window_without_results(self) -> None:
        """The others have theirs. Its trace is kept."""
        self.window(TRACE, "broken\n", 2)
        status, said = self.finish(2)
        self.assertEqual(status, 1)
        self.assertIn("goodlock: not examined: all cycles in 1 of 2 windows: broken\n", said)
        self.assertTrue(os.path.exists("run.2.trace"))
        self.window(TRACE, "question 0 length 10 bound 2 cycles 0 confirmed 0\n")
        self.window(TRACE, "broken\n", 2)
        os.remove("run.tmp/1.rows")
        self.assertEqual(self.finish(2)[0], 3)

    def test_tries_that_are_left_out(self) -> None:
        """The rewritten trace takes the place of the other only if its search ends."""
        marked = TRACE.replace("# at 3\n1a20\n", f"1a{TRY_MARKERS + 1}\n# at 3\n1a20\n1r{TRY_MARKERS + 1}\n")
        fails = f'grep -q a{TRY_MARKERS + 1} "$2" && echo refused 23 ReportTooLong && exit 1; '
        for text, bound, is_rewritten in [(f"{fails}exec cat answer", 4, True), (f"{fails}echo refused 23 ReportTooLong", NOT_SEARCHED, False)]:
            self.setUp()
            self.write("run.trace", marked)
            self.write("answer", "question 0 length 21 bound 2 cycles 0 confirmed 0\n")
            self.assertEqual(self.program(text.replace("answer", "other"), 4, "12 1\nend\n").bound if self.write("other", self.read("answer")) else 0, bound)
            self.assertEqual(str(HELPERS_OF_TRIES + 1) in self.read("run.trace"), is_rewritten)

    def test_without_tries(self) -> None:
        marker, helper = TRY_MARKERS + 1, HELPERS_OF_TRIES + 1
        lines = [f"{word}\n" for word in ["0f1", "1a10", f"1a{marker}", "1a20", f"1r{marker}", "1r20", "1r10"]]
        order = TRY_MARKERS + 20
        words = "".join(without_tries(lines)).split()
        self.assertEqual(words, ["0f1", "1a10", f"1f{helper}", f"1d{order}", f"1w{order}", f"{helper}d{order}", f"{helper}a20", f"{helper}d{order}",
                                 f"{helper}w{order}", f"1d{order}", f"1d{order}", f"1w{order}", f"{helper}d{order}", f"{helper}r20", "1r10"])
        self.write("x.trace", "".join(f"{word}\n" for word in words))
        self.assertEqual(len(read_trace("x.trace").events), len(words))

    def test_waits(self) -> None:
        """Thread 0 joins thread 1 while it holds lock 10, which thread 1 has acquired. The trace and the lock graph get a lock for the end of
        thread 1, once. A report of a server is about the events without it."""
        joined = "0f1\n1a10\n1r10\n0a10\n0j1\n0r10\n"
        end = ENDS_OF_THREADS + 1
        with_end = f"# lock {end} is the end of thread 1\n0f1\n1a{end}\n1a10\n1r10\n0a10\n1r{end}\n0a{end}\n0r{end}\n0j1\n0r10\n"
        for is_of_server, trace, graph in [(False, with_end, f"6 0\n10 {end} 0\n{end} 10 1\nend\n"), (True, joined, "6 0\nend\n")]:
            self.setUp()
            self.write("run.trace", joined)
            self.write("run.tmp/1.window", "6 0\nend\n")
            self.write("run.tmp/1.waits", "1\n")
            if not is_of_server:
                os.remove("run.tmp/1.answer")
            for _ in range(2):
                add_waits(self.run_, 1)
                self.assertEqual((self.read("run.trace"), self.read("run.tmp/1.window")), (trace, graph))
            self.assertTrue(has_waits(self.run_, 1))

    def test_wake_ups(self) -> None:
        """Thread 1 uses lock 10 before it wakes thread 2, which waits with lock 20 while it holds lock 10."""
        wake = WAKE_UPS + 1
        words = "0f1 0f2 1a10 1r10 2a10 2a20 2r20 1a20 1d7 1w7 1r20 2d7 2a20 2r20 2r10".split()
        self.write("run.trace", "".join(f"{word}\n" for word in words))
        self.write("run.tmp/1.waits", f"{WOKEN}\n")
        os.remove("run.tmp/1.answer")
        add_waits(self.run_, 1)
        self.assertEqual([line for line in self.read("run.trace").splitlines() if line.endswith(str(wake))],
                         [f"1a{wake}", f"1r{wake}", f"2a{wake}", f"2r{wake}"])
        self.assertTrue(self.read("run.tmp/1.window").endswith(f"10 {wake} 2\n{wake} 10 1\n{wake} 20 1\nend\n"))

    def test_several_windows(self) -> None:
        """One without a result is left for the end of the run."""
        for number, answer in ((1, OPPOSITE_REPORT), (2, "broken\n"), (3, "question 0 length 10 bound 2 cycles 0 confirmed 0\n")):
            self.window(TRACE, answer, number)
        check_all(self.run_, 1, 3, 60)
        self.assertEqual([os.path.exists(f"run.tmp/{number}.rows") for number in (1, 2, 3)], [True, False, True])
        self.assertEqual([os.path.exists(self.run_.window(number, "trace")) for number in (1, 2, 3)], [True, True, False])

    def test_part_of_a_line(self) -> None:
        for text, whole in [("0f1\n1a", "0f1\n"), ("0f1\n", "0f1\n"), ("", ""), ("0f", "")]:
            drop_part_of_line(self.write("x", text))
            self.assertEqual(self.read("x"), whole)


VALUED = ("# values atomic 1000000000 plain 2000000000\n# at 1\n0f1\n0f2\n# at 2\n1a10\n# at 3\n1a20\n1r20\n1r10\n1w2000000001\n"
          "# at 4\n2d2000000001\n# at 2\n2a20\n# at 3\n2a10\n2r10\n2r20\n")
POTENTIAL = "question 0 length 12 bound 2 cycles 1 confirmed 0\ncycle 0 1 potential\n  thread 1 lock 20 holds 10\n  thread 2 lock 10 holds 20\n"
EXPLAINED = POTENTIAL + ("  before place 9 its thread runs place 7\n  place 7 reads what place 6 wrote\n  place 6 needs place 3: earlier in its thread\n"
                         "  so place 3 must run: thread 1 cannot stop before it\n")
NOTED = """question 0 length 12 bound 2 cycles 1 confirmed 0
    confirmed if no value decides: 1 cycle
cycle 0 1 potential
  thread 1 lock 20 holds 10
    thread 1 from main.py:9 in main
    lock 20 at bank.py:35 in transfer
    lock 10 since bank.py:34 in transfer
  thread 2 lock 10 holds 20
    thread 2 from main.py:9 in main
    lock 10 at bank.py:35 in transfer
    lock 20 since bank.py:34 in transfer
    confirmed if no value decides: places 3 9
      witness 0 1 2 8
      place 7 reads what place 6 wrote: x.py:1 in f reads memory that a thread wrote after bank.py:35 in transfer
"""


class Weighs(OfRun):
    """In each window thread 2 reads a value that thread 1 writes after its sections. Only that keeps them apart."""

    def valued(self, without: str = "exec cat without", explain: str = "exec cat explained") -> None:
        """The report of a window is that of a server. A script of the shell takes the place of goodlockd: `without` values, and `explain`."""
        self.window(VALUED, POTENTIAL)
        self.write("without", OPPOSITE_REPORT)
        self.write("explained", EXPLAINED)
        self.write("program", f'#!/bin/sh\ncase "$1" in offline) {without};; explain) {explain};; esac\n')
        os.chmod("program", 0o755)
        self.run_ = Run("run", os.path.abspath("program"), 2)

    def test_report(self) -> None:
        self.valued()
        self.assertEqual(self.finish(), (1, "goodlock: 12 events, 1 cycle, 0 confirmed, 1 if no value decides: run.report, run.trace\n"))
        self.assertEqual(self.read("run.report"), NOTED)
        self.assertEqual(self.read("run.trace").split("\n")[:2], ["# values atomic 1000000000 plain 2000000000", "# at main.py:9 in main"])
        index = Index(read_trace("run.trace"))
        cycle = [cycle for _, cycle in read_reports("run.report", index) if cycle][0]
        self.assertEqual((cycle.verdict, cycle.is_graded, len(cycle.reads)), (Verdict.NO_VALUE, True, 1))

    def test_gates(self) -> None:
        for words, status in [([], 1), (["--fail-on=confirmed"], 1), (["--fail-on=certain"], 0), (["--fail-on=new"], 1), (["--fail-on=new-certain"], 0)]:
            self.setUp()
            self.valued()
            with contextlib.redirect_stderr(io.StringIO()):
                self.assertEqual(finish(self.run_, 1, 60, settings_from(words)), status, words)

    def test_potential_without_values(self) -> None:
        self.valued()
        self.write("without", POTENTIAL.replace("length 12", "length 10"))
        self.assertEqual(self.finish()[0], 0)
        self.assertEqual(self.read("run.report").splitlines()[1:3], ["    confirmed if no value decides: 0 cycles", "cycle 0 1 potential"])

    def test_windows(self) -> None:
        """The strongest evidence of all windows counts. A later window with the same verdict at the same lines is removed."""
        for second, kept, verdicts in [(VALUED, ["run"], "0 confirmed, 1 if no value decides"), (TRACE, ["run", "run.2"], "1 confirmed")]:
            self.setUp()
            self.valued()
            self.window(second, POTENTIAL if second == VALUED else OPPOSITE_REPORT, 2)
            self.write("run.tmp/all", "")
            said = self.finish(2)[1]
            self.assertIn(f" 1 cycle, {verdicts}: {', '.join(f'{name}.report, {name}.trace' for name in kept)}\n", said)
            report = self.read(f"{kept[-1]}.report")
            more = "0 of them confirmed, 1 if no value decides"
            self.assertIn(f"    and 1 more cycle at these lines, {more}\n", report)

    def test_whole_run(self) -> None:
        """The log of two windows: the witness is replayed over all events without those of values."""
        self.valued("case $2 in *values-*) exec cat without;; *) exec cat full;; esac")
        self.window(VALUED, POTENTIAL, 2)
        self.write("full", POTENTIAL.replace("length 12", "length 10"))
        self.write("without", OPPOSITE_REPORT.replace("length 10", "length 8"))
        self.write("explained", EXPLAINED.replace("length 12", "length 10"))
        self.write("run.tmp/summary", SUMMARY.replace("no_log 3\nlogged 2000", "no_log 0\nlogged 12"))
        words = [(1, "0f1 0f2"), (2, "1a10"), (3, "1a20 1r20 1r10 1w2000000001"), (4, "2d2000000001"), (2, "2a20"), (3, "2a10 2r10 2r20")]
        with open("run.tmp/calls", "wb") as log:
            log.write(HEADER + b"".join(event(word, site) for site, text in words for word in text.split()) + entry(END))
        status, said = self.finish(2)
        self.assertEqual((status, said.splitlines()[-1]), (1, "goodlock: 12 events, 1 cycle, 0 confirmed, 1 if no value decides: run.report, run.trace"))
        head, note = NOTED.replace("length 12", "length 10").split("cycle 0 1 potential\n")
        self.assertEqual(self.read("run.report"), f"{head}    reduced from 12 events of the whole run: a confirmed cycle was replayed over all of them, a "
                         f"potential one was searched in the reduced trace\ncycle 0 1 potential\n{note}"
                         "    in the whole run thread 0 runs to place 1, thread 1 runs to place 2, thread 2 runs to place 8\n")
        self.assertEqual(self.read("run.trace").splitlines()[0], "# values atomic 1000000000 plain 2000000000")

    def test_time(self) -> None:
        """If the analysis without values does not end, nothing is said of the cycle; if the explanation does not, its reads are not named."""
        ends = "kill -USR1 $PPID; exec sleep 60"
        self.valued(without=ends)
        self.assertEqual(self.finish()[0], 3)
        self.assertIn(f"a part of the cycles of 2 members, and larger ones: {SIGNAL}\n", self.read("run.report"))
        self.assertNotIn("cycle 0 1", self.read("run.report"))
        self.setUp()
        self.valued(explain=ends)
        self.finish()
        self.assertEqual(self.read("run.report"), NOTED.rpartition("      place")[0] + f"      the reads that decide are not named: {SIGNAL}\n")

    def test_no_answer_without_values(self) -> None:
        for without, why in [("echo refused 23 ReportTooLong; exit 1", LONG), ("echo broken >&2; exit 1", "broken")]:
            self.setUp()
            self.valued(without)
            status, said = self.finish()
            self.assertEqual((status, why in said), (3 if why == LONG else 2, True))


class Names(OfRun):
    def test_names(self) -> None:
        one, two = Sites(self.run_, 1), Sites(self.run_, 2)
        self.assertEqual([one.name(number) for number in (1, 2, 4, 9)], ["main.py:9 in main", "bank.py:34 in transfer", "x.py:1 in f", "?"])
        self.assertEqual(two.name(2), "bank.py:34 in transfer < main.py:7 in run")
        self.assertEqual(one.name_all("at @3@ and @1@"), "at bank.py:35 in transfer and main.py:9 in main")

    def test_lines_of_addr2line(self) -> None:
        for line, source in [
            ("transfer at /x/bank.c:35", Source("/x/bank.c:35", "transfer")), ("f(a at b) at /x y/b.c:3 (discriminator 2)", Source("/x y/b.c:3", "f(a at b)")),
            ("f at x.c:?", Source("x.c:?", "f")), ("?? ??:0", None), ("f at ??:?", None), ("f at ??:0", None), ("", None), ("f at x.c", None),
        ]:
            self.assertEqual(source_of(line), source, line)

    def test_trace_that_cannot_be_written(self) -> None:
        name_lines_of("missing.trace", Sites(self.run_, 1), names.Names(self.run_, 1))
        self.assertFalse(os.path.exists("missing.trace.new"))

    def test_no_sites(self) -> None:
        self.assertEqual(Sites(Run("other"), 1).name(1), "?")

    def test_shortly(self) -> None:
        self.assertEqual((shortly(os.path.abspath("x/y")), shortly("/usr/x")), ("x/y", "/usr/x"))

    def test_threads(self) -> None:
        """The first thread of a later window, and a helper."""
        for thread, note in [(FIRST_THREAD, f"thread {FIRST_THREAD} is the first one"),
                             (HELPERS + 1, f"thread {HELPERS + 1} holds a lock for a thread that holds more than 31, from main.py:9 in main")]:
            self.setUp()
            self.window(TRACE.replace("f1\n", f"f{thread}\n").replace("\n1", f"\n{thread}"), OPPOSITE_REPORT.replace("thread 1 ", f"thread {thread} "))
            self.finish()
            self.assertIn(f"    {note}\n", self.read("run.report"))

    def test_names_of_the_collector(self) -> None:
        """The first thread has another number in a later window. A lock in the memory of a file has the name of its variable there."""
        self.write("run.tmp/names", "# thread 0 is main\n# lock 10 is accounts\n# lock 21 is a part of lock 20 for thread 0\nlock 30 at /x/bank+0x1f\n"
                                    "lock 31 at /x/bank+0x20\nno line\n")
        for window, first in ((1, 0), (2, FIRST_THREAD)):
            with patch("goodlock.agent.names.name_at", side_effect=lambda path, offset: {31: "Queue<int>::lock"}.get(offset, "")):
                found = names.Names(self.run_, window)
                self.assertEqual([found.name_of("lock", number) for number in (10, 20, 21, 30, 31)],
                                 ["accounts", None, "lock 20, read by main", "Queue::lock", None])
            self.assertEqual((found.name_of("thread", first), list(found.comments_on("thread", first))), ("main", [f"# thread {first} is main"]))
            self.assertEqual(list(found.comments_on("lock", 21)), [f"# lock 21 is a part of lock 20 for thread {first}"])

    def test_fault_in_raw_trace(self) -> None:
        self.write("run.trace", "0f1\nx\n")
        with self.assertRaisesRegex(InputError, "^run.trace:2: x: not an event"):
            self.search(1, 2)
