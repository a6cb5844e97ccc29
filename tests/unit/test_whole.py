"""Tests the search of all windows together: which trace and report a run of several windows has, from files as the collector writes them."""
import os
import signal
import unittest
from array import array
from typing import Optional
from unittest.mock import patch

from goodlock.agent.run import ALL, Run
from goodlock.agent.search import CONFIRMED, NO_VALUE, POTENTIAL, SIGNAL, TIME, TIMED, WITHOUT_TRIES, Found, FoundMember, Limit, Window
from goodlock.agent.whole import ACROSS_WINDOWS, BY_WINDOWS, Whole, adopt, as_potential, copy_without, drop, search_whole, tries_in
from goodlock.limits import ENDS_OF_THREADS, TIMED_MARKERS, TRY_MARKERS, WAKE_UPS
from goodlock.reducer import Reduced, ReducerError
from written import END, HEADER, OPPOSITE, OPPOSITE_REPORT, InFolder, entry, event

NO_CYCLE = "question 0 length 8 bound 2 cycles 0 confirmed 0\n"
NO_RING, RING = ("10 20 1\n", "20 30 2\n"), ("10 20 1\n", "20 10 2\n")
# Lock 30 is on no ring, so places 3 and 4 change no cycle. Nor do the releases at the end.
LOGGED = "0f1 0f2 1a10 1a30 1r30 1a20 1r20 1r10 2a20 2a10 2r10 2r20"
REDUCED = "# place 0 of the whole run\n0f1\n0f2\n1a10\n# place 5\n1a20\n1r20\n1r10\n2a20\n2a10\n"
REPORT = OPPOSITE_REPORT.replace("length 10", "length 8")


def group(kind: str, confirmed: int = 1) -> Found:
    members = [FoundMember(1, 20, [10], 3, 2, [1], None), FoundMember(2, 10, [20], 7, 2, [1], None)]
    return Found(kind, [0, 1], members, "0 1 2 6", 3, confirmed, no_value=3 - confirmed)


class OfWindows(InFolder):
    """A run of two windows, whose ring has an edge in each of them. No window has a cycle."""

    def setUp(self) -> None:
        super().setUp()
        os.mkdir("run.tmp")
        self.run_ = Run("run", "/nowhere", 2)
        self.write("run.tmp/sites", "")
        self.graphs(RING)
        for number in (1, 2):
            self.write(self.run_.window(number, "trace"), "0a10\n")
            self.answer(number, NO_CYCLE)
        self.write("run.tmp/all", OPPOSITE.replace(" ", "\n"))
        self.log(LOGGED)
        self.answer(ALL, REPORT)

    def graphs(self, edges: tuple[str, str]) -> None:
        for number, text in enumerate(edges, 1):
            self.write(f"run.tmp/{number}.window", f"10 0\n{text}end\n")

    def answer(self, number: int, report: str) -> None:
        """Sets the report on a window, or on all of them: that of a server, so no program is run."""
        self.write(f"run.tmp/{number}.answer", report)

    def log(self, words: str, is_whole: bool = True) -> None:
        with open("run.tmp/calls", "wb") as file:
            file.write(HEADER + b"".join(map(event, words.split())) + (entry(END) if is_whole else b""))

    def search(self, no_log: int = 0, server: int = 0, limit: Optional[Limit] = None) -> Whole:
        limit = limit or Limit(60)
        self.addCleanup(limit.close)
        return search_whole(self.run_, 2, {"server": server, "no_log": no_log, "logged": 2000}, limit)

    def has_trace(self) -> bool:
        return os.path.exists("run.all.trace")


class Reports(OfWindows):
    """The rows of the table in docs/agents.md."""

    def test_no_ring(self) -> None:
        """Neither the log nor a window is read: they are missing."""
        self.graphs(NO_RING)
        for name in ("run.tmp/calls", "run.tmp/all", "run.trace", "run.2.trace"):
            os.remove(name)
        for no_log in range(4):
            whole = self.search(no_log)
            self.assertEqual((whole.is_complete, whole.why, whole.gaps, whole.events), (True, "", [], 2000))
            self.assertEqual(whole.window, Window(0, 2, notes=["reduced from 2,000 events of the whole run: its lock graph has no cycle"]))
            self.assertEqual(self.read("run.all.trace"), "")

    def test_log(self) -> None:
        """The trace has the places in the log before its first event and where one was left out."""
        whole = self.search()
        self.assertEqual((whole.is_complete, whole.why, whole.gaps, whole.events, whole.has_waits), (True, "", [], 12, False))
        self.assertEqual(self.read("run.all.trace"), REDUCED)
        assert whole.window
        self.assertEqual((whole.window.bound, whole.window.longest, [found.kind for found in whole.window.found]), (2, 2, [CONFIRMED]))
        self.assertEqual(whole.window.notes, ["reduced from 12 events of the whole run: a confirmed cycle was replayed over all of them, a potential "
                                              "one was searched in the reduced trace"])

    def test_no_log(self) -> None:
        """The dependencies of all windows are searched instead."""
        for no_log, server, why in [(1, 0, "its log takes more than --keep-log"), (2, 0, "its log could not be written"), (3, 0, "--keep-log is 0"),
                                    (0, 1, "a server has only one window"), (3, 1, "a server has only one window")]:
            with self.subTest(why):
                whole = self.search(no_log, server)
                self.assertEqual((whole.is_complete, whole.why, whole.events), (False, why, 0))
                assert whole.window
                self.assertEqual([found.note for found in whole.window.found], [ACROSS_WINDOWS])
                self.assertNotIn("# place", self.read("run.all.trace"))

    def test_no_ring_on_a_server(self) -> None:
        """The report of a server is that of one window, so the run has none of its own."""
        self.graphs(NO_RING)
        self.answer(ALL, NO_CYCLE)
        whole = self.search(server=1)
        self.assertEqual((whole.is_complete, whole.why), (False, "a server has only one window"))

    def test_faults_in_the_log(self) -> None:
        """The dependencies of all windows are searched instead, and the report names the fault."""
        for words, is_whole, fault in [("0f1 0f1", True, "place 2: 0f1: thread 1 is forked already"), ("0f1", False, "place 1: the log ends early")]:
            self.setUp()
            self.log(words, is_whole)
            whole = self.search()
            self.assertEqual((whole.is_complete, whole.why, whole.events), (False, f"the whole run: {fault}", 0))
            assert whole.window
            self.assertEqual([found.note for found in whole.window.found], [ACROSS_WINDOWS])

    def test_too_long(self) -> None:
        """What can matter fills more than one trace."""
        found = Reduced(("run.tmp/1.trace", "run.tmp/2.trace"), 3_000_000, 3, 2, 1_500_000, 3, 2, 0, array("Q"), {})
        with patch("goodlock.agent.whole.reduced", return_value=found):
            whole = self.search()
        why = "1,500,000 of 3,000,000 events can matter, which is too long for one trace"
        self.assertEqual((whole.window, whole.why, self.has_trace()), (None, f"{why}; {why}", False))

    def test_no_report(self) -> None:
        """Without a report on the log, or on the dependencies, the windows are all that is left. The trace without a report is removed."""
        self.answer(ALL, "broken\n")
        whole = self.search()
        self.assertEqual((whole.window, whole.why, self.has_trace()), (None, "broken; broken", False))
        with patch("goodlock.agent.whole.reduced", side_effect=ReducerError(1, "no compiler")):
            self.assertEqual(self.search().why, "no compiler; no compiler")


class Ends(OfWindows):
    def test_time_is_over(self) -> None:
        whole = self.search(limit=Limit(0))
        self.assertEqual((whole.window, whole.why, whole.is_complete, self.has_trace()), (None, TIME, False, False))

    def test_signal(self) -> None:
        """A signal ends the reducer too. The reason is the signal, and not that the reducer has failed."""
        limit = Limit(60)

        def interrupts(*_: object) -> Reduced:
            signal.raise_signal(signal.SIGUSR1)
            raise AssertionError("the signal was not taken")

        with patch("goodlock.agent.whole.reduced", side_effect=interrupts):
            whole = self.search(limit=limit)
        self.assertEqual((whole.window, whole.why, self.has_trace()), (None, SIGNAL, False))

    def test_signal_for_all(self) -> None:
        """A signal of the terminal ends the reducer, and is noted here."""
        limit = Limit(60)

        def is_killed(*_: object) -> Reduced:
            limit.is_over = True
            raise ReducerError(1, "killed")

        with patch("goodlock.agent.whole.reduced", side_effect=is_killed):
            self.assertEqual(self.search(limit=limit).why, SIGNAL)

    def test_larger_bound(self) -> None:
        """What was found counts, and the windows are searched too."""
        window = Window(8, 2, why=TIME, found=[group(POTENTIAL, 0)])
        with patch("goodlock.agent.whole.search_up", return_value=window):
            whole = self.search()
        self.assertEqual((whole.window, whole.why, whole.is_complete), (window, TIME, False))

    def test_first_reason(self) -> None:
        """That the time is over is not why a run has no log."""
        self.assertEqual(self.search(no_log=3, limit=Limit(0)).why, "--keep-log is 0")


class Replays(OfWindows):
    def test_ends_of_threads(self) -> None:
        """Thread 1 goes on through what was left out after its last event in the witness, up to its wait at place 5."""
        whole = self.search()
        assert whole.window
        self.assertEqual(whole.window.found[0].note, "in the whole run thread 0 runs to place 1, thread 1 runs to place 4, thread 2 runs to place 8")

    def test_fault(self) -> None:
        """In this witness thread 1 does not come to its wait."""
        self.answer(ALL, REPORT.replace("witness 0 1 2 6", "witness 0 1 6"))
        whole = self.search()
        assert whole.window
        self.assertRegex(whole.window.found[0].note, "^not confirmed in the whole run: its replay has the fault NotReached at place 5$")
        self.assertEqual((len(whole.gaps), "do not trust this report" in whole.gaps[0]), (1, True))

    def test_potential(self) -> None:
        """It has no witness, so nothing is replayed."""
        report = REPORT.replace("confirmed 1", "confirmed 0").replace("0 1 confirmed", "0 1 potential").replace(" place 3", "").replace(" place 7", "")
        self.answer(ALL, report.replace("  witness 0 1 2 6\n", ""))
        with patch("goodlock.agent.whole.verdicts_of", side_effect=AssertionError):
            whole = self.search()
        assert whole.window
        self.assertEqual(([found.kind for found in whole.window.found], whole.window.found[0].note, whole.gaps), ([POTENTIAL], "", []))

    def test_not_replayed(self) -> None:
        """The run is analysed only in part: a trace without some acquires is not that of the log, or the reducer fails."""
        for notes, fault, why in [([WITHOUT_TRIES], None, "acquires that do not wait were left out of the trace"), ([], ReducerError(1, "killed"), "killed")]:
            window = Window(8, 2, found=[group(CONFIRMED)], notes=notes)
            with patch("goodlock.agent.whole.search_up", return_value=window), patch("goodlock.agent.whole.verdicts_of", side_effect=fault):
                self.assertEqual(self.search().gaps, [f"confirmed cycles were not replayed over the whole run: {why}"])


class Waits(OfWindows):
    """The log lacks the locks of joins and wake-ups. So the windows that have them are searched too."""

    def setUp(self) -> None:
        super().setUp()
        self.write("run.tmp/2.waited", "2\n")
        self.answer(ALL, NO_CYCLE)

    def cycle(self, lock: int) -> None:
        """Gives the second window a cycle through a lock."""
        self.write("run.2.trace", OPPOSITE.replace("20", str(lock)).replace(" ", "\n"))
        self.answer(2, OPPOSITE_REPORT.replace("20", str(lock)))

    def test_cycle(self) -> None:
        """Then the log is searched also if its lock graph has no ring."""
        for edges in (NO_RING, RING):
            for lock, is_complete in [(20, True), (ENDS_OF_THREADS - 1, True), (ENDS_OF_THREADS, False), (WAKE_UPS, False), (TRY_MARKERS - 1, False)]:
                with self.subTest(edges, lock=lock):
                    self.setUp()
                    self.graphs(edges)
                    self.cycle(lock)
                    whole = self.search()
                    assert whole.window
                    self.assertEqual((whole.is_complete, whole.has_waits, BY_WINDOWS in whole.window.notes), (is_complete, True, not is_complete))
                    self.assertEqual(whole.events, 2000 if is_complete and edges == NO_RING else 12)

    def test_no_cycle(self) -> None:
        self.assertTrue(self.search().is_complete)

    def test_window_without_result(self) -> None:
        """It may have such a cycle."""
        self.answer(2, "broken\n")
        self.assertFalse(self.search().is_complete)

    def test_window_with_a_part(self) -> None:
        """The search of the window ended early, or has too many groups."""
        for window in (Window(10, 2, why=TIME), Window(10, 2, further=1)):
            with patch("goodlock.agent.whole.result", return_value=window):
                self.assertFalse(self.search().is_complete)

    def test_window_without_waits(self) -> None:
        """It is not searched."""
        self.answer(1, "broken\n")
        self.assertTrue(self.search().is_complete)


class Dependencies(OfWindows):
    def test_verdicts(self) -> None:
        """Confirmed means here that no order of whole threads excludes it: then it is potential, with the cycles that are so. Else it is none."""
        window = Window(8, 2, found=[group(CONFIRMED, 2), group(POTENTIAL, 0), group(NO_VALUE, 0), group(TIMED, 0)])
        with patch("goodlock.agent.whole.search_up", return_value=window):
            whole = self.search(no_log=3)
        assert whole.window
        self.assertEqual([(found.kind, found.cycles, found.confirmed, found.note) for found in whole.window.found],
                         [(POTENTIAL, 2, 0, ACROSS_WINDOWS), (TIMED, 3, 0, "")])

    def test_order(self) -> None:
        """The sections have no order: no place, no witness."""
        for kind in (CONFIRMED, TIMED):
            found = as_potential(group(kind))
            self.assertEqual((found.witness, [member.place for member in found.members], found.verdict.is_confirmed), (None, [None, None], False))


class Files(InFolder):
    def test_copy(self) -> None:
        self.write("old", "# values atomic 1 plain 2\n# mark 3\n0f1\n# place 7\n# marker\n1w2\n")
        copy_without("old", "new", ("# mark ", "# place "))
        self.assertEqual(self.read("new"), "# values atomic 1 plain 2\n0f1\n# marker\n1w2\n")

    def test_tries(self) -> None:
        words = ["0f1", f"1a{TRY_MARKERS}", f"1r{TRY_MARKERS}", f"1a{TIMED_MARKERS - 1}", f"1a{TIMED_MARKERS}", f"1a{TRY_MARKERS - 1}", f"1w{TRY_MARKERS}"]
        self.write("x", "# at 3\n" + "".join(f"{word}\n" for word in words))
        self.assertEqual(tries_in("x"), 2)

    def test_adopt(self) -> None:
        """A window whose trace is removed already is none to remove."""
        for name in ("run.all.trace", "run.trace", "run.3.trace", "run.4.trace"):
            self.write(name, name)
        adopt(Run("run"), 3)
        self.assertEqual((self.read("run.trace"), sorted(os.listdir())), ("run.all.trace", ["run.4.trace", "run.trace"]))

    def test_drop(self) -> None:
        self.write("run.all.trace", "")
        drop(Run("run"))
        drop(Run("run"))
        self.assertEqual(os.listdir(), [])


if __name__ == "__main__":
    unittest.main()
