"""Tests what surrounds the program of tools/reduce: original places, completed witnesses, and the lines about a reduced run."""
import os
import unittest
from array import array

from goodlock.completion import MOST_SHOWN, ends_of, front, note_of
from goodlock.reducer import Reduced, Replay, Source, Spot
from goodlock.reduction import Job, copy_to, folder_beside, lines_about
from goodlock.traces import Origin
from written import InFolder, index_of, trace_of

REDUCED = "# place 3 of run.trace\n0f1\n0f2\n# place 70\n1a10\n1a20\n1r20\n1r10\n# place 2000000\n2a20\n2a10\n"
JOINED = "0f1\n# place 3 of run.trace\n0f2 1a10\n# line 9 of run.std\n1a20\n# place 5 of run.2.trace\n1r20\n"


def found(windows: int, **counts: int) -> Reduced:
    numbers = {"events": 5_000, "threads": 4, "locks": 3, "kept": 20, "kept_threads": 2, "kept_locks": 1, "beyond": 0, **counts}
    return Reduced(traces=tuple(f"{number}.trace" for number in range(windows)), places=array("Q"), cuts={}, **numbers)


class Origins(unittest.TestCase):
    def test_one_file(self) -> None:
        index = index_of(REDUCED)
        self.assertEqual([index.origin(place).title for place in range(8)],
                         ["place 3", "place 4", "place 70", "place 71", "place 72", "place 73", "place 2000000", "place 2000001"])
        self.assertEqual((index.origin(7).label, index.origin(7).file), ("2000001", "run.trace"))
        self.assertEqual(index.origins.note, "places are those of run.trace")

    def test_files_and_lines(self) -> None:
        """An event before the first comment is at its place in the trace."""
        index = index_of(JOINED)
        self.assertEqual([index.origin(place).title for place in range(5)],
                         ["place 0 of bank.trace", "place 3 of run.trace", "place 4 of run.trace", "line 9 of run.std",
                          "place 5 of run.2.trace"])
        self.assertEqual(index.origins.note, "places and lines are those of run.trace, run.std, run.2.trace")

    def test_many_files(self) -> None:
        index = index_of("".join(f"# place 0 of {name}\n0w1\n" for name in "abcdefg"))
        self.assertEqual(index.origins.note, "places are those of a, b, c, d, e, ..")

    def test_no_origin(self) -> None:
        """A comment that names no file, and has none before it, is no origin."""
        for text in ("0f1\n", "# place 3\n0f1\n", "# place 03 of x\n0f1\n", "# place of x\n0f1\n", "# place 3 of \n0f1\n"):
            index = index_of(text)
            self.assertEqual((index.origin(0), index.origins.note), (Origin("place", 0, "bank.trace"), ""), text)

    def test_script(self) -> None:
        trace = trace_of("# place 7 of x\n0f1\nask 2\n# place 9\n0f1 0f2\n")  # the second 0f1 is refused
        self.assertEqual([trace.origins.of(place, "").number for place in range(2)], [7, 9])


class Completion(unittest.TestCase):
    def test_front(self) -> None:
        for mine, witness, count in [([], [1], 0), ([0, 3, 5], [], 0), ([0, 3, 5], [0, 1, 3], 2), ([0, 3, 5], [0, 3, 5], 3), ([2], [0, 1], 0)]:
            self.assertEqual(front(mine, witness), count, (mine, witness))

    def test_ends(self) -> None:
        """Thread 1 goes on through its releases, and ends before its next acquire. Thread 0 has no further event."""
        index, places = index_of("0f1 0f2\n1a1 1r1 1a3\n2a2 2a1\n"), [10, 11, 20, 25, 30, 40, 50]
        self.assertEqual(list(ends_of(index, index.thread_places, places, [0, 1, 2, 5])), [(1, 30), (2, 50)])
        self.assertEqual(list(ends_of(index, index.thread_places, places, [0])), [(0, 11), (1, 20), (2, 40)])
        self.assertEqual(list(ends_of(index, index.thread_places, places, range(7))), [])

    def test_notes(self) -> None:
        one, two = [Source("/copy", "run.trace")], [Source("run.trace"), Source("run.2.trace")]
        ends = {2: Spot(1, 5, 0), 0: Spot(0, 17, 0)}
        self.assertEqual(note_of(Replay("", None, ends), two),
                         "in the whole run thread 0 runs to place 17 of run.trace, thread 2 runs to place 5 of run.2.trace")
        self.assertEqual(note_of(Replay("", None, {1: Spot(0, 5, 44)}), one), "in the whole run thread 1 runs to line 44")
        self.assertEqual(note_of(Replay("", None, {}), one), "in the whole run nothing has to run before")
        self.assertEqual(note_of(Replay("Overlap", Spot(0, 5, 0), {}), one), "not confirmed in the whole run: its replay has the fault Overlap at place 5")
        for count, more in [(MOST_SHOWN, ""), (MOST_SHOWN + 1, ", and 1 more thread"), (MOST_SHOWN + 2, ", and 2 more threads")]:
            note = note_of(Replay("", None, {thread: Spot(0, thread, 0) for thread in range(count)}), one)
            self.assertTrue(note.endswith(f"thread {MOST_SHOWN - 1} runs to place {MOST_SHOWN - 1}{more}"), note)


class Lines(InFolder):
    def test_lines(self) -> None:
        job, whole = Job("out", [Source("in")]), Job("out", [Source("in")], is_whole=True, artificial=1)
        self.assertEqual(list(lines_about(job, found(1))), ["out.trace: 20 of 5,000 events, 2 of 4 threads, 1 of 3 locks"])
        self.assertEqual(list(lines_about(whole, found(1))), ["out.trace: 20 events, 3 threads, 3 locks"])
        self.assertEqual(list(lines_about(job, found(1, kept=0)))[1:], ["the lock graph of the run has no cycle, so no bound has one"])
        self.assertEqual(list(lines_about(job, found(1, kept=0, events=0)))[1:], [])
        self.assertEqual([line.partition(":")[0] for line in lines_about(job, found(3, beyond=1))],
                         ["out.trace to out.3.trace", "too long for one trace, so cut into 3 windows", "1 acquire by threads that hold 32 locks"])

    def test_folder(self) -> None:
        """The folder is beside the output, and is removed in any case."""
        os.mkdir("there")
        with self.assertRaises(KeyError), folder_beside("there/out") as folder:
            self.assertEqual(os.path.dirname(folder), os.path.realpath("there"))
            self.assertEqual(copy_to(folder, self.write("plain", "0f1")), "plain")
            self.assertEqual(copy_to(folder, "missing"), "missing")
            raise KeyError
        self.assertEqual(os.listdir("there"), [])
