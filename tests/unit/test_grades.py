"""Tests how values are weighed: two reports on one trace become one, and the reads that decide are named."""
from __future__ import annotations

import os
import unittest
from collections.abc import Iterator

from goodlock.errors import InputError
from goodlock.grades import cycle_lines, graded, head_line, reads_in, value_lines
from goodlock.program import NoAnswer
from goodlock.refutations import Refutation
from goodlock.reports import Cycle, Member, ValueRead, Verdict, read_reports
from goodlock.traces import Index
from written import OPPOSITE_REPORT, InFolder, cycles_of, environment, index_of

VALUES = "# values atomic 100 plain 200\n"
# Thread 2 reads what thread 1 writes after its sections. Without these two accesses it is the trace of OPPOSITE_REPORT.
FLAG = "0f1 0f2 1a10 1a20 1r20 1r10 1w200 2d200 2a20 2a10 2r10 2r20\n"
POTENTIAL = """question 0 length 12 bound 2 cycles 1 confirmed 0
cycle 0 1 potential
  thread 1 lock 20 holds 10
  thread 2 lock 10 holds 20
"""
STILL_POTENTIAL = POTENTIAL.replace("length 12", "length 10")
NOTED = """cycle 0 1 potential
  thread 1 lock 20 holds 10
  thread 2 lock 10 holds 20
    confirmed if no value decides: places 3 9
      witness 0 1 2 8
"""
MEMBERS = [Member(1, 20, (10,), 3), Member(2, 10, (20,), 9)]


class Analysis:
    """Gives a report on the trace without values, and keeps what it was asked."""

    def __init__(self, report: str, fault: str = "") -> None:
        self.report, self.fault, self.asked = report, fault, list[tuple[str, int]]()

    def __call__(self, trace: str, bound: int) -> Iterator[str]:
        with open(trace, encoding="ascii") as file:
            self.asked.append((" ".join(file.read().split()), bound))
        if self.fault:
            raise NoAnswer(self.fault)
        yield from self.report.splitlines()


def weighed(trace: str, report: str, analysis: Analysis) -> list[Cycle]:
    index = index_of(trace)
    rows = graded(index, read_reports("x.report", index, report.splitlines()), analysis)
    return [cycle for _, cycle in rows if cycle]


class Weighs(unittest.TestCase):
    # a trace, its report, that without values, and the verdict
    CASES = [
        ("a flag", VALUES + FLAG, POTENTIAL, OPPOSITE_REPORT, Verdict.NO_VALUE),
        ("something else keeps them apart, too", VALUES + FLAG, POTENTIAL, STILL_POTENTIAL, Verdict.POTENTIAL),
        ("an atomic flag", VALUES + FLAG.replace("200", "199"), POTENTIAL, None, Verdict.POTENTIAL),
        ("a hand-over", VALUES + FLAG.replace("200", "99"), POTENTIAL, None, Verdict.POTENTIAL),
        ("beyond the values", VALUES + FLAG.replace("200", "1000000200"), POTENTIAL, None, Verdict.POTENTIAL),
        ("the last value", VALUES + FLAG.replace("200", "1000000199"), POTENTIAL, OPPOSITE_REPORT, Verdict.NO_VALUE),
        ("no agent wrote it", FLAG.replace("200", "2000000001"), POTENTIAL, None, Verdict.POTENTIAL),
        ("the comment is too late", FLAG.replace("0f1 ", "0f1\n" + VALUES, 1), POTENTIAL, None, Verdict.POTENTIAL),
        ("after the report", VALUES + FLAG.replace("1w200 2d200 ", "").replace("2r20\n", "2r20 1w200 2d200\n"), STILL_POTENTIAL, None, Verdict.POTENTIAL),
    ]

    def test_verdicts(self) -> None:
        for name, trace, report, without, verdict in self.CASES:
            with self.subTest(name):
                analysis = Analysis(without or "")
                cycle, = weighed(trace, report, analysis)
                self.assertEqual(cycle.verdict, verdict)
                self.assertEqual(analysis.asked, [("0f1 0f2 1a10 1a20 1r20 1r10 2a20 2a10 2r10 2r20", 2)] if without else [])

    def test_instance_and_witness(self) -> None:
        """They have the places of the whole trace."""
        cycle, = weighed(VALUES + FLAG, POTENTIAL, Analysis(OPPOSITE_REPORT))
        self.assertEqual((cycle.members, cycle.witness), (MEMBERS, [0, 1, 2, 8]))
        self.assertEqual("".join(f"{line}\n" for line in cycle_lines(cycle)), NOTED)

    def test_several_cycles(self) -> None:
        """One analysis is enough for all potential cycles; a confirmed one between them keeps its places."""
        more = "1a30 1a40 1r40 1r30 2a40 2a30 2r30 2r40 1a50 1a60 1r60 1r50 1w201 2d201 2a60 2a50 2r50 2r60\n"
        rows = [POTENTIAL.replace("length 12 bound 2 cycles 1 confirmed 0", "length 30 bound 2 cycles 3 confirmed 1"),
                "cycle 2 3 confirmed\n  thread 1 lock 40 holds 30 place 13\n  thread 2 lock 30 holds 40 place 17\n  witness 0 1 2 3 4 5 6 7 8 9 10 11 12 16\n",
                "cycle 4 5 potential\n  thread 1 lock 60 holds 50\n  thread 2 lock 50 holds 60\n"]
        without = [OPPOSITE_REPORT.replace("length 10 bound 2 cycles 1 confirmed 1", "length 26 bound 2 cycles 3 confirmed 3"),
                   "cycle 2 3 confirmed\n  thread 1 lock 40 holds 30 place 11\n  thread 2 lock 30 holds 40 place 15\n  witness 0 1 2 3 4 5 6 7 8 9 10 14\n",
                   "cycle 4 5 confirmed\n  thread 1 lock 60 holds 50 place 19\n  thread 2 lock 50 holds 60 place 23\n"
                   "  witness 0 1 2 3 4 5 6 7 8 9 10 11 12 13 14 15 16 17 18 22\n"]
        analysis = Analysis("".join(without))
        cycles = weighed(VALUES + FLAG.rstrip() + " " + more, "".join(rows), analysis)
        self.assertEqual([(cycle.name, cycle.verdict, cycle.members[1].place) for cycle in cycles],
                         [("0 1", Verdict.NO_VALUE, 9), ("2 3", Verdict.CONFIRMED, 17), ("4 5", Verdict.NO_VALUE, 27)])
        self.assertEqual((list(cycles[1].witness)[-1], list(cycles[2].witness)[-2:]), (16, [20, 26]))
        self.assertEqual(len(analysis.asked), 1)

    def test_weighed_before(self) -> None:
        """A report that has its verdicts is not weighed again."""
        head = "question 0 length 12 bound 2 cycles 1 confirmed 0\n"
        for report, verdict in [(head + head_line(1) + "\n" + NOTED, Verdict.NO_VALUE), (head + head_line(0) + "\n" + POTENTIAL.partition("\n")[2], Verdict.POTENTIAL)]:
            analysis = Analysis("")
            self.assertEqual(([cycle.verdict for cycle in weighed(VALUES + FLAG, report, analysis)], analysis.asked), ([verdict], []))

    def test_wanted(self) -> None:
        index, analysis = index_of(VALUES + FLAG), Analysis("")
        rows = list(graded(index, read_reports("x.report", index, POTENTIAL.splitlines()), analysis, is_wanted=lambda cycle: False))
        self.assertEqual((len(rows), analysis.asked), (2, []))

    FAULTS = [
        ("no program", Analysis("", "there is no program /nowhere"), "it has values, and without them there is no report: there is no program /nowhere"),
        ("another trace", Analysis(OPPOSITE_REPORT.replace("cycle 0 1", "cycle 0 2")), "its report without values has no cycle 0 1: .*"),
        ("other members", Analysis(OPPOSITE_REPORT.replace("20", "30")), "its report without values has no cycle 0 1: .*"),
    ]

    def test_faults(self) -> None:
        for name, analysis, message in self.FAULTS:
            with self.subTest(name), self.assertRaisesRegex(InputError, f"^bank.trace: {message}$"):
                weighed(VALUES + FLAG, POTENTIAL, analysis)

    def test_no_program(self) -> None:
        index = index_of(VALUES + FLAG)
        with environment(GOODLOCKD_PROGRAM="/nowhere"), self.assertRaisesRegex(InputError, "without them there is no report: there is no program /nowhere"):
            list(graded(index, read_reports("x.report", index, POTENTIAL.splitlines())))


class Program(InFolder):
    def test_program(self) -> None:
        """The program gets the trace without values and the bound. One that fails says why."""
        for text, fault in [("cat answer", None), ("echo refused 23 ReportTooLong; exit 1", "refused 23 ReportTooLong"), ("echo broken >&2; exit 1", "broken")]:
            self.write("answer", OPPOSITE_REPORT)
            self.write("program", f'#!/bin/sh\necho "$1 $3 $4" >asked\n{text}\n')
            os.chmod("program", 0o755)
            self.assertEqual(self.verdict(), fault or Verdict.NO_VALUE)
            self.assertEqual(self.read("asked"), "offline --bound 2\n")

    def verdict(self) -> object:
        index = index_of(VALUES + FLAG)
        with environment(GOODLOCKD_PROGRAM=os.path.abspath("program")):
            try:
                return [cycle.verdict for _, cycle in graded(index, read_reports("x.report", index, POTENTIAL.splitlines())) if cycle][0]
            except InputError as fault:
                return str(fault).rpartition("failed: ")[2]


class NamesReads(unittest.TestCase):
    def reads(self, index: Index, *pairs: tuple[int, int]) -> list[tuple[int, int, str]]:
        return [tuple(read) for read in reads_in(index, Refutation(reads=set(pairs)))]

    def test_locations(self) -> None:
        """One read of each text, the first one, without callers. Without locations there are places."""
        at = {"1w200": "# at 01.c:3 in set < main.c:1 in main\n", "2d200": "# at 01.c:4 in is_done < main.c:2 in main\n"}
        index = index_of(VALUES + "0f1\n0f2\n" + "".join(f"{at[word]}{word}\n" for word in ("1w200", "2d200", "1w200", "2d200")))
        self.assertEqual(self.reads(index, (5, 4), (3, 2)), [(3, 2, "01.c:4 in is_done reads memory that a thread wrote after 01.c:3 in set")])
        index = index_of(VALUES + "0f1 0f2 1w200 2d200 1w200 2d200\n")
        self.assertEqual(self.reads(index, (5, 4), (3, 2)), [(3, 2, "thread 2 reads memory at place 3 that thread 1 wrote at place 2"),
                                                             (5, 4, "thread 2 reads memory at place 5 that thread 1 wrote at place 4")])

    def test_lines(self) -> None:
        """What is written is read again."""
        reads = [ValueRead(7, 6, "a.c:4 in f reads memory that a thread wrote after a.c:3 in g")]
        for some, fault in [(reads, ""), ([], "the time of --seconds is over"), ([], "")]:
            lines = list(value_lines([3, 9], [0, 1, 2, 8], some, fault))
            _, cycles = cycles_of(index_of(VALUES + FLAG), POTENTIAL + "\n".join(lines))
            self.assertEqual((cycles[0].verdict, cycles[0].members, cycles[0].witness, cycles[0].reads), (Verdict.NO_VALUE, MEMBERS, [0, 1, 2, 8], some))
            self.assertEqual(f"      the reads that decide are not named: {fault}" in lines, bool(fault))


if __name__ == "__main__":
    unittest.main()
