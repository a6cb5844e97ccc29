"""Tests the reader of reports: what it returns, and how it refuses lines that are wrong or do not fit the trace."""
import unittest
from unittest import mock

from goodlock.errors import InputError
from goodlock.reports import AnyEvents, Cycle, Member, Places, Report, ReportReader, ValueRead, Verdict, member_of, places_in, read_reports
from written import OPPOSITE, OPPOSITE_REPORT, cycles_of, index_of

POTENTIAL = """question 3 length 10 bound 4 cycles 1 confirmed 0
cycle 0 1 potential
  thread 1 lock 20 holds 10
    lock 10 since a.c:1
  thread 2 lock 10 holds 20
    and 3 more cycles at these lines, 2 of them confirmed
"""
MEMBERS = [Member(1, 20, (10,), 3), Member(2, 10, (20,), 7)]


class Reads(unittest.TestCase):
    def test_confirmed(self) -> None:
        report, cycles = cycles_of(index_of(OPPOSITE), OPPOSITE_REPORT)
        self.assertEqual(report, Report(0, 10, 2, 1, 1))
        self.assertEqual(cycles, [Cycle((0, 1), Verdict.CONFIRMED, MEMBERS, [0, 1, 2, 6])])
        self.assertEqual((cycles[0].name, cycles[0].verdict), ("0 1", Verdict.CONFIRMED))

    def test_potential_of_an_agent(self) -> None:
        _, cycles = cycles_of(index_of(OPPOSITE), POTENTIAL)
        members = [member._replace(place=None) for member in MEMBERS]
        self.assertEqual(cycles, [Cycle((0, 1), Verdict.POTENTIAL, members, [], 3, 2)])

    def test_verdict_with_values(self) -> None:
        """A potential cycle may be confirmed if no value decides. The head of the report says that values were weighed."""
        note = "    confirmed if no value decides: places 3 7\n      witness 0 1 2 6\n      place 5 reads what place 4 wrote: a.c:4 reads\n"
        more = POTENTIAL.replace("2 of them confirmed", "1 of them confirmed, 2 if no value decides").replace("    and", f"{note}    and")
        _, cycles = cycles_of(index_of(OPPOSITE), more)
        self.assertEqual(cycles, [Cycle((0, 1), Verdict.NO_VALUE, MEMBERS, [0, 1, 2, 6], 3, 1, 2, reads=[ValueRead(5, 4, "a.c:4 reads")])])
        self.assertEqual((cycles[0].row, cycles[0].count(Verdict.CONFIRMED), cycles[0].count(Verdict.NO_VALUE)), ("cycle 0 1 potential", 1, 3))
        for head, is_graded in (("    confirmed if no value decides: 0 cycles\n", True), ("    confirmed if no value decides: 1,000 cycles\n", True), ("", False)):
            _, cycles = cycles_of(index_of(OPPOSITE), POTENTIAL.replace("confirmed 0\n", f"confirmed 0\n{head}"))
            self.assertEqual((cycles[0].verdict, cycles[0].is_graded), (Verdict.POTENTIAL, is_graded))

    def test_wrong_notes_about_values(self) -> None:
        places, witness = "    confirmed if no value decides: places 3 7", "      witness 0 1 2 6"
        for report, notes, message in [
            (POTENTIAL, ["    confirmed if no value decides: places 3"], "confirmed if no value decides: places 3: does not fit the trace, which has no such acquires"),
            (POTENTIAL, ["    confirmed if no value decides: places 3 6"], ".*: does not fit the trace, which has no such acquires"),
            (POTENTIAL, ["    confirmed if no value decides: places 3 99"], ".*: does not fit the trace, which has no such acquires"),
            (POTENTIAL, [places], "the report ends within its cycles: the first line has 1"),
            (POTENTIAL, [places, "      witness 0 2 1"], "witness 0 2 1: does not fit the trace: these are not ascending places of the trace"),
            (POTENTIAL, [places, "      witness 0 99"], "witness 0 99: does not fit the trace: .*"),
            (POTENTIAL, [witness], "witness 0 1 2 6: no witness of places is here"),
            (POTENTIAL, [places, witness, places], ".*: no potential cycle is before it"),
            (OPPOSITE_REPORT, [places], ".*: no potential cycle is before it"),
            (POTENTIAL, [places, witness, "      place 4 reads what place 5 wrote: x"], "place 4 .*: does not fit the trace"),
            (POTENTIAL, [places, witness, "      place 10 reads what place 5 wrote: x"], "place 10 .*: does not fit the trace"),
        ]:
            with self.subTest(notes=notes), self.assertRaisesRegex(InputError, f"^bank.report:[0-9]+: {message}$"):
                for cycle in cycles_of(index_of(OPPOSITE), report + "\n".join(notes))[1]:
                    list(cycle.witness)

    def test_output_of_a_script(self) -> None:
        text = "placed 0\nrefused 2 Unforked\nopened 0 length 10 total 2\nworked 2\n" + OPPOSITE_REPORT + "status 0 accepted 10\n" + POTENTIAL
        reports = list(read_reports("x", index_of(OPPOSITE), text.splitlines()))
        self.assertEqual([(report.question, cycle is None) for report, cycle in reports], [(0, True), (0, False), (3, True), (3, False)])

    def test_notes(self) -> None:
        """A report has notes before its first cycle. What a timeout ends is none."""
        lines = """question 0 length 4 bound 2 cycles 1 confirmed 0
    not examined:
    confirmed if no value decides: 0 cycles
    no lock events
    window 2: b.report
cycle 0 1 potential
  thread 1 lock 2 holds 1
    lock 2 at a.c:3
  thread 2 lock 1 holds 2
question 1 length 4 bound 2 cycles 0 confirmed 0
    another note
    timed: this cycle ends when a timeout does
    timed: thread 1 waits for lock 2 at a.c:3
question 2 length 4 bound 2 cycles 0 confirmed 0""".splitlines()
        reader = ReportReader("x", AnyEvents())
        self.assertEqual(len(list(reader.read(lines))), 4)
        self.assertEqual(reader.notes, [["no lock events", "window 2: b.report"], ["another note"], []])

    def test_known_members(self) -> None:
        """A member whose line was there before is tested against the trace once; the rest of its cycle is tested each time."""
        row = "  thread 1 lock 20 holds 10\n  thread 2 lock 10 holds 20\n"
        text = f"question 0 length 10 bound 2 cycles 3 confirmed 0\ncycle 0 1 potential\n{row}cycle 0 2 potential\n{row}cycle 0 3 potential\n"
        for most in (0, 1, 2):
            with self.subTest(most), mock.patch("goodlock.reports.MOST_KNOWN", most):
                found = [cycle.members for cycle in cycles_of(index_of(OPPOSITE), text + row)[1]]
                self.assertEqual(found, [[member._replace(place=None) for member in MEMBERS]] * 3)
                with self.assertRaisesRegex(InputError, "^bank.report:10: .*: does not fit the cycle, whose members each hold the lock .*"):
                    cycles_of(index_of(OPPOSITE), text + "  thread 1 lock 20 holds 10\n" * 2)
                with self.assertRaisesRegex(InputError, "^bank.report:7: .*: does not fit the trace, which has no such acquire$"):
                    cycles_of(index_of(OPPOSITE), text.replace("question", "question 0 length 10 bound 2 cycles 1 confirmed 0\ncycle 0 1 potential\n" + row
                                                               + "question").replace("length 10 bound 2 cycles 3", "length 2 bound 2 cycles 3") + row)

    def test_without_a_trace(self) -> None:
        self.assertEqual(len(list(read_reports("x", AnyEvents(), OPPOSITE_REPORT.splitlines()))), 2)

    def test_member(self) -> None:
        self.assertEqual(member_of("  thread 1 lock 20 holds 7 10 place 3"), Member(1, 20, (7, 10), 3))
        for line in ["  thread 1 lock 20 holds", "  thread 1 lock 20 holds 07", " thread 1 lock 2 holds 1", "  thread 1 lock 2 holds 1 place"]:
            self.assertIsNone(member_of(line))

    def test_places(self) -> None:
        for text, places in [("", []), (" 1 2", [1, 2]), (" 1  2", None), ("1", None), (" -1", None), (" x", None), (" 01", None),
                             (" 1 ", None), (" " + "9" * 5000, None)]:
            self.assertEqual(places_in(text), places, text[:20])


class Witness(unittest.TestCase):
    """The places of a witness are a text until they are needed."""

    def test_places(self) -> None:
        for places, last in [([], -1), ([0], 0), ([7], 7), ([0, 9, 10, 1048575], 1048575)]:
            witness = Places.of(places)
            self.assertEqual((list(witness), len(witness), witness.last), (places, len(places), last))
            self.assertTrue(witness == places and places == witness, places)
            self.assertIs(Places.of(witness), witness)
        self.assertFalse(Places.of([1, 2]) == [1])

    def test_some_of_them(self) -> None:
        """Each is found with the number of places between it and the one before."""
        witness = Places.of([0, 3, 9, 10, 99, 100, 101])
        for places, found in [([], []), ([0], [(0, 0)]), ([0, 3], [(0, 0), (3, 0)]), ([1, 2], []), ([9], [(9, 2)]), ([10, 100], [(10, 3), (100, 1)]),
                              ([3, 4, 101, 102], [(3, 1), (101, 4)]), ([0, 3, 9, 10, 99, 100, 101], [(place, 0) for place in witness])]:
            self.assertEqual(list(witness.among(places)), found, places)
        self.assertEqual([place for place in range(110) if place in witness], [0, 3, 9, 10, 99, 100, 101])
        self.assertEqual(list(Places.of([]).among([0])), [])

    def test_wrong_ones(self) -> None:
        """They are refused when they are needed, and do no harm before."""
        for text in (" 1 0", " 1 1", " 1  2", " 01 2", " 1 2 ", " " + "9" * 5000, " 2 " + "9" * 5000 + " 3"):
            witness = Places(text.encode(), "x", 7)
            self.assertLessEqual(len(list(witness.among(range(5)))), 5)
            with self.assertRaisesRegex(InputError, "^x:7: witness .*: does not fit the trace: these are not ascending places of the trace$"):
                list(witness)


class Refuses(unittest.TestCase):
    """Each case replaces a line of the report; the message is about that line, or about the one after the last."""

    CASES = [
        (1, "question 0 length 11 bound 2 cycles 1 confirmed 1", "1: length 11: does not fit the trace: the trace has fewer events"),
        (1, "question 0 length 10 bound 2 cycles 0 confirmed 0", "2: cycle 0 1: the first line of the report has fewer cycles"),
        (1, "question 0 length 10 bound 2 cycles 2 confirmed 1", "6: the report ends within its cycles: the first line has 2"),
        (1, OPPOSITE_REPORT.split("\n")[0] + "\r", "1: question .*: carriage return: a line ends with a line feed alone"),
        (1, "", "1: an empty line"),
        (1, "refused 10 HeldByOther at 2", "2: cycle 0 1: before a report, which begins with a line such as `question 0 length 10 .*"),
        (2, "cycle 0 confirmed", "2: cycle 0 confirmed: not a line of a report"),
        (2, "cycle 0 1 potential", "3: thread 1 lock 20 holds 10 place 3: the members of a confirmed cycle have places, those .*"),
        (3, "  thread 1 lock 20 holds 10 place 2", "3: thread 1 lock 20 holds 10 place 2: does not fit the trace, which has no such acquire"),
        (3, "  thread 1 lock 20 holds 11 place 3", "3: .* which has no such acquire"),
        (3, "cycle 0 1 confirmed", "3: cycle 0 1: cycle 0 1 before it lacks a line"),
        (4, "  thread 1 lock 20 holds 10 place 3", "4: thread 1 .*: does not fit the cycle, whose members each hold the lock .*"),
        (5, "  witness 1 0", "5: witness 1 0: does not fit the trace: these are not ascending places of the trace"),
        (5, "  witness 10", "5: witness 10: does not fit the trace: .*"),
        (5, "  witness x", "5: witness x: no witness of places is here"),
        (5, "    and 1 more cycle at these lines, 0 of them confirmed", "5: and 1 more cycle .*: no cycle is before it"),
        (5, "question 1 length 1 bound 2 cycles 0 confirmed 0", "5: question .*: the report before it has further cycles"),
        (5, "  thread 1 lock 20 holds 10 place 3", "5: thread 1 .*: no cycle has a member here"),
    ]

    def test_lines(self) -> None:
        for number, line, message in self.CASES:
            with self.subTest(line=line):
                lines = OPPOSITE_REPORT.splitlines()
                lines[number - 1] = line
                with self.assertRaisesRegex(InputError, f"^x:{message}$"):
                    for _, cycle in read_reports("x", index_of(OPPOSITE), lines):
                        list(cycle.witness if cycle else ())

    def test_no_report(self) -> None:
        for text, message in [("", "1: there is no report, which begins with a line such as .*"),
                              ("placed 0\n", "2: there is no report, .*"),
                              ("refused 10 HeldByOther at 2\n", "2: there is no report: goodlockd has refused the trace: refused 10 HeldByOther at 2"),
                              ("0f1 0f2\n", "1: 0f1 0f2: not a line of a report")]:
            with self.assertRaisesRegex(InputError, f"^x:{message}$"):
                list(read_reports("x", index_of(OPPOSITE), text.splitlines()))
