"""Weighs the plain values that threads have read: a flag or a balance under a lock, or the predicate of a condition. Such a read may decide what
its thread does next, and may not. So a cycle that is potential in a trace is confirmed if no value decides, if it is confirmed in the trace
without the accesses of plain values. Accesses change neither the cycles of a trace nor their order, so the two reports have the same ones."""
from __future__ import annotations

import contextlib
import tempfile
from array import array
from collections.abc import Callable, Iterable, Iterator
from typing import IO, Optional

from goodlock.commandline import plural
from goodlock.errors import InputError
from goodlock.program import NoAnswer, found_program, lines_from
from goodlock.refutations import Refutation
from goodlock.reports import NO_VALUE, WITNESS, WITNESS_NO_VALUE, AnyEvents, Cycle, Report, ValueRead, Verdict, read_reports
from goodlock.traces import CALLED_BY, Index

Row = tuple[Report, Optional[Cycle]]
Lines = Callable[[str, int], Iterator[str]]  # of the report on a trace for a bound


def offline(trace: str, bound: int) -> Iterator[str]:
    """Yields the lines of the report on a trace."""
    yield from lines_from([found_program(), "offline", trace, "--bound", str(bound)])


class WithoutValues:
    """The first events of a trace without the accesses of plain values: the place in the trace of each event, and the rows of their report. They
    are written to a file."""

    def __init__(self, index: Index, report: Report, file: IO[str], lines: Lines) -> None:
        self.index, self.places = index, array("I")
        for place, event in enumerate(index.events[:report.length]):
            if not (index.values and index.values.is_plain(event)):
                self.places.append(place)
                file.write(f"{event.thread}{event.letter}{event.target}\n")
        file.flush()
        self.rows = read_reports(file.name, AnyEvents(), lines(file.name, report.bound))

    def weigh(self, cycle: Cycle) -> None:
        """Confirms a potential cycle if it is confirmed here. The cycles come in the order of the report."""
        other = next((row for _, row in self.rows if row and row.numbers == cycle.numbers), None)
        if other is None or [member.dependency for member in other.members] != [member.dependency for member in cycle.members]:
            raise InputError(self.index.file or "the trace", None, f"its report without values has no cycle {cycle.name}: the report is of another trace")
        if other.verdict is Verdict.CONFIRMED:
            cycle.confirm([self.places[member.place or 0] for member in other.members], [self.places[place] for place in other.witness])


def graded(index: Index, rows: Iterable[Row], lines: Lines = offline, folder: Optional[str] = None,
           is_wanted: Callable[[Cycle], bool] = lambda cycle: True) -> Iterator[Row]:
    """Yields the reports and cycles on a trace, as `read_reports` does, with the verdict of each wanted cycle. Only if the trace has plain values,
    and its report a potential cycle that nobody has weighed, it is analysed without them. The folder is for a temporary file."""
    without: Optional[WithoutValues] = None
    with contextlib.ExitStack() as stack:
        try:
            for report, cycle in rows:
                if cycle is None:
                    stack.close()
                    without = None
                elif cycle.verdict is Verdict.POTENTIAL and not cycle.is_graded and index.first_plain < report.length and is_wanted(cycle):
                    if without is None:
                        file = stack.enter_context(tempfile.NamedTemporaryFile("w", encoding="ascii", prefix="values-", dir=folder))
                        without = WithoutValues(index, report, file, lines)
                    without.weigh(cycle)
                yield report, cycle
        except NoAnswer as fault:
            raise InputError(index.file or "the trace", None, f"it has values, and without them there is no report: {fault}") from None


def value_lines(places: Iterable[int], witness: Iterable[int], reads: Iterable[ValueRead], fault: str = "") -> Iterator[str]:
    """Yields what a report says under a cycle that is confirmed if no value decides: the places of its members, its witness, and the reads that
    decide, or why they are not named."""
    yield f"{NO_VALUE}places {' '.join(map(str, places))}"
    yield " ".join([WITNESS_NO_VALUE, *map(str, witness)])
    yield from (f"      place {read.read} reads what place {read.write} wrote: {read.text}" for read in reads)
    if fault:
        yield f"      the reads that decide are not named: {fault}"


def cycle_lines(cycle: Cycle) -> Iterator[str]:
    """Yields the lines of a cycle in a report."""
    yield cycle.row
    for member in cycle.members:
        place = f" place {member.place}" if cycle.verdict is Verdict.CONFIRMED else ""
        yield f"  thread {member.thread} lock {member.lock} holds {' '.join(map(str, member.held))}{place}"
    if cycle.verdict is Verdict.CONFIRMED:
        yield " ".join([WITNESS, *map(str, cycle.witness)])
    elif cycle.verdict is Verdict.NO_VALUE:
        yield from value_lines((member.place or 0 for member in cycle.members), cycle.witness, cycle.reads)


def head_line(count: int) -> str:
    """Returns the line that follows the first line of a report in which values were weighed."""
    return f"{NO_VALUE}{plural(count, 'cycle')}"


def sentence(read: str, write: str) -> str:
    """Returns what a read at a code location has seen, which was written after another location."""
    return f"{read} reads memory that a thread wrote after {write}"


def value_read(index: Index, read: int, write: int) -> ValueRead:
    reader, writer = index.events[read], index.events[write]
    if reader.where and writer.where:
        return ValueRead(read, write, sentence(reader.where.split(CALLED_BY)[0], writer.where.split(CALLED_BY)[0]))
    return ValueRead(read, write, f"thread {reader.thread} reads memory at {index.origin(read).title} that thread {writer.thread} wrote at "
                                  f"{index.origin(write).title}")


def reads_in(index: Index, refutation: Refutation) -> list[ValueRead]:
    """Returns the reads of plain values in a refutation on all events: one of each text, in the order of the trace."""
    found = dict[str, ValueRead]()
    for read, write in sorted(refutation.reads):
        one = value_read(index, read, write)
        found.setdefault(one.text, one)
    return list(found.values())
