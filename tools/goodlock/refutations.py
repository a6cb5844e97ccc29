"""Runs `goodlockd explain` for the potential cycles that a tool shows, and reads the refutations that it prints."""
from __future__ import annotations

import contextlib
import os
import re
import tempfile
import time
from bisect import bisect_left
from dataclasses import dataclass, field
from typing import NamedTuple, Optional

from goodlock.program import NoAnswer, found_program, lines_from
from goodlock.reports import Cycle, Member, Report, Verdict, member_of
from goodlock.traces import Index

MOST_SECONDS, MOST_SENTENCES, MOST_READS = 60.0, 12, 1000
PLACE = "([0-9]{1,10})"
KINDS = {
    "before": re.compile(f"  before place {PLACE} its thread runs place {PLACE}"),
    "order": re.compile(f"  place {PLACE} needs place {PLACE}: earlier in its thread"),
    "fork or join": re.compile(f"  place {PLACE} needs place {PLACE}: fork or join"),
    "read": re.compile(f"  place {PLACE} reads what place {PLACE} wrote"),
    "section": re.compile(f"  places {PLACE} and {PLACE} acquire one lock: place {PLACE} releases it between them"),
}
END = re.compile(f"  so place {PLACE} must run: thread {PLACE} cannot stop before it")
Numbers = tuple[int, ...]


def late() -> str:
    return f"it was not explained in {MOST_SECONDS:g} seconds"


class Entry(NamedTuple):
    """A place that must run, and the places that the reason names. The kind is before, order, fork, join, read or section."""

    kind: str
    place: int
    named: list[int]


class RefutationStep(NamedTuple):
    """What the entries show: the member with this thread cannot stop before the place. It may wait next before the place `then`, or
    nowhere."""

    entries: list[Entry]
    thread: int
    place: int
    then: Optional[int]


@dataclass
class Refutation:
    """The kinds of entries in a refutation, its number of steps, and the first of them: those that have at most MOST_SENTENCES entries and
    conclusions, and at least one. `reads` are the first reads of plain values in it, each with the write that it saw."""

    kinds: set[str] = field(default_factory=set)
    reads: set[tuple[int, int]] = field(default_factory=set)
    count: int = 0
    steps: list[RefutationStep] = field(default_factory=list)
    sentences: int = 0

    def add(self, step: RefutationStep) -> None:
        self.kinds.update(entry.kind for entry in step.entries)
        self.count += 1
        self.sentences += len(step.entries) + 1
        if self.count == 1 or self.sentences <= MOST_SENTENCES:
            self.steps.append(step)


def refutations_of(index: Index, report: Report, cycles: list[Cycle], program: str = "") -> tuple[dict[Numbers, Refutation], str]:
    """Returns the refutations of cycles of a report that are potential with all values, by the cycles' numbers, and why others are missing."""
    reader = Reader(index, report, cycles)
    try:
        if reader.wanted:
            read_explained(index, report, reader, found_program(program))
    except NoAnswer as fault:
        return reader.found, str(fault)
    except OSError as fault:
        return reader.found, f"the program cannot run: {fault.strerror}"
    return reader.found, "the program does not explain this cycle"


def read_explained(index: Index, report: Report, reader: Reader, program: str) -> None:
    """Gives the events that the report covers to `explain`, and reads what it prints until no cycle is wanted."""
    with tempfile.TemporaryDirectory(prefix="explain-") as folder:
        trace = os.path.join(folder, "trace")
        with open(trace, "w", encoding="ascii") as file:
            file.writelines(f"{thread}{letter}{target}\n" for thread, letter, target, _ in index.events[:report.length])
        command, end = [program, "explain", trace, "--bound", str(report.bound)], time.monotonic() + MOST_SECONDS
        if not explain_all(command, reader, end):
            for cycle in list(reader.wanted.values()):
                explain_one(command, reader, end, cycle)


def explain_all(command: list[str], reader: Reader, end: float) -> bool:
    """Lets the program explain all cycles. Returns False if by now it would have explained the wanted ones, each alone: the time until its
    first line is that for one."""
    began, alone = time.monotonic(), 0.0
    with contextlib.closing(lines_from(command, end, late())) as lines:
        for line in lines:
            reader.take(line)
            taken = time.monotonic() - began
            alone = alone or taken
            if not reader.wanted:
                return True
            if taken > alone * (len(reader.wanted) + 1):
                return False
    return True


def explain_one(command: list[str], reader: Reader, end: float, cycle: Cycle) -> None:
    for line in lines_from([*command, "--cycle", ",".join(map(str, cycle.numbers))], end, late()):
        reader.take(line)


class Reader:
    """Takes the lines that `explain` prints. `wanted` maps the first line of each cycle whose refutation is not read yet to the cycle;
    `found` has the refutations by the cycles' numbers. `left` has for the threads of the members of the cycle that is read the places at
    which they may still wait, the last one first."""

    def __init__(self, index: Index, report: Report, cycles: list[Cycle]) -> None:
        self.index, self.length = index, report.length
        self.wanted = {cycle.row: cycle for cycle in cycles}
        self.found: dict[Numbers, Refutation] = {}
        self.line, self.cycle, self.refutation = "", Cycle((), Verdict.POTENTIAL), Refutation()
        self.left: dict[int, list[int]] = {}
        self.entries: list[Entry] = []
        self.is_reading = False

    def take(self, line: str) -> None:
        if line.startswith("cycle "):
            self.is_reading = line in self.wanted
            if self.is_reading:
                self.line, self.cycle = line, self.wanted[line]
                self.left = {member.thread: self.places_of(member) for member in self.cycle.members}
                self.entries, self.refutation = [], Refutation()
        elif self.is_reading and not self.fits(line):
            self.end_cycle()

    def end_cycle(self) -> None:
        del self.wanted[self.line]
        self.is_reading = False

    def places_of(self, member: Member) -> list[int]:
        places = self.index.places_of(member.dependency)
        return places[:bisect_left(places, self.length)][::-1]

    def fits(self, line: str) -> bool:
        """Takes a line of a wanted cycle. Returns whether it is understood and fits the report."""
        if row := member_of(line):
            return any(row[:3] == member.dependency for member in self.cycle.members)
        if match := END.fullmatch(line):
            return self.end_step(int(match[1]), int(match[2]))
        for kind, pattern in KINDS.items():
            if match := pattern.fullmatch(line):
                *named, place = map(int, match.groups())
                return self.take_entry(kind, place, named)
        return False

    def take_entry(self, kind: str, place: int, named: list[int]) -> bool:
        if max(place, *named) >= self.length:
            return False
        if kind == "fork or join":
            needed, thread = self.index.events[place], self.index.events[named[0]].thread
            kind = "fork" if (needed.letter, needed.target) == ("f", thread) else "join"
        self.entries.append(Entry(kind, place, named))
        if kind == "read" and self.index.values and self.index.values.is_plain(self.index.events[place]) and len(self.refutation.reads) < MOST_READS:
            self.refutation.reads.add((named[0], place))
        return True

    def end_step(self, place: int, thread: int) -> bool:
        left = self.left.get(thread)
        if not left or left.pop() != place or not self.entries or self.entries[-1].place != place:
            return False
        self.refutation.add(RefutationStep(self.entries, thread, place, left[-1] if left else None))
        self.entries = []
        if not left:
            self.found[self.cycle.numbers] = self.refutation
            self.end_cycle()
        return True
