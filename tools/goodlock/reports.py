"""Reads reports as goodlockd or an agent writes them, and tests each line against the trace."""
from __future__ import annotations

import enum
import re
from collections.abc import Collection, Iterable, Iterator, Sequence
from dataclasses import dataclass, field
from itertools import islice
from operator import lt
from typing import NamedTuple, Optional, Protocol

from goodlock.errors import InputError, fault_of_text, shown
from goodlock.limits import NUMBER
from goodlock.traces import Dependency, lines_of

QUESTION = re.compile(rf"question {NUMBER} length {NUMBER} bound {NUMBER} cycles {NUMBER} confirmed {NUMBER}")
CYCLE = re.compile(rf"cycle ({NUMBER}(?: {NUMBER})+) (confirmed|potential)")
MEMBER = re.compile(rf"  thread {NUMBER} lock {NUMBER} holds((?: {NUMBER})+)(?: place {NUMBER})?")
WITNESS = "  witness"
PLACES = re.compile(rf"(?: {NUMBER})*")
NOTE = re.compile(r"    (?:  )?\S.*")
INDENT, HEADING, TIMED = "    ", "not examined:", "timed: "  # of notes
NO_VALUE = "    confirmed if no value decides: "  # before the first cycle: how many; under a cycle: the places of its members
HEAD_NO_VALUE = re.compile(rf"{NO_VALUE}[0-9,]+ cycles?")
PLACES_NO_VALUE = re.compile(rf"{NO_VALUE}places((?: {NUMBER})+)")
WITNESS_NO_VALUE = "      witness"
VALUE_READ = re.compile(rf"      place {NUMBER} reads what place {NUMBER} wrote: (.*)")
MORE = re.compile(rf"    and {NUMBER} more cycles? at these lines, {NUMBER} of them confirmed(?:, {NUMBER} if no value decides)?")
REPRODUCED, FURTHER = "    reproduced in run ", "      "
REFUSED = re.compile(r"refused [0-9]+ \w+(?: at [0-9]+)?")
OTHER_LINE = re.compile(r"(placed|batch|refused|opened|pending|worked|delivered|status) .*")
BEGINS = "which begins with a line such as `question 0 length 10 bound 2 cycles 1 confirmed 1`"
MOST_KNOWN = 1 << 16  # members that are parsed and looked up once, not for each of their cycles
FEWER_EVENTS, NOT_ASCENDING = "the trace has fewer events", "these are not ascending places of the trace"


class Verdict(enum.Enum):
    """What a cycle or a group of cycles rests on, the strongest evidence last: no order of the events leads to the deadlock; one does that
    leaves out what threads read of plain values; one does in which each read sees the write that it saw; it happened."""

    POTENTIAL = "potential"
    NO_VALUE = "confirmed if no value decides"
    CONFIRMED = "confirmed"
    HAPPENED = "happened"

    @property
    def is_confirmed(self) -> bool:
        """Whether an order leads to the deadlock, also one that leaves out values, or it happened."""
        return self is not Verdict.POTENTIAL

    @property
    def is_certain(self) -> bool:
        """Whether the run can deadlock so, or did, and no value can prevent it."""
        return self in (Verdict.CONFIRMED, Verdict.HAPPENED)

    @property
    def rank(self) -> int:
        return list(Verdict).index(self)


def no_value_text(count: int) -> str:
    """Returns what follows the number of confirmed cycles: `, 1 if no value decides`, or nothing."""
    return f", {count:,} if no value decides" if count else ""


def confirmed_text(confirmed: int, no_value: int, word: str = "confirmed") -> str:
    """Returns `2 confirmed`, or `2 confirmed, 1 if no value decides`."""
    return f"{confirmed:,} {word}{no_value_text(no_value)}"


class Member(NamedTuple):
    """A thread that wants a lock while it holds others. `place` is the acquire at which it waits, if the cycle has a witness."""

    thread: int
    lock: int
    held: tuple[int, ...]
    place: Optional[int] = None

    @property
    def dependency(self) -> Dependency:
        return Dependency(self.thread, self.lock, tuple(sorted(self.held)))


@dataclass(frozen=True)
class Report:
    """The first line of a report. It covers the first `length` events of the trace."""

    question: int
    length: int
    bound: int
    cycles: int
    confirmed: int


class ValueRead(NamedTuple):
    """A read of a plain value that keeps the members of a cycle apart, the write that it saw, and the sentence about them."""

    read: int
    write: int
    text: str


class Places(Collection[int]):
    """The places of a witness, ascending, as a report has them: a space is before each. There may be a million of them, so they are numbers, and
    tested, only when they are needed. `name` and `line` are those of the report."""

    def __init__(self, text: bytes, name: str = "", line: Optional[int] = None) -> None:
        self.text, self.name, self.line = text, name, line

    @classmethod
    def of(cls, places: Collection[int]) -> Places:
        return places if isinstance(places, Places) else cls(b"".join(b" %d" % place for place in places))

    @property
    def last(self) -> int:
        """The last place, or -1 if there is none."""
        return self.number_at(len(self.text)) if self.text else -1

    def number_at(self, offset: int) -> int:
        """Returns the number at an offset of the text, or after it if there is a space."""
        begin = self.text.rfind(b" ", 0, offset + 1) + 1
        return int(self.text[begin:begin + 10].partition(b" ")[0] or 0)

    def offset_of(self, place: int, low: int = 0) -> int:
        """Returns where the text of the first number begins, with its space, that is not less than a place. Those before `low` are."""
        high = len(self.text)
        while low < high:
            middle = (low + high) // 2
            if self.number_at(middle) < place:
                low = middle + 1
            else:
                high = middle
        return low

    def among(self, places: Iterable[int]) -> Iterator[tuple[int, int]]:
        """Yields those of some ascending places that are here, each with the number of those here that are before it and after the one before."""
        end = 0
        for place in places:
            begin = self.offset_of(place, end)
            if begin < len(self.text) and self.number_at(begin) == place:
                yield place, self.text.count(b" ", end, begin)
                end = begin + 1

    def __len__(self) -> int:
        return self.text.count(b" ")

    def __contains__(self, place: object) -> bool:
        return isinstance(place, int) and any(self.among([place]))

    def __iter__(self) -> Iterator[int]:
        places = places_in(self.text.decode("ascii"))
        if places is None or not all(map(lt, places, islice(places, 1, None))):
            raise InputError(self.name, self.line, f"witness{shown(self.text.decode('ascii'))}: does not fit the trace: {NOT_ASCENDING}")
        return iter(places)

    def __eq__(self, other: object) -> bool:
        return isinstance(other, Collection) and list(self) == list(other)


@dataclass
class Cycle:
    """A cycle of a report. `numbers` are those of its dependencies; `witness` has the places of its witness, unless it is potential. That of a
    cycle that is confirmed if no value decides leaves out the accesses of plain values, and `reads` are those that decide, if they are known.
    An agent may print one cycle for several: `more` counts the others, `more_confirmed` and `more_no_value` those of these verdicts.
    `reproduced` has the lines about a run in which the deadlock happened: `reproduced in run 1, 0.50 s, 4 steps`, and who waited where.
    `is_graded`: the report weighs values."""

    numbers: tuple[int, ...]
    verdict: Verdict
    members: list[Member] = field(default_factory=list)
    witness: Collection[int] = field(default_factory=list)
    more: int = 0
    more_confirmed: int = 0
    more_no_value: int = 0
    reproduced: list[str] = field(default_factory=list)
    reads: list[ValueRead] = field(default_factory=list)
    is_graded: bool = False

    def confirm(self, places: Sequence[int], witness: Collection[int]) -> None:
        """Takes the instance and the witness of a potential cycle that is confirmed if no value decides."""
        self.verdict, self.witness = Verdict.NO_VALUE, witness
        self.members = [member._replace(place=place) for member, place in zip(self.members, places)]

    @property
    def name(self) -> str:
        """The numbers as a report prints them: `0 1`."""
        return " ".join(map(str, self.numbers))

    @property
    def row(self) -> str:
        """Its first line in a report."""
        return f"cycle {self.name} {'confirmed' if self.verdict is Verdict.CONFIRMED else 'potential'}"

    def count(self, verdict: Verdict) -> int:
        """Returns for how many cycles of this verdict it is printed."""
        more = self.more_confirmed if verdict is Verdict.CONFIRMED else self.more_no_value
        return more + (self.verdict is verdict)


class Events(Protocol):
    """What a report is tested against: an `Index`, or a stand-in if there is no trace."""

    def __len__(self) -> int: ...

    def places_of(self, dependency: Dependency) -> list[int]: ...

    def is_acquire_of(self, dependency: Dependency, place: int) -> bool: ...


class AnyEvents:
    """Fits every report."""

    def __len__(self) -> int:
        return 1 << 32

    def places_of(self, dependency: Dependency) -> list[int]:
        return [0]

    def is_acquire_of(self, dependency: Dependency, place: int) -> bool:
        return True


def member_of(line: str) -> Optional[Member]:
    """Returns the member on a line of a report, or None if it is another line."""
    match = MEMBER.fullmatch(line)
    if not match:
        return None
    return Member(int(match[1]), int(match[2]), tuple(map(int, match[3].split())), int(match[5]) if match[5] else None)


def places_in(text: str) -> Optional[list[int]]:
    """Returns the numbers of a text in which a space is before each of them, or None if it is another text."""
    return list(map(int, text.split())) if PLACES.fullmatch(text) else None


def note_in(line: str) -> str:
    """Returns the note on a line between the first line of a report and its first cycle; an empty text if there is none."""
    note = line.strip() if line.startswith(INDENT) and not HEAD_NO_VALUE.fullmatch(line) else ""
    return "" if note == HEADING or note.startswith(TIMED) else note


class ReportReader:
    """Reads the lines of reports one after another, and tests each against the trace. Keeps one cycle in memory, and the notes of each
    report. `known` maps lines of the report to the first potential members on them, which were tested."""

    def __init__(self, name: str, events: Events) -> None:
        self.name, self.events, self.number = name, events, 0
        self.report: Optional[Report] = None
        self.cycle: Optional[Cycle] = None
        self.rows_left, self.members_left, self.wants_witness, self.is_graded = 0, 0, False, False
        self.last_refusal = ""
        self.notes: list[list[str]] = []
        self.known: dict[str, Member] = {}

    def read(self, lines: Iterable[str]) -> Iterator[tuple[Report, Optional[Cycle]]]:
        """Yields a report and None for each first line of a report, and then the report and a cycle for each of its cycles."""
        for line in lines:
            self.number += 1
            if line.startswith((WITNESS, WITNESS_NO_VALUE)):
                self.take_witness(line)
            elif member := self.known.get(line) or member_of(line):
                self.take_member(line, member)
            elif match := CYCLE.fullmatch(line):
                if ended := self.end_cycle():
                    yield ended
                self.take_cycle(tuple(map(int, match[1].split())), Verdict.CONFIRMED if line.endswith("confirmed") else Verdict.POTENTIAL)
            elif match := QUESTION.fullmatch(line):
                if ended := self.end_cycle():
                    yield ended
                yield self.take_question(line, Report(*map(int, match.groups()))), None
            else:
                self.take_other(line)
        if not self.is_between() or self.report is None:
            self.refuse_end()
        if ended := self.end_cycle():
            yield ended

    def refuse(self, what: str) -> InputError:
        return InputError(self.name, self.number, what)

    def refuse_end(self) -> None:
        self.number += 1
        if self.report:
            raise self.refuse(f"the report ends within its cycles: the first line has {self.report.cycles}")
        raise self.refuse(f"there is no report: goodlockd has refused the trace: {self.last_refusal}" if self.last_refusal else
                          f"there is no report, {BEGINS}")

    def is_between(self) -> bool:
        return self.rows_left == 0 and self.members_left == 0 and not self.wants_witness

    def is_in_members(self) -> bool:
        return bool(self.members_left or self.wants_witness)

    def end_cycle(self) -> Optional[tuple[Report, Cycle]]:
        if not self.report or not self.cycle or self.is_in_members():
            return None
        ended, self.cycle = self.cycle, None
        return self.report, ended

    def take_question(self, line: str, report: Report) -> Report:
        if not self.is_between():
            raise self.refuse(f"{shown(line)}: the report before it has further cycles")
        if report.length > len(self.events):
            raise self.refuse(f"length {report.length}: does not fit the trace: {FEWER_EVENTS}")
        self.report, self.rows_left, self.is_graded = report, report.cycles, False
        self.notes.append([])
        self.known = {}
        return report

    def take_cycle(self, numbers: tuple[int, ...], verdict: Verdict) -> None:
        self.cycle, cycle = Cycle(numbers, verdict, is_graded=self.is_graded), self.cycle
        if self.is_in_members():
            raise self.refuse(f"cycle {self.cycle.name}: cycle {cycle.name if cycle else ''} before it lacks a line")
        if self.rows_left == 0:
            raise self.refuse(f"cycle {self.cycle.name}: {'the first line of the report has fewer cycles' if self.report else f'before a report, {BEGINS}'}")
        self.rows_left -= 1
        self.members_left, self.wants_witness = len(numbers), verdict is Verdict.CONFIRMED

    def take_member(self, line: str, member: Member) -> None:
        cycle, report = self.cycle, self.report
        if not cycle or not report or self.members_left == 0:
            raise self.refuse(f"{shown(line.strip())}: no cycle has a member here")
        if (cycle.verdict is Verdict.CONFIRMED) != (member.place is not None):
            raise self.refuse(f"{shown(line.strip())}: the members of a confirmed cycle have places, those of a potential one have none")
        if line not in self.known:
            places = self.events.places_of(member.dependency)
            if not places or places[0] >= report.length or not (member.place is None or self.is_acquire(member, member.place)):
                raise self.refuse(f"{shown(line.strip())}: does not fit the trace, which has no such acquire")
            if member.place is None and len(self.known) < MOST_KNOWN:
                self.known[line] = member
        cycle.members.append(member)
        self.members_left -= 1
        self.test_ring(line, cycle.members)

    def is_acquire(self, member: Member, place: int) -> bool:
        return self.report is not None and place < self.report.length and self.events.is_acquire_of(member.dependency, place)

    def test_ring(self, line: str, members: list[Member]) -> None:
        last = members[-1]
        if len(members) > 1 and members[-2].lock not in last.held or self.members_left == 0 and last.lock not in members[0].held:
            raise self.refuse(f"{shown(line.strip())}: does not fit the cycle, whose members each hold the lock that the one before wants")

    def take_witness(self, line: str) -> None:
        """Takes a witness. Of its places the last one is tested: the others are below it, or refused when they are needed."""
        cycle, report, text = self.cycle, self.report, line.partition("witness")[2].encode("ascii", "replace")
        if not cycle or not report or self.members_left or not self.wants_witness or text.translate(None, b" 0123456789") or text[:1] not in b" ":
            raise self.refuse(f"{shown(line.strip())}: no witness of places is here")
        cycle.witness = places = Places(text, self.name, self.number)
        if places.last >= report.length:
            raise self.refuse(f"{shown(line.strip())}: does not fit the trace: {NOT_ASCENDING}")
        self.wants_witness = False

    def take_no_value(self, line: str, places: list[int]) -> None:
        """Takes the places of a potential cycle that is confirmed if no value decides. Its witness follows."""
        cycle = self.cycle
        if not cycle or self.is_in_members() or cycle.verdict is not Verdict.POTENTIAL:
            raise self.refuse(f"{shown(line.strip())}: no potential cycle is before it")
        if len(places) != len(cycle.members) or not all(map(self.is_acquire, cycle.members, places)):
            raise self.refuse(f"{shown(line.strip())}: does not fit the trace, which has no such acquires")
        cycle.confirm(places, [])
        self.wants_witness = True

    def take_note(self, line: str) -> bool:
        """Takes a note about values. Returns whether the line is one."""
        if match := PLACES_NO_VALUE.fullmatch(line):
            self.take_no_value(line, list(map(int, match[1].split())))
        elif HEAD_NO_VALUE.fullmatch(line) and not self.cycle:
            self.is_graded = True
        elif (match := VALUE_READ.fullmatch(line)) and self.cycle and self.cycle.verdict is Verdict.NO_VALUE and self.report:
            read, write = int(match[1]), int(match[2])
            if not write < read < self.report.length:
                raise self.refuse(f"{shown(line.strip())}: does not fit the trace")
            self.cycle.reads.append(ValueRead(read, write, match[3]))
        else:
            return False
        return True

    def take_other(self, line: str) -> None:
        if match := MORE.fullmatch(line):
            if not self.cycle or self.is_in_members():
                raise self.refuse(f"{shown(line.strip())}: no cycle is before it")
            self.cycle.more, self.cycle.more_confirmed, self.cycle.more_no_value = int(match[1]), int(match[2]), int(match[3] or 0)
        elif self.take_note(line):
            pass
        elif self.cycle and not self.is_in_members() and line.startswith(FURTHER if self.cycle.reproduced else REPRODUCED):
            self.cycle.reproduced.append(line.strip())
        elif OTHER_LINE.fullmatch(line) and self.is_between():
            self.last_refusal = line if REFUSED.fullmatch(line) else self.last_refusal
        elif not (NOTE.fullmatch(line) and self.report):
            raise self.refuse(f"{shown(line)}: {fault_of_text(line) or 'not a line of a report'}" if line else "an empty line")
        elif not self.cycle and (note := note_in(line)):
            self.notes[-1].append(note)


def read_reports(name: str, events: Events, lines: Optional[Iterable[str]] = None) -> Iterator[tuple[Report, Optional[Cycle]]]:
    """Yields the reports of a file with their cycles, as `ReportReader.read` does. `lines` are read instead of the file, if given."""
    return ReportReader(name, events).read(lines_of(name) if lines is None else lines)

