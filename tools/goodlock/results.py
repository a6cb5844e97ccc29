"""What a format shows of a run: a result for each group of cycles and for a deadlock that happened, and the numbers of the run."""
from __future__ import annotations

import enum
import hashlib
from collections import Counter
from collections.abc import Callable, Iterable, Iterator, Sequence
from dataclasses import dataclass, replace
from typing import NamedTuple, Optional

from goodlock.commandline import plural
from goodlock.groups import Group, Groups, Location, Pair, advice_for, pairs_of
from goodlock.locations import Root
from goodlock.parts import condition_of
from goodlock.reports import Report, Verdict, confirmed_text
from goodlock.reproduce.notes import command_for
from goodlock.traces import CALLED_BY, Index, Origin, description_of, named


class State(enum.Enum):
    """Whether a result is new, is in the baseline, or is suppressed. A suppressed result may be in the baseline too."""

    NEW = "new"
    KNOWN = "known"
    SUPPRESSED = "suppressed"


def rule_of(verdict: Verdict) -> str:
    """Returns the name of a kind of results in formats: `confirmed-deadlock`."""
    return f"{verdict.value.replace(' ', '-')}-deadlock"


TITLES = {
    Verdict.POTENTIAL: "Potential deadlock",
    Verdict.NO_VALUE: "Deadlock, if no value decides",
    Verdict.CONFIRMED: "Deadlock",
    Verdict.HAPPENED: "Deadlock that happened",
}


def is_below_root(location: Location) -> bool:
    return location.file is not None and not location.file.startswith(("/", "../"))


class InTrace:
    """What has a place in a trace, an origin if that was reduced from files, and a location."""

    place: Optional[int]
    origin: Optional[Origin]
    location: Optional[Location]
    callers: tuple[str, ...]
    has_source = True

    @property
    def at(self) -> str:
        """The place in a sentence, as in the file from which the trace was reduced: `place 17`."""
        return self.origin.title if self.origin else f"place {self.place}"

    @property
    def label(self) -> str:
        """The place as a list shows it."""
        return self.origin.label if self.origin else str(self.place)

    @property
    def source(self) -> str:
        """The source line with its callers, or an empty text."""
        return CALLED_BY.join((self.location.text, *self.callers)) if self.location and self.has_source else ""


@dataclass(frozen=True)
class Spot(InTrace):
    """Where a thread acquired a lock or wants one. There is no place if the acquire never returned, and no lock if the thread waits for
    the end of another one. `name` is that of the lock. `has_source`: the trace has the source line; else the location is made of the
    thread and the lock."""

    location: Location
    lock: Optional[int] = None
    place: Optional[int] = None
    callers: tuple[str, ...] = ()
    name: Optional[str] = None
    has_source: bool = True
    origin: Optional[Origin] = None

    @property
    def target(self) -> str:
        """What a thread waits for here."""
        return "the end of another thread" if self.lock is None else named("lock", self.lock, self.name)


@dataclass(frozen=True)
class ResultMember:
    """A thread that waits while it holds what the member before it wants. `held` are all its locks."""

    thread: int
    hold: Spot
    wait: Spot
    held: tuple[int, ...] = ()
    name: Optional[str] = None

    @property
    def title(self) -> str:
        return named("thread", self.thread, self.name)

    @property
    def role(self) -> str:
        """What it holds: a lock, or the end of its own thread, for which the member before it waits."""
        return f"{'was started' if self.hold.lock is None else 'holds the lock acquired'} at {self.hold.location.text}"


@dataclass(frozen=True)
class WitnessStep(InTrace):
    """An event of a witness, and how many before it a short list leaves out. There is no location if the trace has none."""

    place: int
    thread: int
    event: str
    left_out: int = 0
    location: Optional[Location] = None
    callers: tuple[str, ...] = ()
    origin: Optional[Origin] = None


@dataclass(frozen=True)
class Witness:
    """An order of events that leads to the deadlock. `left_out` counts the events after the last step."""

    events: int
    steps: tuple[WitnessStep, ...]
    left_out: int = 0

    def lines(self, where: Callable[[WitnessStep], str]) -> Iterator[str]:
        """Yields a line for each step, with where it is, and how many events are left out between them."""
        for step in self.steps:
            if step.left_out:
                yield f".. {plural(step.left_out, 'event')}"
            text = where(step)
            yield f"{step.label}: thread {step.thread} {step.event}{text and '    '}{text}"
        if self.left_out:
            yield f".. {plural(self.left_out, 'event')}"


@dataclass(frozen=True)
class KeptApart:
    """Why no order of the events leads to a potential deadlock: in a few words, step by step, and the command that prints it in full. Of a
    deadlock that is confirmed if no value decides, the sentences are about the reads that keep its threads apart."""

    heading: str
    sentences: tuple[str, ...] = ()
    left_out: int = 0
    further: str = ""
    command: str = ""
    note: str = ""


@dataclass(frozen=True)
class Result:
    """A group of cycles with the same code locations, or a deadlock that happened. `example` has the numbers of the cycle that the members
    are of. `before` is the verdict in the baseline, `suppressed_by` the line of the suppressions. `traces` are the first traces with it,
    of `trace_count`. `reproduced` has the lines about a run in which the deadlock happened again, `reproduce` the command for one.
    `condition` is what the verdict rests on besides the events, or empty. `confirmed` of the cycles are confirmed, `no_value` are if no value
    decides."""

    verdict: Verdict
    members: tuple[ResultMember, ...]
    advice: str
    cycles: int = 0
    confirmed: int = 0
    example: tuple[int, ...] = ()
    witness: Optional[Witness] = None
    kept_apart: Optional[KeptApart] = None
    fingerprint: str = ""
    state: State = State.NEW
    before: Optional[Verdict] = None
    suppressed_by: Optional[int] = None
    traces: tuple[str, ...] = ()
    trace_count: int = 1
    reproduced: tuple[str, ...] = ()
    reproduce: str = ""
    condition: str = ""
    no_value: int = 0

    @property
    def rule(self) -> str:
        return rule_of(self.verdict)

    @property
    def title(self) -> str:
        return f"{TITLES[self.verdict]}, {self.condition}" if self.condition else TITLES[self.verdict]

    @property
    def pairs(self) -> list[Pair]:
        return [Pair(member.hold.location.text, member.wait.location.text) for member in self.members]

    @property
    def location(self) -> Location:
        """The first location in a file below the root, where a member waits or else where one holds; or else that of the first wait."""
        found = [member.wait.location for member in self.members] + [member.hold.location for member in self.members]
        return next((location for location in found if is_below_root(location)), found[0])

    @property
    def counts(self) -> str:
        """The number of cycles, and of traces if there are more: `3 cycles in 2 traces, 2 confirmed`. A deadlock that happened may have no
        cycle."""
        traces = f"in {self.trace_count:,} traces" if self.trace_count > 1 else ""
        if not self.cycles:
            return traces
        return f"{plural(self.cycles, 'cycle')}{traces and ' '}{traces}, {confirmed_text(self.confirmed, self.no_value)}"

    @property
    def sides(self) -> str:
        """Where each member holds and waits."""
        return "; ".join(f"a thread that {member.role} waits at {member.wait.location.text}" for member in self.members)

    @property
    def why(self) -> str:
        """What keeps the threads apart, in a few words, with the reads of values that do; an empty text if nothing is known."""
        apart = self.kept_apart
        reads = f": {'; '.join(apart.sentences)}" if apart and self.verdict is Verdict.NO_VALUE and apart.sentences else ""
        return f"{apart.heading}{reads}" if apart else ""

    @property
    def message(self) -> str:
        """The result as one paragraph."""
        counts = f" ({self.counts})" if self.counts else ""
        reason = f" {self.why.rstrip('.')}." if self.why else ""
        return f"{self.title}: {self.sides}{counts}.{reason} {self.advice}"


@dataclass(frozen=True)
class Numbers:
    """The size of a run, and its cycles: `no_value` are confirmed if no value decides. `tried` ones have a member that does not wait without end, and `writers_wait` counts those that
    only waiting writers make, of locks which do not let these go first."""

    events: int = 0
    threads: int = 0
    locks: int = 0
    dependencies: int = 0
    confirmed: int = 0
    potential: int = 0
    tried: int = 0
    happened: int = 0
    seconds: float = 0.0
    writers_wait: int = 0
    no_value: int = 0

    @property
    def cycles(self) -> int:
        return self.confirmed + self.no_value + self.potential + self.tried + self.writers_wait


class LeftOut(NamedTuple):
    """Cycles that are in no group: a member does not wait without end, only waiting writers make them, or there are too many groups."""

    tried: int = 0
    further: int = 0
    further_confirmed: int = 0
    further_no_value: int = 0
    writers_wait: int = 0

    @property
    def further_text(self) -> str:
        """Says of the cycles in further groups how many are confirmed."""
        return confirmed_text(self.further_confirmed, self.further_no_value)


@dataclass(frozen=True)
class Question:
    """The results of one report."""

    report: Report
    results: tuple[Result, ...] = ()
    left_out: LeftOut = LeftOut()
    notes: tuple[str, ...] = ()

    @property
    def no_value(self) -> int:
        """How many cycles are confirmed if no value decides."""
        return sum(result.no_value for result in self.results) + self.left_out.further_no_value


@dataclass(frozen=True)
class Run:
    """The results of the reports on a trace, or of many traces, in the order of `ordered`. `name` is that of the trace or the folder. A
    format shows the first `most` results that are not suppressed. `notes` say what was not examined, `faults` why a trace has no report.
    `suppressions` is the name of a file relative to the root, `unused` are its lines that suppress nothing."""

    name: str
    results: tuple[Result, ...] = ()
    numbers: Numbers = Numbers()
    left_out: LeftOut = LeftOut()
    most: int = 200
    notes: tuple[str, ...] = ()
    faults: tuple[tuple[str, str], ...] = ()
    suppressions: Optional[str] = None
    unused: tuple[int, ...] = ()
    has_baseline: bool = False

    def with_state(self, state: State) -> list[Result]:
        return [result for result in self.results if result.state is state]

    @property
    def shown(self) -> list[Result]:
        return kept(self.results)[:self.most]

    @property
    def remarks(self) -> list[str]:
        """What a reader must know beside the results: what was not examined, and which suppressions are not used."""
        found = [*self.notes, *self.fault_lines]
        if self.left_out.further:
            found.append(f"{plural(self.left_out.further, 'cycle')} in too many further groups, {self.left_out.further_text}")
        if len(kept(self.results)) > self.most:
            found.append(f"{plural(len(kept(self.results)) - self.most, 'group')} not shown")
        return found + self.unused_lines

    @property
    def fault_lines(self) -> list[str]:
        """Says why traces have no report."""
        return [f"{trace}: {fault}" for trace, fault in self.faults]

    @property
    def unused_lines(self) -> list[str]:
        """Says which suppressions are not used."""
        return unused_lines(self.suppressions, self.unused)


def unused_lines(suppressions: Optional[str], unused: Iterable[int]) -> list[str]:
    """Returns a sentence for each line of a file of suppressions that suppresses nothing."""
    return [f"{suppressions} line {number} suppresses nothing" for number in unused]


def kept(results: Iterable[Result]) -> list[Result]:
    """Returns the results that are not suppressed."""
    return [result for result in results if result.state is not State.SUPPRESSED]


def ordered(results: Iterable[Result]) -> list[Result]:
    """Returns the results: new ones first, then the known ones and those suppressed, of each state the strongest evidence first."""
    return sorted(results, key=lambda result: (list(State).index(result.state), -result.verdict.rank))


def headline(results: Sequence[Result]) -> str:
    """Returns how many results are new, known and suppressed."""
    counts = Counter(result.state for result in results)
    return ", ".join(f"{counts[state]:,} {state.value}" for state in State if counts[state]) or "none"


# ---- from groups ----


def spot_of(index: Index, place: int, lock: int, root: Root) -> Spot:
    location, name = root.location(index.where(place)), index.names.get(("lock", lock))
    return Spot(location, lock, place, callers_of(index, place), name, bool(index.events[place].where), original(index, place))


def original(index: Index, place: int) -> Optional[Origin]:
    """Returns where an event was in the files from which the trace was reduced; None if it was not."""
    return index.origin(place) if index.origins.files else None


def callers_of(index: Index, place: int) -> tuple[str, ...]:
    return tuple((index.events[place].where or "").split(CALLED_BY)[1:])


def result_of(index: Index, group: Group, root: Root) -> Result:
    """Returns the result of a group. `explained` adds what keeps the members of its example apart."""
    members = group.example.members
    return Result(
        verdict=group.verdict,
        members=tuple(
            ResultMember(member.thread, spot_of(index, side.hold, members[at - 1].lock, root), spot_of(index, side.wait, member.lock, root),
                         member.held, index.names.get(("thread", member.thread)))
            for at, (member, side) in enumerate(zip(members, group.sides))),
        advice=advice_for(pairs_of(index, group.sides)) if group.verdict.is_confirmed else "Acquire the locks in one order.",
        cycles=group.cycles,
        confirmed=group.confirmed,
        example=group.example.numbers,
        witness=witness_of(index, group, root) if group.verdict.is_confirmed else None,
        traces=(index.file,) if index.file else (),
        reproduced=tuple(group.example.reproduced),
        reproduce=command_for(index.file, group.example.numbers),
        condition=condition_of(group.basis),
        no_value=group.no_value,
    )


def witness_of(index: Index, group: Group, root: Root) -> Witness:
    steps = []
    for place, left_out in group.steps:
        event = index.events[place]
        location = root.location(index.where(place)) if event.where else None
        steps.append(WitnessStep(place, event.thread, description_of(event), left_out, location, callers_of(index, place),
                                 original(index, place)))
    return Witness(group.witness_length, tuple(steps), group.left_out)


def numbers_of(index: Index, groups: Groups, happened: int, seconds: float) -> Numbers:
    """Returns the numbers of a trace, and the cycles of one report on it. A marker is no lock."""
    locks = {event.target for event in index.events if event.letter == "a"}
    return Numbers(
        events=len(index.events),
        threads=1 + len(index.fork_of),
        locks=len(locks - index.marks),
        dependencies=len(index.dependencies),
        confirmed=groups.confirmed,
        potential=groups.potential,
        tried=groups.tried,
        happened=happened,
        seconds=seconds,
        writers_wait=groups.writers_wait,
        no_value=groups.no_value,
    )


# ---- fingerprints ----


def fingerprint_of(pairs: Sequence[Pair], root: Root) -> str:
    """Returns a name of the locations without their lines, from the member with which they are least: it outlives an edit elsewhere."""
    key = [tuple(place_of(root.location(text)) for text in pair) for pair in pairs]
    least = min(key[at:] + key[:at] for at in range(len(key)))
    return hashlib.sha256(repr(least).encode("utf-8", "replace")).hexdigest()


def place_of(location: Location) -> str:
    return f"{location.file} in {location.function}" if location.function else location.text


def numbered(results: Sequence[Result], root: Root) -> list[Result]:
    """Returns the results with fingerprints. Those with the same functions are numbered from 1, the strongest evidence first: so the
    numbers do not depend on how a tool orders them."""
    seen: Counter[str] = Counter()
    found = list(results)
    for at, _ in sorted(enumerate(results), key=lambda item: -item[1].verdict.rank):
        fingerprint = fingerprint_of(found[at].pairs, root)
        seen[fingerprint] += 1
        found[at] = replace(found[at], fingerprint=f"{fingerprint}:{seen[fingerprint]}")
    return found
