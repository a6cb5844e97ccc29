"""Groups cycles by the code locations where their members hold and wait."""
import re
from collections import Counter
from collections.abc import Iterable, Iterator, Sequence
from dataclasses import dataclass, field
from typing import NamedTuple, Optional, Protocol, TypeVar

from goodlock.commandline import plural
from goodlock.parts import WRITERS_WAIT, Basis
from goodlock.reports import MOST_KNOWN, Cycle, Member, Places, Report, Verdict
from goodlock.traces import Index

LOCATION = re.compile(r"(.+?):([1-9][0-9]{0,8})(?::[0-9]+)?(?: in (.*))?")
SHORT, MOST_GROUPS = 12, 10_000
TRIED = "left out: a member does not wait, or not without end, since it tries to acquire its lock or has a timeout"


class Side(NamedTuple):
    """Where a member acquired the lock that the member before it wants, and where it waits: two places of the trace."""

    hold: int
    wait: int


class Pair(NamedTuple):
    """The code locations of a `Side`."""

    hold: str
    wait: str


class Step(NamedTuple):
    """A step of a witness, and how many events before it a short list leaves out."""

    place: int
    left_out: int


class Location(NamedTuple):
    """The parts of `bank.c:35 in transfer`; those that the text does not have are None."""

    text: str
    file: Optional[str]
    line: Optional[int]
    function: Optional[str]


def location_of(text: str) -> Location:
    match = LOCATION.fullmatch(text)
    return Location(text, match[1], int(match[2]), match[3]) if match else Location(text, None, None, None)


def key_of(pairs: Sequence[Pair]) -> tuple[Pair, ...]:
    """Returns the locations of a cycle's members, from the member with which they are least."""
    return min((*pairs[at:], *pairs[:at]) for at in range(len(pairs)))


class Counted(Protocol):
    """Cycles with the same locations, and how strong the evidence for them is."""

    cycles: int
    confirmed: int
    no_value: int

    @property
    def rank(self) -> int: ...


Key = TypeVar("Key")
Kept = TypeVar("Kept", bound=Counted)


def merge(groups: dict[Key, Kept], key: Key, group: Kept) -> Kept:
    """Counts a group with those of its key. The first one with the strongest evidence is kept. Returns it."""
    kept = groups.setdefault(key, group)
    if kept is not group:
        kept, other = (group, kept) if group.rank > kept.rank else (kept, group)
        kept.cycles += other.cycles
        kept.confirmed += other.confirmed
        kept.no_value += other.no_value
        groups[key] = kept
    return kept


@dataclass
class Group:
    """Cycles with the same locations and the same basis. `example` is the first one with the strongest evidence; `sides` has a side for each of
    its members. `confirmed` of the cycles are confirmed, `no_value` are if no value decides. `steps` are the events of its witness that a
    short list shows; `left_out` counts those after the last step."""

    example: Cycle
    sides: list[Side]
    cycles: int
    confirmed: int
    basis: Basis = Basis.EVENTS
    steps: list[Step] = field(default_factory=list)
    left_out: int = 0
    witness_length: int = 0
    no_value: int = 0

    @property
    def verdict(self) -> Verdict:
        return self.example.verdict

    @property
    def rank(self) -> int:
        return self.verdict.rank

    def take_steps(self, index: Index) -> None:
        witness = Places.of(self.example.witness)
        self.witness_length = len(witness)
        shown = witness if self.witness_length <= SHORT else index.steps_to([side.wait for side in self.sides], near=1)
        self.steps = [Step(*step) for step in witness.among(sorted(shown))]
        self.left_out = self.witness_length - sum(1 + step.left_out for step in self.steps)


def side_of(index: Index, member: Member, wanted: int) -> Side:
    """Returns the side of a member at its place, or at the first acquire with its dependency."""
    place = place_of(index, member)
    return Side(index.since_of(place, wanted), place)


def sides_of(index: Index, members: list[Member]) -> list[Side]:
    return [side_of(index, member, members[at - 1].lock) for at, member in enumerate(members)]


def place_of(index: Index, member: Member) -> int:
    return index.places_of(member.dependency)[0] if member.place is None else member.place


def instance_of(index: Index, members: list[Member]) -> list[int]:
    """Returns the place of each member: the one that the report gives, or else the first acquire with its dependency."""
    return [place_of(index, member) for member in members]


def pairs_of(index: Index, sides: list[Side]) -> list[Pair]:
    """Returns the code locations of sides."""
    return [Pair(index.where(side.hold), index.where(side.wait)) for side in sides]


class Groups:
    """The groups of one report, in the order of the report. The first `whole` groups of each verdict keep the witness of their example. At most
    `most` groups begin with a cycle of each verdict: `further` counts the cycles that would begin others, `further_confirmed` and
    `further_no_value` those of these verdicts. `tried` counts the cycles in which a member holds a mark, `writers_wait` those that only waiting writers make,
    of locks which do not let these go first."""

    def __init__(self, index: Index, report: Report, whole: int = 0, most: int = MOST_GROUPS) -> None:
        self.index, self.report, self.whole, self.most = index, report, whole, most
        self.by_key: dict[tuple[Basis, tuple[Pair, ...]], Group] = {}
        self.sides: dict[tuple[Member, int], tuple[Side, Pair]] = {}
        self.begun: Counter[Verdict] = Counter()
        self.with_witness: list[Group] = []
        self.witnesses: Counter[Verdict] = Counter()
        self.tried, self.writers_wait, self.further, self.further_confirmed, self.further_no_value = 0, 0, 0, 0, 0

    def add(self, cycle: Cycle) -> bool:
        """Adds a cycle to its group, and returns whether it is in one."""
        if self.is_tried(cycle):
            self.tried += 1 + cycle.more
            return False
        basis = self.index.parts.basis_of(cycle.members)
        if basis is Basis.IMPOSSIBLE:
            self.writers_wait += 1 + cycle.more
            return False
        sides = [self.side_of(member, cycle.members[at - 1].lock) for at, member in enumerate(cycle.members)]
        key = basis, key_of([pair for _, pair in sides])
        if key not in self.by_key:
            if self.begun[cycle.verdict] == self.most:
                self.further += 1 + cycle.more
                self.further_confirmed += cycle.count(Verdict.CONFIRMED)
                self.further_no_value += cycle.count(Verdict.NO_VALUE)
                return False
            self.begun[cycle.verdict] += 1
        group = Group(cycle, [side for side, _ in sides], 1 + cycle.more, cycle.count(Verdict.CONFIRMED), basis, no_value=cycle.count(Verdict.NO_VALUE))
        if merge(self.by_key, key, group) is group and group.verdict.is_confirmed:
            group.take_steps(self.index)
            self.with_witness.append(group)
            self.witnesses[group.verdict] += 1
            if self.witnesses[group.verdict] > self.whole:
                cycle.witness = []
        return True

    def side_of(self, member: Member, wanted: int) -> tuple[Side, Pair]:
        """Returns where a member acquired the lock that the member before it wants, and where it waits. Many cycles have the same potential
        members."""
        found = self.sides.get((member, wanted))
        if not found:
            side = side_of(self.index, member, wanted)
            found = side, Pair(self.index.where(side.hold), self.index.where(side.wait))
            if member.place is None and len(self.sides) < MOST_KNOWN:
                self.sides[member, wanted] = found
        return found

    def is_tried(self, cycle: Cycle) -> bool:
        marks = self.index.marks
        return bool(marks) and any(lock in marks for member in cycle.members for lock in member.held)

    @property
    def confirmed(self) -> int:
        return sum(group.confirmed for group in self.by_key.values()) + self.further_confirmed

    @property
    def no_value(self) -> int:
        """How many cycles are confirmed if no value decides."""
        return sum(group.no_value for group in self.by_key.values()) + self.further_no_value

    @property
    def potential(self) -> int:
        return sum(group.cycles for group in self.by_key.values()) + self.further - self.confirmed - self.no_value

    def ordered(self) -> list[Group]:
        """Returns the groups, those with the strongest evidence first."""
        kept = {id(group) for group in self.by_key.values()}
        found = [group for group in self.with_witness if id(group) in kept]
        return sorted(found + [group for group in self.by_key.values() if not group.verdict.is_confirmed], key=lambda group: -group.rank)


def why_left_out(tried: int, writers_wait: int) -> Iterator[str]:
    """Yields why cycles are in no group."""
    yield from (f"{plural(count, 'cycle')} {why}" for count, why in ((tried, TRIED), (writers_wait, WRITERS_WAIT)) if count)


def groups_of(index: Index, reports: Iterable[tuple[Report, Optional[Cycle]]]) -> list[Groups]:
    """Returns the groups of each report. `reports` yields reports and cycles, as `read_reports` does."""
    found: list[Groups] = []
    for report, cycle in reports:
        if cycle is None:
            found.append(Groups(index, report))
        else:
            found[-1].add(cycle)
    return found


def advice_for(pairs: Iterable[Pair]) -> str:
    """Returns what to do about a group with these locations that is confirmed."""
    distinct = set(pairs)
    if any(location_of(text).file is None for pair in distinct for text in pair):
        return "Acquire these locks in one order, or hold one lock around all of these acquires."
    if len(distinct) == 1:
        return ("One piece of code acquires its locks in an order that depends on its caller. Choose a fixed order, for example by "
                "address, or hold one lock around both acquires.")
    return (f"{len(distinct)} pieces of code acquire the same locks in different orders. Choose one order for all of them, or hold one "
            "lock around each of them.")
