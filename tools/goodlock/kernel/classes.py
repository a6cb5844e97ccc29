"""The report by class: what lockdep looks at. A class was acquired under another, or in an interrupt, in any order and by any
instances; so a finding is a rule that the code breaks, not a deadlock that the run could have had."""
from __future__ import annotations

from collections import defaultdict, deque
from collections.abc import Iterable, Iterator
from dataclasses import dataclass, field
from typing import NamedTuple, Optional

from goodlock.commandline import plural
from goodlock.traces import lines_of

MOST_CYCLES = 100
MOST_SAMPLES = 16  # that the program keeps of a dependency
MOST_TRIED = 20_000  # combinations of instances of a cycle
INTERRUPTS = ("softirq", "hardirq")
NOT_VALIDATED = ("&dev->mutex",)  # lockdep_set_novalidate_class
# Classes whose locks are nested by design, with subclasses or a lock around them, which the events do not show.
NESTED = ("&mm->mmap_lock", "ptlock_ptr(page)", "&dentry->d_lock", "&sb->s_type->i_mutex_key", "&type->i_mutex_dir_key",
          "&type->s_umount_key", "&inode->i_sb->s_type->i_mutex_key", "&inode->i_sb->s_type->i_mutex_dir_key", "&pool->lock", "&rq->__lock",
          "&rq->lock", "&u->lock", "&anon_vma->rwsem", "&pipe->mutex", "&ep->mtx", "&ei->i_data_sem", "&futex_queues[i].lock",
          "sk_lock-AF_INET", "slock-AF_INET", "sk_lock-AF_INET6", "slock-AF_INET6", "&xfs_nondir_ilock_class",
          "&xfs_dir_ilock_class")


@dataclass
class Class:
    """`inside` maps an interrupt and whether it reads to whether it takes the class; `enabled` the same where it may come. `lines` has
    the first line of each."""

    name: str
    acquires: int
    inside: dict[tuple[str, bool], bool] = field(default_factory=dict)
    enabled: dict[tuple[str, bool], bool] = field(default_factory=dict)
    inside_line: dict[str, int] = field(default_factory=dict)
    enabled_line: dict[str, int] = field(default_factory=dict)

    def is_inside(self, interrupt: str) -> bool:
        return self.inside[interrupt, False] or self.inside[interrupt, True]

    def is_enabled(self, interrupt: str) -> bool:
        return self.enabled[interrupt, False] or self.enabled[interrupt, True]


class Sample(NamedTuple):
    """An instance of a dependency: an actor held a lock and acquired another."""

    actor: int
    held: int
    acquired: int
    is_held_read: bool
    is_read: bool
    held_line: int
    line: int
    name: str


@dataclass
class Classes:
    """The classes and dependencies of a recording. A dependency is a pair of numbers of classes, with its first instances."""

    classes: dict[int, Class] = field(default_factory=dict)
    dependencies: dict[tuple[int, int], list[Sample]] = field(default_factory=dict)


@dataclass(frozen=True)
class Finding:
    """`kind` is cycle, recursion or the name of an interrupt. `instances` says of a cycle whether the run has one of instances."""

    kind: str
    classes: tuple[str, ...]
    members: tuple[Sample, ...] = ()
    instances: str = ""
    lines: tuple[int, int] = (0, 0)


def read_classes(name: str) -> Classes:
    """Reads what the program has written."""
    found, samples = Classes(), list[Sample]()
    for line in lines_of(name):
        kind, _, rest = line.partition(" ")
        if kind == "class":
            words = rest.split(" ", 15)
            found.classes[int(words[0])] = class_of(words)
        elif kind == "dependency":
            samples = found.dependencies[int(rest.split()[0]), int(rest.split()[1])] = []
        else:
            words = rest.split(" ", 7)
            actor, held, acquired, is_held_read, is_read, held_line, number = map(int, words[:7])
            samples.append(Sample(actor, held, acquired, bool(is_held_read), bool(is_read), held_line, number, words[7]))
    return found


def class_of(words: list[str]) -> Class:
    found = Class(words[15], int(words[1]))
    for at, interrupt in enumerate(INTERRUPTS):
        numbers = list(map(int, words[3 + 6 * at:9 + 6 * at]))
        for is_read in (False, True):
            found.inside[interrupt, is_read], found.enabled[interrupt, is_read] = bool(numbers[is_read]), bool(numbers[3 + is_read])
        found.inside_line[interrupt], found.enabled_line[interrupt] = numbers[2], numbers[5]
    return found


class Finder:
    """Finds what lockdep would report. `nested` and `not_validated` are names of classes, besides the known ones."""

    def __init__(self, found: Classes, nested: Iterable[str] = (), not_validated: Iterable[str] = ()) -> None:
        self.classes, self.dependencies = found.classes, found.dependencies
        self.nested, self.not_validated = {*NESTED, *nested}, {*NOT_VALIDATED, *not_validated}
        self.successors: dict[int, list[int]] = defaultdict(list)
        for first, second in self.dependencies:
            if first != second and not {self.name(first), self.name(second)} & self.not_validated:
                self.successors[first].append(second)
        self.is_cut, self.nested_found = False, list[str]()  # is_cut: there are more cycles than are shown

    def name(self, number: int) -> str:
        return self.classes[number].name

    def findings(self) -> list[Finding]:
        return [*self.cycles(), *self.recursions(), *self.interrupts()]

    def reached(self, begin: int, end: Optional[int] = None) -> dict[int, int]:
        """Maps each class that dependencies reach from one, or up to another, to the class before it on a shortest path."""
        before, queue = {begin: begin}, deque([begin])
        while queue and end not in before:
            at = queue.popleft()
            for after in self.successors.get(at, ()):
                if after not in before:
                    before[after] = at
                    queue.append(after)
        return before

    def components(self) -> dict[int, int]:
        """Returns the strongly connected component of each class in the graph of dependencies (Tarjan, without recursion)."""
        index, low, component, stack = dict[int, int](), dict[int, int](), dict[int, int](), list[int]()
        for root in list(self.successors):
            work = [(root, iter(self.successors[root]))] if root not in index else []
            if work:
                index[root] = low[root] = len(index)
                stack.append(root)
            while work:
                at, rest = work[-1]
                for after in rest:
                    if after not in index:
                        index[after] = low[after] = len(index)
                        stack.append(after)
                        work.append((after, iter(self.successors[after])))
                        break
                    if after not in component:
                        low[at] = min(low[at], index[after])
                else:
                    work.pop()
                    if work:
                        low[work[-1][0]] = min(low[work[-1][0]], low[at])
                    if low[at] == index[at]:
                        while at not in component:
                            component[stack.pop()] = at
        return component

    def cycles(self) -> Iterator[Finding]:
        """Yields a shortest cycle through each dependency that is on one."""
        seen, component = set[tuple[int, ...]](), self.components()
        for first, second in [(first, second) for first, seconds in self.successors.items() for second in seconds]:
            if component[first] != component[second]:
                continue
            path = path_in(self.reached(second, first), first)
            at = path.index(min(path))
            cycle = (*path[at:], *path[:at])
            if cycle not in seen and len(seen) == MOST_CYCLES:
                self.is_cut = True
                return
            if cycle not in seen:
                seen.add(cycle)
                yield self.cycle(cycle)

    def cycle(self, cycle: tuple[int, ...]) -> Finding:
        pairs = [self.dependencies[first, second] for first, second in zip(cycle, (*cycle[1:], cycle[0]))]
        members, is_known = instance_of(pairs)
        if members:
            instances = "the run has these locks in different threads: the report by instance says whether they could deadlock"
        else:
            instances = ("in this run they are other locks of the same classes, or one thread" if is_known else
                         "there are more instances than are kept: see the report by instance")
        names = tuple(self.name(number) for number in (*cycle, cycle[0]))
        return Finding("cycle", names, members or tuple(samples[0] for samples in pairs), instances)

    def recursions(self) -> Iterator[Finding]:
        """Yields the classes of which a thread acquired a lock while it held one. Nested ones are known by their names."""
        for (first, second), samples in self.dependencies.items():
            name = self.name(first)
            if first != second or name in self.not_validated:
                continue
            same = [sample for sample in samples if sample.held == sample.acquired]
            if not same and (name in self.nested or name.endswith("ww_class_mutex")):
                self.nested_found.append(name)
            else:
                yield Finding("recursion", (name,), tuple((same or samples)[:1]),
                              "one lock" if same else "two locks, perhaps with subclasses, which the events do not show")

    def interrupts(self) -> Iterator[Finding]:
        """Yields the classes that an interrupt takes, or reaches, and that are held where it may come."""
        for interrupt in INTERRUPTS:
            for number, taken in self.classes.items():
                if taken.is_inside(interrupt) and taken.name not in self.not_validated:
                    yield from self.interrupted(interrupt, number)

    def interrupted(self, interrupt: str, number: int) -> Iterator[Finding]:
        taken = self.classes[number]
        has_writer = taken.inside[interrupt, False]
        if taken.enabled[interrupt, False] or has_writer and taken.enabled[interrupt, True]:
            lines = (taken.inside_line[interrupt], taken.enabled_line[interrupt])
            yield Finding(interrupt, (taken.name,), lines=lines)
        before = self.reached(number)
        for other in before:
            held = self.classes[other]
            if other == number or not held.is_enabled(interrupt) or held.is_inside(interrupt):
                continue
            path = path_in(before, other)
            members = tuple(self.dependencies[first, second][0] for first, second in zip(path, path[1:]))
            lines = (taken.inside_line[interrupt], held.enabled_line[interrupt])
            yield Finding(interrupt, tuple(map(self.name, path)), members, lines=lines)


def path_in(before: dict[int, int], end: int) -> list[int]:
    """Returns the path to a class that was reached."""
    path = [end]
    while before[path[-1]] != path[-1]:
        path.append(before[path[-1]])
    return path[::-1]


def instance_of(pairs: list[list[Sample]]) -> tuple[tuple[Sample, ...], bool]:
    """Returns instances of the dependencies of a cycle of which each acquires what the next one holds, by different threads; or none, and
    then whether all instances were looked at."""
    tried = 0

    def extended(chosen: tuple[Sample, ...]) -> Optional[tuple[Sample, ...]]:
        nonlocal tried
        if len(chosen) == len(pairs):
            return chosen if chosen[-1].acquired == chosen[0].held else None
        for sample in pairs[len(chosen)]:
            tried += 1
            if tried > MOST_TRIED:
                return None
            if chosen and sample.held != chosen[-1].acquired or any(sample.actor == other.actor for other in chosen):
                continue
            if found := extended((*chosen, sample)):
                return found
        return None

    found = extended(()) if len(pairs) < 50 else None
    return found or (), tried <= MOST_TRIED and len(pairs) < 50 and all(len(samples) < MOST_SAMPLES for samples in pairs)


def text_of(findings: list[Finding], finder: Finder, has_flags: bool) -> Iterator[str]:
    """Yields the lines of the report by class."""
    acquires = sum(found.acquires for found in finder.classes.values())
    yield (f"by class, as lockdep: {acquires:,} acquires, {len(finder.classes):,} classes, {len(finder.dependencies):,} dependencies; "
           f"{plural(len(findings), 'finding')}")
    if not has_flags:
        yield "not examined: interrupts, since the recording has no flags"
    if finder.nested_found:
        yield f"nested by design, not findings: {', '.join(sorted(finder.nested_found))}"
    if finder.is_cut:
        yield f"there are more cycles: the first {MOST_CYCLES} are shown"
    for number, finding in enumerate(findings, 1):
        yield ""
        yield f"finding {number}: {title_of(finding)}"
        for member in finding.members:
            yield f"  {described(member)}"
        if finding.instances:
            yield f"  {finding.instances}"


def title_of(finding: Finding) -> str:
    names = " -> ".join(finding.classes)
    if finding.kind == "cycle":
        return f"cycle by class: {names}"
    if finding.kind == "recursion":
        return f"recursion by class: {names}"
    inside, enabled = finding.lines
    return (f"{finding.kind} by class: {names}: a {finding.kind} takes {finding.classes[0]} at line {inside}, and {finding.classes[-1]} is "
            f"acquired where one may come at line {enabled}")


def described(sample: Sample) -> str:
    held, wanted = (" for reading" if is_read else "" for is_read in (sample.is_held_read, sample.is_read))
    return f"{sample.name}: holds the first{held} since line {sample.held_line}, acquires the second{wanted} at line {sample.line}"


def json_of(findings: list[Finding], finder: Finder, has_flags: bool) -> dict[str, object]:
    """Returns the report as JSON."""
    return {
        "version": 1,
        "classes": len(finder.classes), "dependencies": len(finder.dependencies),
        "acquires": sum(found.acquires for found in finder.classes.values()),
        "interrupts_examined": has_flags, "nested": sorted(finder.nested_found), "is_cut": finder.is_cut,
        "findings": [{
            "kind": finding.kind, "classes": list(finding.classes), "instances": finding.instances or None,
            "taken_line": finding.lines[0] or None, "enabled_line": finding.lines[1] or None,
            "members": [{"thread": member.name, "held_line": member.held_line, "held_for_reading": member.is_held_read, "line": member.line,
                         "for_reading": member.is_read} for member in finding.members],
        } for finding in findings],
    }
