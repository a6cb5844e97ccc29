"""Searches the cycles of a window, and groups them by the sites of their members. The results are a file of JSON, since the search of a
window is a process of its own while the program runs on."""
import contextlib
import fcntl
import json
import os
import re
import signal
import time
from collections import defaultdict, deque
from collections.abc import Callable, Iterable, Iterator
from dataclasses import asdict, dataclass, field
from functools import partial
from types import FrameType
from typing import Any, Optional

from goodlock.agent.joins import joins_in, with_ends
from goodlock.agent.names import Names
from goodlock.agent.rings import WindowGraph, add_edges, read_graph
from goodlock.agent.run import Run
from goodlock.agent.wakes import wakes_in, with_wakes
from goodlock.commandline import plural
from goodlock.errors import InputError
from goodlock.grades import graded, reads_in
from goodlock.groups import Group, Groups, Pair
from goodlock.limits import HELPERS, LEAST_BOUND, TIMED_MARKERS, TRY_MARKERS
from goodlock.parts import condition_of
from goodlock.program import NoAnswer, lines_from
from goodlock.refutations import refutations_of
from goodlock.reports import Cycle, Places, Report, Verdict, confirmed_text, read_reports
from goodlock.traces import EVENT, Index, lines_of, read_trace

MOST_GROUPS = 1000
WOKEN = "woken"  # a word of N.waits: threads that hold locks were woken in waits on conditions
CONFIRMED, NO_VALUE, POTENTIAL = Verdict.CONFIRMED.value, Verdict.NO_VALUE.value, Verdict.POTENTIAL.value
TIMED, TRIED = "timed", "tried"
MOST_READS = 10  # of values, that a report names under a cycle
TOO_LONG = re.compile("refused 23 .*")
HELPERS_OF_TRIES = HELPERS + 500_000_000
TIME, SIGNAL, LONG = "the time of --seconds is over", "a signal ended the search", "the report would be too long"
NOT_SEARCHED = LEAST_BOUND - 1
WITHOUT_TRIES = "acquires that do not wait are recorded for artificial threads: their cycles are not counted"
# Acquires that do not wait are left out of the search after this part of the time, or at once if they are many.
PART, MANY_TRIES = 0.25, 10_000


class NoReport(Exception):
    """There is no report. The text says why."""


class TooLong(NoReport):
    """The report has too many bytes."""


class Stopped(NoReport):
    """The time is over, or a signal has ended the search."""


class Limit:
    """The time that the searches of this process may take. A signal ends the search that runs, and all later ones. `is_background`: the
    program still runs."""

    def __init__(self, seconds: float, *signals: signal.Signals) -> None:
        self.end, self.is_over, self.is_searching, self.is_background = time.monotonic() + seconds, False, False, False
        self.signals = (signal.SIGALRM, signal.SIGUSR1, *signals)
        for number in self.signals:
            signal.signal(number, self.stop)

    def close(self) -> None:
        """Ignores the signals from here on: a handler in Python would not last until the end of the process."""
        for number in self.signals:
            signal.signal(number, signal.SIG_IGN)

    @property
    def left(self) -> float:
        return max(0.0, self.end - time.monotonic())

    def stop(self, number: int, _frame: Optional[FrameType]) -> None:
        self.is_over |= number != signal.SIGALRM
        if self.is_searching:
            self.is_searching = False
            raise Stopped(SIGNAL if self.is_over else TIME)

    @contextlib.contextmanager
    def search(self, part: float = 1) -> Iterator[None]:
        """Raises `Stopped` in the block after this part of the time that is left, or at a signal."""
        if self.is_over or not self.left:
            raise Stopped(SIGNAL if self.is_over else TIME)
        self.is_searching = True
        signal.setitimer(signal.ITIMER_REAL, self.left * part)
        try:
            yield
        finally:
            self.is_searching = False
            signal.setitimer(signal.ITIMER_REAL, 0)


@dataclass
class FoundMember:
    """A member of a cycle, with the sites of its acquire, of the acquires of the locks that it holds, and of its thread's fork."""

    thread: int
    lock: int
    held: list[int]
    place: Optional[int]
    site: int
    since: list[int]
    fork: Optional[int]


@dataclass
class FoundRead:
    """A read of a plain value that decides, the write that it saw, and their sites."""

    read: int
    write: int
    read_site: int
    write_site: int


@dataclass
class Found:
    """A group of cycles at the same sites: its example and how many it has. The kind is the verdict of the example, or timed. `condition` is what
    it rests on besides the events, or empty. `note` says more of the verdict of the example. `reads` decide whether it can happen;
    `not_named` says why there are none, though the verdict depends on them."""

    kind: str
    numbers: list[int]
    members: list[FoundMember]
    witness: Optional[str]
    cycles: int
    confirmed: int
    condition: str = ""
    window: int = 0
    note: str = ""
    no_value: int = 0
    reads: list[FoundRead] = field(default_factory=list)
    not_named: str = ""

    @property
    def verdict(self) -> Verdict:
        return Verdict.POTENTIAL if self.kind == TIMED else Verdict(self.kind)

    @property
    def rank(self) -> int:
        return self.verdict.rank

    def pairs(self, name: Callable[[int], str]) -> list[Pair]:
        """Returns the lines where each member holds the lock that the one before it wants, and where it waits."""
        wanted = [self.members[at - 1].lock for at in range(len(self.members))]
        return [Pair(name(member.since[member.held.index(lock)]), name(member.site)) for member, lock in zip(self.members, wanted)]


@dataclass
class Window:
    """The results of the search in a window. `tried` cycles have a member that does not wait, `writers_wait` ones are only made by waiting
    writers, of locks that do not prefer these, `further` ones are in too many groups;
    `notes` say what else is left out. `is_weighed`: the trace has plain values, and the verdicts weigh them. `why` says why `bound`, for which
    the results are complete, is less than wanted; if `is_partial`, they are a part of those for this bound. `longest` is the longest ring of
    the lock graph."""

    length: int
    bound: int
    why: str = ""
    is_partial: bool = False
    longest: int = 0
    found: list[Found] = field(default_factory=list)
    tried: int = 0
    writers_wait: int = 0
    further: int = 0
    further_confirmed: int = 0
    further_no_value: int = 0
    is_weighed: bool = False
    notes: list[str] = field(default_factory=list)


def kind_of(cycle: Cycle) -> str:
    """Returns `tried` if a member would wait at an acquire that does not wait, `timed` if one waits with a timeout."""
    markers = [lock for member in cycle.members for lock in member.held if lock >= TRY_MARKERS]
    if any(lock < TIMED_MARKERS for lock in markers):
        return TRIED
    return TIMED if markers else cycle.verdict.value


def found_of(index: Index, group: Group, is_timed: bool, not_named: str) -> Found:
    cycle, members = group.example, []
    for member, side in zip(cycle.members, group.sides):
        fork = index.fork_of.get(member.thread)
        since = [site_of(index, index.since_of(side.wait, lock)) for lock in member.held]
        members.append(FoundMember(member.thread, member.lock, list(member.held), member.place, site_of(index, side.wait), since,
                                   None if fork is None else site_of(index, fork)))
    witness = Places.of(cycle.witness).text[1:].decode("ascii") if cycle.verdict.is_confirmed else None
    found = Found(cycle.verdict.value, list(cycle.numbers), members, witness, group.cycles, group.confirmed, condition_of(group.basis),
                  no_value=group.no_value)
    if is_timed:
        found.kind, found.confirmed = TIMED, 0
    elif cycle.verdict is Verdict.NO_VALUE:
        found.reads = [FoundRead(read.read, read.write, site_of(index, read.read), site_of(index, read.write)) for read in cycle.reads]
        found.not_named = "" if found.reads else not_named
    return found


def site_of(index: Index, place: int) -> int:
    """Returns the site of an event; 0 if none is known."""
    return int(index.events[place].where or 0)


def report_lines(run: Run, number: int, path: str, bound: int) -> Iterator[str]:
    """Yields the lines of the report on a window: those of the server, or of `goodlockd offline` on its trace."""
    if os.path.exists(run.work(f"{number}.answer")):
        yield from lines_of(run.work(f"{number}.answer"))
    else:
        yield from offline(run, path, bound)


def offline(run: Run, path: str, bound: int) -> Iterator[str]:
    """Yields the lines of the report of `goodlockd offline` on a trace."""
    try:
        for line in lines_from([run.program, "offline", path, "--bound", str(bound)]):
            if TOO_LONG.match(line):
                raise TooLong(LONG)
            yield line
    except NoAnswer as fault:
        raise NoReport(fault.reason) from None


def drop_part_of_line(path: str) -> None:
    """Removes a last line that the collector could not write whole."""
    with open(path, "rb+") as file:
        size = file.seek(0, os.SEEK_END)
        file.seek(max(0, size - 200))
        end = file.read()
        if end and not end.endswith(b"\n"):
            file.truncate(size - len(end) + end.rfind(b"\n") + 1)


def without_tries(lines: Iterable[str]) -> Iterator[str]:
    """Yields the lines of a trace in which an artificial thread, and not the thread itself, holds a lock that was acquired without
    waiting. The two threads go on one after the other. So such an acquire has no held locks and is in no cycle."""
    tries: set[int] = set()
    holders: dict[tuple[int, int], list[int]] = {}  # the artificial thread and how often it holds the lock
    idle: dict[int, list[int]] = defaultdict(list)
    forked = 0
    for line in lines:
        match = EVENT.fullmatch(line.rstrip("\n"))
        if not match or match[2] not in "ar":
            yield line
            continue
        thread, letter, lock = int(match[1]), match[2], int(match[3])
        order = TRY_MARKERS + lock
        if TRY_MARKERS <= lock < TIMED_MARKERS:
            if letter == "a":
                tries.add(thread)
        elif (thread, lock) in holders:
            entry = holders[thread, lock]
            entry[1] += 1 if letter == "a" else -1
            if not entry[1]:
                yield f"{thread}d{order}\n{thread}w{order}\n{entry[0]}d{order}\n{entry[0]}r{lock}\n"
                idle[thread].append(entry[0])
                del holders[thread, lock]
        elif letter == "a" and thread in tries:
            tries.remove(thread)
            if not idle[thread]:
                forked += 1
                idle[thread].append(HELPERS_OF_TRIES + forked)
                yield f"{thread}f{idle[thread][-1]}\n"
            holder = idle[thread].pop()
            holders[thread, lock] = [holder, 1]
            yield f"{thread}d{order}\n{thread}w{order}\n{holder}d{order}\n{holder}a{lock}\n"
            yield f"{holder}d{order}\n{holder}w{order}\n{thread}d{order}\n"
        else:
            yield line


def rewrite(path: str, to: str, change: Callable[[Iterable[str]], Iterator[str]]) -> None:
    with open(path, encoding="ascii") as old, open(to, "w", encoding="ascii") as new:
        new.writelines(change(old))


def search(run: Run, number: int, path: str, bound: int) -> Window:
    """Returns the results for a window's trace. The trace is read only if the report has a cycle."""
    lines = report_lines(run, number, path, bound)
    first = next(lines, "")
    if first.startswith("question ") and " cycles 0 " in first:
        deque(lines, maxlen=0)
        return Window(int(first.split()[3]), bound)
    if not first.startswith("question "):
        read_trace(path)  # says which event is refused
        raise NoReport(first or "goodlockd prints no report")
    trace = read_trace(path)
    parts = Names(run, number).parts
    parts.wakes |= trace.parts.wakes
    trace.parts = parts
    index = Index(trace)
    return grouped(run, index, read_reports(path, index, (line for part in ([first], lines) for line in part)), bound)


def grouped(run: Run, index: Index, reports: Iterable[tuple[Report, Optional[Cycle]]], bound: int) -> Window:
    """Groups the cycles of a report. Those that have an end of their own by a marker are not weighed."""
    window, groups = Window(0, bound), dict[bool, Groups]()
    weighed = graded(index, reports, partial(offline, run), run.work(""), lambda cycle: kind_of(cycle) not in (TIMED, TRIED))
    try:
        for report, cycle in weighed:
            if cycle is None:
                window.length, window.is_weighed = report.length, index.first_plain < report.length
                groups = {is_timed: Groups(index, report, MOST_GROUPS, MOST_GROUPS) for is_timed in (False, True)}
            elif kind_of(cycle) == TRIED:
                window.tried += 1
            else:
                groups[kind_of(cycle) == TIMED].add(cycle)
    except Stopped as fault:
        if not groups:
            raise
        window.why, window.is_partial = str(fault), True
    not_named = name_reads(run, index, groups[False]) if groups else ""
    for is_timed, some in groups.items():
        window.found += [found_of(index, group, is_timed, not_named) for group in some.by_key.values()]
        window.writers_wait += some.writers_wait
        if some.further:
            window.further += some.further
            window.further_confirmed += 0 if is_timed else some.further_confirmed
            window.further_no_value += some.further_no_value
            window.notes.append(f"{plural(some.further, 'cycle')} left out, {confirmed_text(some.further_confirmed, some.further_no_value)}: these "
                                "are in too many further groups")
    return window


def name_reads(run: Run, index: Index, groups: Groups) -> str:
    """Finds the reads that decide in the examples of groups that are confirmed if no value decides. Returns why some are missing."""
    cycles = [group.example for group in groups.by_key.values() if group.verdict is Verdict.NO_VALUE]
    try:
        found, fault = refutations_of(index, groups.report, cycles, run.program)
    except Stopped as stopped:
        return str(stopped)
    for cycle in cycles:
        if cycle.numbers in found:
            cycle.reads = reads_in(index, found[cycle.numbers])[:MOST_READS]
    return fault


def bounds_of(run: Run, number: int, longest: int) -> Iterable[int]:
    """Returns the bounds to search, one after another: the last one has each cycle that the wanted bound has."""
    if longest < LEAST_BOUND or os.path.exists(run.work(f"{number}.answer")):
        return (run.bound,)
    return range(LEAST_BOUND, min(run.bound, longest) + 1)


def not_searched(run: Run, number: int, why: str) -> Window:
    """Returns the results of a window that has none."""
    with contextlib.suppress(OSError, ValueError, IndexError):
        with open(run.work(f"{number}.window"), encoding="ascii") as file:
            return Window(int(file.readline().split()[0]), NOT_SEARCHED, why)
    return Window(0, NOT_SEARCHED, why)


def add_waits(run: Run, number: int) -> None:
    """Adds to a window's trace and to its lock graph what makes joins and waits on conditions by holders of locks waits for locks. A report of
    a server is about the events without them."""
    path, new, wanted = run.window(number, "trace"), run.work(f"{number}.trace"), run.work(f"{number}.waits")
    if not os.path.exists(wanted) or os.path.exists(run.work(f"{number}.answer")):
        return
    with open(wanted, encoding="ascii") as file:
        words = file.read().split()
    with open(path, encoding="ascii") as file:
        joins = joins_in(file, [int(word) for word in words if word != WOKEN])
    add_edges(run.work(f"{number}.window"), joins.edges)
    if joins.threads:
        rewrite(path, new, lambda lines: with_ends(lines, joins.threads))
        os.replace(new, path)
    if WOKEN in words:
        with open(path, encoding="ascii") as file:
            wakes = wakes_in(file)
        add_edges(run.work(f"{number}.window"), wakes.edges)
        rewrite(path, new, lambda lines: with_wakes(lines, wakes))
        os.replace(new, path)
    os.rename(wanted, run.work(f"{number}.waited"))


def has_waits(run: Run, number: int) -> bool:
    """Whether locks were added to a window's trace for joins and waits on conditions, or are to be."""
    return any(os.path.exists(run.work(f"{number}.{kind}")) for kind in ("waits", "waited"))


def search_window(run: Run, number: int, limit: Limit) -> Window:
    """Searches a window, which has a lock graph of its own."""
    try:
        with limit.search():
            add_waits(run, number)
            graph = read_graph(run.work(f"{number}.window"))
    except Stopped as fault:
        return not_searched(run, number, str(fault))
    return search_up(run, number, limit, graph)


def search_up(run: Run, number: int, limit: Limit, graph: WindowGraph) -> Window:
    """Searches with bound 2, then 3, up to the wanted one, or up to the longest ring of the lock graph, as long as the time permits. If that
    takes too long, or the report would, the acquires that do not wait are left out of the search."""
    window, path = not_searched(run, number, ""), run.window(number, "trace")
    notes: list[str] = []
    for bound in bounds_of(run, number, graph.longest):
        ways = [False] if notes or not graph.tries else [True] if graph.tries > MANY_TRIES else [False, True]
        for is_without in ways:
            try:
                with limit.search(1 if is_without == ways[-1] else PART):
                    if is_without:
                        rewrite(path, run.work(f"{number}.trace"), without_tries)
                    found = search(run, number, run.work(f"{number}.trace") if is_without else path, bound)
                if found.is_partial and (window.bound > NOT_SEARCHED or is_without != ways[-1]):
                    raise Stopped(found.why)
                window = found
                if is_without:
                    notes.append(WITHOUT_TRIES)
                    os.replace(run.work(f"{number}.trace"), path)
                break
            except NoReport as fault:
                if window.bound == NOT_SEARCHED and not isinstance(fault, (Stopped, TooLong)):
                    raise
                window.why = str(fault)
        if window.bound < bound or window.is_partial:
            break
    if not window.why:
        window.bound = run.bound
    window.notes += notes
    window.longest = graph.longest
    return window


def check(run: Run, number: int, limit: Limit) -> None:
    """Writes N.rows, the results of the search. Removes the trace of a further window that adds no group to those before."""
    drop_part_of_line(run.window(number, "trace"))
    window = search_window(run, number, limit)
    if limit.is_over and limit.is_background:
        return
    rows = run.work(f"{number}.rows")
    with open(f"{rows}.new", "w", encoding="ascii") as file:
        json.dump(asdict(window), file)
    os.replace(f"{rows}.new", rows)
    if not adds_group(run, window) and number > 1 and window.bound > NOT_SEARCHED and not window.is_partial:
        os.remove(run.window(number, "trace"))


def check_all(run: Run, first: int, last: int, seconds: float) -> None:
    """Checks these windows. One without a result is checked again at the end of the run: the search here ends when the run does."""
    limit = Limit(seconds)
    limit.is_background = True
    for number in range(first, last + 1):
        limit.end = time.monotonic() + seconds
        with contextlib.suppress(OSError, ValueError, InputError, NoReport):
            check(run, number, limit)
    limit.close()


def adds_group(run: Run, window: Window) -> bool:
    """Notes the groups of a window, and returns whether one of them is new."""
    keys = {f"{found.kind} {found.condition} {found.pairs(str)}\n" for found in window.found}
    with open(run.work("known"), "a+", encoding="ascii") as file:
        fcntl.flock(file, fcntl.LOCK_EX)
        file.seek(0)
        new = keys.difference(file)
        file.writelines(sorted(new))
    return bool(new)


def window_of(content: Any) -> Window:
    """Returns the results that a file has."""
    found = [Found(members=[FoundMember(**member) for member in group.pop("members")], reads=[FoundRead(**read) for read in group.pop("reads")],
                   **group) for group in content.pop("found")]
    return Window(found=found, **content)


def result(run: Run, number: int, limit: Limit) -> Window:
    """Returns the results of a window's search, which may have been before."""
    if not os.path.exists(run.work(f"{number}.rows")):
        check(run, number, limit)
    with open(run.work(f"{number}.rows"), encoding="ascii") as file:
        return window_of(json.load(file))


def results(run: Run, windows: int, limit: Limit) -> Iterator[tuple[int, Window]]:
    """Yields the results of each window's search. One window without a result does not keep the others from having theirs."""
    faults = []
    for number in range(1, windows + 1):
        try:
            yield number, result(run, number, limit)
        except (OSError, ValueError, InputError, NoReport) as fault:
            faults.append(fault)
            if len(faults) == windows:
                raise
            yield number, not_searched(run, number, str(fault))
