"""Searches all windows of a run together. The log of the whole run is reduced to one trace, which has the cycles of the run with their
verdicts. Without a log, or without the time for it, the dependencies of all windows are searched: they show cycles across windows, but no order."""
from __future__ import annotations

import contextlib
import os
from collections.abc import Iterator
from dataclasses import dataclass, field
from typing import Optional

from goodlock.agent.rings import WindowGraph, read_graph
from goodlock.agent.run import ALL, Run
from goodlock.agent.search import (POTENTIAL, SIGNAL, TIMED, WITHOUT_TRIES, Found, Limit, NoReport, Stopped, Window, has_waits, result,
                                   search_up)
from goodlock.commandline import plural
from goodlock.completion import note_of, verdicts_of
from goodlock.errors import InputError, OutputError
from goodlock.limits import ENDS_OF_THREADS, LEAST_BOUND, TIMED_MARKERS, TRY_MARKERS
from goodlock.reducer import Reduced, ReducerError, Source, reduced
from goodlock.reduction import fault_in, reduced_from
from goodlock.traces import EVENT, Index, lines_of, read_trace

MARK = "# mark "  # with it the search would leave a timed cycle out; the report adds it later
LOG_OF_RUN, PART = "the whole run", 0.75  # the part of the time after which the windows are searched alone
WHY_NO_LOG = {1: "its log takes more than --keep-log", 2: "its log could not be written", 3: "--keep-log is 0"}
ON_SERVER = "a server has only one window"
BY_WINDOWS = "the windows are reported, not the whole run: a cycle goes, or may go, through a join or a wake-up, for which the log has no lock"
ACROSS_WINDOWS = "potential: across windows: its members are in different windows, whose events have no known order"


@dataclass
class Whole:
    """The results of all windows together, or None: `why` says why they are not those of the whole run. If `is_complete`, they have each
    cycle of the run with its verdict. `has_waits`: in a window locks were added for joins and wake-ups, which these results lack. `gaps` say
    what is wrong with them."""

    window: Optional[Window] = None
    why: str = ""
    is_complete: bool = False
    has_waits: bool = False
    events: int = 0
    gaps: list[str] = field(default_factory=list)


def search_whole(run: Run, count: int, summary: dict[str, int], limit: Limit) -> Whole:
    """Searches windows 1 to `count` together."""
    waits = [number for number in range(1, count + 1) if has_waits(run, number)]
    whole = Whole(why=ON_SERVER if summary["server"] else WHY_NO_LOG.get(summary["no_log"], ""), has_waits=bool(waits))
    is_by_windows = any(may_have_wait(run, number, limit) for number in waits)
    try:
        with limit.search(PART):
            graph = read_graph(*(run.work(f"{number}.window") for number in range(1, count + 1)))
        if graph.longest < LEAST_BOUND and not is_by_windows and not summary["server"]:
            without_cycle(run, summary, graph, whole)
        elif not whole.why:
            search_log(run, graph, limit, whole)
        if not whole.window:
            search_dependencies(run, graph, limit, whole)
    except Stopped as fault:
        whole.why = whole.why or str(fault)
    if not whole.window:
        drop(run)
    elif whole.is_complete and is_by_windows:
        whole.is_complete = False
        whole.window.notes.append(BY_WINDOWS)
    return whole


def may_have_wait(run: Run, number: int, limit: Limit) -> bool:
    """Searches a window. Returns whether a cycle of it goes through a join or a wake-up, as far as that is known."""
    try:
        window = result(run, number, limit)
    except (NoReport, InputError, OSError, ValueError):
        return True  # the search of the windows says why
    locks = (member.lock for found in window.found for member in found.members)
    return bool(window.why or window.further) or any(ENDS_OF_THREADS <= lock < TRY_MARKERS for lock in locks)


def drop(run: Run) -> None:
    """Removes the trace of all windows, if it is there: it has no report."""
    with contextlib.suppress(OSError):
        os.remove(run.window(ALL, "trace"))


def without_cycle(run: Run, summary: dict[str, int], graph: WindowGraph, whole: Whole) -> None:
    """Makes the results of a run whose lock graph has no ring: nothing of it can matter to a cycle."""
    with open(run.window(ALL, "trace"), "w", encoding="ascii"):
        pass
    note = f"reduced from {plural(summary['logged'], 'event')} of {LOG_OF_RUN}: its lock graph has no cycle"
    whole.window = Window(0, run.bound, longest=graph.longest, notes=[note])
    whole.why, whole.is_complete, whole.events = "", True, summary["logged"]


def reduced_file(run: Run, name: str, shown: str, dropped: tuple[str, ...], limit: Limit) -> tuple[Optional[Reduced], str]:
    """Reduces a file of OUT.tmp to the trace of all windows, without the comments that begin so. Returns what the reducer says, or why there
    is no trace."""
    try:
        with limit.search(PART):
            found = reduced([Source(run.work(name), shown)], run.work(""))
    except (ReducerError, OSError) as fault:
        if limit.is_over:
            raise Stopped(SIGNAL) from None
        return None, str(fault)
    if len(found.traces) > 1:
        return None, f"{found.kept:,} of {plural(found.events, 'event')} can matter, which is too long for one trace"
    copy_without(found.traces[0], run.window(ALL, "trace"), dropped)
    return found, ""


def copy_without(path: str, to: str, dropped: tuple[str, ...]) -> None:
    """Copies a trace without the comments that begin so."""
    with open(path, encoding="ascii") as old, open(to, "w", encoding="ascii") as new:
        new.writelines(line for line in old if not line.startswith(dropped))


def tries_in(path: str) -> int:
    """Returns how many acquires of a trace do not wait."""
    events = (EVENT.fullmatch(line) for line in lines_of(path))
    return sum(TRY_MARKERS <= int(event[3]) < TIMED_MARKERS for event in events if event and event[2] == "a")


def search_log(run: Run, graph: WindowGraph, limit: Limit, whole: Whole) -> None:
    """Searches the reduced log of the run. Each confirmed cycle that the report shows is replayed over the whole run."""
    found, whole.why = reduced_file(run, "calls", LOG_OF_RUN, (MARK,), limit)
    if not found:
        return
    run.is_by_log = True
    try:
        window = search_up(run, ALL, limit, WindowGraph(tries_in(run.window(ALL, "trace")), graph.longest))
    except (NoReport, InputError, OSError, ValueError) as fault:
        whole.why = str(fault)
        return
    window.notes.insert(0, reduced_from(found.events, LOG_OF_RUN))
    whole.window, whole.why, whole.events = window, window.why, found.events
    whole.is_complete = not window.why
    whole.gaps += replay(run, found, window, limit)


def replay(run: Run, found: Reduced, window: Window, limit: Limit) -> Iterator[str]:
    """Replays the cycles of the report that have a witness, and notes at each what comes out. Yields what is wrong."""
    groups = [group for group in window.found if group.verdict.is_confirmed]
    sources = [Source(run.work("calls"), LOG_OF_RUN)]
    if not groups:
        return
    try:
        if WITHOUT_TRIES in window.notes:
            raise NoReport("acquires that do not wait were left out of the trace")
        with limit.search():
            index = Index(read_trace(run.window(ALL, "trace")))
            cycles = ((group.members, list(map(int, (group.witness or "").split())), group.verdict) for group in groups)
            verdicts = list(verdicts_of(found, sources, index, cycles, run.work("")))
    except (NoReport, ReducerError, OutputError, OSError) as fault:
        yield f"confirmed cycles were not replayed over the whole run: {fault}"
        return
    for group, verdict in zip(groups, verdicts):
        group.note = note_of(verdict, sources)
    if faults := sum(bool(verdict.fault) for verdict in verdicts):
        yield fault_in(faults)


def search_dependencies(run: Run, graph: WindowGraph, limit: Limit, whole: Whole) -> None:
    """Searches the dependencies of all windows. Their cycles are potential, except those that no order of whole threads permits, which are none."""
    found, why = reduced_file(run, "all", "all dependencies", (MARK, "# place "), limit)
    if not found:
        whole.why = f"{whole.why}; {why}"
        return
    run.is_by_log = False
    try:
        window = search_up(run, ALL, limit, WindowGraph(0, graph.longest))
    except (NoReport, InputError, OSError, ValueError) as fault:
        whole.why = f"{whole.why}; {fault}"
        return
    window.found = [as_potential(group) for group in window.found if group.verdict.is_certain or group.kind == TIMED]
    whole.window = window


def as_potential(group: Found) -> Found:
    if group.kind != TIMED:
        group.kind, group.cycles, group.note = POTENTIAL, group.confirmed, ACROSS_WINDOWS
    group.confirmed, group.witness = 0, None
    for member in group.members:
        member.place = None
    return group


def adopt(run: Run, count: int) -> None:
    """Makes the trace of all windows the trace of the run, and removes those of the windows."""
    os.replace(run.window(ALL, "trace"), run.window(1, "trace"))
    for number in range(2, count + 1):
        if os.path.exists(run.window(number, "trace")):
            os.remove(run.window(number, "trace"))
