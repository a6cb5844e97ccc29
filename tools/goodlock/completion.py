"""Completes the witnesses of a reduced trace to the whole run, and replays them there."""
from __future__ import annotations

import os
from bisect import bisect_left
from collections.abc import Collection, Iterable, Iterator, Mapping, Sequence
from typing import IO, Optional, Protocol

from goodlock.commandline import Outputs, plural
from goodlock.parts import Waiter
from goodlock.reducer import Reduced, Replay, Source, Spot, replayed
from goodlock.reports import Verdict, read_reports
from goodlock.traces import Index

MOST_SHOWN = 20  # threads of a witness


def ends_of(index: Index, threads: Mapping[int, Sequence[int]], places: Sequence[int], witness: Sequence[int]) -> Iterator[tuple[int, int]]:
    """Yields the threads that end before an event of the reduced trace, with the place of this event in the run. A thread goes on through
    what was left out after its last event in the witness, and through releases, which need nothing. `threads` has the events of each."""
    for thread, mine in threads.items():
        at = front(mine, witness)
        while at < len(mine) and index.events[mine[at]].letter == "r":
            at += 1
        if at < len(mine):
            yield thread, places[mine[at]]


def front(mine: Sequence[int], witness: Sequence[int]) -> int:
    """Returns how many of the places of a thread are in a witness, which has its first ones."""
    low, high = 0, len(mine)
    while low < high:
        middle = (low + high) // 2
        at = bisect_left(witness, mine[middle])
        if at < len(witness) and witness[at] == mine[middle]:
            low = middle + 1
        else:
            high = middle
    return low


class Waits(Waiter, Protocol):
    """A member of a cycle: its thread waits for a lock, at a place of the reduced trace."""

    @property
    def place(self) -> Optional[int]: ...


Confirmed = tuple[Sequence[Waits], Collection[int], Verdict]  # the members of a cycle, its witness, and its verdict


def write_witness(file: IO[str], index: Index, places: Sequence[int], cycle: Confirmed) -> None:
    members, witness, verdict = cycle[0], list(cycle[1]), cycle[2]
    is_without = verdict is Verdict.NO_VALUE
    file.write("without values\n" if is_without else "witness\n")
    for at, member in enumerate(members):
        file.write(f"member {member.thread} {member.lock} {members[at - 1].lock} {places[member.place or 0]}\n")
    threads = index.places_without_values if is_without else index.thread_places
    file.writelines(f"end {thread} {place}\n" for thread, place in ends_of(index, threads, places, witness))


def verdicts_of(found: Reduced, sources: list[Source], index: Index, cycles: Iterable[Confirmed], folder: str) -> Iterator[Replay]:
    """Yields what the replay of each of these cycles of a reduced trace shows. That of a cycle which is confirmed if no value decides leaves out
    the accesses of plain values."""
    witnesses, count = os.path.join(folder, "witnesses"), 0
    with Outputs() as outputs:
        file = outputs.open(witnesses)
        file.writelines(f"cut {thread} {place}\n" for thread, place in found.cuts.items())
        for cycle in cycles:
            write_witness(file, index, found.places, cycle)
            count += 1
    if count:
        yield from replayed(sources, witnesses)


def confirmed_in(report: str, index: Index) -> Iterator[Confirmed]:
    """Yields the cycles of a report that have a witness."""
    for _, cycle in read_reports(report, index):
        if cycle and cycle.verdict.is_confirmed:
            yield cycle.members, cycle.witness, cycle.verdict


def spot_text(spot: Spot, sources: list[Source]) -> str:
    """Returns `place 17`, `place 17 of run.2.trace` if the run has several files, or the line from which the event was converted."""
    if spot.line:
        return f"line {spot.line}"
    return f"place {spot.place}" if len(sources) == 1 else f"place {spot.place} of {sources[spot.file].words[1]}"


def note_of(verdict: Replay, sources: list[Source]) -> str:
    """Returns what a report says about the witness of a cycle."""
    if verdict.fault:
        place = f" at {spot_text(verdict.place, sources)}" if verdict.place else ""
        return f"not confirmed in the whole run: its replay has the fault {verdict.fault}{place}"
    shown = [f"thread {thread} runs to {spot_text(spot, sources)}" for thread, spot in sorted(verdict.ends.items())[:MOST_SHOWN]]
    more = f", and {plural(len(verdict.ends) - MOST_SHOWN, 'more thread')}" if len(verdict.ends) > MOST_SHOWN else ""
    return f"in the whole run {', '.join(shown)}{more}" if shown else "in the whole run nothing has to run before"
