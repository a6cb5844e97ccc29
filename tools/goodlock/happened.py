"""Reads what an agent's report says before its cycles: a deadlock that happened, and what the agent did not see."""
from __future__ import annotations

import re
from collections.abc import Sequence
from dataclasses import dataclass, field, replace
from itertools import takewhile
from typing import Optional

from goodlock.groups import advice_for, key_of
from goodlock.locations import Root
from goodlock.reports import INDENT, QUESTION, Verdict, note_in
from goodlock.results import Result, ResultMember, Spot
from goodlock.traces import CALLED_BY, lines_of

DEADLOCK = re.compile(r"deadlock of [0-9]+ threads?, which waits? for .*")
WAITS = re.compile(r"thread ([0-9]{1,10}) waits for (lock|thread) ([0-9]{1,10}) at (.*)")
STARTED = re.compile(r"thread ([0-9]{1,10}) from (.*)")
HOLDS = re.compile(r"lock ([0-9]{1,10}) since (.*)")


def head_notes(report: str) -> list[str]:
    """Returns the notes before the first cycle of a report; none if there is no such file, or it is no report."""
    lines = lines_of(report)
    try:
        if not QUESTION.fullmatch(next(lines, "")):
            return []
        return [note for line in takewhile(lambda line: line.startswith(INDENT), lines) if (note := note_in(line))]
    except OSError:
        return []


@dataclass
class Waiter:
    """A thread of a deadlock that happened: what it waits for, where, and the locks that it holds with their locations."""

    thread: int
    kind: str
    target: int
    wait: str
    start: Optional[str] = None
    held: dict[int, str] = field(default_factory=dict)

    def hold_of(self, before: Waiter, root: Root) -> Spot:
        """Returns where it acquired the lock that the waiter before it wants. One who waits for the end of this thread wants no lock: then
        it is where this thread was started."""
        if before.kind == "lock":
            return spot_of(self.held.get(before.target, "?"), before.target, root)
        return spot_of(self.start or f"thread {self.thread}", None, root)


def spot_of(text: str, lock: Optional[int], root: Root) -> Spot:
    where, *callers = text.split(CALLED_BY)
    return Spot(root.location(where), lock, None, tuple(callers))


def deadlock_of(notes: Sequence[str], root: Root) -> tuple[Optional[Result], list[str]]:
    """Returns the deadlock that happened, if the notes describe one, and the other notes."""
    waiters, others = waiters_in(notes)
    return (result_of(waiters, root) if waiters else None), others


def waiters_in(notes: Sequence[str]) -> tuple[list[Waiter], list[str]]:
    """Returns the threads of the deadlock that the notes describe, and the other notes."""
    waiters: list[Waiter] = []
    others: list[str] = []
    for note in notes:
        if match := WAITS.fullmatch(note):
            waiters.append(Waiter(int(match[1]), match[2], int(match[3]), match[4]))
        elif waiters and (match := STARTED.fullmatch(note)):
            waiters[-1].start = match[2]
        elif waiters and (match := HOLDS.fullmatch(note)):
            waiters[-1].held[int(match[1])] = match[2]
        elif not DEADLOCK.fullmatch(note):
            others.append(note)
    return waiters, others


def result_of(waiters: list[Waiter], root: Root) -> Result:
    members = tuple(
        ResultMember(waiter.thread, waiter.hold_of(waiters[at - 1], root),
                     spot_of(waiter.wait, waiter.target if waiter.kind == "lock" else None, root), tuple(waiter.held))
        for at, waiter in enumerate(waiters))
    result = Result(Verdict.HAPPENED, members, "")
    return replace(result, advice=advice_for(result.pairs))


def with_happened(results: Sequence[Result], happened: Optional[Result]) -> list[Result]:
    """Returns the results with a deadlock that happened. If they have a group with its locations, that group happened."""
    if happened is None:
        return list(results)
    key = key_of(happened.pairs)
    same = [result for result in results if key_of(result.pairs) == key]
    merged = replace(same[0], verdict=Verdict.HAPPENED, advice=happened.advice, kept_apart=None, condition="") if same else happened
    return [merged] + [result for result in results if result not in same]
