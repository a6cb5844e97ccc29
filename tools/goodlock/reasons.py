"""Says why a cycle is not confirmed, or only if no value decides: the refutation that `goodlockd explain` prints, with the events of the trace."""
from __future__ import annotations

import shlex
from typing import Optional

from goodlock.grades import reads_in
from goodlock.groups import advice_for, instance_of, pairs_of, sides_of
from goodlock.refutations import MOST_SENTENCES, Entry, Numbers, Refutation, RefutationStep, refutations_of
from goodlock.reports import Cycle, Report, Verdict
from goodlock.traces import VERBS, Event, Index, description_of, source_of

BY = {"fork": "a fork", "join": "a join", "read": "a read", "section": "the order of critical sections"}
LAST_SENTENCES = 4  # of a step with more than MOST_SENTENCES
BY_VALUES = "Kept apart only by what these reads see"


def reasons_of(index: Index, report: Report, cycles: list[Cycle]) -> dict[Numbers, Reason]:
    """Returns a Reason for each of these cycles of a report, by the cycle's numbers. None of them is confirmed with all values."""
    found, fault = refutations_of(index, report, [cycle for cycle in cycles if not cycle.reads])
    for cycle in cycles:
        if cycle.verdict is Verdict.NO_VALUE and cycle.numbers in found:
            cycle.reads = reads_in(index, found[cycle.numbers])
    return {cycle.numbers: Reason(index, report, cycle, found.get(cycle.numbers), fault) for cycle in cycles}


class Reason:
    """What the tools show of the refutation of a cycle, or why they do not show it. `heading` says it in a few words, `sentences` step by
    step. `entries` are those with a sentence, and `waits` the places where the members wait in their steps. `left_out` counts the steps
    that have no sentences. `command` prints the whole refutation; `note` says of which events, if not of all in the trace."""

    def __init__(self, index: Index, report: Report, cycle: Cycle, refutation: Optional[Refutation], fault: str) -> None:
        self.index, self.waits = index, instance_of(index, cycle.members)
        self.sentences: list[str] = []
        self.entries: list[Entry] = []
        self.left_out = 0
        is_whole = index.file is not None and report.length == len(index.events)
        file, self.note = (shlex.quote(index.file or ""), "") if is_whole else ("FILE", f" if FILE has the first {report.length:,} events")
        self.command = f"goodlockd explain {file} --bound {report.bound} --cycle {','.join(map(str, cycle.numbers))}"
        self.heading = f"The reason is not shown, since {fault}; `{self.command}` prints it{self.note}."
        self.advice = "Acquire the locks in one order."
        if cycle.verdict is Verdict.NO_VALUE:
            self.take_reads(cycle)
        elif refutation:
            self.take(refutation)

    def take_reads(self, cycle: Cycle) -> None:
        """Names the reads of values that keep the members apart."""
        locations = advice_for(pairs_of(self.index, sides_of(self.index, cycle.members)))
        self.advice = f"If a thread that sees another value there does not come to its acquire, the cycle is harmless. Otherwise: {locations}"
        if cycle.reads:
            self.heading = BY_VALUES
            self.sentences = [read.text for read in cycle.reads[:MOST_SENTENCES]]
            if len(cycle.reads) > MOST_SENTENCES:
                self.sentences.append(f".. {len(cycle.reads) - MOST_SENTENCES:,} more reads")

    def take(self, refutation: Refutation) -> None:
        self.heading = f"Kept apart by {' and '.join(text for kind, text in BY.items() if kind in refutation.kinds)}"
        self.advice = advice_on(refutation)
        self.left_out = refutation.count - len(refutation.steps)
        for step in refutation.steps:
            self.word_step(step.entries)
            self.sentences.append(conclusion(self.index, step, is_only=refutation.count == 1))
            self.waits += [] if step.then is None else [step.then]

    def word_step(self, entries: list[Entry]) -> None:
        """Adds sentences for the entries of a step; of many for the first ones and the last ones."""
        left_out = len(entries) - MOST_SENTENCES
        if left_out <= 0:
            self.word(entries)
            return
        self.word(entries[:MOST_SENTENCES - LAST_SENTENCES])
        self.sentences.append(f".. {left_out:,} more of this kind")
        self.word(entries[-LAST_SENTENCES:])

    def word(self, entries: list[Entry]) -> None:
        self.entries += entries
        self.sentences += [sentence(self.index, entry) for entry in entries]

    def further(self) -> str:
        """Returns what the steps without sentences show; an empty text if there are none."""
        if not self.left_out:
            return ""
        one, many = "1 further step excludes the next place", f"{self.left_out:,} further steps exclude the next places"
        return f"{one if self.left_out == 1 else many}, until a thread has none left."


def sentence(index: Index, entry: Entry) -> str:
    """Returns an entry as a sentence."""
    kind, needed, cause = entry.kind, index.events[entry.place], index.events[entry.named[0]]
    here, there = spot(index, entry.place), spot(index, entry.named[0])
    if kind == "before":
        return f"Before {there}, where it would wait for lock {cause.target}, thread {cause.thread} {deed(index, needed)} at {here}."
    if kind == "order":
        return f"Before {there} thread {needed.thread} {deed(index, needed)} at {here}."
    if kind == "fork":
        return f"Thread {cause.thread} gets to {there} only after thread {needed.thread} forks it at {here}."
    if kind == "join":
        return (f"At {there} thread {cause.thread} joins thread {cause.target}, so before that thread {needed.thread} {deed(index, needed)} at "
                f"{here}.")
    if kind == "read":
        return (f"At {there} thread {cause.thread} {deed(index, cause)}, and sees the value that thread {needed.thread} wrote at "
                f"{here}.")
    first, last = sorted(entry.named)
    return (f"At {spot(index, last)} thread {index.events[last].thread} acquires lock {needed.target}; thread {needed.thread} acquired it "
            f"before, at {spot(index, first)}, so it must have released it, at {here}.")


def conclusion(index: Index, step: RefutationStep, is_only: bool) -> str:
    """Returns what the entries of a step show, and unless it is the only step where the member may wait next."""
    passed = f"So thread {step.thread} has passed {index.origin(step.place).title}, before which it would have to wait."
    if is_only:
        return passed
    if step.then is None:
        return f"{passed} It has no later place to wait."
    return f"{passed} It may wait next before {index.origin(step.then).title}."


def spot(index: Index, place: int) -> str:
    """Returns a place with its source line, if the trace has it: `place 7 (bank.c:35)`."""
    source, title = source_of(index.events[place]), index.origin(place).title
    return f"{title} ({source})" if source else title


def deed(index: Index, event: Event) -> str:
    """Returns what an event does, in a sentence: `reads variable 7`, `writes an atomic value`, `acquires lock 1`."""
    if event.letter not in "dw":
        return description_of(event)
    kind = index.values.kind_of(event.target) if index.values else ""
    return f"{VERBS[event.letter]} {kind or f'variable {event.target}'}"


def advice_on(refutation: Refutation) -> str:
    """Returns what to do about members that are kept apart."""
    if "section" in refutation.kinds:
        return "Orders that swap two critical sections of one lock are not examined: one of them may still lead to the deadlock."
    return "If this is by design, the cycle is harmless. If it is by chance, acquire the locks in one order."
