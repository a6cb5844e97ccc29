"""Merges the results of many traces by code location."""
from __future__ import annotations

import re
from collections import Counter
from dataclasses import dataclass, field, fields, replace
from typing import Optional

from goodlock.formats.json import Object, numbers_from, result_from
from goodlock.gates import Judge
from goodlock.groups import Pair, key_of
from goodlock.happened import deadlock_of, head_notes, with_happened
from goodlock.locations import Root
from goodlock.results import LeftOut, Numbers, Result, numbered

SHOWN_TRACES, MOST_NOTES = 3, 20
OTHER_WINDOW = re.compile(r"(?:window|process) [0-9]+: ")  # whose trace is analysed too


@dataclass
class Merged:
    """The results of all traces by what they rest on and the locations of their members. `no_result` is the fault of a trace whose job did not end."""

    root: Root
    no_result: str = "there is no result"
    by_key: dict[tuple[str, tuple[Pair, ...]], Result] = field(default_factory=dict)
    faults: list[tuple[str, str]] = field(default_factory=list)
    notes: Counter[str] = field(default_factory=Counter)
    numbers: Numbers = Numbers()
    left_out: LeftOut = LeftOut()

    def add(self, trace: str, result: Optional[Object]) -> None:
        """Adds the result for a trace, and the deadlock that an agent's report beside it describes."""
        found: list[Result] = []
        if result is None or "fault" in result:
            self.faults.append((trace, result["fault"] if result else self.no_result))
        else:
            self.numbers = added(self.numbers, numbers_from(result["numbers"]))
            left_out = result["left_out"]
            self.left_out = LeftOut(*(mine + left_out.get(name, 0) for name, mine in self.left_out._asdict().items()))
            found = [result_from(group, self.root) for group in result["groups"]]
        happened, notes = deadlock_of(head_notes(f"{trace.removesuffix('.trace')}.report"), self.root)
        self.notes.update(note for note in notes if not OTHER_WINDOW.match(note))
        self.numbers = replace(self.numbers, happened=self.numbers.happened + (happened is not None))
        for one in with_happened(found, happened):
            self.add_result(replace(one, traces=(trace,)))

    def add_result(self, result: Result) -> None:
        key = result.condition, key_of(result.pairs)
        self.by_key[key] = merged(self.by_key[key], result) if key in self.by_key else result

    def results(self, judge: Judge) -> list[Result]:
        """Returns the results: the strongest evidence first, then those of most traces."""
        found = sorted(self.by_key.values(), key=lambda result: (-result.verdict.rank, -result.trace_count, result.pairs))
        return judge.judged(numbered(found, self.root))

    def common_notes(self) -> tuple[str, ...]:
        """Returns the notes of the agents' reports that most traces have."""
        return tuple(f"{note} (in {count:,} traces)" if count > 1 else note for note, count in self.notes.most_common(MOST_NOTES))


def added(first: Numbers, second: Numbers) -> Numbers:
    return Numbers(**{one.name: getattr(first, one.name) + getattr(second, one.name) for one in fields(Numbers)})


def merged(first: Result, second: Result) -> Result:
    """Returns a result for both: the one with the stronger evidence, or else the first one, with all cycles and traces."""
    strongest, other = (second, first) if second.verdict.rank > first.verdict.rank else (first, second)
    traces = strongest.traces
    if other.verdict is strongest.verdict:
        traces = tuple(dict.fromkeys(strongest.traces + other.traces))[:SHOWN_TRACES]
    return replace(strongest, cycles=first.cycles + second.cycles, confirmed=first.confirmed + second.confirmed,
                   no_value=first.no_value + second.no_value, traces=traces, trace_count=first.trace_count + second.trace_count)
