"""Makes a join a wait: a thread that is joined by a holder of locks gets a lock of its own. It holds this lock from its fork to its end, and the
thread that joins it acquires the lock before the join. So a cycle shows that one waits for the other's end."""
from __future__ import annotations

from collections import Counter, defaultdict
from collections.abc import Iterable, Iterator
from dataclasses import dataclass, field

from goodlock.agent.rings import Edge
from goodlock.limits import ENDS_OF_THREADS, MOST_EVENTS, MOST_HELD
from goodlock.traces import EVENT, raw_events


@dataclass
class Joins:
    """The threads of a trace that get a lock for their end, as far as the limits of a trace permit it, and the edges of these locks in the lock
    graph."""

    threads: set[int] = field(default_factory=set)
    edges: list[Edge] = field(default_factory=list)


def joins_in(lines: Iterable[str], wanted: Iterable[int]) -> Joins:
    """Reads the lines of a trace. `wanted` are the threads that holders of locks join. One that acquires nothing itself needs no lock, and one
    that has it already, since the search was interrupted before, gets no second one."""
    held: dict[int, Counter[int]] = defaultdict(Counter)  # of a thread: its locks, and how often it has acquired each
    acquired: dict[int, set[int]] = defaultdict(set)
    forked, most = set[int](), Counter[int]()
    found: dict[int, tuple[int, set[int]]] = {}
    candidates, events = set(wanted), 0
    for events, (thread, letter, target) in enumerate(raw_events(lines), 1):
        if letter == "a":
            held[thread][target] += 1
            acquired[thread].add(target)
            most[thread] = max(most[thread], len(held[thread]))
        elif letter == "r" and target in held[thread]:
            held[thread][target] -= 1
            if not held[thread][target]:
                del held[thread][target]
        elif letter == "f":
            forked.add(target)
        elif letter == "j" and target in candidates & forked and 0 < len(held[thread]) < MOST_HELD:
            found[target] = thread, set(held[thread])
    joins = Joins()
    for child, (by, locks) in found.items():
        end = ENDS_OF_THREADS + child
        has_end = end in acquired[child]
        if has_end or (0 < most[child] < MOST_HELD and events + 4 * len(joins.threads) + 4 <= MOST_EVENTS):
            joins.threads.update([] if has_end else [child])
            joins.edges += [Edge(lock, end, by) for lock in locks] + [Edge(end, lock, child) for lock in acquired[child] - {end}]
    return joins


def with_ends(lines: Iterable[str], threads: set[int]) -> Iterator[str]:
    """Yields the lines of a trace in which these threads have a lock for their end. What they hold at a join does not change."""
    for line in lines:
        match = EVENT.fullmatch(line.rstrip("\n"))
        child = int(match[3]) if match and match[2] in "fj" else -1
        end = ENDS_OF_THREADS + child
        if not match or child not in threads:
            yield line
        elif match[2] == "f":
            yield f"# lock {end} is the end of thread {child}\n{line}{child}a{end}\n"
        else:
            yield f"{child}r{end}\n{match[1]}a{end}\n{match[1]}r{end}\n{line}"
