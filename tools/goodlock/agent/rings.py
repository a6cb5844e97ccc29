"""Reads the lock graph of windows, and finds how many members its cycles may have. An edge is a thread that has acquired a lock while it held
another one. A cycle of K members needs a ring of K locks whose edges are of K threads, so without a longer ring no larger bound finds more."""
from __future__ import annotations

import os
from collections import defaultdict
from collections.abc import Iterable
from dataclasses import dataclass
from typing import NamedTuple

from goodlock.limits import MOST_BOUND

MOST_STEPS = 200_000
MOST_RING = MOST_BOUND + 1
END = "end\n"
Graph = dict[int, dict[int, set[int]]]  # of a held lock: the locks acquired while it is held, by which threads


class Edge(NamedTuple):
    """A thread acquires a lock while it holds another one."""

    held: int
    lock: int
    thread: int


@dataclass
class WindowGraph:
    """What the collector knows of a window: how many acquires in it do not wait, and the longest ring of its lock graph."""

    tries: int = 1
    longest: int = MOST_RING


def add_edges(path: str, edges: Iterable[Edge]) -> None:
    """Adds edges to a graph that was written whole."""
    with open(path, encoding="ascii") as file:
        text = file.read()
    if text.endswith(END):
        with open(f"{path}.new", "w", encoding="ascii") as file:
            file.write(text[:-len(END)] + "".join(f"{edge.held} {edge.lock} {edge.thread}\n" for edge in edges) + END)
        os.replace(f"{path}.new", path)


def read_graph(*paths: str) -> WindowGraph:
    """Returns the graph of one window, or of several together. It may have any ring if a file is missing or was not written whole."""
    graph: Graph = defaultdict(lambda: defaultdict(set))
    try:
        tries = sum(read_edges(path, graph) for path in paths)
    except (OSError, ValueError):
        return WindowGraph()
    return WindowGraph(tries, longest_ring(graph))


def read_edges(path: str, graph: Graph) -> int:
    """Adds the edges of a window to a graph. Returns how many of its acquires do not wait."""
    with open(path, encoding="ascii") as file:
        _, tries = map(int, file.readline().split())  # the first one counts the events
        for line in file:
            if line == END:
                return tries
            held, lock, thread = map(int, line.split())
            graph[held][lock].add(thread)
    raise ValueError


def on_rings(edges: Graph) -> Graph:
    """Returns the graph without locks that are on no ring: those that nobody acquires while holding another one of the graph, and those while
    holding which nobody acquires another one."""
    after: dict[int, set[int]] = {held: set(locks) for held, locks in edges.items()}
    before: dict[int, set[int]] = defaultdict(set)
    for held, locks in edges.items():
        for lock in locks:
            before[lock].add(held)
    ends = [lock for lock in {*before, *after} if not before.get(lock) or not after.get(lock)]
    while ends:
        lock = ends.pop()
        for one, other in ((after, before), (before, after)):
            for neighbour in one.pop(lock, ()):
                other[neighbour].discard(lock)
                if not other[neighbour]:
                    ends.append(neighbour)
    return {held: {lock: edges[held][lock] for lock in locks} for held, locks in after.items()}


def longest_ring(edges: Graph) -> int:
    """Returns the most locks of a ring whose edges are of different threads; 0 if there is none, MOST_RING if there may be one of at least
    that many."""
    graph, longest, steps = on_rings(edges), 0, 0
    for first in graph:
        stack: list[tuple[int, tuple[int, ...], tuple[int, ...]]] = [(first, (first,), ())]  # `first` is the least lock of its ring
        while stack:
            at, path, threads = stack.pop()
            steps += 1
            if len(path) == MOST_RING or steps > MOST_STEPS:
                return MOST_RING
            for lock, by in graph[at].items():
                free = by.difference(threads) if len(by) < MOST_RING else {-len(path)}  # there is always one left
                if lock == first and free and len(path) > 1:
                    longest = max(longest, len(path))
                elif lock > first and lock not in path:
                    stack += [(lock, (*path, lock), (*threads, thread)) for thread in free]
    return longest
