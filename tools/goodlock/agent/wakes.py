"""Makes the wait on a condition under a further lock a wait for one thread: the one that woke the waiting thread. That thread gets a lock, which it
holds from its last acquire of a lock that the other one holds in its wait, up to the call that wakes it. The waiting thread acquires this lock
before it receives. So a cycle shows that the one cannot wake the other, which holds what it needs for that."""
from __future__ import annotations

from collections import Counter, defaultdict
from collections.abc import Iterable, Iterator
from dataclasses import dataclass, field
from typing import NamedTuple

from goodlock.agent.rings import Edge
from goodlock.limits import ATOMIC_VALUES, END_OF_VALUES, MOST_EVENTS, MOST_HELD, WAKE_UPS
from goodlock.traces import EVENT, raw_events

MOST_OF_THREAD = 4  # wake-ups of one thread: it may hold that many more locks


class Last(NamedTuple):
    """The last event of a thread: its place, letter and target."""

    place: int
    letter: str
    target: int


class Wait(NamedTuple):
    """A thread waits from its release of a lock to its receive. It holds others meanwhile."""

    thread: int
    released: Last
    received: Last
    held: frozenset[int]


@dataclass
class Wakes:
    """`before` has the lines to write before events, by their places; `edges` are those of the further locks in the lock graph."""

    before: dict[int, str] = field(default_factory=lambda: defaultdict(str))
    edges: list[Edge] = field(default_factory=list)


class Reader:
    """Reads the lines of a trace, and finds the waits that end because of one thread."""

    def __init__(self) -> None:
        self.events = 0
        self.held: dict[int, Counter[int]] = defaultdict(Counter)
        self.most: dict[int, int] = defaultdict(int)
        self.last: dict[int, Last] = {}
        self.acquired: dict[int, dict[int, int]] = defaultdict(dict)  # of a thread: the place of the last acquire of each lock
        self.gives: dict[int, list[tuple[int, int]]] = defaultdict(list)  # of a variable: the last ones, each with its place and thread
        self.pending: dict[int, Wait] = {}
        self.found: dict[tuple[int, int, int], tuple[Wait, int, int]] = {}  # by both threads and the variable: the acquire, the give

    def take(self, thread: int, letter: str, target: int) -> None:
        place, held, last = self.events, self.held[thread], self.last.get(thread)
        self.events += 1
        if letter in "dw" and ATOMIC_VALUES <= target < END_OF_VALUES:
            return  # a value that the program reads or writes is no part of a wait
        wait = self.pending.pop(thread, None)
        if wait and (letter, target) == ("a", wait.released.target):
            self.end_wait(wait)
        if letter == "a":
            if not held[target]:
                self.acquired[thread][target] = place
            held[target] += 1
            self.most[thread] = max(self.most[thread], len(held))
        elif letter == "r":
            held[target] -= 1
            if held[target] <= 0:
                del held[target]
        elif letter == "w" and last and (last.letter, last.target) == ("d", target):
            self.gives[target] = [*self.gives[target][-1:], (last.place, thread)]
        elif letter == "d" and last and last.letter == "r" and last.target not in held and held:
            self.pending[thread] = Wait(thread, last, Last(place, letter, target), frozenset(held))
        self.last[thread] = Last(place, letter, target)

    def end_wait(self, wait: Wait) -> None:
        """Two gives may both have woken the thread: then neither of them has to."""
        gives = [give for give in self.gives[wait.received.target] if wait.released.place < give[0] < wait.received.place]
        if len(gives) != 1 or gives[0][1] == wait.thread:
            return
        give, giver = gives[0]
        acquires = [place for lock in wait.held if (place := self.acquired[giver].get(lock, give)) < give]
        if acquires:
            self.found.setdefault((wait.thread, giver, wait.received.target), (wait, max(acquires), give))

    def wakes(self) -> Wakes:
        """Returns what to write, as far as the limits of a trace permit it."""
        wakes, by_giver = Wakes(), Counter[int]()
        for number, ((_, giver, _), (wait, acquire, give)) in enumerate(self.found.items(), 1):
            lock = WAKE_UPS + number
            if by_giver[giver] == MOST_OF_THREAD or self.most[giver] + MOST_OF_THREAD > MOST_HELD or len(wait.held) == MOST_HELD:
                continue
            if self.events + 4 * (sum(by_giver.values()) + 1) > MOST_EVENTS:
                break
            by_giver[giver] += 1
            wakes.before[acquire] += f"# lock {lock} is the wake-up of thread {wait.thread} by thread {giver}\n{giver}a{lock}\n"
            wakes.before[give] += f"{giver}r{lock}\n"
            wakes.before[wait.received.place] += f"{wait.thread}a{lock}\n{wait.thread}r{lock}\n"
            wakes.edges += [Edge(one, lock, wait.thread) for one in wait.held] + [Edge(lock, one, giver) for one in self.acquired[giver]]
        return wakes


def wakes_in(lines: Iterable[str]) -> Wakes:
    """Reads the lines of a trace."""
    reader = Reader()
    for event in raw_events(lines):
        reader.take(*event)
    return reader.wakes()


def with_wakes(lines: Iterable[str], wakes: Wakes) -> Iterator[str]:
    """Yields the lines of a trace in which the threads that wake others hold their locks."""
    place = 0
    for line in lines:
        if EVENT.fullmatch(line.rstrip("\n")):
            if place in wakes.before:
                yield wakes.before[place]
            place += 1
        yield line
