"""Which locks of a trace are parts of reader-writer locks, and what a cycle through parts rests on.

Each reader of a reader-writer lock has a lock of its own, a part. A writer acquires the whole lock and then its parts, one after another. So a
writer that waits for one reader holds parts of others already. A real one keeps later readers out only if waiting writers go first."""
from __future__ import annotations

import enum
import re
from collections.abc import Callable, Iterator, Mapping, Sequence
from dataclasses import dataclass, field
from typing import Optional, Protocol

from goodlock.limits import NUMBER

PART = re.compile(rf"# lock {NUMBER} is a part of lock {NUMBER}(?: for thread {NUMBER})?")
PREFERS = re.compile(rf"# lock {NUMBER} prefers writers")
WAKE = re.compile(rf"# lock {NUMBER} is the wake-up of thread .*")
WRITERS_WAIT = "left out: a reader would wait for a writer that waits itself, and the lock does not prefer writers"
WRITERS_FIRST = "if writers go first"
WOKEN = "if nobody else wakes the thread"
REASONS = {WRITERS_FIRST: "a reader waits for a writer that waits itself; the lock prefers writers",
           WOKEN: "a thread waits on a condition, and the one that woke it cannot"}


class Basis(enum.Enum):
    """What a cycle rests on: its events alone; also on waiting writers, which keep later readers out, on a wait on a condition that no other
    thread ends, or on both; or on waiting writers that keep nobody out."""

    EVENTS = ""
    WRITERS_FIRST = WRITERS_FIRST
    WOKEN = WOKEN
    BOTH = f"{WRITERS_FIRST}, {WOKEN}"
    IMPOSSIBLE = "impossible"


def condition_of(basis: Basis) -> str:
    """Returns what a report says beside the verdict of a cycle with this basis, or an empty text."""
    return "" if basis is Basis.IMPOSSIBLE else str(basis.value)


class Waiter(Protocol):
    """A member of a cycle: the next member holds its lock."""

    @property
    def thread(self) -> int: ...

    @property
    def lock(self) -> int: ...


@dataclass
class Parts:
    """What the comments of a trace say: `whole` maps a part to its lock, `reader` a part to the thread that reads by it, `prefer_writers` are
    the locks whose waiting writers keep later readers out, and `wakes` those that a thread holds which is about to wake another one."""

    whole: dict[int, int] = field(default_factory=dict)
    reader: dict[int, int] = field(default_factory=dict)
    prefer_writers: set[int] = field(default_factory=set)
    wakes: set[int] = field(default_factory=set)

    def take(self, line: str) -> bool:
        """Takes a comment, and returns whether it names a part or a preference. A later comment on a part replaces an earlier one."""
        if match := PART.fullmatch(line):
            self.whole[int(match[1])] = int(match[2])
            self.reader.pop(int(match[1]), None)
            if match[3]:
                self.reader[int(match[1])] = int(match[3])
        elif match := PREFERS.fullmatch(line):
            self.prefer_writers.add(int(match[1]))
        elif wake := WAKE.fullmatch(line):  # also a name
            self.wakes.add(int(wake[1]))
        return match is not None

    def basis_of(self, members: Sequence[Waiter]) -> Basis:
        """Returns what a cycle rests on. A member that waits for one part, and holds another part of the same lock for which the member
        before it waits, is a writer in its acquire."""
        if not self.whole and not self.wakes:
            return Basis.EVENTS
        locks = {self.whole[member.lock] for at, member in enumerate(members) if self.is_in_acquire(members[at - 1], member)}
        if not locks <= self.prefer_writers:
            return Basis.IMPOSSIBLE
        is_woken = any(member.lock in self.wakes for member in members)
        return (Basis.BOTH if is_woken else Basis.WRITERS_FIRST) if locks else Basis.WOKEN if is_woken else Basis.EVENTS

    def is_in_acquire(self, before: Waiter, member: Waiter) -> bool:
        """Whether a member keeps the one before it waiting only because it acquires the whole lock. What it reads itself is an ordinary
        lock."""
        whole = self.whole.get(member.lock)
        return whole is not None and self.whole.get(before.lock) == whole and self.reader.get(before.lock) != member.thread

    def name_of(self, lock: int, name: Callable[[str, int], Optional[str]]) -> Optional[str]:
        """Returns the name of a lock; that of a part says of which lock: `accounts, read by thread 3`. `name` has the other names."""
        if lock not in self.whole:
            return name("lock", lock)
        whole, reader = self.whole[lock], self.reader.get(lock)
        by = "for a reader" if reader is None else f"read by {name('thread', reader) or f'thread {reader}'}"
        return f"{name('lock', whole) or f'lock {whole}'}, {by}"

    def names_with(self, names: Mapping[tuple[str, int], str]) -> dict[tuple[str, int], str]:
        """Returns the names of threads and locks with those of the parts."""
        found = dict(names)
        for lock in self.whole:
            found["lock", lock] = self.name_of(lock, lambda kind, number: names.get((kind, number))) or ""
        return found

    def comments_on(self, lock: int) -> Iterator[str]:
        """Yields the comments about a lock."""
        if lock in self.whole:
            thread = f" for thread {self.reader[lock]}" if lock in self.reader else ""
            yield f"# lock {lock} is a part of lock {self.whole[lock]}{thread}"
        if lock in self.prefer_writers:
            yield f"# lock {lock} prefers writers"
