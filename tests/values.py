"""What tests/values compares: traces with all reads and writes and what the agent keeps of them.

usage: values.py filter COUNT            random traces, and the filter's model of them: equal reports
       values.py predicates COUNT        random traces with all predicates of conditions, and with those that the collector writes: equal reports
       values.py steps WHOLE RECORDED WIDE    the whole trace that value_steps prints, and the recorded one: equal verdicts
       values.py draw TRACE DRAWN        the numbers that value_races prints: each read is tied to its writer
"""
from __future__ import annotations

import bisect
import os
import random
import re
import subprocess
import sys
from collections import Counter
from collections.abc import Iterator

EVENT = re.compile(r"([0-9]+)([fjardw])([0-9]+)")
PLAIN = re.compile(r"[0-9]+[dw]2[0-9]{9}\n")
Trace = list[tuple[int, str, int]]
Counts = dict[int, int]
Member = tuple[str, int, tuple[int, ...]]  # the thread, the lock, the held locks


def offline(path: str, bound: int) -> list[str]:
    return subprocess.run([os.environ["GOODLOCKD_PROGRAM"], "offline", path, "--bound", str(bound)], capture_output=True, text=True,
                          check=True).stdout.splitlines()


# ---- the filter ----


class Walk:
    """Threads that walk over a few locks and variables."""

    def __init__(self, seed: int) -> None:
        self.pick = pick = random.Random(seed)
        self.threads, self.locks, self.variables = pick.randint(2, 5), pick.randint(2, 4), pick.randint(1, 4)
        self.events: Trace = [(0, "f", thread) for thread in range(1, self.threads) if pick.random() < 0.7]
        self.forked = {0} | {event[2] for event in self.events}
        self.joined, self.owner = set[int](), dict[int, int]()
        self.held: dict[int, list[int]] = {thread: [] for thread in range(self.threads)}
        weights = pick.choice([(3, 3, 2, 2), (3, 3, 1, 0.3), (4, 3, 0.3, 0.2), (2, 2, 0.2, 0.2)])
        for _ in range(pick.randint(20, 90)):
            self.step(pick.choice(sorted(self.forked - self.joined)), pick.choices("ardwfj", (*weights, 0.3, 0.1))[0])

    def step(self, thread: int, what: str) -> None:
        target = self.choose(thread, what)
        if target is not None:
            self.events.append((thread, what, target))

    def choose(self, thread: int, what: str) -> int | None:
        pick, held = self.pick, self.held[thread]
        if what == "f":
            late = sorted(set(range(self.threads)) - self.forked)
            self.forked.update(late[:1])
            return late[0] if late else None
        if what == "j":
            able = sorted(other for other in self.forked - self.joined if other not in (0, thread) and not self.held[other])
            child = pick.choice(able) if able else None
            self.joined.update([] if child is None else [child])
            return child
        if what == "a":
            free = [lock for lock in range(1, self.locks + 1) if lock not in self.owner]
            if not free or len(held) == 3:
                return None
            held.append(pick.choice(free))
            self.owner[held[-1]] = thread
            return held[-1]
        if what == "r":
            if not held:
                return None
            lock = held.pop(pick.randrange(len(held)))
            del self.owner[lock]
            return lock
        return pick.randint(1, self.variables)


def joined(one: Counts, other: Counts) -> Counts:
    return {key: max(one.get(key, 0), other.get(key, 0)) for key in one.keys() | other.keys()}


class Filter:
    """What the recorder and the collector keep of a trace, as docs/agents.md says. A record is an event of a lock or of a thread, or a read that
    is new. `drops_all`: it keeps no read, and the test must fail."""

    def __init__(self, drops_all: bool) -> None:
        self.last: dict[int, tuple[int, int]] = {}  # of a variable: its writer, and how many records that had drawn
        self.records, self.syncs = Counter[int](), Counter[int]()
        self.direct: dict[tuple[int, int], int] = {}
        self.knows: dict[int, Counts] = {}
        self.places: dict[tuple[int, int], tuple[int, int, Counts]] = {}
        self.variables: dict[tuple[int, int], int] = {}
        self.output: Trace = []
        self.drops_all = drops_all

    def record(self, thread: int, is_sync: bool) -> None:
        self.records[thread] += 1
        self.syncs[thread] += is_sync
        self.places[thread, self.records[thread]] = len(self.output), self.syncs[thread], dict(self.knows.get(thread, {}))

    def take(self, thread: int, letter: str, target: int) -> None:
        if letter == "w":
            self.last[target] = thread, self.records[thread]
        elif letter == "d":
            self.read(thread, target)
        else:
            self.output.append((thread, letter, target))
            mine = self.knows.get(thread, {})
            if letter == "f":
                self.knows[target] = joined(mine, {thread: self.syncs[thread] + 1})
                self.record(target, True)  # its first record makes no event
            if letter == "j":
                self.knows[thread] = joined(mine, joined(self.knows.get(target, {}), {target: self.syncs[target]}))
            self.record(thread, True)

    def read(self, thread: int, target: int) -> None:
        writer, count = self.last.get(target, (thread, 0))
        if writer == thread or self.direct.get((thread, writer), 0) >= count:
            return
        self.direct[thread, writer] = count
        _, done, theirs = self.places[writer, count]
        new, mine = joined({writer: done}, theirs), self.knows.get(thread, {})
        if any(new[key] > mine.get(key, 0) for key in new if key != thread) and not self.drops_all:
            self.knows[thread] = joined(mine, new)
            self.output.append((thread, "d", self.variables.setdefault((writer, count), len(self.variables) + 1)))
        self.record(thread, False)

    def kept(self) -> Trace:
        """Returns the kept events, with each write right after the record that it follows."""
        writes = sorted((self.places[key][0], number, key[0]) for key, number in self.variables.items())
        whole: Trace = []
        for at in range(len(self.output) + 1):
            while writes and writes[0][0] <= at:
                _, number, thread = writes.pop(0)
                whole.append((thread, "w", number))
            whole += self.output[at:at + 1]
        return whole


def rows(events: Trace) -> list[str]:
    """Returns the cycles of a trace: verdicts, members, and their places as numbers of events of locks and threads of their thread."""
    with open("one.trace", "w", encoding="ascii") as file:
        file.writelines(f"{thread}{letter}{target}\n" for thread, letter, target in events)
    found = []
    for line in offline("one.trace", 4)[1:]:
        if match := re.fullmatch(r"(  thread ([0-9]+) lock [0-9]+ holds[ 0-9]*?) place ([0-9]+)", line):
            place = sum(event[0] == int(match[2]) and event[1] not in "dw" for event in events[:int(match[3])])
            found.append(f"{match[1]} place {place}")
        elif not line.startswith("  witness"):
            found.append(line)
    return found


# Thread 2 acquires two locks in the other order after it has read what thread 1 wrote after its sections.
HANDED_OVER = [(0, "f", 1), (0, "f", 2), (1, "a", 1), (1, "a", 2), (1, "r", 2), (1, "r", 1), (1, "w", 1),
               (2, "d", 1), (2, "a", 2), (2, "a", 1), (2, "r", 1), (2, "r", 2)]


def difference(events: Trace, drops_all: bool = False) -> str:
    """Returns how the report on a trace differs from that on what the filter keeps of it."""
    kept = Filter(drops_all)
    for event in events:
        kept.take(*event)
    return difference_of(events, kept.kept())


def difference_of(all_events: Trace, kept: Trace) -> str:
    """Returns how the reports on two traces differ."""
    whole, less = rows(all_events), rows(kept)
    return "" if whole == less else f"{all_events} has {whole}, and what is kept of it {less}"


# ---- predicates of conditions ----


class Predicates:
    """The predicates of conditions in a trace: its writes of variables are signals, its reads are waits that were woken. Each variable has a lock
    as its mutex. A thread that signals a condition next reads no value of it. `drops_all`: nor does any other thread, and the test must fail."""

    PLAIN = 2_000_000_000

    def __init__(self, locks: int, drops_all: bool = False) -> None:
        self.locks, self.drops_all = locks, drops_all
        self.signals: dict[int, tuple[int, int]] = {}  # of a condition: the last one's thread and number
        self.received: dict[tuple[int, int], int] = {}
        self.number, self.output = 0, list[tuple[int, str, int]]()
        self.dropped = set[int]()  # places in the output
        self.looks: dict[int, dict[int, int]] = {}  # of a thread: the places of its last reads, by conditions, if it has done nothing since

    def take(self, thread: int, letter: str, target: int) -> None:
        looks = self.looks.pop(thread, {})
        if letter == "w":
            self.dropped.update([looks[target]] if target in looks else [])
            self.number += 1
            self.output += [(thread, "d", target), (thread, "w", target), (thread, "w", self.PLAIN + self.number)]
            self.signals[target] = thread, self.number
        elif letter == "d" and target in self.signals:
            self.output.append((thread, "d", target))
            self.received[thread, target] = self.signals[target][1]
        elif letter != "d":
            self.output.append((thread, letter, target))
        if letter == "a":
            self.looks[thread] = dict(self.read(thread, target))

    def read(self, thread: int, lock: int) -> Iterator[tuple[int, int]]:
        """Reads the predicates of a mutex. Yields their conditions and the places of the reads."""
        for condition, (by, number) in self.signals.items():
            if condition % self.locks + 1 == lock and by != thread and self.received.get((thread, condition)) != number:
                self.received[thread, condition] = number
                yield condition, len(self.output)
                self.output.append((thread, "d", self.PLAIN + number))

    def kept(self) -> Trace:
        """Returns the events that are in the trace."""
        return [event for place, event in enumerate(self.output)
                if place not in self.dropped and not (self.drops_all and event[1] == "d" and event[2] >= self.PLAIN)]


def difference_by_predicates(events: Trace, locks: int, drops_all: bool = False) -> tuple[str, int]:
    """Returns how the report on a trace with all predicates differs from that on one with those that are kept, and how many reads are not."""
    predicates = Predicates(locks, drops_all)
    for event in events:
        predicates.take(*event)
    return difference_of(predicates.output, predicates.kept()), len(predicates.dropped)


# Thread 2 finds true, under lock 2, what thread 1 has signalled under it after its sections.
FOUND_TRUE = [(0, "f", 1), (0, "f", 2), (1, "a", 1), (1, "a", 3), (1, "r", 3), (1, "r", 1), (1, "a", 2), (1, "w", 1), (1, "r", 2),
              (2, "a", 2), (2, "r", 2), (2, "a", 3), (2, "a", 1), (2, "r", 1), (2, "r", 3)]


def with_signals(walk: Walk) -> Trace:
    """Returns the events of a walk. After some acquires the thread signals a condition of the lock."""
    events: Trace = []
    for event in walk.events:
        events.append(event)
        if event[1] == "a" and walk.pick.random() < 0.4:
            events.append((event[0], "w", event[2] - 1 or walk.locks))
    return events


def test_predicates(count: int) -> None:
    dropped = 0
    for seed in range(count):
        walk = Walk(seed)
        fault, fewer = difference_by_predicates(with_signals(walk), walk.locks)
        dropped += fewer
        if fault:
            sys.exit(f"values.py: {fault}")
    if dropped < count // 2:
        sys.exit(f"values.py: only {dropped} reads of predicates were left out of {count} traces")
    if difference_by_predicates(FOUND_TRUE, 3)[0] or not difference_by_predicates(FOUND_TRUE, 3, drops_all=True)[0]:
        sys.exit("values.py: the test of predicates finds no fault when no thread reads one")


# ---- recorded runs ----


def cycles_of(path: str) -> Counter[tuple[str, tuple[Member, ...]]]:
    """Returns the cycles of a trace with their verdicts. Locks are numbered by their first acquires."""
    names, found, members, verdict = dict[str, int](), Counter[tuple[str, tuple[Member, ...]]](), list[Member](), ""
    with open(path, encoding="utf-8") as file:
        for line in file:
            if match := re.fullmatch(r"[0-9]+a([0-9]+)\n", line):
                names.setdefault(match[1], len(names))
    for line in [*offline(path, 3)[1:], "cycle end"]:
        if line.startswith("cycle"):
            if verdict:
                found[verdict, tuple(sorted(members))] += 1
            verdict, members = line.split()[-1], []
        elif match := re.match(r"  thread ([0-9]+) lock ([0-9]+) holds([ 0-9]*?)(?: place [0-9]+)?$", line):
            members.append((match[1], names[match[2]], tuple(sorted(names[held] for held in match[3].split()))))
    return found


def test_steps(whole: str, recorded: str, is_wide: bool) -> None:
    """All cycles agree, and with whole words all verdicts. Else a recorded verdict may be weaker, and never stronger."""
    for is_plain in (True, False):
        with open(whole, encoding="ascii") as file, open("whole.steps", "w", encoding="ascii") as to:
            to.writelines(line.lstrip() for line in file if is_plain or not line.startswith(" "))
        with open(recorded, encoding="utf-8") as file, open("recorded.steps", "w", encoding="utf-8") as to:
            to.writelines(line for line in file if is_plain or not PLAIN.fullmatch(line))
        one, other = cycles_of("whole.steps"), cycles_of("recorded.steps")
        confirmed = [{members for verdict, members in cycles if verdict == "confirmed"} for cycles in (one, other)]
        if {members for _, members in one} != {members for _, members in other} or confirmed[1] - confirmed[0] or is_wide and one != other:
            sys.exit(f"values.py: {whole}, {'all' if is_plain else 'atomic'} reads: the whole trace has {one}, the recorded one {other}")


def test_draw(trace: str, drawn: str) -> None:
    """A thread that drew a number comes after the sections before each smaller one."""
    numbers: dict[int, list[int]] = {}
    with open(drawn, encoding="ascii") as file:
        for line in file:
            numbers.setdefault(int(line.split()[0]), []).append(int(line.split()[1]))
    knows, written, missed, checked = dict[int, Counts](), dict[int, Counts](), 0, 0
    with open(trace, encoding="utf-8") as file:
        for line in file:
            if not (match := EVENT.match(line)):
                continue
            thread, letter, target = int(match[1]), match[2], int(match[3])
            mine = knows.setdefault(thread, {})
            if letter == "w":
                written[target] = dict(mine)
            elif letter == "d":
                knows[thread] = joined(mine, written[target])
            elif letter == "r":
                mine[thread] = mine.get(thread, 0) + 1
            elif letter == "a" and mine.get(thread):
                last = numbers[thread][mine[thread] - 1]
                for other in numbers.keys() - {thread}:
                    checked += 1
                    missed += mine.get(other, 0) < bisect.bisect_left(numbers[other], last)
    if missed or checked < 100:
        sys.exit(f"values.py: {missed} of {checked} orders are missing")


def main() -> None:
    words = sys.argv[1:]
    if words[0] == "filter":
        for events in [HANDED_OVER, *(Walk(seed).events for seed in range(int(words[1])))]:
            if fault := difference(events):
                sys.exit(f"values.py: {fault}")
        if not difference(HANDED_OVER, drops_all=True):
            sys.exit("values.py: the test of the filter finds no fault when it keeps no read")
    elif words[0] == "predicates":
        test_predicates(int(words[1]))
    elif words[0] == "steps":
        test_steps(words[1], words[2], words[3] == "1")
    else:
        test_draw(words[1], words[2])


main()
