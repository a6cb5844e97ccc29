#!/usr/bin/env python3
"""Compares the cycles of random traces with those of the reduced traces: the same cycles, verdicts, least instances and witnesses.

usage: tests/reduced.py [TRACES] [FIRST]

  TRACES    the number of traces, 1 or more; default 2000
  FIRST     the seed of the first trace, 0 or more; default 0

The threads of a trace repeat sections, acquire locks again that they hold, release locks in another order than they acquired them, hand over
by variables, try to acquire locks, and may be joined. A trace may end in the middle of sections, or in a deadlock. Locks that are in no
event of the reduced trace are left out of the held locks before the cycles are compared. The replay of each confirmed cycle over the whole
trace must not have a fault, and `goodlockd replay` must accept the first completed witness of each trace.

Each second trace has variables that stand for values. It is compared with all events, and again without the accesses of plain values. Then the
cycles that are confirmed if no value decides must be those that the tools find, with their instances and replays. GOODLOCKD_PROGRAM names
another program than ./goodlockd.
"""
from __future__ import annotations

import os
import random
import re
import subprocess
import sys
import tempfile
from collections import Counter
from dataclasses import dataclass, field

ROOT = os.path.dirname(os.path.dirname(os.path.abspath(__file__)))
sys.path.insert(0, os.path.join(ROOT, "tools"))

from goodlock.completion import note_of, verdicts_of
from goodlock.grades import graded
from goodlock.program import launcher
from goodlock.reducer import Reduced, Source, reduced
from goodlock.reports import Cycle, Verdict, read_reports
from goodlock.traces import Index, read_trace

BOUND, MARK = 4, 100
ATOMIC, PLAIN = 1000, 2000  # variables from here on stand for values
Place = int
Key = tuple[tuple[int, int, tuple[int, ...]], ...]


# ---- random traces ----


def section(chooser: random.Random, locks: list[int], depth: int) -> list[tuple[str, int]]:
    """Returns the operations of a section: a lock with what happens under it."""
    lock = chooser.choice(locks)
    inner: list[tuple[str, int]] = []
    for _ in range(chooser.choice([0, 1, 1, 2]) if depth else 0):
        kind = chooser.random()
        if kind < 0.8:
            inner += section(chooser, locks, depth - 1)
        elif kind < 0.95:
            inner.append((chooser.choice("dw"), chooser.randint(1, 3)))
    words = [("a", lock), *inner, ("r", lock)]
    if chooser.random() < 0.2 and len(inner) > 2 and inner[0][0] == "a" and inner[-1] == ("r", inner[0][1]) and inner[0][1] != lock:
        words[-2:] = [("r", lock), inner[-1]]  # hand over hand
    if chooser.random() < 0.15:
        words = [("a", MARK), ("a", lock), ("r", MARK), *words[1:]]
    return words


def program(chooser: random.Random, thread: int, locks: list[int]) -> list[tuple[str, int]]:
    """Returns the operations of a thread. It repeats some of its sections."""
    mine = [*locks, 50 + thread]
    sections = [section(chooser, mine, 2) for _ in range(chooser.randint(1, 4))]
    words, accesses = list[tuple[str, int]](), chooser.choice([0.05, 0.4])
    for _ in range(chooser.randint(2, 8)):
        words += chooser.choice(sections)
        if chooser.random() < accesses:
            words.append((chooser.choice("dw"), chooser.randint(1, 3)))
    return words


@dataclass
class Run:
    """Threads that run in a random order. `done` counts the operations of each."""

    chooser: random.Random
    programs: dict[int, list[tuple[str, int]]]
    done: Counter[int] = field(default_factory=Counter)
    depths: dict[int, Counter[int]] = field(default_factory=dict)
    holders: dict[int, int] = field(default_factory=dict)
    forked: set[int] = field(default_factory=lambda: {0})
    joined: set[int] = field(default_factory=set)

    def can_step(self, thread: int) -> bool:
        if thread not in self.forked or thread in self.joined or self.done[thread] == len(self.programs[thread]):
            return False
        kind, target = self.programs[thread][self.done[thread]]
        if kind == "j":
            return target in self.forked and target not in self.joined and self.done[target] == len(self.programs[target])
        return kind != "a" or self.holders.get(target, thread) == thread

    def step(self, thread: int) -> str:
        kind, target = self.programs[thread][self.done[thread]]
        self.done[thread] += 1
        depths = self.depths.setdefault(thread, Counter())
        if kind == "a":
            self.holders[target] = thread
            depths[target] += 1
        elif kind == "r":
            depths[target] -= 1
            if not depths[target]:
                del self.holders[target]
        elif kind == "f":
            self.forked.add(target)
        elif kind == "j":
            self.joined.add(target)
        return f"{thread}{kind}{target}"


def small(seed: int) -> list[str]:
    """Returns the words of a random trace."""
    chooser = random.Random(seed)
    count, locks = chooser.randint(2, 5), list(range(1, chooser.randint(4, 7)))
    programs = {thread: program(chooser, thread, locks) for thread in range(1, count + 1)}
    programs = {thread: [(kind, target + 1000 * thread if target == MARK else target) for kind, target in words]
                for thread, words in programs.items()}
    programs[0] = [("f", thread) for thread in range(1, count + 1)] + program(chooser, 0, locks)
    programs[0] = [(kind, 99 if target == MARK else target) for kind, target in programs[0]]
    if chooser.random() < 0.5:
        programs[chooser.choice(range(count))].append(("j", count))
    return interleaved(chooser, programs, chooser.choice([30, 80, 160]))


def interleaved(chooser: random.Random, programs: dict[int, list[tuple[str, int]]], most: int) -> list[str]:
    """Returns about this many words of threads that run in a random order."""
    run, words = Run(chooser, programs), list[str]()
    while len(words) < most:
        ready = [thread for thread in programs if run.can_step(thread)]
        if not ready:
            break
        thread = chooser.choice(ready)
        for _ in range(chooser.choice([1, 3, 8, 30])):
            if run.can_step(thread):
                words.append(run.step(thread))
    return words


def accesses(chooser: random.Random, variables: list[int]) -> list[tuple[str, int]]:
    """Returns accesses that are all writes or all reads."""
    letter = chooser.choice("dw")
    return [(letter, variable) for variable in chooser.sample(variables, chooser.randint(0, len(variables)))]


def valued(seed: int) -> list[str]:
    """Returns the words of a random trace in which threads acquire two of three locks. Before, between and after that they hand over by
    variables. Some of these stand for atomic and some for plain values: several of them may imply each other."""
    chooser, programs = random.Random(seed), dict[int, list[tuple[str, int]]]()
    variables = [number + chooser.choice([0, ATOMIC, PLAIN, PLAIN]) for number in range(1, chooser.randint(3, 4))]
    count = chooser.randint(2, 3)
    for thread in range(1, count + 1):
        programs[thread] = accesses(chooser, variables)
        for _ in range(chooser.randint(1, 2)):
            one, other = chooser.sample([1, 2, 3], 2)
            programs[thread] += [("a", one), ("a", other), ("r", other), ("r", one), *accesses(chooser, variables)]
    programs[0] = [("f", thread) for thread in range(1, count + 1)]
    return interleaved(chooser, programs, 80)


def is_plain(word: str) -> bool:
    match = re.fullmatch("[0-9]+[dw]([0-9]+)", word)
    return match is not None and int(match[1]) >= PLAIN


def marks_of(words: list[str]) -> list[int]:
    return sorted({int(word.split("a")[1]) for word in words if "a" in word and (int(word.split("a")[1]) % 1000 == MARK or int(
        word.split("a")[1]) == 99)})


# ---- comparison ----


@dataclass
class Row:
    """A cycle, or several with the same members without the locks that were left out. `instance` has the place of each member, by thread."""

    is_confirmed: bool = False
    instance: dict[int, Place] = field(default_factory=dict)
    witness: list[Place] = field(default_factory=list)

    def add(self, instance: dict[int, Place], witness: list[Place]) -> None:
        """Adds a confirmed cycle. The least instance is that of one of them."""
        if not self.is_confirmed or all(instance[thread] <= self.instance[thread] for thread in instance):
            self.is_confirmed, self.instance, self.witness = True, instance, witness


def rows_of(trace: str, report: str, locks: set[int], places: list[Place]) -> dict[Key, Row]:
    rows: dict[Key, Row] = {}
    for _, cycle in read_reports(report, Index(read_trace(trace))):
        if cycle:
            row = rows.setdefault(key_of(cycle, locks), Row())
            if cycle.verdict is Verdict.CONFIRMED:
                instance = {member.thread: places[member.place] for member in cycle.members if member.place is not None}
                row.add(instance, [places[place] for place in cycle.witness])
    return rows


def key_of(cycle: Cycle, locks: set[int]) -> Key:
    members = [(member.thread, member.lock, tuple(sorted(locks & set(member.held)))) for member in cycle.members]
    least = members.index(min(members))
    return tuple(members[least:] + members[:least])


def offline(trace: str, report: str) -> None:
    with open(report, "w", encoding="ascii") as file:
        subprocess.run([launcher(), "offline", trace, "--bound", str(BOUND)], stdout=file, check=True)


def fault_of(words: list[str], whole: dict[Key, Row], short: dict[Key, Row], kept: set[Place]) -> str:
    """Returns how the rows differ, or an empty text. A witness of the whole trace may end some threads after further releases: those of
    sections that were left out, and releases before them."""
    if whole.keys() != short.keys():
        return f"other cycles: {whole.keys() ^ short.keys()}"
    for key, row in whole.items():
        other = short[key]
        if (row.is_confirmed, row.instance) != (other.is_confirmed, other.instance):
            return f"{key}: {row} and {other}"
        more = set(row.witness) & kept - set(other.witness)
        if not set(other.witness) <= set(row.witness) or any("r" not in words[place] for place in more):
            return f"{key}: {row} and {other}"
    return ""


def fault_of_replay(trace: str, words: list[str], found: Reduced, index: Index, cycles: list[Cycle]) -> str:
    """Returns what the replays of these cycles with their witnesses over the whole trace find, or an empty text. They have one verdict."""
    folder, is_whole = os.path.dirname(trace), not cycles or cycles[0].verdict is Verdict.CONFIRMED
    with_verdicts = ((cycle.members, cycle.witness, cycle.verdict) for cycle in cycles)
    replays = list(verdicts_of(found, [Source(trace)], index, with_verdicts, folder))
    for cycle, replay in zip(cycles, replays):
        if replay.fault:
            return f"cycle {cycle.name}: {note_of(replay, [Source(trace)])}"
    if not cycles:
        return ""
    places = [place for place, word in enumerate(words) if is_whole or not is_plain(word)]
    lasts = {thread: spot.place for thread, spot in replays[0].ends.items()}
    order = [at for at, place in enumerate(places) if place <= lasts.get(int(re.split("[a-z]", words[place])[0]), -1)]
    path = write(f"{trace}.replayed", [words[place] for place in places])
    with open(f"{trace}.witness", "w", encoding="ascii") as file:
        file.write(f"reach {' '.join(str(places.index(found.places[member.place or 0])) for member in cycles[0].members)}\n")
        file.write(f"order {' '.join(map(str, order))}\n")
    done = subprocess.run([launcher(), "replay", path, f"{trace}.witness"], stdout=subprocess.PIPE, encoding="ascii")
    return "" if done.stdout == "reaches\n" else f"cycle {cycles[0].name}: goodlockd replay prints {done.stdout}"


def write(path: str, words: list[str], comments: str = "") -> str:
    with open(path, "w", encoding="ascii") as file:
        file.write(f"{comments}{' '.join(words)}\n")
    return path


@dataclass
class Compared:
    """A trace and its reduction."""

    trace: str
    words: list[str]
    found: Reduced
    whole: dict[Key, Row] = field(default_factory=dict)
    without: dict[Key, Row] = field(default_factory=dict)

    def __post_init__(self) -> None:
        self.index = Index(read_trace(self.found.traces[0]))
        self.locks = {event.target for event in self.index.events if event.letter == "a"}

    def rows(self, kept: list[Place], name: str) -> dict[Key, Row]:
        """Returns the rows of the report on the events at these places."""
        path = write(f"{self.trace}.{name}", [self.words[place] for place in kept])
        offline(path, f"{path}.report")
        return rows_of(path, f"{path}.report", self.locks, kept)

    def fault(self) -> str:
        """Returns how the reduced trace differs, or an empty text."""
        places = list(self.found.places)
        if [f"{event.thread}{event.letter}{event.target}" for event in self.index.events] != [self.words[place] for place in places]:
            return "the reduced trace has other events than its places"
        self.whole, short = self.rows(list(range(len(self.words))), "all"), self.rows(places, "short")
        fault = fault_of(self.words, self.whole, short, set(places))
        if fault or not self.whole:
            return fault  # accesses change no cycle
        if self.index.values is None:
            return fault_of_replay(self.trace, self.words, self.found, self.index, self.cycles_of(Verdict.CONFIRMED))
        kept = [place for place in places if not is_plain(self.words[place])]
        every = [place for place, word in enumerate(self.words) if not is_plain(word)]
        self.without, without_short = self.rows(every, "all_without"), self.rows(kept, "short_without")
        return (fault_of(self.words, self.without, without_short, set(kept)) or self.fault_of_verdicts()
                or fault_of_replay(self.trace, self.words, self.found, self.index, self.cycles_of(Verdict.CONFIRMED))
                or fault_of_replay(self.trace, self.words, self.found, self.index, self.cycles_of(Verdict.NO_VALUE)))

    def cycles_of(self, verdict: Verdict) -> list[Cycle]:
        """Returns the cycles of the reduced trace that have a verdict."""
        rows = graded(self.index, read_reports(f"{self.trace}.short.report", self.index), folder=os.path.dirname(self.trace))
        return [cycle for _, cycle in rows if cycle and cycle.verdict is verdict]

    def fault_of_verdicts(self) -> str:
        """Returns how the verdicts that the tools give the cycles of the reduced trace differ from those of the reports on the whole one."""
        wanted = {key: row.instance for key, row in self.without.items() if row.is_confirmed and not self.whole[key].is_confirmed}
        rows = dict[Key, Row]()
        for cycle in self.cycles_of(Verdict.NO_VALUE):
            instance = {member.thread: self.found.places[member.place or 0] for member in cycle.members}
            rows.setdefault(key_of(cycle, self.locks), Row()).add(instance, [])
        found = {key: row.instance for key, row in rows.items() if not self.whole[key].is_confirmed}
        return "" if found == wanted else f"if no value decides: {found} and {wanted}"


def compare(folder: str, seed: int) -> Compared:
    words, comments = (valued(seed), f"# values atomic {ATOMIC} plain {PLAIN}\n") if seed % 2 else (small(seed), "")
    trace = write(os.path.join(folder, "whole.trace"), words, comments + "".join(f"# mark {mark}\n" for mark in marks_of(words)))
    compared = Compared(trace, words, reduced([Source(trace)], folder))
    if fault := compared.fault():
        sys.exit(f"seed {seed}: {fault}\n{' '.join(words)}\nkept: {' '.join(words[place] for place in compared.found.places)}")
    return compared


def main(arguments: list[str]) -> None:
    if arguments in (["--help"], ["-h"]):
        print((__doc__ or "").strip())
        return
    if len(arguments) > 2 or not all(word.isdecimal() for word in arguments):
        sys.exit((__doc__ or "").strip())
    count, first = [int(word) for word in [*arguments, "2000", "0"][:2]] if len(arguments) != 1 else (int(arguments[0]), 0)
    total: Counter[str] = Counter()
    with tempfile.TemporaryDirectory() as folder:
        for seed in range(first, first + count):
            compared = compare(folder, seed)
            total["events"] += compared.found.events
            total["kept"] += len(compared.found.places)
            total["cycles"] += len(compared.whole)
            total["confirmed"] += sum(row.is_confirmed for row in compared.whole.values())
            total["no value"] += sum(row.is_confirmed and not compared.whole[key].is_confirmed for key, row in compared.without.items())
    print(f"{count} traces agree: {total['events']} events, {total['kept']} kept; {total['cycles']} cycles, {total['confirmed']} confirmed, "
          f"{total['no value']} if no value decides")


if __name__ == "__main__":
    main(sys.argv[1:])
