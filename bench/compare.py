#!/usr/bin/env python3
"""Compares goodlockd with an independent program: reports and explanations of small random traces, and refusals of random events.

usage: bench/compare.py [TRACES] [EVENTS] [FIRST]

  TRACES    the number of traces, 1 or more; default 200
  EVENTS    the events of each trace, 4 or more; default 60
  FIRST     the seed of the first trace, 0 or more; default 0

The independent program is in this file. It lists the cycles by trying all tuples of dependencies. It computes a closure by
repeating the rules until nothing is added. It tries the instances of a cycle in lexicographic order. It checks each refutation that
`explain` prints from its definition. It decides whether an event is lawful by scanning all earlier events. It is slow, and shares no
code with goodlockd.
GOODLOCKD_PROGRAM names another program than ./goodlockd.
"""
import collections
import itertools
import os
import random
import re
import subprocess
import sys
import tempfile

import traces

ROOT = os.path.dirname(os.path.dirname(os.path.abspath(__file__)))
sys.path.insert(0, os.path.join(ROOT, "tools"))

from goodlock.traces import EventReader


def parse(words):
    """Returns the events of a line's words, each a thread, a letter and a target."""
    return [event[:3] for event in EventReader("").events_of(" ".join(words))]


def depth(events, thread, lock):
    """Returns the number of the thread's acquires of the lock minus its releases."""
    kinds = [kind for other, kind, target in events if other == thread and target == lock]
    return kinds.count("a") - kinds.count("r")


def is_outermost(events, place):
    """Returns whether the acquire at the place begins a critical section, or the release there ends one."""
    thread, kind, lock = events[place]
    return depth(events[:place], thread, lock) == (0 if kind == "a" else 1)


def dependencies(events):
    """Returns each dependency with its places, in order of first appearance."""
    depths = {}
    places = {}
    for place, (thread, kind, target) in enumerate(events):
        mine = depths.setdefault(thread, collections.Counter())
        if kind == "a":
            locks = frozenset(+mine)
            if locks and target not in locks:
                places.setdefault((thread, target, locks), []).append(place)
            mine[target] += 1
        elif kind == "r":
            mine[target] -= 1
    return list(places.items())


def is_cycle(members):
    threads = [thread for thread, _, _ in members]
    locks = [lock for _, lock, _ in members]
    helds = [held for _, _, held in members]
    return (
        len(set(threads)) == len(threads)
        and len(set(locks)) == len(locks)
        and all(not (a & b) for a, b in itertools.combinations(helds, 2))
        and all(locks[i] in helds[(i + 1) % len(members)] for i in range(len(members)))
    )


def cycles(known, bound):
    """Returns the cycles in lexicographic order."""
    found = []
    for size in range(2, bound + 1):
        for numbers in itertools.permutations(range(len(known)), size):
            if numbers[0] == min(numbers) and is_cycle([known[number][0] for number in numbers]):
                found.append(numbers)
    return sorted(found)


def needs(events, place):
    """Yields the places that a closed set with this place also contains, except for the rule of critical sections."""
    thread, kind, target = events[place]
    for other, (other_thread, other_kind, other_target) in enumerate(events):
        if other < place and other_thread == thread:
            yield other
        if other_kind == "f" and other_target == thread:
            yield other
        if kind == "j" and (other_thread == target or (other_kind == "f" and other_target == target)):
            yield other
    if kind == "d":
        writes = [other for other in range(place) if events[other][1:] == ("w", target)]
        yield from writes[-1:]


def release(events, place):
    """Returns the release of an outermost acquire, or None."""
    thread, _, lock = events[place]
    later = [other for other in range(place + 1, len(events)) if events[other] == (thread, "r", lock)]
    return next((other for other in later if is_outermost(events, other)), None)


def closure(events, instance):
    inside = {p for place in instance for p in range(place) if events[p][0] == events[place][0]}
    begins = {place for place, (_, kind, _) in enumerate(events) if kind == "a" and is_outermost(events, place)}
    while True:
        more = set(inside)
        for place in inside:
            more.update(needs(events, place))
        acquires = inside & begins
        for first in acquires:
            if any(first < other and events[first][2] == events[other][2] for other in acquires):
                end = release(events, first)
                if end is not None:
                    more.add(end)
        if more == inside:
            return inside
        inside = more


def row(events, known, numbers):
    for instance in itertools.product(*[known[number][1] for number in numbers]):
        inside = closure(events, instance)
        if not inside & set(instance):
            return instance, sorted(inside)
    return None


def report(events, bound):
    known = dependencies(events)
    lines = []
    confirmed = 0
    found = cycles(known, bound)
    for numbers in found:
        reached = row(events, known, numbers)
        verdict = "potential" if reached is None else "confirmed"
        lines.append("cycle " + " ".join(map(str, numbers)) + " " + verdict)
        for i, number in enumerate(numbers):
            thread, lock, held = known[number][0]
            line = f"  thread {thread} lock {lock} holds " + " ".join(map(str, sorted(held)))
            lines.append(line if reached is None else line + f" place {reached[0][i]}")
        if reached is not None:
            confirmed += 1
            lines.append("  witness" + "".join(f" {place}" for place in reached[1]))
    head = f"question 0 length {len(events)} bound {bound} cycles {len(found)} confirmed {confirmed}"
    return "\n".join([head] + lines) + "\n", len(found), confirmed


REASONS = {
    "before": r"  before place (\d+) its thread runs place (\d+)",
    "order": r"  place (\d+) needs place (\d+): earlier in its thread",
    "fork or join": r"  place (\d+) needs place (\d+): fork or join",
    "read": r"  place (\d+) reads what place (\d+) wrote",
    "sections": r"  places (\d+) and (\d+) acquire one lock: place (\d+) releases it between them",
}
CONCLUSION = r"  so place (\d+) must run: thread (\d+) cannot stop before it"


def holds(events, kind, named, place, present, derived):
    """Returns whether the reason, which names these places, derives the place."""
    if not set(named) <= (set(present) if kind == "before" else derived):
        return False
    if kind == "sections":
        first, second = named
        begins = [events[p][1] == "a" and is_outermost(events, p) for p in named]
        return first < second and all(begins) and events[first][2] == events[second][2] and release(events, first) == place
    of = named[0]
    thread, letter, target = events[of]
    if kind in ("before", "order"):
        return place < of and events[place][0] == thread
    if kind == "read":
        writes = [other for other in range(of) if events[other][1:] == ("w", target)]
        return letter == "d" and writes[-1:] == [place]
    is_fork = events[place][1:] == ("f", thread)
    is_joined = letter == "j" and (events[place][0] == target or events[place][1:] == ("f", target))
    return is_fork or is_joined


def refutation_fault(events, known, numbers, lines):
    """Returns the first line that is wrong in a refutation of the cycle, or None."""
    present = [known[number][1][0] for number in numbers]
    derived, ended = set(), False
    for line in lines:
        step = re.fullmatch(CONCLUSION, line)
        found = [(kind, match) for kind, form in REASONS.items() if (match := re.fullmatch(form, line))]
        if ended or not (step or found):
            return line
        if step:
            place, thread = map(int, step.groups())
            member = next((i for i, number in enumerate(numbers) if known[number][0][0] == thread), None)
            if member is None or present[member] != place or place not in derived:
                return line
            places = known[numbers[member]][1]
            later = [other for other in places if other > place]
            ended, derived = not later, set()
            present[member] = later[0] if later else place
        else:
            kind, match = found[0]
            *named, place = map(int, match.groups())
            if not holds(events, kind, named, place, present, derived):
                return line
            derived.add(place)
    return None if ended else "the end"


def compare_explanations(program, path, events, bound, wanted):
    """Checks what `explain` prints, also with `check`. Returns the number of refutations, or ends with the fault."""
    known = dependencies(events)
    got = subprocess.run([program, "explain", path, "--bound", str(bound)], capture_output=True, text=True)
    rows, refuted = [], 0
    for text in re.split(r"(?m)^(?=cycle )", got.stdout)[1:]:
        lines = text.splitlines()
        numbers = [int(word) for word in lines[0].split()[1:-1]]
        is_confirmed = lines[0].endswith("confirmed")
        size = 1 + len(numbers) + is_confirmed
        rows += lines[:size]
        fault = None if is_confirmed else refutation_fault(events, known, numbers, lines[size:])
        if fault is not None or (is_confirmed and len(lines) > size):
            sys.exit(f"{path}, bound {bound}, {lines[0]}: the refutation is wrong at: {fault}\n{got.stdout}")
        refuted += not is_confirmed
    if got.returncode != 0 or rows != wanted.splitlines()[1:]:
        sys.exit(f"{path}, bound {bound}: explain prints other rows\n{got.stdout}{got.stderr}")
    with open(path + ".cycles", "w") as out:
        out.write(got.stdout)
    checked = subprocess.run([program, "check", path, path + ".cycles"], capture_output=True, text=True)
    if checked.returncode != 0 or not all(line.endswith(" valid") for line in checked.stdout.splitlines()):
        sys.exit(f"{path}, bound {bound}: check refuses what explain printed\n{got.stdout}{checked.stdout}{checked.stderr}")
    return refuted


MOST_HELD, MOST_DEPTH = 32, 255


def refusal(events, event, limit):
    """Returns the printed refusal of the event after these, or None if it is lawful."""
    thread, kind, target = event
    exists = lambda kind, target: any(other[1:] == (kind, target) for other in events)
    held = [lock for lock in {other[2] for other in events if other[1] == "a"} if depth(events, thread, lock) > 0]
    others = {other[0] for other in events} - {thread}
    tests = [
        ("1 Full", len(events) >= limit),
        ("2 Unforked", thread != 0 and not exists("f", thread)),
        ("3 Ended", exists("j", thread)),
        ("4 AlreadyForked", kind == "f" and (target == 0 or exists("f", target))),
        ("6 JoinsItself", kind == "j" and target == thread),
        ("7 JoinUnknown", kind == "j" and (target == 0 or not exists("f", target))),
        ("8 JoinedTwice", kind == "j" and exists("j", target)),
        ("9 TooNested", kind == "a" and depth(events, thread, target) >= MOST_DEPTH),
        ("10 HeldByOther", kind == "a" and any(depth(events, other, target) > 0 for other in others)),
        ("11 TooDeep", kind == "a" and target not in held and len(held) >= MOST_HELD),
        ("12 NotHeld", kind == "r" and target not in held),
    ]
    return next((words for words, applies in tests if applies), None)


def compare_refusals(program, path, seed, events):
    """Runs random events, lawful or not, as a script, and returns the number of refusals."""
    numbers = random.Random(seed)
    limit = events // 2
    few = numbers.choice([3, 20])
    offered = [
        (numbers.randrange(4), numbers.choice("fjaaaaarrrdw"), numbers.randrange(few)) for _ in range(events)
    ]
    accepted, wanted = [], []
    for event in offered:
        refused = refusal(accepted, event, limit)
        wanted.append(f"refused {refused}" if refused else f"placed {len(accepted)}")
        accepted += [] if refused else [event]
    with open(path, "w") as out:
        out.write("".join("%d%s%d\n" % event for event in offered))
    got = subprocess.run([program, "script", path, "--limit", str(limit)], capture_output=True, text=True)
    if got.returncode != 0 or got.stdout.splitlines() != wanted:
        print(f"seed {seed}, {events} events, limit {limit}: other events are refused")
        sys.exit(1)
    return sum(line.startswith("refused") for line in wanted)


def main(arguments):
    if arguments in (["--help"], ["-h"]):
        print(__doc__.strip())
        return
    if len(arguments) > 3 or not all(word.isdecimal() for word in arguments):
        sys.exit(__doc__.strip())
    root = os.path.dirname(os.path.dirname(os.path.abspath(__file__)))
    program = os.path.abspath(os.environ.get("GOODLOCKD_PROGRAM", os.path.join(root, "goodlockd")))
    count, events, first = [int(word) for word in arguments] + [200, 60, 0][len(arguments) :]
    total = sum_confirmed = refused = refuted = 0
    with tempfile.TemporaryDirectory() as folder:
        path = os.path.join(folder, "small.trace")
        for seed in range(first, first + count):
            words = traces.small(seed, events)
            with open(path, "w") as out:
                out.write(" ".join(words) + "\n")
            bound = 2 + seed % 2
            got = subprocess.run([program, "offline", path, "--bound", str(bound)], capture_output=True, text=True)
            wanted, found, confirmed = report(parse(words), bound)
            if got.returncode != 0 or got.stdout != wanted:
                print(f"seed {seed}, {events} events, bound {bound}: the reports differ")
                print(" ".join(words))
                print("--- goodlockd\n" + got.stdout + got.stderr + "--- compare.py\n" + wanted)
                sys.exit(1)
            refuted += compare_explanations(program, path, parse(words), bound, wanted)
            total += found
            sum_confirmed += confirmed
            refused += compare_refusals(program, path, seed, 2 * events)
    print(f"{count} traces of {events} events agree: {total} cycles, {sum_confirmed} confirmed, {refuted} refuted; {refused} refusals agree")


if __name__ == "__main__":
    main(sys.argv[1:])
