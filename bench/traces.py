#!/usr/bin/env python3
"""Writes a trace as an event file to standard output.

usage: bench/traces.py KIND NUMBER ..

  opposite ROUNDS      two threads acquire two locks in opposite orders, ROUNDS times each
  rows LOCKS           two threads acquire lock 1 and each other lock up to LOCKS in opposite orders
  taken LOCKS          thread 0 acquires lock 1 while it holds each other lock, then forks thread 1, which does the reverse
  accounts SECTIONS    16 threads acquire two of 64 locks, SECTIONS times in all
  nested SECTIONS      12 threads hold one to five of 40 locks, SECTIONS times in all
  pairs LOCKS          four threads acquire all pairs of LOCKS locks, in one order
  orders LOCKS         four threads acquire all pairs of LOCKS locks, in both orders
  ring LOCKS           eight threads acquire the pairs of LOCKS locks in a ring that are one to four apart
  couples THREADS WRITES    each two of THREADS threads acquire two locks of their own in opposite orders; then thread 0 writes WRITES times
  variables EVENTS     ten threads read and write 500 variables, and acquire two of 30 locks that are at most three apart
  pools ROUNDS         eight pairs of threads with two locks and two variables each, ROUNDS times 64 events of each pair
  spread SECTIONS      eight threads acquire three of 20,000 locks with numbers of 32 bits, mostly in one order
  small SEED EVENTS    a random lawful trace of four threads and four locks

Each NUMBER is 1 or more, SEED 0 or more. goodlockd accepts at most 1048576 events.
"""
import random
import sys


def forks(threads):
    return [f"0f{thread}" for thread in range(1, threads + 1)]


def section(thread, locks):
    taken = [f"{thread}a{lock}" for lock in locks]
    return taken + [f"{thread}r{lock}" for lock in reversed(locks)]


def opposite(rounds):
    words = forks(2)
    for _ in range(rounds):
        words += section(1, [10, 20]) + section(2, [20, 10])
    return words


def rows(locks):
    """Thread 0 acquires each other lock while it holds lock 1; then thread 1 acquires lock 1 while it holds each."""
    words = forks(1)
    for lock in range(2, locks + 1):
        words += section(0, [1, lock])
    for lock in range(2, locks + 1):
        words += section(1, [lock, 1])
    return words


def taken(locks):
    """Thread 0 acquires lock 1 while it holds each other lock, and forks thread 1, which does the reverse."""
    words = []
    for lock in range(2, locks + 1):
        words += section(0, [lock, 1])
    words += forks(1)
    for lock in range(2, locks + 1):
        words += section(1, [1, lock])
    return words


def accounts(count, seed=1):
    chooser = random.Random(seed)
    words = forks(16)
    for turn in range(count):
        thread = chooser.randint(1, 16)
        words += section(thread, chooser.sample(range(64), 2))
        if turn % 4 == 0:
            words.append(f"{thread}{chooser.choice('dw')}{chooser.randint(0, 1)}")
    return words


def nested(count, seed=1):
    """One section in 50 acquires its locks in random order, the others in ascending order."""
    chooser = random.Random(seed)
    words = forks(12)
    for _ in range(count):
        locks = sorted(chooser.sample(range(40), chooser.randint(1, 5)))
        if chooser.random() < 0.02:
            chooser.shuffle(locks)
        words += section(chooser.randint(1, 12), locks)
    return words


def pairs(locks):
    """Every thread acquires the smaller lock first, so there is no cycle."""
    words = forks(4)
    for thread in range(1, 5):
        for first in range(locks):
            for second in range(first + 1, locks):
                words += section(thread, [first, second])
    return words


def orders(locks):
    words = forks(4)
    for thread in range(1, 5):
        for first in range(locks):
            for second in range(locks):
                if first != second:
                    words += section(thread, [first, second])
    return words


def ring(locks):
    """A cycle goes around the whole ring, so with more than 32 locks no bound has one."""
    words = forks(8)
    for thread in range(1, 9):
        for first in range(locks):
            for further in range(1, 5):
                words += section(thread, [first, (first + further) % locks])
    return words


def couples(threads, writes):
    """Each couple is a confirmed cycle. Its witness has at most the forks and the sections of two threads."""
    words = forks(threads)
    for first in range(1, threads + 1):
        for second in range(first + 1, threads + 1):
            locks = [first * threads + second, (first + threads) * threads + second]
            words += section(first, locks) + section(second, locks[::-1])
    return words + ["0w1"] * writes


def variables(events, seed=1):
    """Up to 23 accesses are before each section, a quarter of them writes."""
    chooser = random.Random(seed)
    words = forks(10)
    while len(words) + 27 <= events:
        thread = chooser.randint(1, 10)
        for _ in range(chooser.randrange(24)):
            words.append(f"{thread}{chooser.choice('wddd')}{chooser.randrange(500)}")
        lock = chooser.randrange(30)
        words += section(thread, [lock, (lock + chooser.randint(1, 3)) % 30])
    return words


def pools(rounds):
    """The pairs take turns. The threads of a pair acquire its locks in opposite orders, and read what the other wrote."""
    words = forks(16)
    for _ in range(rounds):
        for thread in range(1, 17, 2):
            for one, other in [(thread, thread + 1), (thread + 1, thread)] * 4:
                words += [f"{one}a{one}", f"{one}a{other}", f"{one}w{one}", f"{one}d{one}"]
                words += [f"{one}r{other}", f"{one}r{one}", f"{one}w{one}", f"{one}d{other}"]
    return words


def spread(sections, seed=1):
    """Most sections have dependencies that no other section has. One in 32 acquires its locks in random order."""
    chooser = random.Random(seed)
    numbers = [chooser.randrange(1 << 32) for _ in range(20_000)]
    words = forks(8)
    for turn in range(sections):
        locks = sorted(set(chooser.sample(numbers, 3)))
        if chooser.randrange(32) == 0:
            chooser.shuffle(locks)
        words += section(1 + turn % 8, locks)
    return words


def small(seed, events):
    """Random lawful events of four threads, four locks and two variables. Some acquires are inner; thread 3 may be joined."""
    chooser = random.Random(seed)
    words = ["0f1", "0f2", "0f3"]
    held = {thread: [] for thread in range(4)}
    owner = {}
    ended = set()
    while len(words) < events:
        thread = chooser.choice([t for t in range(4) if t not in ended])
        kind = chooser.random()
        if kind < 0.42 and len(held[thread]) < 4:
            free = [lock for lock in range(4) if lock not in owner]
            if held[thread] and chooser.random() < 0.2:
                free = held[thread]  # an inner acquire
            if free:
                lock = chooser.choice(free)
                owner[lock] = thread
                held[thread].append(lock)
                words.append(f"{thread}a{lock}")
        elif kind < 0.80 and held[thread]:
            lock = chooser.choice(held[thread])
            held[thread].remove(lock)
            if lock not in held[thread]:
                del owner[lock]
            words.append(f"{thread}r{lock}")
        elif kind < 0.88:
            words.append(f"{thread}w{chooser.randint(0, 1)}")
        elif kind < 0.96:
            words.append(f"{thread}d{chooser.randint(0, 1)}")
        elif kind > 0.99 and thread != 3 and 3 not in ended and not held[3] and len(words) > 8:
            ended.add(3)
            words.append(f"{thread}j3")
    return words


KINDS = {
    "opposite": opposite,
    "rows": rows,
    "taken": taken,
    "accounts": accounts,
    "nested": nested,
    "pairs": pairs,
    "orders": orders,
    "ring": ring,
    "couples": couples,
    "variables": variables,
    "pools": pools,
    "spread": spread,
    "small": small,
}


def main(arguments):
    if arguments in (["--help"], ["-h"]):
        print(__doc__.strip())
        return
    if len(arguments) < 2 or arguments[0] not in KINDS:
        sys.exit(__doc__.strip())
    words = KINDS[arguments[0]](*[int(argument) for argument in arguments[1:]])
    for start in range(0, len(words), 16):
        print(" ".join(words[start : start + 16]))


if __name__ == "__main__":
    main(sys.argv[1:])
