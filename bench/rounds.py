#!/usr/bin/env python3
"""Like rounds.c, in Python.

usage: rounds.py THREADS ROUNDS
"""
import sys
import threading
import time


def run(locks, rounds):
    for at in range(rounds):
        first = at % 7
        with locks[first], locks[first + 1]:
            sum(range(40))


def main():
    threads, rounds = int(sys.argv[1]), int(sys.argv[2])
    locks = [threading.Lock() for _ in range(8)]
    runners = [threading.Thread(target=run, args=(locks, rounds)) for _ in range(threads)]
    began = time.monotonic()
    for runner in runners:
        runner.start()
    for runner in runners:
        runner.join()
    print(f"{time.monotonic() - began:.6f}")


if __name__ == "__main__":
    main()
