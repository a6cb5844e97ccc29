"""The cases of `goodlock --reproduce` for Python: usage: reproduce_cases.py NAME.

Each case has a cycle of two locks. With ORDERED in the environment, as in the run that is recorded, steps which the agent does not see make
the events the same in every run, and keep the threads apart. Without it only the agent brings the threads into their order.
"""
import concurrent.futures
import os
import queue
import sys
import threading
import time

A, B, C = threading.Lock(), threading.Lock(), threading.Lock()
STEPS = [0]
IS_ORDERED = "ORDERED" in os.environ
VALUE = [0]


def until(number):
    while IS_ORDERED and STEPS[0] < number:
        time.sleep(0.001)


def advance():
    STEPS[0] += 1


def both(outer, inner):
    with outer:
        with inner:
            VALUE[0] += 1


def forward():
    both(A, B)
    advance()


def backward():
    until(1)
    both(B, A)


def run(*bodies):
    threads = [threading.Thread(target=body) for body in bodies]
    for thread in threads:
        thread.start()
    for thread in threads:
        thread.join()


def plain():
    run(forward, backward)


def recursive():
    one, two = threading.RLock(), threading.RLock()

    def outer():
        with one, one, two:
            VALUE[0] += 1
        advance()

    def inner():
        until(1)
        with two, one:
            VALUE[0] += 1

    run(outer, inner)


def condition():
    """A member waits on a condition before its locks; the condition has a lock of its own."""
    ready = threading.Condition(C)

    def waits():
        with ready:
            advance()
            while not VALUE[0]:
                ready.wait()
        until(3)
        both(B, A)

    def wakes():
        until(1)
        with ready:
            VALUE[0] = 1
            ready.notify_all()
        both(A, B)
        STEPS[0] = 3

    run(waits, wakes)


def within():
    """A member gets stuck where its wait acquires the lock again."""
    ready = threading.Condition(B)

    def waits():
        with A, ready:
            advance()
            while not VALUE[0]:
                ready.wait()
        advance()

    def wakes():
        until(1)
        with ready:
            VALUE[0] = 1
            ready.notify()
        until(2)
        both(B, A)

    run(waits, wakes)


def event():
    ready = threading.Event()

    def sets():
        ready.set()
        forward()

    def waits():
        ready.wait()
        backward()

    run(sets, waits)


def queues():
    items = queue.Queue()

    def puts():
        items.put(1)
        forward()

    def gets():
        items.get()
        backward()

    run(puts, gets)


def semaphore():
    gate = threading.Semaphore(0)

    def opens():
        gate.release()
        forward()

    def passes():
        gate.acquire()
        backward()

    run(opens, passes)


def pool():
    """In the recorded run each of the two workers has a task before one of them is done."""

    def first():
        until(1)
        both(A, B)
        advance()

    def second():
        advance()
        until(2)
        both(B, A)

    with concurrent.futures.ThreadPoolExecutor(2) as workers:
        for future in [workers.submit(first), workers.submit(second)]:
            future.result()


def rounds():
    """How many rounds each thread makes differs by run."""

    def many(number, then):
        for _ in range(number if IS_ORDERED else 7 - number):
            with C:
                VALUE[0] += 1
        then()

    run(lambda: many(3, forward), lambda: many(5, backward))


def attempt():
    """The cycle is only in the branch of an attempt that has failed."""

    def holds():
        with C:
            advance()
            until(2)
        advance()

    def fails():
        until(1)
        if C.acquire(False):
            C.release()
            return
        advance()
        until(4)
        both(B, A)

    def later():
        until(3)
        both(A, B)
        advance()

    run(holds, fails, later)


def told():
    """Potential: the second thread waits for a word that another thread than in the recorded run may say too."""
    ready = threading.Event()

    def says():
        both(A, B)
        ready.set()
        advance()

    def waits():
        ready.wait()
        both(B, A)

    threads = [threading.Thread(target=body) for body in (says, waits)]
    for thread in threads:
        thread.start()
    until(1)
    ready.set()
    for thread in threads:
        thread.join()


def false_value():
    """The second thread takes its locks only if it reads what the first one writes after its own."""

    def writes():
        both(A, B)
        with C:
            VALUE[0] = 100
        advance()

    def reads():
        until(1)
        with C:
            is_done = VALUE[0] >= 100
        if is_done:
            both(B, A)
        else:
            print("nothing to do", flush=True)

    run(writes, reads)
    print("end", flush=True)
    sys.exit(7)


CASES = {case.__name__: case for case in (plain, recursive, condition, within, event, queues, semaphore, pool, rounds, attempt, told, false_value)}

if __name__ == "__main__":
    CASES[sys.argv[1]]()
