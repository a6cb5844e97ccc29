#!/usr/bin/env python3
"""The cases of the agent for Python.

usage: agent_cases.py NAME

Each case runs two threads. The first one acquires two locks in one order, later the second one in the other order; what is between
them differs. Steps, which the agent does not see, make the events of a case the same in every run. The docstring of a case has the
trace that the agent must write; tests/agents_python compares it.
"""
import os
import queue
import signal
import sys
import threading
import time

A, B, GUARD = threading.Lock(), threading.Lock(), threading.Lock()
steps = []


def until(number):
    while len(steps) < number:
        time.sleep(0.001)


def after():
    steps.append(1)


def both(first, second):
    with first, second:
        pass


def run_two(first, second):
    """Runs both in threads, which begin when both are started."""
    can_begin = []

    def begin(body):
        while not can_begin:
            time.sleep(0.001)
        body()

    threads = [threading.Thread(target=begin, args=(body,)) for body in (first, second)]
    for thread in threads:
        thread.start()
    can_begin.append(1)
    for thread in reversed(threads):
        thread.join()


def a_then_b():
    both(A, B)
    after()


def b_then_a():
    until(1)
    both(B, A)


def blocking():
    """0f1 0f2 1a1 1a2 1r2 1r1 2a2 2a1 2r1 2r2 0j2 0j1"""
    run_two(a_then_b, b_then_a)


def gate_lock():
    """0f1 0f2 1a1 1a2 1a3 1r3 1r2 1r1 2a1 2a3 2a2 2r2 2r3 2r1 0j2 0j1"""

    def first():
        with GUARD:
            both(A, B)
        after()

    def second():
        until(1)
        with GUARD:
            both(B, A)

    run_two(first, second)


def tried():
    """0f1 0f2 1a1 1a2 1r2 1r1 2a2 2a3000000002 2a1 2r3000000002 2r1 2r2 0j2 0j1"""

    def second():
        until(1)
        with B:
            assert A.acquire(blocking=False)
            A.release()

    run_two(a_then_b, second)


def timed():
    """0f1 0f2 1a1 1a2 1r2 1r1 2a2 2a3500000002 2a1 2r3500000002 2r1 2r2 0j2 0j1"""

    def second():
        until(1)
        with B:
            assert A.acquire(timeout=10)
            A.release()

    run_two(a_then_b, second)


def semaphore():
    """0f1 0f2 1a1 1a2 1r2 1r1 1d1 1w1 2d1 2a2 2a1 2r1 2r2 0j2 0j1"""
    posted = threading.Semaphore(0)

    def first():
        both(A, B)
        posted.release()

    def second():
        assert posted.acquire()
        both(B, A)

    run_two(first, second)


def event():
    """0f1 0f2 1a1 1a2 1r2 1r1 1d1 1w1 2d1 2a2 2a1 2r1 2r2 0j2 0j1"""
    is_set = threading.Event()

    def first():
        both(A, B)
        is_set.set()

    def second():
        assert is_set.wait()
        both(B, A)

    run_two(first, second)


def simple_queue():
    """0f1 0f2 1a1 1a2 1r2 1r1 1d1 1w1 1d2 1w2 2d1 2a2 2a1 2r1 2r2 0j2 0j1"""
    items = queue.SimpleQueue()

    def first():
        both(A, B)
        items.put("first")
        items.put_nowait("second")
        after()

    def second():
        until(1)
        assert items.get(timeout=10) == "first" and items.qsize() == 1
        both(B, A)

    run_two(first, second)


def other_item():
    """0f1 0f2 2d1 2w1 1a1 1a2 1r2 1r1 1d2 1w2 2d1 2a2 2a1 2r1 2r2 0j2 0j1"""
    items = queue.SimpleQueue()

    def first():
        until(1)
        both(A, B)
        items.put("later than the item that the other thread gets")
        after()

    def second():
        items.put("its own")
        after()
        until(2)
        assert items.get_nowait() == "its own"
        both(B, A)

    run_two(first, second)


def full_queue():
    """What get returns is there already: the thread waits for no notice."""
    items = queue.Queue()

    def first():
        both(A, B)
        items.put(None)
        after()

    def second():
        until(1)
        assert items.get() is None
        both(B, A)

    run_two(first, second)


def all_done():
    """All items are done already, so join does not wait."""
    items = queue.Queue()
    items.put(None)

    def first():
        both(A, B)
        items.task_done()
        after()

    def second():
        until(1)
        items.join()
        both(B, A)

    run_two(first, second)


def is_set():
    """0f1 0f2 1a1 1a2 1r2 1r1 1d1 1w1 2d1 2a2 2a1 2r1 2r2 0j2 0j1"""
    done = threading.Event()

    def first():
        both(A, B)
        done.set()

    def second():
        while not done.is_set():
            time.sleep(0.001)
        both(B, A)

    run_two(first, second)


def asks_often():
    """0a1 0r1 0d1 0w1 0d1 0d1 0w1 0d1"""
    both(A, threading._allocate_lock())
    goes_on = threading.Event()
    for _ in range(2):
        goes_on.set()
        for _ in range(100):
            assert goes_on.is_set() and goes_on.wait(1)


def timer():
    """0f1 1a1 1a2 1r2 1r1 1d1 1w1 0d1 0a2 0a1 0r1 0r2 0j1"""
    late = threading.Timer(0.01, both, (A, B))
    late.start()
    assert late.finished.wait()
    both(B, A)
    late.join()


def aborted():
    """0f1 0f2 1a1 1a2 1r2 1r1 1d1 1w1 2d1 2w1 2d1 2a2 2a1 2r1 2r2 0j2 0j1"""
    meeting = threading.Barrier(3)

    def first():
        both(A, B)
        meeting.abort()
        after()

    def second():
        until(1)
        try:
            meeting.wait()
        except threading.BrokenBarrierError:
            both(B, A)

    run_two(first, second)


def in_pools(receive):
    """Runs a task in each of two pools of one thread. The first task is done before `receive` is called for it."""
    import concurrent.futures  # makes locks

    with concurrent.futures.ThreadPoolExecutor(1) as one, concurrent.futures.ThreadPoolExecutor(1) as other:
        other.submit(int).result()
        task = one.submit(both, A, B)
        while task._state != "FINISHED":
            time.sleep(0.001)
        receive(concurrent.futures, task)
        other.submit(both, B, A).result()


def pool_result():
    in_pools(lambda _, task: task.result())


def pool_done():
    in_pools(lambda _, task: task.done())


def pool_wait():
    in_pools(lambda futures, task: futures.wait([task]))


def pool_each():
    in_pools(lambda futures, task: list(futures.as_completed([task])))


def pool_callback():
    """The callback runs at once, in the thread that adds it."""

    def receive(futures, task):
        with futures.ThreadPoolExecutor(1) as third:
            task.add_done_callback(lambda _: third.submit(both, B, A).result())

    in_pools(receive)


def in_loop():
    """A coroutine waits for each task in an executor of its own."""
    import asyncio
    import concurrent.futures

    async def run_both(loop):
        with concurrent.futures.ThreadPoolExecutor(1) as one, concurrent.futures.ThreadPoolExecutor(1) as other:
            await loop.run_in_executor(other, int)
            await loop.run_in_executor(one, both, A, B)
            await loop.run_in_executor(other, both, B, A)

    loop = asyncio.new_event_loop()
    loop.run_until_complete(run_both(loop))
    loop.close()


def thread_pools():
    """The pools of multiprocessing that run threads: each call waits for its task."""
    from multiprocessing.pool import ThreadPool

    with ThreadPool(1) as one, ThreadPool(1) as other:
        other.apply(int)
        one.apply(both, (A, B))
        other.apply(both, (B, A))


def pool_independent():
    """Nobody asks for the first task's result before the second one begins."""
    in_pools(lambda *_: None)


def woken():
    """0f1 0f2 1a1 1a2 1r2 1r1 2a3 2r3 1a3 1d1 1w1 1r3 2d1 2a3 2r3 2a2 2a1 2r1 2r2 0j2 0j1"""
    condition, ready = threading.Condition(), []

    def first():
        both(A, B)
        after()
        until(2)
        with condition:
            ready.append(1)
            condition.notify()

    def second():
        until(1)
        with condition:
            after()
            assert condition.wait_for(lambda: ready)
        both(B, A)

    run_two(first, second)


def barrier():
    """The order of the arrivals is not fixed."""
    meeting = threading.Barrier(2)

    def first():
        both(A, B)
        meeting.wait()

    def second():
        meeting.wait()
        both(B, A)

    run_two(first, second)


def recursive():
    """0a1 0a1 0a1 0r1 0r1 0r1"""
    nested = threading.RLock()
    with nested, nested, nested:
        pass


def handed():
    """0f1 1a1 0d1 0w1 1d1 1r1 0j1"""

    def holder():
        A.acquire()
        after()
        until(2)

    thread = threading.Thread(target=holder)
    thread.start()
    until(1)
    A.release()
    after()
    thread.join()
    thread.join()


def attempts():
    """0a1 0f1 0j1 0r1"""

    def gets_nothing():
        assert not A.acquire(blocking=False) and not A.acquire(timeout=0.02) and A.locked()

    with A:
        thread = threading.Thread(target=gets_nothing)
        thread.start()
        thread.join()


def processes():
    """0a1 0r1 0a1 0r1"""
    with A:
        pass
    child = os.fork()
    if child == 0:
        with A:
            os._exit(0)
    assert os.waitpid(child, 0)[1] == 0 and os.system("true") == 0
    with A:
        pass


def types():
    """0a1 0r1"""
    real = type(threading._allocate_lock())
    again = threading.RLock()
    assert isinstance(A, real) and repr(A).startswith("<unlocked _thread.lock object"), repr(A)
    assert repr(again).startswith("<unlocked _thread.RLock object"), repr(again)
    with A:
        assert A.locked() and repr(A).startswith("<locked")
    for lock in (A, again):
        try:
            lock.release()
        except RuntimeError:
            continue
        raise AssertionError("a lock that is not held was released")
    for words in ((False, 1), (True, -2), (True, 1e100), (True, float("nan")), (True, "1"), (True, None), (False, 0)):
        for lock in (A, again):
            assert fault_of(lock, words) == fault_of(threading._allocate_lock(), words) is not None, words
            assert repr(lock).startswith("<unlocked"), words


def fault_of(lock, words):
    try:
        lock.acquire(*words)
    except (ValueError, TypeError, OverflowError) as fault:
        return type(fault)
    return None


def many_held():
    """More than 31 locks at a time."""
    locks = [threading.Lock() for _ in range(40)]

    def first():
        for lock in locks:
            lock.acquire()
        for lock in locks:
            lock.release()
        after()

    def second():
        until(1)
        both(locks[1], locks[0])

    run_two(first, second)


def ends_at_once():
    """The process ends without any handler."""
    blocking()
    os._exit(7)


def ends_by_kill():
    """The process is killed."""
    blocking()
    os.kill(os.getpid(), signal.SIGKILL)


def deadlocks():
    """A deadlock that happens. SIGALRM ends the program."""
    signal.alarm(4)

    def meets(own, other):
        with own:
            after()
            until(2)
            with other:
                pass

    run_two(lambda: meets(A, B), lambda: meets(B, A))


if __name__ == "__main__":
    globals()[sys.argv[1]]()
