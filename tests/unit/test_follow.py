"""Tests how the agent for Python follows a schedule: the order of the calls, where a run diverges, and that no thread is held for ever."""
from __future__ import annotations

import importlib.util
import os
import struct
import threading
import unittest
from types import ModuleType
from typing import Any

from goodlock.program import ROOT
from goodlock.reproduce.calls import hash_of
from goodlock.reproduce.recorded import find_cycle
from test_reproduce import BANK, BANK_LOG, BANK_REPORT, FORK, JOINED, LOCK, UNLOCK
from written import InFolder

END, STATUS_SIZE, MAGIC = 5, 24576, 0x31646568637321
FOLLOWS, CLOSED, DIVERGED, ESCAPED = 1, 2, 3, 4
LOOSEN, RELEASE = 1, 2
A, B = 1000, 2000  # the addresses of the two locks in this run


def module() -> ModuleType:
    path = os.path.join(ROOT, "agents", "python", "goodlock_follow.py")
    spec = importlib.util.spec_from_file_location("goodlock_follow", path)
    assert spec and spec.loader
    found = importlib.util.module_from_spec(spec)
    spec.loader.exec_module(found)
    return found


class Recorder:
    """Numbers the threads of this process as a test says."""

    def __init__(self) -> None:
        self.here = threading.local()

    def is_recording(self) -> bool:
        return True

    def number(self) -> int:
        return int(self.here.number)


class Follow(InFolder):
    def follower(self, collector: int = 0) -> Any:
        with open("bank.calls", "wb") as file:
            file.write(BANK_LOG)
        self.write("bank.trace", BANK.replace(" ", "\n") + "\n")
        self.write("bank.report", BANK_REPORT)
        with open("schedule", "wb") as file:
            file.write(struct.pack("<QII", MAGIC, 0, FOLLOWS) + bytes(STATUS_SIZE - 16) + find_cycle("bank", None).schedule.data())
        self.recorder = Recorder()
        return module().Follower("schedule", self.recorder, collector or os.getpid())

    def start(self, number: int, calls: list[tuple[int, int]], follower: Any, done: list[str]) -> threading.Thread:
        """Starts a thread that makes these calls, each with its kind and its object, and notes each one."""

        def body() -> None:
            self.recorder.here.number = number
            for kind, about in calls:
                call = follower.enter(kind, about)
                done.append(f"{number} {kind} {about}")
                if call is None or call.turn != -2:
                    follower.leave(call)

        thread = threading.Thread(target=body, daemon=True)
        thread.start()
        return thread

    def test_order(self) -> None:
        """The threads begin in the opposite order; thread 2 is a round behind. Both come to their second acquires, and then go on together."""
        follower, done = self.follower(), list[str]()
        threads = [self.start(2, [(LOCK, B), (LOCK, A)], follower, done), self.start(1, [(LOCK, A), (LOCK, B)], follower, done),
                   self.start(0, [(FORK, 1), (FORK, 2)], follower, done)]
        for thread in threads:
            thread.join(20)
            self.assertFalse(thread.is_alive())
        self.assertEqual(done[:4], ["0 1 1", "0 1 2", f"1 {LOCK} {A}", f"2 {LOCK} {B}"])
        self.assertEqual(set(done[4:]), {f"1 {LOCK} {B}", f"2 {LOCK} {A}"})
        self.assertEqual((follower.state, follower.turn), (CLOSED, 5))

    def test_divergence(self) -> None:
        """Thread 2 ends instead of its first acquire: that is said, and nobody is held any more."""
        follower, done = self.follower(), list[str]()
        threads = [self.start(1, [(LOCK, A), (LOCK, B), (UNLOCK, B), (UNLOCK, A)], follower, done), self.start(2, [(END, 0)], follower, done),
                   self.start(0, [(FORK, 1), (FORK, 2), (JOINED, 1)], follower, done)]
        for thread in threads:
            thread.join(20)
            self.assertFalse(thread.is_alive())
        with open("schedule", "rb") as file:
            status = file.read(64)
        self.assertEqual(struct.unpack_from("<I", status, 12)[0], DIVERGED)
        self.assertEqual(struct.unpack_from("<4I", status, 32), (2, 0, END, 0))

    def test_end_of_collector(self) -> None:
        """A thread that waits for a turn which does not come goes on when the collector has ended."""
        child = os.fork()
        if child == 0:
            os._exit(0)
        os.waitpid(child, 0)
        follower, done = self.follower(child), list[str]()
        thread = self.start(2, [(LOCK, B)], follower, done)
        thread.join(20)
        self.assertEqual((done, follower.command()), ([f"2 {LOCK} {B}"], RELEASE))

    def test_loosen(self) -> None:
        """A thread that the witness does not need is held until the collector says LOOSEN."""
        follower, done = self.follower(), list[str]()
        thread = self.start(7, [(LOCK, 5000)], follower, done)
        thread.join(0.2)
        self.assertEqual(done, [])
        follower.put(8, LOOSEN)
        thread.join(20)
        self.assertEqual(done, [f"7 {LOCK} 5000"])

    def test_attempts(self) -> None:
        """An attempt that is not the next call has failed in the recorded run."""
        follower = self.follower()
        self.recorder.here.number = 0
        self.assertIs(follower.enter(10, A, may_fail=True), follower.failing_call)
        self.assertEqual(follower.enter(FORK, 1).turn, 1)

    def test_faults(self) -> None:
        self.follower()
        with open("schedule", "rb") as file:
            content = file.read()
        for cut in (100, STATUS_SIZE, STATUS_SIZE + 63, len(content) - 1):
            with open("schedule", "wb") as file:
                file.write(content[:cut])
            with self.subTest(cut), self.assertRaises(ValueError):
                module().Follower("schedule", self.recorder, os.getpid())

    def test_sites(self) -> None:
        self.assertEqual(module().hash_of("/a/bank.py:18 in transfer"), hash_of("/a/bank.py:18 in transfer"))


if __name__ == "__main__":
    unittest.main()
