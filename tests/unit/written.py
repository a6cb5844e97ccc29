"""Traces and reports that the tests of the package write as texts, and folders for their files."""
from __future__ import annotations

import contextlib
import os
import signal
import struct
import tempfile
import unittest
from collections.abc import Iterator
from types import FrameType
from typing import Optional

from goodlock.reports import Cycle, Report, read_reports
from goodlock.traces import Index, Trace, TraceReader

OPPOSITE = "0f1 0f2\n1a10 1a20 1r20 1r10\n2a20 2a10 2r10 2r20\n"  # two threads acquire two locks in opposite orders
OPPOSITE_REPORT = """question 0 length 10 bound 2 cycles 1 confirmed 1
cycle 0 1 confirmed
  thread 1 lock 20 holds 10 place 3
  thread 2 lock 10 holds 20 place 7
  witness 0 1 2 6
"""

HEADER = b"goodcalls 2\n" + struct.pack("<I", 7) + b"./bank\0"  # of the log of a run
EVENT, END = 22, 31  # kinds of its entries


def number(value: int) -> bytes:
    parts = [value >> shift & 127 for shift in range(0, max(1, value.bit_length()), 7)]
    return bytes([part | 128 for part in parts[:-1]] + parts[-1:])


def entry(kind: int, thread: int = 0, about: int = 0, site: int = 0) -> bytes:
    return bytes([kind]) + number(thread) + number(about) + number(site)


def event(word: str, site: int = 0) -> bytes:
    """Returns the entry of an event whose thread has one digit."""
    return entry(EVENT + "fjardw".index(word[1]), int(word[0]), int(word[2:]), site)


def trace_of(text: str, name: str = "bank.trace") -> Trace:
    reader = TraceReader(name)
    for line in text.removesuffix("\n").split("\n"):
        reader.take(line)
    reader.trace.file = None if reader.is_script else name
    return reader.trace


def index_of(text: str) -> Index:
    return Index(trace_of(text))


def cycles_of(index: Index, text: str) -> tuple[Report, list[Cycle]]:
    """Returns the last report of a text and its cycles."""
    reports = list(read_reports("bank.report", index, text.removesuffix("\n").split("\n")))
    return reports[-1][0], [cycle for _, cycle in reports if cycle]


class InFolder(unittest.TestCase):
    """Each test runs in a folder of its own."""

    def setUp(self) -> None:
        folder = tempfile.TemporaryDirectory()
        self.addCleanup(folder.cleanup)
        self.addCleanup(os.chdir, os.getcwd())
        os.chdir(folder.name)

    def write(self, name: str, text: str) -> str:
        with open(name, "w", encoding="utf-8", newline="\n") as file:
            file.write(text)
        return name

    def read(self, name: str) -> str:
        with open(name, encoding="utf-8") as file:
            return file.read()


@contextlib.contextmanager
def environment(**values: str) -> Iterator[None]:
    before = dict(os.environ)
    os.environ.update(values)
    try:
        yield
    finally:
        os.environ.clear()
        os.environ.update(before)


@contextlib.contextmanager
def ends(seconds: int = 60) -> Iterator[None]:
    """Fails if what takes a moment does not end: a regular expression, for example, whose time is not linear."""

    def stop(_number: int, _frame: Optional[FrameType]) -> None:
        raise AssertionError(f"not done after {seconds} s")

    before = signal.signal(signal.SIGALRM, stop)
    signal.alarm(seconds)
    try:
        yield
    finally:
        signal.alarm(0)
        signal.signal(signal.SIGALRM, before)
