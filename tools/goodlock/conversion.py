"""Writes the events of a foreign trace as one event file of any length, and reduces it to a trace for `goodlockd offline`.

Thread 0 of the file is artificial. It forks each thread that nobody else forks, right before the thread's first event, and does nothing
else: so these forks order nothing. Each event has the line of the foreign trace that it was made of.
"""
from __future__ import annotations

import argparse
from collections import Counter, defaultdict
from collections.abc import Callable, Iterator
from typing import IO

from goodlock.commandline import Outputs
from goodlock.limits import LARGEST, MOST_HELD_OF_RUN
from goodlock.reduction import add_options, check_names
from goodlock.traces import KIND_OF, AdmissionCheck, one_line

MOST_LETTERS = 10_000  # of a name or a code location


def counted(found: Counter[str]) -> str:
    """Returns counts as a list, the largest first: `NotHeld 2, HeldByOther 1`."""
    return ", ".join(f"{name} {number:,}" for name, number in found.most_common())


class Conversion:
    """The events of one run. `source` is the file and the line that are read. `dropped` counts the events that were not lawful, by
    refusal."""

    def __init__(self, file: IO[str]) -> None:
        self.file = file
        self.check = AdmissionCheck(most_threads=LARGEST, most_held=MOST_HELD_OF_RUN)
        self.numbers: dict[str, dict[str, int]] = defaultdict(dict)
        self.names: dict[tuple[str, int], str] = {}
        self.named: set[tuple[str, int]] = set()
        self.dropped: Counter[str] = Counter()
        self.source, self.expected, self.where = ("", 0), 0, ""

    def number(self, kind: str, name: str) -> int:
        """Returns the number of a thread, a lock or a variable: by first appearance, from 1."""
        number = self.numbers[kind].setdefault(name, len(self.numbers[kind]) + 1)
        self.names.setdefault((kind, number), one_line(name))
        return number

    def offer(self, thread: int, letter: str, target: int, where: str = "") -> bool:
        """Writes an event if it is lawful, else counts it as dropped. Returns whether it is lawful."""
        is_new = thread not in self.check.forked
        refusal = self.check.refusal_of(0, "f", thread) if is_new else None
        if is_new and not refusal:
            self.check.accept(0, "f", thread)
        refusal = refusal or self.check.refusal_of(thread, letter, target)
        if refusal:
            self.dropped[refusal] += 1
            if is_new:
                self.check.forked.discard(thread)
            return False
        self.check.accept(thread, letter, target)
        if is_new:
            self.write(0, "f", thread, where)
        self.write(thread, letter, target, where)
        return True

    def write(self, thread: int, letter: str, target: int, where: str) -> None:
        self.name("thread", thread)
        if letter in "fjar":
            self.name(KIND_OF[letter], target)
        name, line = self.source
        if line != self.expected:
            self.file.write(f"# line {line} of {one_line(name)}\n")
        self.expected = line + 1
        if where != self.where:
            self.file.write(f"# at {shortened(where)}\n" if where else "# at\n")
            self.where = where
        self.file.write(f"{thread}{letter}{target}\n")

    def name(self, kind: str, number: int) -> None:
        """Writes the name of a thread or a lock at its first event."""
        if (kind, number) not in self.names or (kind, number) in self.named:
            return
        self.named.add((kind, number))
        self.file.write(f"# {kind} {number} is {shortened(self.names[kind, number])}\n")

    def lines(self) -> Iterator[str]:
        """Yields what was dropped."""
        if self.dropped:
            yield f"dropped, not lawful: {counted(self.dropped)}"


def shortened(text: str) -> str:
    """Returns a text that fits a comment: tools/reduce reads at most 65,534 bytes of one."""
    return text if len(text) <= MOST_LETTERS else f"{text[:MOST_LETTERS]}.."


def converted(path: str, convert: Callable[[Conversion], None]) -> Conversion:
    """Writes the event file of a run. If `convert`, which offers the events, fails, no file is left."""
    with Outputs() as outputs:
        conversion = Conversion(outputs.open(path))
        convert(conversion)
    return conversion


def arguments_of(parser: argparse.ArgumentParser) -> argparse.Namespace:
    """Reads the command line of a converter. The parser has its first argument, `file`, and its own options."""
    parser.add_argument("out", help="the name of the traces to write, without .trace")
    parser.add_argument("--whole", action="store_true", help="keep the events that change no cycle, too")
    add_options(parser)
    args = parser.parse_args()
    if args.whole and args.bound:
        parser.error("--bound reports on the reduced run: leave out --whole, or call `goodlockd offline` for each trace")
    check_names(parser, [args.file], args.out)
    return args
