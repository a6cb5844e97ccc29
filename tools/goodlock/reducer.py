"""Runs the program of tools/reduce, which leaves out the events of a run that change no cycle, and replays witnesses over the whole run."""
from __future__ import annotations

import os
import subprocess
from array import array
from collections.abc import Iterator
from dataclasses import dataclass
from functools import cache
from typing import NamedTuple, Optional

from goodlock.limits import MOST_EVENTS
from goodlock.program import ROOT, TOOLS


class ReducerError(Exception):
    """The program has ended with this status. The text says why."""

    def __init__(self, status: int, text: str) -> None:
        super().__init__(text.strip() or f"the program of tools/reduce has ended with status {status}")
        self.status = status if status in (1, 2) else 1


@dataclass(frozen=True)
class Source:
    """An event file. `name` is shown; it is another than the path if the file is a copy."""

    path: str
    name: str = ""

    @property
    def words(self) -> list[str]:
        return [self.path, self.name or self.path]


@dataclass(frozen=True)
class Reduced:
    """What the program has written: traces, one or windows. `events`, `threads` and `locks` are those of the run, without marks;
    `kept`, `kept_threads` and `kept_locks` those of the traces. `beyond` counts acquires that artificial threads make for
    threads that hold too many locks; these threads are not in `kept_threads`. `places` has
    the place in the run of each event of the only trace, `cuts` the first place of each thread that no witness may contain."""

    traces: tuple[str, ...]
    events: int
    threads: int
    locks: int
    kept: int
    kept_threads: int
    kept_locks: int
    beyond: int
    places: array[int]
    cuts: dict[int, int]


@cache
def program() -> str:
    """Returns the path of the program, which is built once."""
    build = subprocess.run([os.path.join(TOOLS, "reducer", "build")], stdin=subprocess.DEVNULL, stderr=subprocess.PIPE, text=True, errors="replace")
    if build.returncode:
        raise ReducerError(1, build.stderr)
    return os.path.join(ROOT, "out", "reducer", "reducer")


def run_program(words: list[str], sources: list[Source]) -> str:
    """Runs the program, and returns what it prints."""
    words = [program(), *words, *(word for source in sources for word in source.words)]
    done = subprocess.run(words, stdin=subprocess.DEVNULL, stdout=subprocess.PIPE, stderr=subprocess.PIPE, encoding="utf-8", errors="replace")
    if done.returncode:
        raise ReducerError(done.returncode, done.stderr)
    return done.stdout


def reduced(sources: list[Source], folder: str, most: int = MOST_EVENTS, is_whole: bool = False) -> Reduced:
    """Writes what can matter of a run, or all of it, to traces in a folder. Each has at most `most` events."""
    task = "whole" if is_whole else "reduce"
    printed = run_program([task, folder, str(most)], sources)
    counts = {name: int(number) for name, number in (line.split() for line in printed.splitlines())}
    windows = counts.pop("windows")
    places, cuts = array("Q"), dict[int, int]()
    if not is_whole:
        with open(os.path.join(folder, "places"), "rb") as file:
            places.frombytes(file.read())
        with open(os.path.join(folder, "cuts"), encoding="ascii") as lines:
            cuts = {int(thread): int(place) for thread, place in (line.split() for line in lines)}
    traces = tuple(os.path.join(folder, f"{number}.trace") for number in range(1, windows + 1))
    return Reduced(traces=traces, places=places, cuts=cuts, **counts)


class Spot(NamedTuple):
    """An event of the run: the number of its file, its place there, and the line of another file from which it was converted, or 0."""

    file: int
    place: int
    line: int


class Replay(NamedTuple):
    """What the replay of a witness over the whole run shows: a fault with its place, or an empty text and the last event of each thread."""

    fault: str
    place: Optional[Spot]
    ends: dict[int, Spot]


def replayed(sources: list[Source], witnesses: str) -> Iterator[Replay]:
    """Yields the verdict of each witness in a file, which `completion` has written."""
    for line in run_program(["check", witnesses], sources).splitlines():
        word, *rest = line.split()
        numbers = list(map(int, rest))
        if word == "reaches":
            yield Replay("", None, {numbers[at]: Spot(*numbers[at + 1:at + 4]) for at in range(0, len(numbers), 4)})
        else:
            yield Replay(word, Spot(*numbers), {})
