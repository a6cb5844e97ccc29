"""Writes what can matter of a run as OUT.trace, or as windows if it is too long for one trace, and on request its report as OUT.report."""
from __future__ import annotations

import argparse
import contextlib
import os
import shutil
import signal
import subprocess
import sys
import tempfile
from collections.abc import Iterable, Iterator
from dataclasses import dataclass
from typing import Optional

from goodlock.commandline import Outputs, plural, print_whole, whole_number, writing
from goodlock.completion import confirmed_in, note_of, verdicts_of
from goodlock.grades import cycle_lines, graded, head_line
from goodlock.limits import LEAST_BOUND, MOST_BOUND, MOST_EVENTS
from goodlock.program import launcher
from goodlock.reducer import Reduced, ReducerError, Replay, Source, reduced
from goodlock.reports import WITNESS, WITNESS_NO_VALUE, Verdict, read_reports
from goodlock.traces import Index, lines_of, read_trace

ACROSS = "a cycle whose members are in different windows is not found"


def add_options(parser: argparse.ArgumentParser) -> None:
    """Adds the options of the tools that reduce."""
    parser.add_argument("--bound", type=whole_number(LEAST_BOUND, MOST_BOUND), metavar="K",
                        help="also write OUT.report, the report with this bound; each confirmed cycle is replayed over the whole run")
    parser.add_argument("--window", type=whole_number(2, MOST_EVENTS), default=MOST_EVENTS, metavar="N",
                        help="the most events of a trace, 2 to 1,048,576, the default; more become windows")


def check_names(parser: argparse.ArgumentParser, files: Iterable[str], out: str) -> None:
    """Refuses to write over a file that is to be read."""
    if any(os.path.realpath(name) == os.path.realpath(f"{out}.trace") for name in files):
        parser.error(f"{out}.trace is the file to read: choose another name")


@dataclass(frozen=True)
class Job:
    """A run to reduce, and where to write it. `is_whole`: all events are kept. `artificial` threads are not counted."""

    out: str
    sources: list[Source]
    most: int = MOST_EVENTS
    bound: int = 0
    is_whole: bool = False
    artificial: int = 0


@contextlib.contextmanager
def interrupted_by(*signals: signal.Signals) -> Iterator[None]:
    """Those of these signals that would end the tool interrupt it as Ctrl-C does, so that it removes its files. One that is ignored, as
    under nohup, stays so."""
    changed = [number for number in signals if signal.getsignal(number) is signal.SIG_DFL]
    for number in changed:
        signal.signal(number, signal.default_int_handler)
    try:
        yield
    finally:
        for number in changed:
            signal.signal(number, signal.SIG_DFL)


@contextlib.contextmanager
def folder_beside(out: str) -> Iterator[str]:
    """Yields a folder for the files that become OUT.trace and others: so they get their names at once, when all is written."""
    above = os.path.dirname(os.path.realpath(f"{out}.trace"))
    with writing():
        folder = tempfile.mkdtemp(prefix=".reduce-", dir=above)
    try:
        with interrupted_by(signal.SIGTERM, signal.SIGHUP):
            yield folder
    finally:
        shutil.rmtree(folder, ignore_errors=True)


def copy_to(folder: str, name: str) -> str:
    """Returns the path of a file that can be read several times: a copy of standard input or of a pipe."""
    if name != "-" and (os.path.isfile(name) or not os.path.exists(name) or os.path.isdir(name)):
        return name
    with open(sys.stdin.fileno() if name == "-" else name, "rb", closefd=name != "-") as file:
        with writing(), tempfile.NamedTemporaryFile(dir=folder, delete=False) as copy:
            shutil.copyfileobj(file, copy, 1 << 20)
    return copy.name


def run_job(job: Job, folder: str, more: Iterable[str] = ()) -> int:
    """Writes the traces and the report, and prints what they are, and `more` lines. Returns the exit status."""
    try:
        found = reduced(job.sources, folder, job.most, job.is_whole)
        lines, status, names = list(lines_about(job, found)), 0, dict(zip(found.traces, trace_names(job.out, len(found.traces))))
        if job.bound:
            report = Report(job, found, folder)
            status = report.write()
            lines += report.lines
            names.update({report.path: f"{job.out}.report"} if report.is_written else {})
    except ReducerError as fault:
        print(fault, file=sys.stderr)
        return fault.status
    for path, name in names.items():
        replace(path, name)
    print_whole("".join(f"{line}\n" for line in [*lines, *more]))
    return status


def replace(path: str, name: str) -> None:
    with writing():
        os.replace(path, os.path.realpath(name))


def trace_names(out: str, count: int) -> list[str]:
    return [f"{out}.trace", *(f"{out}.{number}.trace" for number in range(2, count + 1))]


def lines_about(job: Job, found: Reduced) -> Iterator[str]:
    """Yields what was written, and what is lost by that."""
    names = trace_names(job.out, len(found.traces))
    name = names[0] if len(names) == 1 else f"{names[0]} to {names[-1]}"
    threads, kept_threads = found.threads - job.artificial, max(0, found.kept_threads - job.artificial)
    if job.is_whole:
        yield f"{name}: {found.kept:,} events, {threads:,} threads, {found.locks:,} locks"
    else:
        yield (f"{name}: {found.kept:,} of {found.events:,} events, {kept_threads:,} of {threads:,} threads, {found.kept_locks:,} of "
               f"{found.locks:,} locks")
    if not found.kept and found.events:
        yield "the lock graph of the run has no cycle, so no bound has one"
    if len(names) > 1:
        yield f"too long for one trace, so cut into {len(names)} windows: {ACROSS}"
    if found.beyond:
        yield (f"{plural(found.beyond, 'acquire')} by threads that hold 32 locks: artificial threads hold these locks for them, so a cycle with "
               "such an acquire is not found")


def reduced_from(events: int, name: str) -> str:
    """Returns what the verdicts of a reduced trace rest on."""
    return (f"reduced from {plural(events, 'event')} of {name}: a confirmed cycle was replayed over all of them, a potential one was searched in "
            "the reduced trace")


def fault_in(replays: int) -> str:
    return f"the replay of {plural(replays, 'confirmed cycle')} has a fault: do not trust this report"


class Report:
    """The report on a reduced trace. Each confirmed cycle is replayed over the whole run."""

    def __init__(self, job: Job, found: Reduced, folder: str) -> None:
        self.job, self.found, self.folder = job, found, folder
        self.path, self.is_written = os.path.join(folder, "report"), False
        self.no_value: Optional[int] = None  # cycles that are confirmed if no value decides, if values were weighed
        self.lines: list[str] = []

    def write(self) -> int:
        """Writes the report. Returns the exit status."""
        if len(self.found.traces) > 1:
            self.lines.append(f"no {self.job.out}.report: the run is cut into windows, so ask goodlockd about each of them")
            return 1
        plain = os.path.join(self.folder, "plain")
        with open(plain, "xb") as file:
            done = subprocess.run([launcher(), "offline", self.found.traces[0], "--bound", str(self.job.bound)], stdin=subprocess.DEVNULL,
                                  stdout=file)
        if done.returncode:
            self.lines.append(f"no {self.job.out}.report: goodlockd has failed: {''.join(list(lines_of(plain))[:1]) or 'it prints why'}")
            return 1
        index = Index(read_trace(self.found.traces[0]))
        if index.first_plain < len(index):
            plain = self.weighed(plain, index)
        replays = list(verdicts_of(self.found, self.job.sources, index, confirmed_in(plain, index), self.folder))
        self.write_with(plain, replays)
        self.is_written = True
        faults = sum(bool(replay.fault) for replay in replays)
        self.lines += self.lines_about(len(replays), faults)
        return 1 if faults else 0

    def weighed(self, plain: str, index: Index) -> str:
        """Writes a report in which values are weighed, without the line that says so. Returns its path."""
        path, self.no_value = f"{plain}.weighed", 0
        with open(path, "x", encoding="ascii") as file:
            file.write(f"{next(lines_of(plain))}\n")
            for _, cycle in graded(index, read_reports(plain, index), folder=self.folder):
                file.writelines(f"{line}\n" for line in (cycle_lines(cycle) if cycle else ()))
                self.no_value += bool(cycle and cycle.verdict is Verdict.NO_VALUE)
        return path

    def write_with(self, plain: str, replays: list[Replay]) -> None:
        """Writes the lines of a report, and after each witness how far the threads run in the whole run."""
        rest = iter(replays)
        with Outputs() as outputs:
            file = outputs.open(self.path)
            for at, line in enumerate(lines_of(plain)):
                file.write(f"{line}\n")
                if at == 0:
                    file.writelines(f"{note}\n" for note in self.notes(sum(bool(replay.fault) for replay in replays)))
                if line.startswith((WITNESS, WITNESS_NO_VALUE)):
                    file.write(f"    {note_of(next(rest), self.job.sources)}\n")

    def notes(self, faults: int) -> Iterator[str]:
        """Yields what the verdicts rest on, and whether they are wrong. Tools show these lines."""
        if self.no_value is not None:
            yield head_line(self.no_value)
        names = [source.words[1] for source in self.job.sources]
        name = names[0] if len(names) == 1 else f"{names[0]} to {names[-1]}"
        yield f"    {reduced_from(self.found.events, name)}"
        if faults:
            yield f"    {fault_in(faults)}"

    def lines_about(self, confirmed: int, faults: int) -> Iterator[str]:
        name = f"{self.job.out}.report"
        replayed = f", replayed over {plural(self.found.events, 'event')}" if confirmed else ""
        some = f", {self.no_value:,} of them if no value decides" if self.no_value else ""
        yield f"{name}: bound {self.job.bound}, {plural(confirmed, 'confirmed cycle')}{some}{replayed}"
        if faults:
            yield (f"{name}: the replay of {plural(faults, 'confirmed cycle')} has a fault, which the report shows: do not trust this report, and "
                   "report the fault")
