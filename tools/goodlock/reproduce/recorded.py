"""Finds the cycle that a user names in the files of a recorded run, and tests whether the program is still the one that was recorded."""
from __future__ import annotations

import os
import shutil
from typing import NamedTuple, Optional

from goodlock.agent.run import ACROSS
from goodlock.errors import InputError
from goodlock.grades import graded
from goodlock.reports import Cycle, read_reports
from goodlock.reproduce.buildid import build_id_of, is_elf
from goodlock.reproduce.calls import Log, read_log
from goodlock.reproduce.schedule import Schedule, recorded
from goodlock.traces import Index, read_trace


class FoundCycle(NamedTuple):
    """The schedule of a cycle, and the report that has it."""

    schedule: Schedule
    report: str


def find_cycle(name: str, numbers: Optional[tuple[int, ...]]) -> FoundCycle:
    """Returns the cycle with these numbers, or else the first one with the strongest evidence. Raises `InputError` if there is none."""
    base = name.removesuffix(ACROSS)
    if not os.path.exists(f"{base}.calls"):
        raise InputError(f"{base}.calls", None, "there is no such file: a run keeps it if its report has a cycle, and --keep-log is not 0; "
                                                "record the program with this agent")
    log = read_log(f"{base}.calls")
    best: Optional[tuple[Index, Cycle, str]] = None
    for report in dict.fromkeys([f"{name}.report", f"{base}{ACROSS}.report"]):
        trace = f"{report.removesuffix('.report')}.trace"
        if best and best[1].verdict.is_certain or not (os.path.exists(report) and os.path.exists(trace)):
            continue
        index = Index(read_trace(trace))
        for _, cycle in graded(index, read_reports(report, index)):
            if cycle and numbers in (None, cycle.numbers) and (best is None or cycle.verdict.rank > best[1].verdict.rank):
                best = index, cycle, report
    if best is None:
        what = f"cycle {' '.join(map(str, numbers))}" if numbers else "cycle"
        raise InputError(f"{name}.report", None, f"there is no {what} in the reports of this run")
    index, cycle, report = best
    run = recorded(log, index)
    return FoundCycle(Schedule(run, cycle, 0 if cycle.verdict.is_confirmed else 1), report)


def check_builds(log: Log, program: str) -> None:
    """Raises `InputError` if the program or a library is not the one that was recorded."""
    for file in log.files.values():
        if os.path.exists(file.path) and build_id_of(file.path) != file.build:
            raise InputError(file.path, None, "rebuilt since the run was recorded: record again")
    path = shutil.which(program) or program
    for file in log.files.values():
        if os.path.basename(path) == os.path.basename(file.path) and is_elf(path) and build_id_of(path) != file.build:
            raise InputError(program, None, f"another build of {file.path}, which was recorded: record again")
