"""What a report says of a deadlock that was reproduced, a note under its cycle; and the command that reproduces a cycle."""
from __future__ import annotations

import contextlib
import os
import shlex
from collections.abc import Iterable, Iterator, Sequence
from typing import Optional

from goodlock.agent.run import ACROSS, say, shortly
from goodlock.commandline import write_whole
from goodlock.errors import InputError, OutputError
from goodlock.program import ROOT
from goodlock.reports import FURTHER, REPRODUCED, AnyEvents, Cycle, read_reports
from goodlock.reproduce.calls import command_of
from goodlock.traces import lines_of

PYTHON_AGENT = "goodlock_agent.py"


def note_reproduced(report: str, cycle: Cycle, proof: Sequence[str]) -> None:
    """Adds the note to a report. If it cannot be written, says so: the report is unchanged."""
    note = [f"    {proof[0]}", *(f"{FURTHER}{line.strip()}" for line in proof[1:])]
    try:
        write_whole(report, "".join(f"{line}\n" for line in with_note(lines_of(report), cycle, note)))
    except OutputError as fault:
        say(f"cannot note it in the report: {fault}")


def with_note(lines: Iterable[str], cycle: Cycle, note: Sequence[str]) -> Iterator[str]:
    """Yields a report with a note at the end of a cycle, which replaces an earlier one."""
    is_in_cycle = is_in_note = False
    for line in lines:
        if not line.startswith(" ") and is_in_cycle:
            yield from note
            is_in_cycle = False
        is_in_note = is_in_cycle and (line.startswith(REPRODUCED) or is_in_note and line.startswith(FURTHER))
        if not is_in_note:
            yield line
        is_in_cycle |= line == cycle.row
    if is_in_cycle:
        yield from note


def reproduced_in(report: str) -> dict[tuple[int, ...], list[str]]:
    """Returns what a report says of the cycles that were reproduced; nothing if there is no such report."""
    with contextlib.suppress(OSError, InputError):
        return {cycle.numbers: cycle.reproduced for _, cycle in read_reports(report, AnyEvents()) if cycle and cycle.reproduced}
    return {}


def command_for(trace: Optional[str], numbers: Sequence[int]) -> str:
    """Returns the command that reproduces a cycle of a trace; an empty text if the agent kept no log of the run."""
    name = trace.removesuffix(".trace") if trace and trace.endswith(".trace") else ""
    words = command_of(f"{name.removesuffix(ACROSS)}.calls") if name else None
    if words is None:
        return ""
    agent = "pthread"
    if len(words) > 2 and os.path.basename(words[1]) == PYTHON_AGENT:
        agent, words = "python", words[2:]
    goodlock = os.path.join(ROOT, "agents", agent, "goodlock")
    command = [shortly(goodlock), "--reproduce", name, "--cycle", ",".join(map(str, numbers)), *words]
    return " ".join(map(shlex.quote, command))
