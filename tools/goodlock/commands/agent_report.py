"""Makes the reports of a run that the collector of an agent has written as traces. The collector starts it:

    agent_report check GOODLOCKD BOUND OUT M-N SECONDS [GATE ..]     searches the cycles of windows M to N, each in this time
    agent_report deadlock GOODLOCKD BOUND OUT 0 0 [GATE ..]          prints a deadlock that has happened
    agent_report finish GOODLOCKD BOUND OUT N SECONDS [GATE ..]      writes the reports of windows 1 to N, in this time
    agent_report options GOODLOCKD BOUND OUT 0 0 [GATE ..]           prints the options of goodlock.toml, each with a zero byte, and checks GATE

BOUND is 2 to 8, or auto. GATE is --fail-on WORD, --baseline FILE, --suppress FILE, --root DIR, --no-config. SIGUSR1 ends the search, and of
`finish` also SIGINT and SIGTERM. Exit status of `finish`: 1 if the gate fails, by default if a deadlock was confirmed or has happened, 2 if
the run was not analysed, 3 if it was analysed only in part, else 0. Of the others: 2 if a file or an option has a fault, else 0.
"""
from __future__ import annotations

import sys

from goodlock.agent.gate import settings_from, take_options
from goodlock.agent.report import NO_REPORT, finish, read_deadlock
from goodlock.agent.run import Run, say
from goodlock.agent.search import NoReport, check_all
from goodlock.agent.sites import Sites
from goodlock.commandline import print_usage
from goodlock.errors import InputError
from goodlock.limits import MOST_BOUND

TASKS = ("check", "deadlock", "finish", "options")


def check_options(words: list[str]) -> int:
    try:
        take_options(words)
    except InputError as fault:
        say(str(fault))
        return NO_REPORT
    except OSError as fault:
        say(f"cannot read {fault.filename}: {fault.strerror}")
        return NO_REPORT
    return 0


def main() -> int:
    if len(sys.argv) < 7 or sys.argv[1] not in TASKS:
        return print_usage(__doc__, NO_REPORT)
    task, program, bound, out, number, seconds = sys.argv[1:7]
    files, gate = Run(out, program, MOST_BOUND if bound == "auto" else int(bound)), sys.argv[7:]
    try:
        if task == "finish":
            return finish(files, int(number), float(seconds), settings_from(gate))
        if task == "check":
            first, last = map(int, number.split("-"))
            check_all(files, first, last, float(seconds))
        elif task == "options":
            return check_options(gate)
        else:
            lines = read_deadlock(files, Sites(files, 1, settings_from(gate).root))
            with open(files.work("happened"), "w", encoding="utf-8") as file:
                file.writelines(f"{line}\n" for line in lines)
            for line in lines:
                say(line)
    except (OSError, ValueError, KeyError, MemoryError, InputError, NoReport) as fault:
        say(f"there is no report: {fault or 'no memory'}")
        return NO_REPORT
    return 0
