"""Analyses many traces with GNU parallel, here or on other hosts, and prints one summary by code location."""
from __future__ import annotations

import argparse
import os
import shutil
import subprocess
import sys
from collections.abc import Sequence

from goodlock import ci
from goodlock.commandline import BOUNDS, count, parser_of, plural, run, whole_number, write_whole, writing
from goodlock.formats.json import many_text as json_text
from goodlock.formats.text import many_text
from goodlock.jobs import TraceFile, check_hosts, do_job, run_jobs, traces_in
from goodlock.merging import Merged
from goodlock.program import NoAnswer, built_program, found_program, launcher
from goodlock.results import Run
from goodlock.settings import Settings, settings_of

HELP = """
A FOLDER is searched for files named *.trace, with the folders in it; it may also be such a
file. Each trace is given to `goodlockd offline` and its report to `summary`. OUT/results gets a
file for each trace, OUT/joblog a line for each job with its host, time and exit status (the job
log of GNU parallel), OUT/summary.json the merged summary. Groups are by code location; those of
traces without locations are by the numbers of threads and locks. A deadlock that happened while
an agent recorded a trace is read from the agent's report beside it.

Run again with the same OUT, the tool goes on: it skips each trace that has a result for this
bound and has not changed since, and tries those again that failed. So it may be interrupted,
and traces may be added.

A line of the file of hosts is `JOBS/HOST` or `JOBS/ssh OPTIONS HOST`; JOBS is how many jobs the
host runs at a time. This machine can be one of them by ssh. The hosts need ssh without a
password, rsync, perl and python3. Each job copies its trace to the host and its result back; the
program and the tools are copied too, and all copies are removed. A job that fails on one host is
tried on another. A job makes several connections; ssh shares them if its options have
ControlMaster=auto and ControlPersist=60. This machine needs GNU parallel, and rsync for hosts.

GOODLOCKD_PROGRAM names another program than ./goodlockd. goodlock.toml in the working folder or
above it gives options: docs/ci.md explains it.

Exit status: 3 if --fail-on says so. Else 0 if each trace has a summary, 1 if one has none (the
summary names it and the problem) or a file cannot be read or written, 2 if the command line or
the file of hosts is wrong, or there is no trace.
"""


def read_args() -> tuple[argparse.ArgumentParser, argparse.Namespace]:
    parser = parser_of("many", __doc__ or "", HELP)
    parser.add_argument("folders", metavar="FOLDER", nargs="+", help="a folder with traces, or a trace")
    parser.add_argument("--bound", type=int, choices=BOUNDS, default=2, metavar="K", help="the most members of a cycle, 2 to 8; default 2")
    parser.add_argument("--out", default="many", metavar="OUT", help="the folder for results; default many")
    parser.add_argument("--jobs", type=whole_number(1), metavar="N", help="how many jobs run at a time here; default: one for each processor")
    parser.add_argument("--hosts", metavar="FILE", help="run the jobs on the hosts in this file")
    parser.add_argument("--timeout", type=whole_number(1), default=600, metavar="S", help="the most seconds of a report; default 600")
    parser.add_argument("--memory", type=count, default=4000, metavar="MB", help="the most memory of a job; default 4000; 0: no limit")
    parser.add_argument("--groups", type=count, default=200, metavar="N", help="show the first N groups; default 200")
    parser.add_argument("--result", help=argparse.SUPPRESS)  # do one job here: FOLDER is a trace
    parser.add_argument("--stamp", help=argparse.SUPPRESS)
    ci.add_options(parser)
    return parser, ci.parse(parser, "many")


def check_args(parser: argparse.ArgumentParser, args: argparse.Namespace) -> None:
    if args.jobs and args.hosts:
        parser.error("--jobs is for this machine: the file of hosts has the jobs of each host")
    if args.hosts:
        check_hosts(args.hosts)
    for tool in ["parallel"] + ["rsync"] * bool(args.hosts):
        if not shutil.which(tool):
            parser.error(f"there is no command {tool}: install the package {tool}")


def find_traces(parser: argparse.ArgumentParser, args: argparse.Namespace) -> list[TraceFile]:
    traces = traces_in(args.folders, args.out)
    for trace in traces:
        if any(letter in trace.path for letter in "\t\n\r"):
            parser.error(f"the name {trace.path!r} has a tab or a line feed")
    if not traces:
        parser.error(f"there is no *.trace in {', '.join(args.folders)}")
    return traces


def program_to_run(parser: argparse.ArgumentParser) -> str:
    """Returns the program itself: the launcher of a checkout builds it if it has to."""
    if built_program() != launcher():
        subprocess.run([launcher(), "script", os.devnull], stdout=subprocess.DEVNULL, check=False)
    try:
        return found_program()
    except NoAnswer as fault:
        parser.error(str(fault))


def run_of(args: argparse.Namespace, settings: Settings, traces: Sequence[TraceFile]) -> Run:
    log = os.path.join(args.out, "joblog")
    merged = Merged(settings.root, f"there is no result{f': see the job log {log}' if os.path.exists(log) else ''}")
    for trace in traces:
        merged.add(trace.path, trace.read(args.bound))
    results = merged.results(settings.judge)
    return Run(
        name=" ".join(args.folders),
        results=tuple(results),
        numbers=merged.numbers,
        left_out=merged.left_out,
        most=args.groups,
        notes=merged.common_notes(),
        faults=tuple(merged.faults),
        suppressions=settings.suppression_file,
        unused=settings.suppressions.unused(),
        has_baseline=settings.judge.baseline is not None,
    )


def analyse() -> int:
    parser, args = read_args()
    if args.result:
        do_job(args)
        return 0
    check_args(parser, args)
    settings = settings_of(args)
    traces = find_traces(parser, args)
    left = [trace for trace in traces if "fault" in (trace.read(args.bound) or {"fault": ""})]
    program = program_to_run(parser) if left else ""
    with writing():
        os.makedirs(args.out, exist_ok=True)
    if left:
        run_jobs(program, args, left)
    found = run_of(args, settings, traces)
    judgement = settings.gate.judgement(found.results, found.left_out)
    json = json_text(found, len(traces), judgement)
    write_whole(os.path.join(args.out, "summary.json"), json)
    ci.write(args, found, judgement, lambda: many_text(found, len(traces)), lambda: json)
    done = sum(trace.read(args.bound) is not None for trace in left)
    print(f"many: {done:,} of {plural(len(traces), 'trace')} were analysed now", file=sys.stderr)
    return ci.status_of("many", judgement) or bool(found.faults)


def main() -> int:
    return run(analyse, "many: interrupted: the same command goes on")
