"""Analyses traces one by one, as jobs of GNU parallel, here or on other hosts. Each job writes a file with its result."""
from __future__ import annotations

import json
import os
import re
import resource
import shlex
import shutil
import subprocess
import sys
import tempfile
import time
from argparse import Namespace
from collections.abc import Iterator, Sequence
from typing import IO, Any, Optional

from goodlock.commandline import write_whole
from goodlock.errors import InputError, shown
from goodlock.program import TOOLS, built_program
from goodlock.traces import fault_in

MOST_GROUPS = 20_000
HOST = re.compile(r"[1-9][0-9]{0,3}/[^\s:].*")
Object = dict[str, Any]


# ---- one job ----


def fault_of(command: Sequence[str], args: Namespace, out: IO[bytes]) -> Optional[str]:
    """Runs a command with its output in a file, within the job's time and memory. Returns None, or why it failed."""
    try:
        ended = subprocess.run(command, stdout=out, stderr=subprocess.PIPE, timeout=args.timeout, check=False,
                               preexec_fn=lambda: limit_memory(args.memory))
    except subprocess.TimeoutExpired:
        return f"not done after {args.timeout} seconds"
    if ended.returncode == 0:
        return None
    out.seek(0)
    lines = (ended.stderr.strip() or out.read(200).strip()).decode("utf-8", "replace").splitlines()
    return lines[-1] if lines else f"{os.path.basename(command[0])} ended with status {ended.returncode}"


def limit_memory(megabytes: int) -> None:
    if megabytes:
        resource.setrlimit(resource.RLIMIT_AS, (megabytes << 20, megabytes << 20))


def analysed(trace: str, args: Namespace, folder: str) -> Object:
    """Returns the result for a trace: what the summary says of its report, or the fault."""
    report, summary, started = os.path.join(folder, "report"), os.path.join(folder, "summary"), time.monotonic()
    with open(report, "w+b") as out:
        fault = fault_of([built_program(), "offline", trace, "--bound", str(args.bound)], args, out)
    if fault and ("not understood" in fault or fault.startswith("refused")) and (found := fault_in(trace)):
        return {"fault": f"line {str(found).removeprefix(f'{trace}:')}"}
    if not fault:
        with open(summary, "w+b") as out:
            options = ["--json", "--no-config", "--groups", str(MOST_GROUPS)]
            fault = fault_of([sys.executable, os.path.join(TOOLS, "summary"), trace, report, *options], args, out)
    if fault:
        return {"fault": fault.removeprefix(f"{trace} ").removeprefix(f"{trace}:")}
    with open(summary, encoding="utf-8") as file:
        content = json.load(file)
    question = content["questions"][0]
    content["numbers"]["seconds"] = round(time.monotonic() - started, 3)
    return {"numbers": content["numbers"], "cycles": question["cycles"], "confirmed": question["confirmed"], "left_out": question["left_out"],
            "groups": question["shown"]}


def do_job(args: Namespace) -> None:
    """Writes the result for one trace, which may be a fault."""
    folder = f"{args.result}.work"
    shutil.rmtree(folder, ignore_errors=True)  # of an interrupted job
    os.makedirs(folder)
    try:
        result = analysed(args.folders[0], args, folder)
    finally:
        shutil.rmtree(folder, ignore_errors=True)
    write_whole(args.result, json.dumps({"bound": args.bound, "stamp": args.stamp, **result}) + "\n")


# ---- all jobs ----


class TraceFile:
    """A trace with its result. `name` is unique and relative: it is the trace's name on a host, and that of its result. `stamp` is another
    one if the trace has changed."""

    def __init__(self, path: str, out: str) -> None:
        self.path, self.name = path, os.path.abspath(path).lstrip("/")
        status = os.stat(path)
        self.stamp = f"{status.st_size}-{status.st_mtime_ns}"
        self.result = os.path.join("results", f"{self.name}.json")
        self.where = os.path.join(out, self.result)

    def read(self, bound: int) -> Optional[Object]:
        """Returns the result, or None if there is none for this bound and what the trace is now."""
        try:
            with open(self.where, encoding="utf-8") as file:
                result: Object = json.load(file)
            is_right = (result["bound"], result["stamp"]) == (bound, self.stamp) and ("fault" in result or "numbers" in result)
        except (OSError, ValueError, KeyError, TypeError):
            return None
        return result if is_right else None


def paths_in(folders: Sequence[str]) -> Iterator[str]:
    """Yields the traces in folders, sorted."""
    for folder in folders:
        if not os.path.isdir(folder):
            with open(folder, "rb"):
                yield folder
            continue
        for where, inner, files in os.walk(folder):
            inner.sort()
            yield from (os.path.normpath(os.path.join(where, name)) for name in sorted(files) if name.endswith(".trace"))


def traces_in(folders: Sequence[str], out: str) -> list[TraceFile]:
    traces = (TraceFile(path, out) for path in paths_in(folders))
    return list({trace.name: trace for trace in traces}.values())


def pack(program: str, out: str) -> None:
    """Copies the program and the tools to a folder that each host gets."""
    bundle = os.path.join(out, "bundle")
    shutil.rmtree(bundle, ignore_errors=True)
    shutil.copytree(os.path.join(TOOLS, "goodlock"), os.path.join(bundle, "tools", "goodlock"), ignore=shutil.ignore_patterns("__pycache__"))
    for name in ("many", "summary"):
        shutil.copy2(os.path.join(TOOLS, name), os.path.join(bundle, "tools", name))
    shutil.copy2(program, os.path.join(bundle, "goodlockd"))


def command_of(args: Namespace, remote: str) -> list[str]:
    """Returns the words that start GNU parallel. Its input has four columns: the trace here, and on a host its name and its result, and
    its stamp. `remote` is the folder on each host."""
    job = ["--bound", str(args.bound), "--timeout", str(args.timeout), "--memory", str(args.memory), "--no-config", "--stamp"]
    log = "+joblog" if os.path.exists(os.path.join(args.out, "joblog")) else "joblog"
    parallel = ["parallel", "--will-cite", "--colsep", "\\t", "--arg-file", "-", "--joblog", log]
    if not args.hosts:
        jobs = ["--jobs", str(args.jobs)] if args.jobs else []
        return [*parallel, *jobs, shlex.join([sys.executable, os.path.join(TOOLS, "many"), *job]), "{4}", "--result", "{3}", "{1}"]
    hosts = ["--sshloginfile", os.path.abspath(args.hosts), "--workdir", remote, "--cleanup", "--basefile", "bundle", "--retries", "3"]
    files = ["--transferfile", "{1}", "--return", "{3}"]
    return [*parallel, *hosts, *files, shlex.join(["bundle/tools/many", *job]), "{4}", "--result", "{3}", "{2}"]


def run_jobs(program: str, args: Namespace, traces: Sequence[TraceFile]) -> None:
    marker = "/./" if args.hosts else "/"  # the name on a host is what follows the marker
    lines = "".join(f"{marker}{trace.name}\t{trace.name}\t{trace.result}\t{trace.stamp}\n" for trace in traces)
    with tempfile.TemporaryDirectory(prefix="goodlockd-many-") as own:  # a folder of this name is on each host
        remote = f"{os.path.basename(own)}-files"  # in the folder where a login begins
        environment = {**os.environ, "PARALLEL_HOME": own, "GOODLOCKD_PROGRAM": program}
        try:
            if args.hosts:
                pack(program, args.out)
            subprocess.run(command_of(args, remote), input=lines, cwd=args.out, env=environment, text=True, check=False, stdout=sys.stderr)
        finally:
            if args.hosts:
                clean = ["parallel", "--will-cite", "--nonall", "--sshloginfile", os.path.abspath(args.hosts), f"rm -rf {remote}"]
                subprocess.run(clean, stdin=subprocess.DEVNULL, cwd=args.out, env=environment, check=False, stdout=sys.stderr)
                shutil.rmtree(os.path.join(args.out, "bundle"), ignore_errors=True)


def check_hosts(name: str) -> None:
    """Tests the form of a file of hosts."""
    hosts = 0
    with open(name, encoding="utf-8", errors="replace") as file:
        for number, line in enumerate(file, 1):
            if line.strip() and not line.startswith("#"):
                hosts += 1
                if not HOST.fullmatch(line.strip()):
                    raise InputError(name, number, f"{shown(line.strip())}: not JOBS/HOST, such as 4/build1")
    if not hosts:
        raise InputError(name, None, "there is no host: a line is JOBS/HOST")
