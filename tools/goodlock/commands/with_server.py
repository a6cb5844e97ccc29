"""Starts a server on the loopback at a free port, runs a command with the server's address in GOODLOCKD, and ends the server.

usage: tools/with_server COMMAND ARGUMENT ..
       tools/with_server --roll DIR [--bound K] [--every SECONDS] [--settle SECONDS] COMMAND ARGUMENT ..

  --roll DIR          follows a run of any length: when a window of the agent is full, another server takes the next one, and two servers
                      at most are alive. DIR/windows.json lists the windows and their cycles, DIR/N.report is the report on window N.
                      DIR is made if it is missing; files of an earlier run are replaced
  --bound K           the most members of a cycle in these reports, 2 to 8; default 2
  --every SECONDS     asks about the events so far in this interval, 1 to 3600; default 2
  --settle SECONDS    waits at most for this time for the last question of a window, 1 to 86400; default 60

With --roll, COMMAND starts an agent, such as agents/pthread/goodlock --server "$GOODLOCKD" PROGRAM. If both servers are still busy when a
window begins, no server sees this window. windows.json lists such windows, and at the end one line on standard error counts them.

The exit status is that of the command, 128 and the number of the signal that has ended it, 126 or 127 if it cannot be started, 1 if there
is no server, or 2 if the command line is wrong.

  GOODLOCKD_PROGRAM=FILE    another program than ./goodlockd
"""
from __future__ import annotations

import argparse
import os
import signal
import subprocess
import sys

from goodlock.commandline import BOUNDS, ENDING, WordsParser, plural, print_usage, wait_for, whole_number
from goodlock.rolling import Roller, Server

NO_SERVER, NOT_STARTED, NOT_FOUND, INTERRUPTED = 1, 126, 127, 130
OF_ROLL = (("bound", 2, whole_number(BOUNDS[0], BOUNDS[-1])), ("every", 2, whole_number(1, 3600)), ("settle", 60, whole_number(1, 86400)))


def execute(words: list[str], **variables: str) -> int:
    """Runs a command to its end. Signals that end this process are passed on to it; Ctrl-C of a terminal reaches it anyhow."""
    signal.signal(signal.SIGINT, lambda *_: None)
    try:
        process = subprocess.Popen(words, env=os.environ | variables)
    except OSError as fault:
        print(f"with_server: cannot run {words[0]}: {fault.strerror}", file=sys.stderr)
        return NOT_FOUND if isinstance(fault, FileNotFoundError) else NOT_STARTED
    status, _ = wait_for(process)
    for number in signal.SIGINT, *ENDING:
        signal.signal(number, signal.default_int_handler)  # from here on they end what is left to do
    return status


def with_one(words: list[str]) -> int:
    server = Server()
    try:
        return execute(words, GOODLOCKD=server.address)
    finally:
        server.end()


def summary_of(roller: Roller) -> str:
    """Returns the line about a run."""
    totals = roller.state()["totals"]
    assert isinstance(totals, dict)
    left_out = f"; {plural(roller.count_left_out, 'window')} left out, which no server has seen" if roller.count_left_out else ""
    unsettled = sum(window.state == "ended" and not window.is_settled for window in roller.windows)
    not_settled = f"; {plural(unsettled, 'window')} not searched to the end" if unsettled else ""
    return (f"with_server: {plural(roller.count, 'window')}, {plural(totals['events'], 'event')}, {totals['confirmed']} confirmed and "
            f"{totals['potential']} potential cycles{left_out}{not_settled}: {os.path.join(roller.folder, 'windows.json')}")


def with_many(args: argparse.Namespace) -> int:
    folder = args.roll
    os.makedirs(folder, exist_ok=True)
    for name in os.listdir(folder):
        if name == "windows.json" or name.removesuffix(".report").isdecimal() and name.endswith(".report"):
            os.remove(os.path.join(folder, name))
    roller = Roller(folder, args.bound, args.every, args.settle)
    with roller.running() as (address, path):
        status = execute(args.command, GOODLOCKD=address, GOODLOCKD_ROLL=path)
    print(summary_of(roller), file=sys.stderr)
    return status


def read_args(words: list[str]) -> argparse.Namespace:
    parser = WordsParser("with_server")
    parser.add_argument("--roll")
    for name, _, number in OF_ROLL:
        parser.add_argument(f"--{name}", type=number)
    args = parser.command_in(words, "command")
    for name, default, _ in OF_ROLL:
        if getattr(args, name) is None:
            setattr(args, name, default)
        elif not args.roll:
            parser.error(f"--{name} needs --roll")
    return args


def main() -> int:
    words = sys.argv[1:]
    if words in (["--help"], ["-h"], []):
        return print_usage(__doc__ or "")
    args = read_args(words)
    try:
        return with_many(args) if args.roll else with_one(args.command)
    except OSError as fault:
        print(f"with_server: {fault.filename or 'no server'}: {fault.strerror or fault}", file=sys.stderr)
        return NO_SERVER
    except KeyboardInterrupt:
        return INTERRUPTED
