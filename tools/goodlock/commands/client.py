"""Streams an event file to a server in batches, asks for the deadlocks, waits, and prints the report.

usage: tools/client ADDRESS:PORT FILE BOUND

  ADDRESS:PORT    the server, as `goodlockd serve` prints it
  FILE            an event file
  BOUND           the most members of a cycle, 2 to 8

If an event is refused there is no report: one line names the event by its 0-based index in the file, and the refusal. A second line
says where it is in the file and why, if no other client of the server is the reason.

Exit status: 0 if the report is printed, 2 if a line or the command line is wrong, else 1. The client itself, to copy from, is
tools/goodlock/protocol.py.
"""
import contextlib
import sys
from typing import Optional

from goodlock.commandline import BOUNDS, print_usage, print_whole, run
from goodlock.errors import InputError
from goodlock.protocol import KINDS, EventRefused, Lost, Refused, Session, split
from goodlock.traces import events_in, read_whole


def report_on(address: str, file: str, bound: int) -> str:
    """Returns the report of a server on the events of a file."""
    host, port = split(address)
    session = Session(host, port)
    session.offer_batches((KINDS[event.letter], event.thread, event.target) for event in events_in(file))
    return session.report(session.ask(bound).question)


def reason_of(file: str, refused: EventRefused) -> Optional[InputError]:
    """Returns why the event of a file is not lawful, or None if it is lawful after the events before it in the file."""
    with contextlib.suppress(OSError, InputError):
        reader = read_whole(file)
        return reader.refused if reader.refused_at == refused.index else None
    return None


def stream(address: str, file: str, bound: int) -> int:
    try:
        print_whole(report_on(address, file, bound))
        return 0
    except EventRefused as refused:
        print(f"event {refused.index} was refused: {refused}", file=sys.stderr)
        if reason := reason_of(file, refused):
            print(reason, file=sys.stderr)
    except Refused as refused:
        print(f"the question was refused: {refused}", file=sys.stderr)
    except Lost as lost:
        print(f"no server at {address}: {lost}", file=sys.stderr)
    return 1


def main() -> int:
    args = sys.argv[1:]
    if args in (["--help"], ["-h"]):
        return print_usage(__doc__)
    try:
        address, file, bound = args
        split(address)
    except ValueError:
        bound = ""
    if bound not in map(str, BOUNDS):
        print("client: wrong command line: see --help", file=sys.stderr)
        return 2
    return run(lambda: stream(address, file, int(bound)))
