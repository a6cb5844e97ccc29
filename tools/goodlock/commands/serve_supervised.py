"""Runs a server that ends in order at SIGTERM, SIGINT and SIGHUP: it takes no more sessions, closes what is still open after 5 seconds,
and prints how many sessions it has served. It also ends so if this command is killed.

usage: tools/serve_supervised ADDRESS [OPTION ..]

  ADDRESS OPTION ..    the words of `goodlockd serve`; --stop-at-eof is added

The exit status is that of the server, 128 and the number of the signal that has ended it, or 2 without an address.
"""
from __future__ import annotations

import os
import signal
import subprocess
import sys

from goodlock.commandline import print_usage, run
from goodlock.program import launcher


def supervise(words: list[str]) -> int:
    """Runs the server with a pipe as its input, and closes the pipe at a signal."""
    numbers = signal.SIGTERM, signal.SIGINT, signal.SIGHUP
    signal.pthread_sigmask(signal.SIG_BLOCK, numbers)  # until there is a server
    read_end, write_end = os.pipe()
    pipe = open(write_end, "wb", buffering=0)

    def stop(number: int, frame: object) -> None:
        pipe.close()  # a second time changes nothing

    # A process group of its own: Ctrl-C of a terminal reaches only this command.
    server = subprocess.Popen([launcher(), "serve", *words, "--stop-at-eof"], stdin=read_end, start_new_session=True,
                              preexec_fn=lambda: signal.pthread_sigmask(signal.SIG_UNBLOCK, numbers) and None)
    os.close(read_end)
    for number in numbers:
        signal.signal(number, stop)
    signal.pthread_sigmask(signal.SIG_UNBLOCK, numbers)
    status = server.wait()
    return status if status >= 0 else 128 - status


def main() -> int:
    words = sys.argv[1:]
    if words in (["--help"], ["-h"], []):
        return print_usage(__doc__ or "", status=2)
    return run(lambda: supervise(words))
