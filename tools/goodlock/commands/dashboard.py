"""Shows a running server in a browser: its events, its questions and their reports. Asks questions."""
import argparse
import contextlib
import signal
import sys

from goodlock.commandline import ENDING, parser_of, run, whole_number
from goodlock.config import add_no_config, parse_args
from goodlock.dashboard.web import start, start_windows, work_folder
from goodlock.protocol import split

HELP = """
Open the printed address in a browser. The page shows the accepted events, asks questions with a
bound that you choose, and draws the deadlocks of each settled question. Ctrl-C ends the dashboard;
the server goes on. The dashboard is one of the 16 sessions of the server. For operators it has
/healthz, /metrics and /state: docs/operation.md describes them.

With --bind, everyone who reaches the address can see the run and ask questions: there is no
password and no encryption.

A potential cycle has the reasons that `goodlockd explain` prints. GOODLOCKD_PROGRAM names another
program than ./goodlockd, which the tool does not build.

goodlock.toml in the working folder or above it gives options: docs/ci.md explains it.

Exit status: 0 after Ctrl-C, 1 if the port cannot be used, 2 if the command line or goodlock.toml
is wrong.
"""


def address_of(word: str) -> str:
    try:
        split(word)
    except ValueError:
        raise argparse.ArgumentTypeError(f"{word!r} is not an address and a port, as in 127.0.0.1:7070") from None
    return word


def show() -> int:
    parser = parser_of("dashboard", __doc__, HELP)
    parser.add_argument("address", type=address_of, metavar="ADDRESS", nargs="?",
                        help="the server, as `goodlockd serve` prints it: 127.0.0.1:7070")
    parser.add_argument("--port", type=whole_number(0, 65535), default=7071, metavar="P",
                        help="the port of the page, 0 for a free one; default 7071")
    parser.add_argument("--trace", metavar="FILE", help="the event file that the agent writes; it may not exist yet. With it the page "
                        "shows source lines, the order of events, and what keeps potential cycles apart")
    parser.add_argument("--bind", default="127.0.0.1", metavar="ADDRESS", help="listen at this address instead of the loopback")
    parser.add_argument("--windows", metavar="FILE", help="instead of a server: shows the windows of a service, from the file windows.json that "
                        "`tools/with_server --roll` writes")
    add_no_config(parser)
    args = parse_args(parser, "dashboard")
    if bool(args.address) == bool(args.windows):
        parser.error("one of ADDRESS and --windows FILE is needed")
    if args.windows and args.trace:
        parser.error("--trace is for ADDRESS: the file of --windows names the traces")
    for number in ENDING:
        signal.signal(number, signal.default_int_handler)
    with work_folder() as folder:
        try:
            dashboard = (start_windows(args.windows, args.bind, args.port, folder) if args.windows
                         else start(args.address, args.trace, args.bind, args.port, folder))
        except OSError as fault:
            print(f"cannot listen on {args.bind}:{args.port}: {fault.strerror}; --port chooses another port", file=sys.stderr)
            return 1
        print(f"listening {dashboard.url()}", flush=True)
        with contextlib.suppress(KeyboardInterrupt):
            dashboard.serve_forever()
    return 0


def main() -> int:
    return run(show)
