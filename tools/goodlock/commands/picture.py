"""Draws a trace and its report as one HTML file: for each cycle a ring of threads and locks, and under it a time line."""
from goodlock.commandline import count, parser_of, print_whole, run, write_whole
from goodlock.drawing.page import drawn_reports, page
from goodlock.happened import head_notes
from goodlock.reports import read_reports
from goodlock.traces import Index, read_trace

HELP = """
A potential cycle has the reasons that `goodlockd explain` prints. GOODLOCKD_PROGRAM names another
program than ./goodlockd, which the tool does not build.
"""


def draw() -> None:
    parser = parser_of("picture", "Draws a trace and its report as one HTML file.", HELP)
    parser.add_argument("trace", help="an event file or a script")
    parser.add_argument("report", help="the report on it, written by goodlockd or an agent")
    parser.add_argument("html", nargs="?", help="the file to write; default: standard output")
    parser.add_argument("--cycles", type=count, default=20, metavar="N",
                        help="draw all cycles of a report that has at most N, else one cycle of each of its first N groups, confirmed "
                             "ones first; a group is the cycles at the same code locations; 0 or more, default 20")
    args = parser.parse_args()
    index = Index(read_trace(args.trace))
    reports = drawn_reports(index, read_reports(args.report, index), args.cycles)
    whole = page(args.trace, index, reports, head_notes(args.report))
    if args.html:
        write_whole(args.html, whole)
    else:
        print_whole(whole)


def main() -> int:
    return run(draw)
