"""Leaves out the events of a run that change no cycle and no verdict, so that a run of any length fits a trace."""
from goodlock.commandline import parser_of, run
from goodlock.reducer import Source
from goodlock.reduction import Job, add_options, check_names, copy_to, folder_beside, run_job
from goodlock.traces import one_line

HELP = """
The input is one event file of any length, or the windows of one run in their order; - is standard
input. It may have any number of events, threads, locks and variables, and a thread may hold up
to 1,024 locks.

It writes OUT.trace for goodlockd, with the same cycles, verdicts and least instances. Threads,
locks and variables keep their numbers. Comments name the places of the events in FILE, and the
tools show these. Locks that cannot matter to a cycle are not in the held locks of its members.

    tools/reduce FILE OUT --bound 4
    tools/summary OUT.trace OUT.report

What is still longer than a trace, or has more than 1,024 threads, becomes windows: OUT.trace,
OUT.2.trace and so on.

Exit status: 0 if all is written, 1 if a file cannot be read or written, if there is no report, or
if the replay of a confirmed cycle has a fault, 2 if a line is not understood or an event is not
lawful. Then no file is left, except the traces if there is no report, and a report with a fault.
"""


def reduce() -> int:
    parser = parser_of("reduce", "Leaves out the events of a run that change no cycle and no verdict.", HELP)
    parser.add_argument("files", nargs="+", metavar="FILE", help="an event file, or the windows of one run in their order; - is standard input")
    parser.add_argument("out", metavar="OUT", help="the name of the trace to write, without .trace")
    add_options(parser)
    args = parser.parse_args()
    if args.files.count("-") > 1:
        parser.error("standard input can be read once")
    check_names(parser, args.files, args.out)
    with folder_beside(args.out) as folder:
        sources = [Source(copy_to(folder, name), "standard input" if name == "-" else one_line(name)) for name in args.files]
        return run_job(Job(args.out, sources, args.window, args.bound or 0), folder)


def main() -> int:
    return run(reduce)
