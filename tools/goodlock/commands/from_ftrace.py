"""Converts the lock events of a Linux kernel, as tracefs, `trace-cmd report` and `perf script` print them, into a trace for
`goodlockd offline`, and reports on them by class, as lockdep does."""
import json
import os

from goodlock.commandline import Outputs, parser_of, run
from goodlock.conversion import arguments_of
from goodlock.kernel.classes import Finder, json_of, read_classes, text_of
from goodlock.kernel.program import ProgramError, recorded
from goodlock.kernel.recording import BASIS, lacking, losses, made
from goodlock.reducer import Source
from goodlock.reduction import Job, folder_beside, replace, run_job
from goodlock.traces import one_line

HELP = """
Record and convert, with a kernel that has CONFIG_PROVE_LOCKING and CONFIG_LOCK_STAT:

    trace-cmd record -e lock -e sched_switch -e sched_process_fork -e sched_waking \\
        -e workqueue COMMAND
    trace-cmd report -l >FILE
    tools/from_ftrace FILE OUT --bound 3
    tools/summary OUT.trace OUT.report

docs/kernel.md has the other ways to record. FILE is plain text or packed by gzip or xz; - is
standard input.

It writes OUT.trace without the events that change no cycle and no verdict, as tools/reduce does;
--whole keeps them. What is still longer than 1,048,576 events becomes windows: OUT.trace,
OUT.2.trace and so on, and a cycle whose members are in different windows is not found. An
acquire has the comment `# at class NAME` with the name of the lock's class.

It also writes OUT.classes, the report by class: each cycle of classes, recursion, and class that
is taken in an interrupt and held where one may come. A finding there needs no instances.

It prints what the recording lacks, which answer suffers, and how to record it. A tried acquire
does not wait: tools/summary leaves out a cycle in which a member's acquire was tried.

Exit status: 0 if all is written, 1 if a file cannot be read or written, if there is no report, or
if the replay of a confirmed cycle has a fault, 2 if a line is not understood. Then no file is
left, except OUT.classes if all lines were read, the traces if there is no report, and a report
with a fault.
"""


def convert() -> int:
    parser = parser_of("from_ftrace", __doc__ or "", HELP)
    parser.add_argument("file", metavar="FILE", help="what tracefs, `trace-cmd report` or `perf script` has printed; - is standard input")
    parser.add_argument("--json", metavar="FILE", help="also write the report by class as JSON")
    parser.add_argument("--nested", action="append", default=[], metavar="CLASS", help="a class whose locks are nested by design")
    parser.add_argument("--not-validated", action="append", default=[], metavar="CLASS", help="a class that lockdep does not validate")
    parser.add_argument("--backs-off", action="append", default=[], metavar="CLASS",
                        help="a class of locks that back off, as those do whose name ends in ww_class_mutex")
    args = arguments_of(parser)
    with folder_beside(args.out) as folder:
        shown = "standard input" if args.file == "-" else one_line(args.file)
        try:
            recording = recorded(args.file, shown, folder, args.backs_off)
        except ProgramError as fault:
            return fault.status
        counts = recording.counts
        finder = Finder(read_classes(recording.classes), args.nested, args.not_validated)
        findings = finder.findings()
        report, has_flags = os.path.join(folder, "by_class"), counts["flagged"] > 0
        with Outputs() as outputs:
            outputs.open(report).writelines(f"{line}\n" for line in text_of(findings, finder, has_flags))
            if args.json:
                outputs.open(args.json).write(json.dumps(json_of(findings, finder, has_flags), indent=1, ensure_ascii=False) + "\n")
        lines = [f"{args.out}.classes: {next(text_of(findings, finder, has_flags))}", *losses(counts), *lacking(counts), *made(counts)]
        if args.bound:
            lines.append(BASIS)
        job = Job(args.out, [Source(recording.events, shown)], args.window, args.bound or 0, args.whole, artificial=1)
        status = run_job(job, folder, lines)
        replace(report, f"{args.out}.classes")
        return status


def main() -> int:
    return run(convert)
