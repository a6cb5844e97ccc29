"""Groups the cycles of a report by the code locations where their members hold and wait, and prints each group with one example."""
from __future__ import annotations

import argparse
import time

from goodlock import ci
from goodlock.analysis import merged_results, questions_of
from goodlock.commandline import count, parser_of, plural, print_whole, run
from goodlock.formats.json import summary_text as json_text
from goodlock.formats.text import summary_text
from goodlock.gates import suppression_of
from goodlock.reports import Verdict
from goodlock.results import LeftOut, Question, Run, kept, numbers_of
from goodlock.settings import Settings, settings_of
from goodlock.traces import Index, read_trace

HELP = """
A group is the cycles whose members hold and wait at the same code locations. The locations are
the comments `# at FILE:LINE in FUNCTION` of the trace. Without them the tool groups by the
numbers of threads and locks. New groups are first, and of these the confirmed ones. A deadlock
that happened while an agent recorded the run is a group too.

A file of suppressions has one on each line: patterns of locations, separated by ` ; `. It
suppresses a group if each pattern matches one of the group's locations as a whole. In a pattern
`*` is any text, `?` any character, `[ab]` one of these. A line that begins with # is skipped.

A potential group has the reasons that `goodlockd explain` prints. GOODLOCKD_PROGRAM names another
program than ./goodlockd, which the tool does not build. goodlock.toml in the working folder or
above it gives options: docs/ci.md explains it.

Exit status: 0 if the summary is printed, 1 if a file cannot be read or written, 2 if a line is
not understood or does not fit the trace, 3 if --fail-on says so.
"""


def read_args() -> argparse.Namespace:
    parser = parser_of("summary", "Groups the cycles of a report by code location, and prints each group with one example.", HELP)
    parser.add_argument("trace", help="an event file or a script")
    parser.add_argument("report", help="the report on it, written by goodlockd or an agent")
    parser.add_argument("--groups", type=count, default=200, metavar="N", help="show the first N groups of each report; default 200")
    parser.add_argument("--generate-suppressions", action="store_true",
                        help="print a suppression for each group, shown or not, instead of the text")
    ci.add_options(parser)
    args = ci.parse(parser, "summary")
    printed = ci.printed_by(args)
    if args.generate_suppressions and printed:
        parser.error(f"--generate-suppressions and {printed[0]} print on standard output")
    return args


def run_of(args: argparse.Namespace, settings: Settings) -> tuple[list[Question], Run]:
    started = time.monotonic()
    index = Index(read_trace(args.trace))
    found = questions_of(index, args.report, settings.root, settings.judge, args.groups)
    questions = [question for _, question in found]
    happened = sum(result.verdict is Verdict.HAPPENED for result in questions[-1].results)
    return questions, Run(
        name=args.trace,
        results=tuple(merged_results(questions)),
        numbers=numbers_of(index, found[-1][0], happened, time.monotonic() - started),
        left_out=LeftOut(*(sum(counts) for counts in zip(*(question.left_out for question in questions)))),
        most=args.groups,
        notes=tuple(dict.fromkeys(note for question in questions for note in question.notes)),
        suppressions=settings.suppression_file,
        unused=settings.suppressions.unused(),
        has_baseline=settings.judge.baseline is not None,
    )


def suppressions_text(questions: list[Question]) -> str:
    """Returns a line of suppressions for each group, after a comment with its verdict and its number of cycles."""
    lines: dict[str, str] = {}
    for result in (result for question in questions for result in kept(question.results)):
        line = suppression_of(result.pairs)
        lines.setdefault(line, f"# {result.verdict.value}, {plural(result.cycles, 'cycle')}\n{line}\n")
    return "".join(lines.values())


def summarise() -> int:
    args = read_args()
    settings = settings_of(args)
    questions, found = run_of(args, settings)
    judgement = settings.gate.judgement(found.results, found.left_out)
    if args.generate_suppressions:
        print_whole(suppressions_text(questions))
        return 0
    ci.write(args, found, judgement, lambda: summary_text(questions, found),
             lambda: json_text(args.trace, args.report, questions, found, judgement))
    return ci.status_of("summary", judgement)


def main() -> int:
    return run(summarise)
