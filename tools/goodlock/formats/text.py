"""Writes results as text for people."""
from __future__ import annotations

from collections.abc import Iterator, Sequence

from goodlock.commandline import plural
from goodlock.groups import why_left_out
from goodlock.reports import Verdict, confirmed_text, no_value_text
from goodlock.results import Question, Result, ResultMember, Run, State, kept


def summary_text(questions: Sequence[Question], run: Run) -> str:
    """Returns the summary of the reports on a trace."""
    parts = ["\n".join(question_lines(question, run.most)) for question in questions]
    return "\n\n".join([*parts, *run.unused_lines]) + "\n"


def question_lines(question: Question, most: int) -> Iterator[str]:
    report, shown, left_out = question.report, kept(question.results), question.left_out
    yield (f"question {report.question}: {plural(report.length, 'event')}; cycles of at most {report.bound} members: {report.cycles:,}, "
           f"confirmed {report.confirmed:,}{no_value_text(question.no_value)}, in {plural(len(question.results), 'group')}")
    yield from (f"  {note}" for note in question.notes)
    if not report.cycles and not question.results:
        yield "  Within the bound this run predicts no deadlock of this shape."
    yield from (f"  {line}" for line in why_left_out(left_out.tried, left_out.writers_wait))
    if left_out.further:
        yield f"  {plural(left_out.further, 'cycle')} left out, {left_out.further_text}: these are in too many further groups"
    for number, result in enumerate(shown[:most], 1):
        yield ""
        yield from result_lines(number, result)
    yield from left_out_lines(question.results, most)


def left_out_lines(results: Sequence[Result], most: int) -> Iterator[str]:
    shown, suppressed = kept(results), [result for result in results if result.state is State.SUPPRESSED]
    if len(shown) > most:
        yield f"\n{plural(len(shown) - most, 'group')} not shown"
    if suppressed:
        yield f"\n{plural(len(suppressed), 'group')} with {plural(sum(result.cycles for result in suppressed), 'cycle')} suppressed"


def head_of(number: int, result: Result, counts: str) -> str:
    """Returns `group 1 confirmed, known: 3 cycles`. A new result is not called so: without a baseline all are new."""
    words = [result.verdict.value, result.condition, "reproduced" if result.reproduced else "", "known" if result.state is State.KNOWN else ""]
    head = f"group {number} {', '.join(word for word in words if word)}"
    return f"{head}: {counts}" if counts else head


def counts_of(result: Result) -> str:
    counts = plural(result.cycles, "cycle") if result.cycles else ""
    confirmed = confirmed_text(result.confirmed, result.no_value).removeprefix("0 confirmed, ")
    return f"{counts}, {confirmed}" if result.confirmed or result.no_value else counts


def result_lines(number: int, result: Result) -> Iterator[str]:
    yield head_of(number, result, counts_of(result))
    verb = "waits for" if result.verdict.is_confirmed else "wants"
    for member in result.members:
        yield f"  {member.title}"
        yield from hold_lines(member)
        yield f"    {verb} {member.wait.target}{f' at {member.wait.source}' if member.wait.source else ''}"
    yield from apart_lines(result)
    if result.witness:
        yield from witness_lines(result)
    yield from reproduced_lines(result)
    yield f"  Look at: {result.advice}"


def hold_lines(member: ResultMember) -> Iterator[str]:
    """Yields what a member holds: nothing if another one waits for its end."""
    if member.hold.lock is not None:
        yield f"    holds {member.hold.target}{f', acquired at {member.hold.source}' if member.hold.source else ''}"
    else:
        yield f"    was started at {member.hold.source}"


def witness_lines(result: Result) -> Iterator[str]:
    witness = result.witness
    assert witness
    yield f"  How it happens, in cycle {' '.join(map(str, result.example))} with {plural(witness.events, 'event')}:"
    yield from (f"    {line}" for line in witness.lines(lambda step: step.source))
    for at, member in enumerate(result.members):
        holder = result.members[(at + 1) % len(result.members)].thread
        where = f"    {member.wait.source}" if member.wait.source else ""
        yield f"    {member.wait.label}: thread {member.thread} waits for lock {member.wait.lock}, which thread {holder} holds{where}"


def reproduced_lines(result: Result) -> Iterator[str]:
    """Yields what happened when the deadlock was reproduced, and the command for it."""
    if result.reproduced:
        yield f"  It was {result.reproduced[0]}:"
        yield from (f"    {line}" for line in result.reproduced[1:])
    if result.reproduce:
        yield f"  Reproduce: {result.reproduce}"


def apart_lines(result: Result) -> Iterator[str]:
    apart = result.kept_apart
    if result.verdict is Verdict.HAPPENED or apart is None:
        return
    yield f"  {apart.heading}{':' if apart.sentences else ''}"
    yield from (f"    {sentence}" for sentence in apart.sentences)
    if apart.further:
        yield f"    {apart.further}"
    if apart.sentences:
        yield f"  In full: {apart.command}{apart.note}"


# ---- many traces ----


def many_text(run: Run, traces: int) -> str:
    return "\n".join(many_lines(run, traces)) + "\n"


def many_lines(run: Run, traces: int) -> Iterator[str]:
    numbers = run.numbers
    yield (f"{plural(traces, 'trace')}, {len(run.faults):,} without a report; {plural(numbers.events, 'event')}; "
           f"{plural(numbers.cycles, 'cycle')}, {confirmed_text(numbers.confirmed, numbers.no_value)}, in {plural(len(run.results), 'group')}")
    yield from (f"  {line}" for line in why_left_out(numbers.tried, numbers.writers_wait))
    yield from (f"  {note}" for note in run.notes)
    for number, result in enumerate(run.shown, 1):
        yield ""
        yield from merged_lines(number, result)
    yield from left_out_lines(run.results, run.most)
    if run.unused:
        yield ""
        yield from run.unused_lines
    if run.faults:
        yield "\nwithout a report"
        yield from (f"  {line}" for line in run.fault_lines)


def merged_lines(number: int, result: Result) -> Iterator[str]:
    traces = f"in {plural(result.trace_count, 'trace')}"
    counts = f"{plural(result.cycles, 'cycle')} {traces}, {confirmed_text(result.confirmed, result.no_value)}"
    yield head_of(number, result, counts if result.cycles else traces)
    for member in result.members:
        yield f"  a thread {member.role}"
        yield f"    and {'waits' if result.verdict.is_confirmed else 'wants another'} at {member.wait.location.text}"
    if result.why:
        yield f"  {result.why}"
    example = f" as cycle {' '.join(map(str, result.example))}" if result.example else ""
    first, *others = result.traces
    yield f"  In {first}{example}{''.join(f', in {other}' for other in others)}"
    yield f"  Look at: {result.advice}"
