"""Writes results as Markdown: a summary for a pull request or a workflow."""
from __future__ import annotations

import re
from collections.abc import Iterator

from goodlock.commandline import plural
from goodlock.gates import Judgement
from goodlock.reports import no_value_text
from goodlock.results import Result, ResultMember, Run, State, headline

MOST_WITNESSES = 20
TICKS = re.compile("`+")


def text_of(run: Run, judgement: Judgement) -> str:
    parts = [f"### Deadlocks: {headline(run.results)}"]
    if judgement.sentence:
        parts.append(f"**Failed by {judgement.sentence}.**")
    elif judgement.gate.fail_on:
        parts.append(f"Passed with --fail-on {judgement.gate.fail_on}.")
    if run.shown:
        parts.append("\n".join(["| | Verdict | Threads | Cycles |", "|---|---|---|---|", *map(row, run.shown)]))
    parts += [details(result) for result in run.shown if result.witness and result.state is State.NEW][:MOST_WITNESSES]
    if run.remarks:
        parts.append("\n".join(f"- {code(remark)}" for remark in run.remarks))
    return "\n\n".join([*parts, numbers(run)]) + "\n"


def row(result: Result) -> str:
    sides = "<br>".join(side(member) for member in result.members)
    verdict = f"{result.verdict.value}, {result.condition}" if result.condition else result.verdict.value
    return f"| {result.state.value} | {verdict} | {sides} | {result.counts} |"


def side(member: ResultMember) -> str:
    verb = "started at" if member.hold.lock is None else "holds"
    return f"{verb} {cell(member.hold.location.text)}, waits at {cell(member.wait.location.text)}"


def code(text: str) -> str:
    """Returns a text as code: between more backticks than it has in a row."""
    ticks = "`" * (1 + max(map(len, TICKS.findall(text)), default=0))
    space = " " if text.startswith("`") or text.endswith("`") else ""
    return f"{ticks}{space}{text}{space}{ticks}"


def cell(text: str) -> str:
    """Returns a text as code in a table."""
    return code(text).replace("|", "\\|")


def details(result: Result) -> str:
    """Returns the witness of a result, folded, after the reads that decide whether it happens so."""
    reads = [f"{result.kept_apart.heading}:", *result.kept_apart.sentences] if result.kept_apart and result.kept_apart.sentences else []
    block = "\n".join(f"    {line}" for line in [*reads, *witness_lines(result)])
    return f"<details><summary>How it happens</summary>\n\n{block}\n\n</details>"


def witness_lines(result: Result) -> Iterator[str]:
    if result.witness:
        yield from result.witness.lines(lambda step: step.location.text if step.location else "")
    for member in result.members:
        yield f"thread {member.thread} waits for {member.wait.target}    {member.wait.location.text}"


def numbers(run: Run) -> str:
    found = run.numbers
    sizes = [plural(found.events, "event"), plural(found.threads, "thread"), plural(found.locks, "lock"),
             f"{found.dependencies:,} {'dependency' if found.dependencies == 1 else 'dependencies'}"]
    cycles = f"{plural(found.confirmed, 'confirmed cycle')}{no_value_text(found.no_value)}, {plural(found.potential, 'potential cycle')}"
    return f"{', '.join(sizes)}; {cycles}, in {plural(len(run.results), 'group')}; {found.seconds:.1f} s"
