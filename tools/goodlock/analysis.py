"""Makes the results of the reports on a trace: groups their cycles, judges each group, and explains those that are shown."""
from __future__ import annotations

from collections.abc import Iterable, Sequence
from dataclasses import replace

from goodlock.gates import Judge
from goodlock.grades import graded
from goodlock.groups import Groups, groups_of
from goodlock.happened import deadlock_of, with_happened
from goodlock.locations import Root
from goodlock.reasons import Reason, reasons_of
from goodlock.reports import ReportReader, Verdict
from goodlock.results import KeptApart, LeftOut, Question, Result, State, kept, numbered, ordered, result_of
from goodlock.traces import Index, lines_of


def questions_of(index: Index, report: str, root: Root, judge: Judge, most: int) -> list[tuple[Groups, Question]]:
    """Returns the groups and the results of each report in a file."""
    reader = ReportReader(report, index)
    found = groups_of(index, graded(index, reader.read(lines_of(report))))
    return [(groups, question_of(index, groups, notes, root, judge, most)) for groups, notes in zip(found, reader.notes)]


def question_of(index: Index, groups: Groups, notes: Sequence[str], root: Root, judge: Judge, most: int) -> Question:
    happened, others = deadlock_of(notes, root)
    results = with_happened([result_of(index, group, root) for group in groups.ordered()], happened)
    judged = judge.judged(numbered(results, root))
    left_out = LeftOut(groups.tried, groups.further, groups.further_confirmed, groups.further_no_value, groups.writers_wait)
    notes = [*others, f"the trace is reduced: {index.origins.note}"] if index.origins.note else others
    return Question(groups.report, tuple(explained(index, groups, judged, most)), left_out, tuple(notes))


def explained(index: Index, groups: Groups, results: Sequence[Result], most: int) -> list[Result]:
    """Returns the results with what keeps the threads of those apart that are shown: of the first `most` that are not suppressed."""
    shown = {result.example for result in kept(results)[:most] if result.verdict in (Verdict.POTENTIAL, Verdict.NO_VALUE)}
    cycles = [group.example for group in groups.by_key.values() if group.example.numbers in shown]
    reasons = reasons_of(index, groups.report, cycles)
    return [replace(result, kept_apart=kept_apart_of(reasons[result.example]), advice=reasons[result.example].advice)
            if result.example in reasons and result.state is not State.SUPPRESSED else result for result in results]


def kept_apart_of(reason: Reason) -> KeptApart:
    return KeptApart(reason.heading, tuple(reason.sentences), reason.left_out, reason.further(), reason.command, reason.note)


def merged_results(questions: Iterable[Question]) -> list[Result]:
    """Returns the results of all reports on a trace. One that several reports have is taken once, with its strongest evidence, and of
    equal evidence from the last report."""
    strongest: dict[str, Result] = {}
    for result in (result for question in questions for result in question.results):
        if result.fingerprint not in strongest or strongest[result.fingerprint].verdict.rank <= result.verdict.rank:
            strongest[result.fingerprint] = result
    return ordered(strongest.values())
