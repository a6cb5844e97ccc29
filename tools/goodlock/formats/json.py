"""Writes results as JSON, and reads them again."""
from __future__ import annotations

import json
from collections.abc import Sequence
from dataclasses import fields
from typing import Any, Optional

from goodlock.gates import Judgement
from goodlock.groups import Location
from goodlock.locations import Root
from goodlock.reports import Verdict
from goodlock.results import KeptApart, Numbers, Question, Result, ResultMember, Run, Spot, State, Witness, WitnessStep, kept
from goodlock.traces import Origin

VERSION = 1
Object = dict[str, Any]


def text_of(value: object) -> str:
    return json.dumps(value, indent=2) + "\n"


def summary_text(trace: str, report: str, questions: Sequence[Question], run: Run, judgement: Judgement) -> str:
    """Returns the summary of the reports on a trace."""
    return text_of({
        "version": VERSION,
        "trace": trace,
        "report": report,
        "questions": [question_object(question, run.most) for question in questions],
        "unused_suppressions": list(run.unused),
        **run_object(run, judgement),
    })


def many_text(run: Run, traces: int, judgement: Judgement) -> str:
    """Returns the merged summary of many traces."""
    numbers = run.numbers
    return text_of({
        "version": VERSION,
        "traces": traces,
        **{name: getattr(numbers, name) for name in ("events", "cycles", "confirmed", "no_value", "tried", "writers_wait")},
        "groups": [merged_object(result) for result in run.results],
        "faults": dict(run.faults),
        "unused_suppressions": list(run.unused),
        **run_object(run, judgement),
    })


def run_object(run: Run, judgement: Judgement) -> Object:
    """Returns what a summary of one trace and one of many have in common. `fingerprints` has all results: it is what a baseline needs."""
    return {
        "numbers": numbers_object(run.numbers),
        "gate": {"fail_on": judgement.gate.fail_on, "failing": len(judgement.failing), "status": judgement.status},
        "fingerprints": {result.fingerprint: result.verdict.value for result in run.results},
    }


def numbers_object(numbers: Numbers) -> Object:
    return {
        **{name: getattr(numbers, name) for name in ("events", "threads", "locks", "dependencies")},
        "cycles": {name: getattr(numbers, name) for name in ("confirmed", "no_value", "potential", "tried", "writers_wait")},
        "happened": numbers.happened,
        "seconds": round(numbers.seconds, 3),
    }


def question_object(question: Question, most: int) -> Object:
    report, shown = question.report, kept(question.results)
    return {
        "question": report.question,
        "length": report.length,
        "bound": report.bound,
        "cycles": report.cycles,
        "confirmed": report.confirmed,
        "no_value": question.no_value,
        "groups": len(question.results),
        "not_shown": max(0, len(shown) - most),
        "suppressed": counts_object(question.results, State.SUPPRESSED),
        "known": counts_object(question.results, State.KNOWN),
        "left_out": question.left_out._asdict(),
        "notes": list(question.notes),
        "shown": [result_object(result) for result in shown[:most]],
    }


def counts_object(results: Sequence[Result], state: State) -> Object:
    found = [result for result in results if result.state is state]
    return {"groups": len(found), "cycles": sum(result.cycles for result in found)}


def result_object(result: Result) -> Object:
    found: Object = {
        **head_object(result),
        "members": [member_object(member) for member in result.members],
        "look_at": result.advice,
    }
    if result.witness:
        steps = [step_object(step) for step in result.witness.steps]
        found["witness"] = {"events": result.witness.events, "steps": steps, "left_out_at_end": result.witness.left_out}
    if result.kept_apart:
        apart = result.kept_apart
        found["kept_apart"] = {"heading": apart.heading, "sentences": list(apart.sentences), "steps_left_out": apart.left_out,
                               "command": apart.command}
    if result.reproduced:
        found["reproduced"] = list(result.reproduced)
    if result.reproduce:
        found["reproduce"] = result.reproduce
    return found


def head_object(result: Result) -> Object:
    return {
        "verdict": result.verdict.value,
        "state": result.state.value,
        "fingerprint": result.fingerprint,
        "cycles": result.cycles,
        "confirmed": result.confirmed,
        "no_value": result.no_value,
        "example": list(result.example),
        **({"condition": result.condition} if result.condition else {}),
    }


def member_object(member: ResultMember) -> Object:
    return {
        "thread": member.thread,
        "thread_name": member.name,
        "holds": spot_object(member.hold),
        "waits": spot_object(member.wait),
        "held": list(member.held),
    }


def spot_object(spot: Spot) -> Object:
    return {"lock": spot.lock, "lock_name": spot.name, "place": spot.place, **original_object(spot.origin),
            **location_object(spot.location, spot.callers)}


def original_object(origin: Optional[Origin]) -> Object:
    """Returns where an event was in the file from which the trace was reduced or converted."""
    return {"original": {origin.kind: origin.number, "file": origin.file}} if origin else {}


def original_from(found: Optional[Object]) -> Optional[Origin]:
    if not found:
        return None
    kind = "line" if "line" in found else "place"
    return Origin(kind, found[kind], found["file"])


def location_object(location: Location, callers: Sequence[str]) -> Object:
    return {"location": location.text, "file": location.file, "line": location.line, "function": location.function, "callers": list(callers)}


def step_object(step: WitnessStep) -> Object:
    where = location_object(step.location, step.callers) if step.location else {}
    return {"place": step.place, **original_object(step.origin), "left_out_before": step.left_out, "thread": step.thread, "event": step.event, **where}


def merged_object(result: Result) -> Object:
    """Returns a result of many traces: its members are pairs of locations."""
    return {
        **head_object(result),
        "members": [list(pair) for pair in result.pairs],
        "look_at": result.advice,
        "why": result.why,
        "traces": result.trace_count,
        "first_traces": list(result.traces),
    }


# ---- reading ----


def numbers_from(found: Object) -> Numbers:
    known = {one.name for one in fields(Numbers)}
    return Numbers(**{name: value for name, value in {**found, **found["cycles"]}.items() if name in known})


def result_from(found: Object, root: Root) -> Result:
    """Returns the result of a group in a summary, without its fingerprint and its state."""
    witness, apart = found.get("witness"), found.get("kept_apart")
    return Result(
        verdict=Verdict(found["verdict"]),
        members=tuple(member_from(member, root) for member in found["members"]),
        advice=found["look_at"],
        cycles=found["cycles"],
        confirmed=found["confirmed"],
        example=tuple(found["example"]),
        witness=Witness(witness["events"], tuple(step_from(step, root) for step in witness["steps"]), witness["left_out_at_end"])
        if witness else None,
        kept_apart=KeptApart(apart["heading"], tuple(apart["sentences"]), apart["steps_left_out"], command=apart["command"]) if apart else None,
        reproduced=tuple(found.get("reproduced", ())),
        reproduce=found.get("reproduce", ""),
        condition=found.get("condition", ""),
        no_value=found.get("no_value", 0),
    )


def member_from(found: Object, root: Root) -> ResultMember:
    return ResultMember(found["thread"], spot_from(found["holds"], root), spot_from(found["waits"], root), tuple(found["held"]),
                        found["thread_name"])


def spot_from(found: Object, root: Root) -> Spot:
    return Spot(root.location(found["location"]), found["lock"], found["place"], tuple(found["callers"]), found["lock_name"],
                origin=original_from(found.get("original")))


def step_from(found: Object, root: Root) -> WitnessStep:
    location = root.location(found["location"]) if "location" in found else None
    return WitnessStep(found["place"], found["thread"], found["event"], found["left_out_before"], location, tuple(found.get("callers", ())),
                       original_from(found.get("original")))
