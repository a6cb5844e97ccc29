"""Writes results as a log in SARIF 2.1.0."""
from __future__ import annotations

import json
import re
from typing import Any, NamedTuple, Optional
from urllib.parse import quote

from goodlock.gates import Judgement
from goodlock.groups import Location
from goodlock.program import version
from goodlock.reports import Verdict
from goodlock.results import Result, ResultMember, Run, State, rule_of

SCHEMA = "https://json.schemastore.org/sarif-2.1.0.json"
BASE = "%SRCROOT%"  # the name that consumers know for the top of the checkout
SEMANTIC_VERSION = re.compile(r"[0-9]+\.[0-9]+\.[0-9]+")
Object = dict[str, Any]


class Rule(NamedTuple):
    verdict: Verdict
    name: str
    level: str
    short: str
    full: str
    help: str

    @property
    def id(self) -> str:
        return rule_of(self.verdict)


RULES = [
    Rule(
        Verdict.CONFIRMED, "ConfirmedDeadlock", "error",
        "Some order of the observed events leads to a deadlock.",
        "Threads acquire locks in a ring. An order of the events of this run, the witness, leads to a state in which each of them waits "
        "for a lock that the next one holds.",
        "The code flow is the witness: run the steps of all threads in this order, and each thread waits for a lock that the next one "
        "holds. Acquire the locks in one order everywhere, or hold one lock around each of the acquires.",
    ),
    Rule(
        Verdict.POTENTIAL, "PotentialDeadlock", "warning",
        "Threads acquire locks in a ring, but no order that was examined leads to the deadlock.",
        "Threads acquire locks in a ring. Something in this run kept them apart: a fork, a join, a value that was read, or the order of "
        "critical sections. Orders that swap two critical sections of one lock are not examined.",
        "If the threads are kept apart by design, the ring is harmless: suppress it. If they are kept apart by chance, acquire the locks "
        "in one order.",
    ),
    Rule(
        Verdict.HAPPENED, "HappenedDeadlock", "error",
        "The run ended in this deadlock.",
        "While the program ran, threads waited for each other and could not go on.",
        "Each thread waits for what the next one holds. Acquire the locks in one order everywhere, or hold one lock around each of the "
        "acquires.",
    ),
    Rule(
        Verdict.NO_VALUE, "DeadlockIfNoValueDecides", "error",
        "Some order of the observed events leads to a deadlock if no value that a thread reads decides otherwise.",
        "Threads acquire locks in a ring. An order of the events of this run, the witness, leads to a state in which each of them waits "
        "for a lock that the next one holds. In this order some reads of plain memory, which the message names, see another value than in the run.",
        "If a thread that sees another value there does not come to its acquire, the ring is harmless: suppress it. Otherwise acquire the "
        "locks in one order everywhere, or hold one lock around each of the acquires.",
    ),
]


def text_of(run: Run, judgement: Judgement) -> str:
    results = [result_object(run, result) for result in [*run.shown, *run.with_state(State.SUPPRESSED)]]
    log = {
        "tool": {"driver": driver_object()},
        "invocations": [invocation_object(run, judgement)],
        "originalUriBaseIds": {BASE: {"description": {"text": "The top of the checkout, or the folder of --root."}}},
        "results": results,
    }
    return json.dumps({"$schema": SCHEMA, "version": "2.1.0", "runs": [log]}, indent=2) + "\n"


def driver_object() -> Object:
    number = version()
    driver: Object = {"name": "goodlockd", "rules": [rule_object(rule) for rule in RULES]}
    if number:
        driver["version"] = number
    if SEMANTIC_VERSION.fullmatch(number):
        driver["semanticVersion"] = number
    return driver


def rule_object(rule: Rule) -> Object:
    return {
        "id": rule.id,
        "name": rule.name,
        "shortDescription": {"text": rule.short},
        "fullDescription": {"text": rule.full},
        "help": {"text": rule.help},
        "defaultConfiguration": {"level": rule.level},
        "properties": {"tags": ["concurrency", "deadlock"], "problem.severity": rule.level},
    }


def invocation_object(run: Run, judgement: Judgement) -> Object:
    """Returns how the tool ended. It was not successful if a trace has no report."""
    notes = [notification(note, "warning") for note in run.remarks if note not in run.fault_lines]
    return {
        "executionSuccessful": not run.faults,
        "exitCode": judgement.status or (1 if run.faults else 0),
        "toolExecutionNotifications": [notification(line, "error") for line in run.fault_lines] + notes,
    }


def notification(text: str, level: str) -> Object:
    return {"level": level, "message": {"text": text}}


def result_object(run: Run, result: Result) -> Object:
    rule = next(rule for rule in RULES if rule.verdict is result.verdict)
    waits = [location_object(member.wait.location, wait_message(member)) for member in result.members]
    holds = [location_object(member.hold.location, hold_message(member)) for member in result.members]
    found: Object = {
        "ruleId": rule.id,
        "ruleIndex": RULES.index(rule),
        "level": rule.level,
        "message": {"text": result.message},
        "locations": waits[:1],
        "relatedLocations": [{"id": number, **location} for number, location in enumerate(waits[1:] + holds, 1)],
        "occurrenceCount": max(1, result.cycles),
        "partialFingerprints": {"codeLocations/v1": result.fingerprint},
    }
    if run.has_baseline:
        found["baselineState"] = baseline_state(result)
    if run.suppressions:
        found["suppressions"] = suppressions_of(run.suppressions, result)
    if result.witness:
        found["codeFlows"] = [{"threadFlows": thread_flows(result)}]
    return found


def baseline_state(result: Result) -> str:
    if result.before is None or result.verdict.is_confirmed and not result.before.is_confirmed:
        return "new"
    return "unchanged" if result.before is result.verdict else "updated"


def suppressions_of(file: str, result: Result) -> list[Object]:
    """Returns the suppressions of a result: an empty list says that it has none."""
    if result.suppressed_by is None:
        return []
    place = {"physicalLocation": physical_location(file, result.suppressed_by)}
    return [{"kind": "external", "justification": f"line {result.suppressed_by} of {file}", "location": place}]


def wait_message(member: ResultMember) -> str:
    return f"{member.title} waits here for {member.wait.target}"


def hold_message(member: ResultMember) -> str:
    if member.hold.lock is None:
        return f"{member.title} was started here"
    return f"{member.title} holds {member.hold.target}, which it acquired here"


def location_object(location: Optional[Location], message: str) -> Object:
    found: Object = {"message": {"text": message}}
    if location is None:
        return found
    function = {"name": location.function, "kind": "function"} if location.function else {"name": location.text}
    found["logicalLocations"] = [function]
    if location.file:
        found["physicalLocation"] = physical_location(location.file, location.line or 1)
    return found


def physical_location(file: str, line: int) -> Object:
    artifact = {"uri": f"file://{quote(file)}"} if file.startswith("/") else {"uri": quote(file), "uriBaseId": BASE}
    return {"artifactLocation": artifact, "region": {"startLine": line}}


def thread_flows(result: Result) -> list[Object]:
    """Returns the steps of the witness for each thread, and at the end of each member's steps the acquire at which it waits."""
    flows: dict[int, list[Object]] = {}
    steps = result.witness.steps if result.witness else ()
    for order, step in enumerate(steps, 1):
        message = f"thread {step.thread} {step.event} at {step.at}"
        flows.setdefault(step.thread, []).append(flow_step(step.location, message, order))
    for order, member in enumerate(result.members, len(steps) + 1):
        place = "" if member.wait.place is None else f" at {member.wait.at}"
        message = f"{member.title} waits for {member.wait.target}{place}"
        flows.setdefault(member.thread, []).append(flow_step(member.wait.location, message, order))
    return [{"id": f"thread {thread}", "locations": steps} for thread, steps in flows.items()]


def flow_step(location: Optional[Location], message: str, order: int) -> Object:
    return {"location": location_object(location, message), "executionOrder": order}
