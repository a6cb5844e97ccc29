"""Writes results as a file of JUnit's XML, which every CI server reads. It has only what the schema of Jenkins allows."""
from __future__ import annotations

import re
from xml.etree import ElementTree as xml

from goodlock.gates import Judgement, Level, level_of
from goodlock.results import Result, Run, State, place_of

SUITE = "goodlock"
NO_XML = re.compile("[^\t\n\r\x20-\ud7ff\ue000-\ufffd\U00010000-\U0010ffff]")


def text_of(run: Run, judgement: Judgement) -> str:
    cases = [case(trace, "error", "no report", fault) for trace, fault in run.faults] or [xml.Element("testcase", names_of(run.name))]
    cases += [result_case(result, judgement) for result in [*run.shown, *run.with_state(State.SUPPRESSED)]]
    if judgement.unjudged:
        cases.append(case("further groups", "failure", "too many groups", f"{judgement.unjudged:,} cycles are in no group"))
    counts = counts_of(cases, run.numbers.seconds)
    suites = xml.Element("testsuites", {"name": SUITE, **counts})
    suite = xml.SubElement(suites, "testsuite", {"name": SUITE, **counts})
    properties = xml.SubElement(suite, "properties")
    for name in ("events", "threads", "locks", "dependencies"):
        xml.SubElement(properties, "property", {"name": name, "value": str(getattr(run.numbers, name))})
    suite.extend(cases)
    if run.remarks:
        xml.SubElement(suite, "system-out").text = clean("\n".join(run.remarks))
    xml.indent(suites)
    return '<?xml version="1.0" encoding="utf-8"?>\n' + xml.tostring(suites, encoding="unicode") + "\n"


def clean(text: str) -> str:
    """Returns a text without the letters that XML does not have."""
    return NO_XML.sub("\ufffd", text)


def counts_of(cases: list[xml.Element], seconds: float) -> dict[str, str]:
    """Returns the attributes of a suite. The skipped cases are not among those that the schema allows for all suites."""
    failures, errors = (sum(case.find(name) is not None for case in cases) for name in ("failure", "error"))
    return {"tests": str(len(cases)), "failures": str(failures), "errors": str(errors), "time": f"{seconds:.3f}"}


def names_of(name: str) -> dict[str, str]:
    return {"classname": SUITE, "name": clean(name), "time": "0"}


def case(name: str, outcome: str, kind: str, message: str) -> xml.Element:
    """Returns a case that has not passed: with an error or a failure, or skipped."""
    found = xml.Element("testcase", names_of(name))
    xml.SubElement(found, outcome, {"type": kind, "message": clean(message)})
    return found


def name_of(result: Result) -> str:
    """Returns a name that outlives an edit elsewhere: where the members wait, without lines."""
    number = result.fingerprint.rpartition(":")[2]
    places = ", ".join(place_of(member.wait.location) for member in result.members)
    return places if number == "1" else f"{places} ({number})"


def result_case(result: Result, judgement: Judgement) -> xml.Element:
    """Returns a result as a case: it fails if it is an error, and is skipped if it is known or suppressed."""
    if level_of(result, judgement.gate) is Level.ERROR:
        found = case(name_of(result), "failure", result.rule, result.message)
        found[0].text = clean("\n".join(lines_of(result)))
    elif result.state is not State.NEW:
        why = "in the baseline" if result.state is State.KNOWN else f"line {result.suppressed_by} of the suppressions"
        found = case(name_of(result), "skipped", result.rule, f"{result.state.value}: {why}")
    else:
        found = xml.Element("testcase", names_of(name_of(result)))
        xml.SubElement(found, "system-out").text = clean(result.message)
    return found


def lines_of(result: Result) -> list[str]:
    """Returns the members and the steps of a result."""
    lines = [result.title]
    for member in result.members:
        lines += [f"thread {member.thread} {member.role}", f"    and waits at {member.wait.location.text}"]
    for step in result.witness.steps if result.witness else ():
        lines.append(f"{step.label}: thread {step.thread} {step.event}{f' at {step.location.text}' if step.location else ''}")
    return lines
