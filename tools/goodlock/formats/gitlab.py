"""Writes results as a code quality report of GitLab, which compares it with that of the target branch."""
from __future__ import annotations

import hashlib
import json

from goodlock.reports import Verdict
from goodlock.results import Result, Run

SEVERITIES = {Verdict.HAPPENED: "blocker", Verdict.CONFIRMED: "critical", Verdict.NO_VALUE: "major", Verdict.POTENTIAL: "minor"}


def text_of(run: Run) -> str:
    issues = [issue_of(run.name, result) for result in run.shown]
    for trace, fault in run.faults:
        fingerprint = hashlib.sha256(trace.encode("utf-8", "replace")).hexdigest()
        issues.append(issue(f"There is no report: {fault}", "no-report", fingerprint, "major", trace))
    return json.dumps(issues, indent=2) + "\n"


def issue_of(name: str, result: Result) -> dict[str, object]:
    """Returns a result as an issue. Each issue needs a file: without source lines it is the trace."""
    location, (trace, *_) = result.location, (*result.traces, name)
    return issue(result.message, result.rule, result.fingerprint, SEVERITIES[result.verdict], location.file or trace, location.line or 1)


def issue(description: str, check: str, fingerprint: str, severity: str, path: str, line: int = 1) -> dict[str, object]:
    return {"description": description, "check_name": check, "fingerprint": fingerprint, "severity": severity,
            "location": {"path": path, "lines": {"begin": line}}}
