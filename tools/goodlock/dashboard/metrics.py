"""What the dashboard knows in Prometheus' text form. docs/operation.md has the metrics with their meaning, and when to alert."""
from __future__ import annotations

import time
from typing import NamedTuple, Optional

from goodlock.dashboard.watch import NO_SEAT, SENTENCES, Watch
from goodlock.dashboard.windows import Windows
from goodlock.protocol import REFUSALS

FORM = "text/plain; version=0.0.4; charset=utf-8"
COUNTED = [*(REFUSALS[number] for number in SENTENCES), NO_SEAT]  # refusals that have a value from the beginning


class Metric(NamedTuple):
    """A metric, and its values by their labels, as in `state="pending"`. One that is not known has no value."""

    name: str
    help: str
    values: dict[str, Optional[float]]

    @property
    def text(self) -> str:
        kind = "counter" if self.name.endswith("_total") else "gauge"
        lines = [f"# HELP goodlockd_{self.name} {self.help}", f"# TYPE goodlockd_{self.name} {kind}"]
        lines += [f"goodlockd_{self.name}{f'{{{label}}}' if label else ''} {value:.10g}" for label, value in self.values.items() if value is not None]
        return "".join(f"{line}\n" for line in lines)


def metrics_of(watch: Watch, has_deadlock: bool) -> list[Metric]:
    view = watch.view
    questions, seen = view["questions"], view["seen_at"]
    pending = [question.seconds or 0.0 for question in questions if not question.is_settled]
    confirmed, potential = max(((question.confirmed, question.potential) for question in questions), default=(0, 0))
    totals = watch.totals if isinstance(watch, Windows) else {}
    if totals:
        confirmed, potential = totals["confirmed"], totals["potential"]
    refusals = dict.fromkeys(COUNTED, 0) | watch.refusals
    return [
        Metric("up", "1 if /healthz has the status 200.", {"": not watch.fault()}),
        Metric("state_age_seconds", "Seconds since the state of the server was read.", {"": None if seen is None else max(0.0, time.time() - seen)}),
        Metric("events_total", "Events that the server has accepted.", {"": view["accepted"]}),
        Metric("full", "1 if the server refuses each further event, since its trace is full.", {"": view["full"]}),
        Metric("questions", "Questions of the server by their state.",
               {} if totals else {'state="pending"': len(pending), 'state="settled"': len(questions) - len(pending)}),
        Metric("oldest_pending_seconds", "For how long the dashboard has seen the oldest question that is not settled, or 0.",
               {"": None if totals else max(pending, default=0.0)}),
        Metric("cycles", "Cycles of the question with the most confirmed ones, as the server counts them.",
               {'verdict="confirmed"': confirmed, 'verdict="potential"': potential}),
        Metric("windows_total", "Windows of the service. Only with --windows, as the next one.", {"": totals.get("windows")}),
        Metric("windows_left_out_total", "Windows that no server has taken, since two were alive.", {"": totals.get("left_out")}),
        Metric("deadlock", "1 if the agent says that a deadlock has happened. Needs --trace.", {"": has_deadlock}),
        Metric("restarts_total", "Restarts of the server that the dashboard has seen.", {"": view["run"]}),
        Metric("sessions_total", "Sessions in which the dashboard has read the state of the server.", {"": watch.sessions}),
        Metric("reconnects_total", "Attempts of the dashboard to connect to the server again.", {"": max(0, watch.attempts - 1)}),
        Metric("refusals_total", "Requests of the dashboard that the server has refused.",
               {f'refusal="{name}"': count for name, count in refusals.items()}),
    ]


def metrics_text(watch: Watch, has_deadlock: bool) -> str:
    return "".join(metric.text for metric in metrics_of(watch, has_deadlock))
