"""The verdict on a run: the first line of a page, and its title."""
from __future__ import annotations

from typing import NamedTuple

from goodlock.commandline import plural
from goodlock.reports import Verdict, confirmed_text

PREDICTS = "This run predicts"


class Line(NamedTuple):
    """The verdict in words, and its strength: 0 if nothing was found, else one more than the rank of a Verdict. `kind` is its class in page.css."""

    text: str
    rank: int
    kind: str


def kind_of(verdict: Verdict) -> str:
    """Returns the class of a verdict in page.css."""
    return "confirmed" if verdict.is_certain else verdict.name.lower().replace("_", "-")


def verdict_of(length: int, bound: int, confirmed: int, no_value: int, potential: int, happened: str = "") -> Line:
    """Returns the verdict on the first `length` events of a run, for deadlocks of at most `bound` threads. `happened` is the agent's line
    about a deadlock that happened."""
    if happened:
        what = happened.removeprefix("deadlock of ").replace(", which", "")
        return line_of(Verdict.HAPPENED, f"This run deadlocked: {what}")
    if confirmed:
        return line_of(Verdict.CONFIRMED, f"This run can deadlock: {confirmed_text(confirmed, no_value)}, {potential:,} potential")
    if no_value:
        return line_of(Verdict.NO_VALUE, f"This run can deadlock if no value decides: {no_value:,} confirmed so, {potential:,} potential")
    if potential:
        return line_of(Verdict.POTENTIAL, f"No deadlock is confirmed: {potential:,} potential")
    if not length:
        return Line("Nothing was analysed: there are no events", 1, "potential")
    return Line(f"{PREDICTS} no deadlock of at most {plural(bound, 'thread')}", 0, "none")


def line_of(verdict: Verdict, text: str) -> Line:
    return Line(text, verdict.rank + 1, kind_of(verdict))
