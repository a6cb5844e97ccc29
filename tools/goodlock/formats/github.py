"""Writes results as annotations of GitHub: lines that a workflow prints, and that GitHub shows in the pull request."""
from __future__ import annotations

from typing import Optional

from goodlock.gates import Judgement, Level, level_of
from goodlock.groups import Location
from goodlock.results import Run, is_below_root


def text_of(run: Run, judgement: Judgement) -> str:
    """Returns the annotations, the most important ones first: GitHub shows ten errors and ten warnings of a step."""
    levels = [(level_of(result, judgement.gate), result) for result in run.shown]
    lines = [annotation(Level.ERROR, line, "No report") for line in run.fault_lines]
    if judgement.unjudged:
        lines.append(annotation(Level.ERROR, f"{judgement.unjudged:,} cycles are in no group", "Too many groups"))
    for wanted in Level:
        lines += [annotation(level, result.message, result.title, result.location) for level, result in levels if level is wanted]
    lines += [annotation(Level.WARNING, "This line suppresses nothing.", "Unused suppression",
                         Location("", run.suppressions, number, None)) for number in run.unused]
    return "".join(f"{line}\n" for line in lines)


def annotation(level: Level, message: str, title: str, location: Optional[Location] = None) -> str:
    """Returns one workflow command. A file outside of the checkout is left out: GitHub cannot show it."""
    properties = {"file": str(location.file), "line": str(location.line)} if location and is_below_root(location) else {}
    words = ",".join(f"{name}={escaped_property(value)}" for name, value in {**properties, "title": title}.items())
    return f"::{level.value} {words}::{escaped(message)}"


def escaped(text: str) -> str:
    return text.replace("%", "%25").replace("\r", "%0D").replace("\n", "%0A")


def escaped_property(text: str) -> str:
    return escaped(text).replace(":", "%3A").replace(",", "%2C")
