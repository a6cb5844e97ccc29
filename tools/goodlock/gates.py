"""Decides which results are new, known or suppressed, and whether a command fails because of them."""
from __future__ import annotations

import enum
import glob
import json
import re
from collections import Counter
from collections.abc import Iterable, Sequence
from dataclasses import dataclass, field, replace
from fnmatch import translate
from typing import Optional

from goodlock.errors import InputError
from goodlock.groups import Pair
from goodlock.locations import Root
from goodlock.reports import Verdict
from goodlock.results import LeftOut, Result, State, ordered
from goodlock.traces import lines_of

FAILED = 3  # exit status
SEPARATOR = " ; "
MAKE_ONE = "`tools/summary TRACE REPORT --json` and `tools/many FOLDER --json` print one"


# ---- suppressions ----


class Suppressions:
    """The lines of a file of suppressions; none if there is no file. Each line has patterns of code locations."""

    def __init__(self, name: Optional[str], root: Root) -> None:
        self.name, self.root = name, root
        self.lines: list[tuple[int, list[re.Pattern[str]]]] = []
        self.used: set[int] = set()
        for number, line in enumerate(lines_of(name) if name else [], 1):
            if line.strip() and not line.startswith("#"):
                self.lines.append((number, self.patterns_of(number, line)))

    def patterns_of(self, number: int, line: str) -> list[re.Pattern[str]]:
        words = [word.strip() for word in line.split(SEPARATOR)]
        if not all(words):
            raise InputError(self.name or "", number, "a pattern is empty: patterns are separated by ` ; `")
        return [re.compile(translate(word)) for word in words]

    def line_for(self, result: Result) -> Optional[int]:
        """Returns the first line that suppresses a result: each of its patterns matches a location. All such lines are used."""
        texts = {text for member in result.members for spot in (member.hold, member.wait) for text in self.root.names_of(spot.location)}
        found = [number for number, patterns in self.lines if all(any(map(pattern.match, texts)) for pattern in patterns)]
        self.used.update(found)
        return found[0] if found else None

    def unused(self) -> tuple[int, ...]:
        """Returns the numbers of the lines that have suppressed nothing."""
        return tuple(number for number, _ in self.lines if number not in self.used)


def suppression_of(pairs: Iterable[Pair]) -> str:
    """Returns the line that suppresses a result with these locations."""
    line = SEPARATOR.join(glob.escape(text).replace(";", "[;]") for text in sorted({text for pair in pairs for text in pair}))
    return f"[#]{line[1:]}" if line.startswith("#") else line


# ---- the baseline ----


def read_baseline(name: str) -> dict[str, Verdict]:
    """Returns the fingerprints of a baseline with their verdicts."""
    with open(name, "rb") as file:
        content = file.read()
    try:
        fingerprints = json.loads(content)["fingerprints"]
        return {str(fingerprint): Verdict(verdict) for fingerprint, verdict in fingerprints.items()}
    except (ValueError, KeyError, TypeError, AttributeError, RecursionError):
        raise InputError(name, None, f"not a baseline, which has \"fingerprints\": {MAKE_ONE}") from None


@dataclass
class Judge:
    """Gives each result its state. A result is known if the baseline has its fingerprint, unless the baseline has it as potential and now
    it is confirmed, also if no value decides, or happened: that is new evidence."""

    suppressions: Suppressions
    baseline: Optional[dict[str, Verdict]] = None

    def judged(self, results: Sequence[Result]) -> list[Result]:
        """Returns the results with their states, in the order of `ordered`."""
        return ordered(map(self.with_state, results))

    def with_state(self, result: Result) -> Result:
        before = (self.baseline or {}).get(result.fingerprint)
        line = self.suppressions.line_for(result)
        is_known = before is not None and (before.is_confirmed or not result.verdict.is_confirmed)
        state = State.SUPPRESSED if line is not None else State.KNOWN if is_known else State.NEW
        return replace(result, state=state, before=before, suppressed_by=line)


# ---- the gate ----


@dataclass(frozen=True)
class Gate:
    """Which results make a command fail. `confirmed`: those that are confirmed, also if no value decides, or happened, known ones too.
    `certain`: these without those that a value may decide. `potential`: all. `new`: those of `confirmed` that the baseline does not have,
    `new-certain`: those of `certain` that it does not have as such. A suppressed result never does. None: nothing does."""

    fail_on: Optional[str] = None

    def fails_on(self, result: Result) -> bool:
        if self.fail_on is None or result.state is State.SUPPRESSED:
            return False
        if self.fail_on == "potential":
            return True
        if self.is_certain:
            is_known = result.before is not None and result.before.is_certain
            return result.verdict.is_certain and not (self.fail_on == "new-certain" and is_known)
        return result.verdict.is_confirmed and (self.fail_on == "confirmed" or result.state is State.NEW)

    @property
    def is_certain(self) -> bool:
        """Whether a deadlock that a value may decide does not count as confirmed."""
        return self.fail_on in ("certain", "new-certain")

    def unjudged(self, left_out: LeftOut) -> int:
        """Returns how many cycles in no group may be ones to fail on."""
        if self.fail_on is None:
            return 0
        if self.fail_on == "potential":
            return left_out.further
        return left_out.further_confirmed + (0 if self.is_certain else left_out.further_no_value)

    def judgement(self, results: Sequence[Result], left_out: LeftOut = LeftOut()) -> Judgement:
        return Judgement(self, [result for result in results if self.fails_on(result)], self.unjudged(left_out))


@dataclass(frozen=True)
class Judgement:
    """The results that make a command fail, and how many further cycles do because they are in no group."""

    gate: Gate
    failing: list[Result] = field(default_factory=list)
    unjudged: int = 0

    @property
    def status(self) -> int:
        return FAILED if self.failing or self.unjudged else 0

    @property
    def sentence(self) -> str:
        """Says why the command fails; an empty text if it does not."""
        counts = Counter(result.verdict for result in self.failing)
        parts = [f"{counts[verdict]:,} {verdict.value}" for verdict in reversed(Verdict) if counts[verdict]]
        if self.unjudged:
            parts.append(f"{self.unjudged:,} cycles in no group")
        return f"--fail-on {self.gate.fail_on}: {', '.join(parts)}" if parts else ""


class Level(enum.Enum):
    """How a format for CI shows a result."""

    ERROR = "error"
    WARNING = "warning"
    NOTICE = "notice"


def level_of(result: Result, gate: Gate) -> Level:
    """Returns `error` for a result on which the command fails, else `notice` for a known one, else `warning`. A command that never fails
    shows what `--fail-on new` fails on."""
    if (gate if gate.fail_on else Gate("new")).fails_on(result):
        return Level.ERROR
    return Level.NOTICE if result.state is State.KNOWN else Level.WARNING
