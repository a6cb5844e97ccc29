"""Watches the windows of a service: the file windows.json that `tools/with_server --roll` writes. Needs no session of a server."""
from __future__ import annotations

import json
import os
import shutil
import time
from collections.abc import Mapping
from dataclasses import dataclass
from typing import IO, Optional, TypeVar

from goodlock.commandline import plural
from goodlock.dashboard.files import TraceFile
from goodlock.dashboard.reports import Reports
from goodlock.dashboard.watch import Question, Watch
from goodlock.drawing.verdict import PREDICTS, Line, verdict_of
from goodlock.protocol import Lost

LONGEST, MOST_WINDOWS = 1 << 22, 300
T = TypeVar("T")


def field(found: Mapping[str, object], name: str, kind: type[T], default: Optional[T] = None) -> T:
    """Returns a field of this kind. One that is null or missing has the default, if there is one."""
    value = found.get(name)
    if value is None and default is not None:
        return default
    if not isinstance(value, kind) or isinstance(value, int) and not 0 <= value < 1 << 63:
        raise ValueError(f"{name} is {value!r}"[:80])
    return value


@dataclass(frozen=True)
class Window:
    """A window of the file. `asked` is the number of events that the last settled question covers, or None before there is one."""

    number: int
    state: str
    events: int
    first: int
    asked: Optional[int]
    bound: int
    confirmed: int
    potential: int
    new: int
    report: str
    trace: str
    is_settled: bool
    fault: str

    @classmethod
    def of(cls, found: Mapping[str, object]) -> Window:
        asked = None if found.get("confirmed") is None else field(found, "asked", int)
        return cls(field(found, "number", int), field(found, "state", str), field(found, "events", int, 0), field(found, "first", int, 0), asked,
                   field(found, "bound", int, 0), field(found, "confirmed", int, 0), field(found, "potential", int, 0), field(found, "new", int, 0),
                   field(found, "report", str, ""), field(found, "trace", str, ""), found.get("is_settled") is not False, field(found, "fault", str, ""))

    @property
    def words(self) -> str:
        """What the page says beside its events."""
        part = f"{self.asked:,} events examined" if self.asked is not None and self.asked < self.events else ""
        late = "the later ones were not examined" if self.state == "ended" and not self.is_settled else ""
        known = "no new cycle" if self.cycles and not self.new else ""
        words = ", ".join(word for word in (self.state, f"from event {self.first:,} on", part, late, known) if word)
        return f"{words}. {self.fault}" if self.fault else words

    @property
    def cycles(self) -> int:
        return self.confirmed + self.potential

    @property
    def question(self) -> Question:
        """Its row. It is settled if there is a report to show, and has a bound if it was examined."""
        bound = 0 if self.asked is None else self.bound
        return Question(0, self.number, self.events, bound, 1, int(bool(self.report)), self.cycles, self.confirmed, window=self.words)


class Windows(Watch):
    """`totals` are those of all windows, also of those that the file has no more."""

    has_windows = True

    def __init__(self, file: str) -> None:
        self.windows: dict[int, Window] = {}
        self.totals: dict[str, int] = {}
        super().__init__(file)
        self.message = "Reading the file of the windows."

    def look(self) -> None:
        with self.using:
            try:
                self.read()
            except OSError as fault:
                self.connection, self.message = "gone", f"The file of the windows cannot be read: {fault.strerror}."
            except (ValueError, AttributeError, TypeError, LookupError, RecursionError) as fault:
                self.connection, self.message = "other", f"This is not the file of with_server --roll: {fault}."
            self.publish()

    def read(self) -> None:
        with open(self.address, "rb") as file:
            found = json.loads(file.read(LONGEST))
        if found.get("version") != 1:
            raise ValueError("version is not 1")
        windows, updated = [Window.of(window) for window in found["windows"][-MOST_WINDOWS:]], float(found["updated"])
        if not 0 <= updated < 1e12:
            raise ValueError("updated is no time")
        self.totals = {name: field(found["totals"], name, int, 0) for name in ("windows", "events", "confirmed", "potential", "left_out")}
        self.windows = {window.number: window for window in windows}
        self.questions = {window.number: window.question for window in windows}
        self.accepted, self.seen_at, self.looked = self.totals["events"], updated, time.monotonic()
        self.connection, self.message = "connected", ""
        if found.get("is_over") is True:
            self.connection, self.message = "over", "The run has ended."
        elif not is_alive(field(found, "pid", int)):
            self.connection, self.message = "gone", "tools/with_server was ended, so nothing changes any more."

    def fetch(self, run: int, number: int, file: IO[bytes]) -> bool:
        window = self.windows.get(number)
        if not window or not window.report:
            return False
        with open(window.report, "rb") as report:
            shutil.copyfileobj(report, file)
        return True

    def ask(self, bound: int) -> Question:
        raise Lost("other", "tools/with_server asks the questions.")

    def revision(self, number: int) -> str:
        window = self.windows.get(number)
        return f"{window.asked} {window.trace}" if window else ""

    def verdict(self) -> Optional[Line]:
        """Returns the verdict on all windows, as their servers count."""
        asked = sum(window.asked or 0 for window in self.windows.values())
        if not self.totals or not (asked or self.totals["confirmed"] or self.totals["potential"]):
            return None
        bound = max(window.bound for window in self.windows.values())
        line = verdict_of(asked, bound, self.totals["confirmed"], 0, self.totals["potential"])
        line = line._replace(text=line.text.replace(PREDICTS, "The examined windows predict"))
        count = self.totals["left_out"]
        return line._replace(text=f"{line.text}; {plural(count, 'window')} not examined", rank=max(1, line.rank),
                             kind=line.kind if line.rank else "potential") if count else line


class WindowReports(Reports):
    """The reports of windows: each has a trace of its own."""

    watch: Windows

    def trace_of(self, number: int) -> TraceFile:
        window = self.watch.windows.get(number)
        return TraceFile(window.trace if window else None, self.folder, number)

    def recorded(self) -> str:
        """Returns the trace of the first window, beside which the agent notes a deadlock."""
        for number, window in self.watch.windows.items():
            if window.trace:
                return f"{TraceFile(window.trace, self.folder, number).run.out}.trace"
        return ""


def is_alive(process: int) -> bool:
    return process > 0 and os.path.exists(f"/proc/{process}")
