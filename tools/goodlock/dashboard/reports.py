"""The reports of settled questions: fetches each from the server once, draws it, and makes the files to download."""
import json
import os
import signal
import subprocess
import sys
import threading
from dataclasses import dataclass
from typing import Optional

from goodlock.dashboard.files import TraceFile
from goodlock.dashboard.watch import Refusal, Watch
from goodlock.drawing.verdict import Line
from goodlock.locations import top_of
from goodlock.program import TOOLS, built_program
from goodlock.reports import FEWER_EVENTS

DRAW, SUMMARY = ("-m", "goodlock.dashboard.draw"), (os.path.join(TOOLS, "summary"), "--no-config")
KINDS = {"report": "", "json": "--json", "sarif": "--sarif"}
MOST_KEPT, TOO_LONG = 16, 23
LATER = "The trace file has fewer events than this report. The source lines and the order of events appear here when it has them."
SLOW = "The drawing with the trace takes longer than {} s, so it is not shown. tools/picture draws it without a time limit."
SECONDS_TO_DRAW = 120


class NoReport(Exception):
    """There is no such report now. The text says why."""


class TooSlow(Exception):
    """A tool was not done in time, and was ended."""


@dataclass
class Drawing:
    """The drawing of a report, the version of the trace that it shows, and a note if it lacks the events of the trace."""

    html: str
    verdict: Line
    note: str
    is_whole: bool
    version: str


class Reports:
    """One thread at a time draws. `folder` is for the files; `watch` has the session."""

    def __init__(self, watch: Watch, trace: Optional[str], folder: str) -> None:
        self.watch, self.folder, self.trace = watch, folder, TraceFile(trace, folder)
        self.working = threading.Lock()
        self.drawings: dict[tuple[int, int], Drawing] = {}
        self.refused: dict[str, Refusal] = {}
        self.revisions: dict[str, str] = {}  # of the files
        # the program's name may be relative to this folder
        self.environment = os.environ | {"GOODLOCKD_PROGRAM": built_program(), "PYTHONPATH": TOOLS}

    def version(self, run: int, number: int) -> str:
        """Returns a text that changes when the drawing of a report would."""
        kept = self.drawings.get((run, number))
        return f"{self.watch.revision(number)} {self.trace_of(number).version(bool(kept and kept.is_whole))}"

    def trace_of(self, number: int) -> TraceFile:
        """Returns the trace file of a question."""
        return self.trace

    def recorded(self) -> str:
        """Returns the name of the trace file beside which the agent notes a deadlock."""
        return self.trace.name

    def file(self, run: int, number: int) -> str:
        """Returns the name of a report's file in the folder. The server is asked for it until it has sent it or called it too long."""
        name = f"{run}-question-{number}.report"
        path, revision = os.path.join(self.folder, name), self.watch.revision(number)
        if os.path.exists(path) and self.revisions.get(name, "") == revision:
            return name
        if name in self.refused:
            raise self.refused[name]
        try:
            with open(f"{path}.part", "wb") as file:
                is_there = self.watch.fetch(run, number, file)
        except Refusal as refusal:
            if refusal.number == TOO_LONG:
                self.refused[name] = refusal
            raise
        if not is_there:
            raise NoReport("The question is not settled yet.")
        os.replace(f"{path}.part", path)
        self.revisions[name] = revision
        return name

    def drawing(self, run: int, number: int) -> Drawing:
        with self.working:
            path, kept = self.file(run, number), self.drawings.get((run, number))
            if kept and kept.version == self.version(run, number):
                return kept
            trace, revision = self.trace_of(number), self.revisions.get(path, "")
            growing, whole = trace.version(False), trace.version(True)
            (html, verdict), note = self.draw(path, trace)
            while len(self.drawings) >= MOST_KEPT:
                del self.drawings[next(iter(self.drawings))]
            self.drawings[run, number] = Drawing(html, verdict, note, not note, f"{revision} {growing if note else whole}")
            return self.drawings[run, number]

    def draw(self, path: str, trace: TraceFile) -> tuple[tuple[str, Line], str]:
        """Returns the drawing of a report with the verdict, and a note if it lacks the events of the trace."""
        copy, note = trace.copy(), trace.lacks()
        try:
            if copy:
                made = self.execute(*DRAW, path, copy, os.path.abspath(trace.name))
                if made.returncode == 0:
                    return parts_of(made), ""
                fault = last_line(made)
                note = LATER if FEWER_EVENTS in fault else f"The trace file cannot be used. {fault}"
        except TooSlow:
            note = SLOW.format(SECONDS_TO_DRAW)
        try:
            made = self.execute(*DRAW, path)
        except TooSlow:
            raise NoReport(f"The report cannot be drawn in {SECONDS_TO_DRAW} s.") from None
        if made.returncode:
            raise NoReport(f"The report cannot be drawn. {last_line(made)}")
        return parts_of(made), note

    def download(self, run: int, number: int, kind: str) -> str:
        """Returns the path of a file with the report, or with its summary as JSON or SARIF."""
        with self.working:
            name = self.file(run, number)
            if kind != "report":
                trace = self.trace_of(number)
                copy = trace.copy()
                if copy is None:
                    raise NoReport(trace.lacks())
                try:
                    made = self.execute(*SUMMARY, copy, name, KINDS[kind], "--root", top_of())
                except TooSlow:
                    raise NoReport(f"The summary cannot be made in {SECONDS_TO_DRAW} s: tools/summary has no time limit.") from None
                if made.returncode:
                    raise NoReport(f"There is no summary. {last_line(made)}")
                name = f"{name.removesuffix('.report')}.{kind}"
                with open(os.path.join(self.folder, name), "wb") as file:
                    file.write(made.stdout)
            return os.path.join(self.folder, name)

    def execute(self, *args: str) -> subprocess.CompletedProcess[bytes]:
        """Runs a tool in the folder, for SECONDS_TO_DRAW at most. Ctrl-C in the terminal does not end it."""
        with subprocess.Popen([sys.executable, *args], stdout=subprocess.PIPE, stderr=subprocess.PIPE, cwd=self.folder, env=self.environment,
                              start_new_session=True) as process:
            try:
                output, errors = process.communicate(timeout=SECONDS_TO_DRAW)
            except subprocess.TimeoutExpired:
                os.killpg(process.pid, signal.SIGKILL)  # its own processes too
                raise TooSlow from None
        return subprocess.CompletedProcess(args, process.returncode, output, errors)


def parts_of(made: subprocess.CompletedProcess[bytes]) -> tuple[str, Line]:
    """Returns what the drawing has printed."""
    found = json.loads(made.stdout)
    return found["html"], Line(*found["verdict"])


def last_line(made: subprocess.CompletedProcess[bytes]) -> str:
    """Returns the last line of a tool's error."""
    return (made.stderr.decode(errors="replace").strip().splitlines() or ["No reason is known."])[-1][:300]
