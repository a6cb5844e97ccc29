"""The files that the agent writes: the trace, also while it grows, and what the agent says of a deadlock that happened."""
import contextlib
import os
import re
from typing import Optional

from goodlock.agent.names import Names
from goodlock.agent.run import Run
from goodlock.agent.sites import Sites, name_lines_of
from goodlock.happened import head_notes

SITE = re.compile(rb"^# at ([0-9]{1,10})$", re.M)
NO_TRACE = "Start the dashboard with --trace FILE to see source lines, the order of events, and what keeps potential cycles apart."
MISSING = "The trace file {} cannot be read. The source lines and the order of events appear here when it can."


class TraceFile:
    """The trace file of a window of a run. While an agent writes it, it has numbers instead of source lines, and may end within a line."""

    def __init__(self, name: Optional[str], folder: str, window: int = 1) -> None:
        self.name, self.folder, self.window = name or "", folder, window
        plain = self.name.removesuffix(".trace")
        self.report, self.run = f"{plain}.report", Run(plain if window == 1 else plain.removesuffix(f".{window}"))

    def lacks(self) -> str:
        """Returns what to say if there is no copy."""
        return MISSING.format(self.name) if self.name else NO_TRACE

    def version(self, is_whole: bool) -> str:
        """Returns a text that changes with the file, or if a drawing had all events it needs, when another file replaces this one."""
        try:
            found = os.stat(self.name)
        except OSError:
            return ""
        with contextlib.suppress(OSError):  # says which cycles were reproduced
            return f"{found.st_ino} {found.st_size if not is_whole else ''} {os.stat(self.report).st_ino}"
        return f"{found.st_ino}" if is_whole else f"{found.st_ino} {found.st_size}"

    def copy(self) -> Optional[str]:
        """Copies the file, with source lines. Returns the name of the copy in the folder, or None if there is no file."""
        try:
            with open(self.name, "rb") as file:
                text = file.read()
        except OSError:
            return None
        name = os.path.basename(self.name)
        path, run = os.path.join(self.folder, name), self.run
        is_growing = os.path.exists(run.work("sites"))
        with open(path, "wb") as file:
            file.write(text[:text.rfind(b"\n") + 1] if is_growing else text)
        if is_growing and SITE.search(text):
            with contextlib.suppress(ValueError):  # the file is not an agent's
                name_lines_of(path, Sites(run, frames_of(run)), Names(run, self.window))
        return name


def frames_of(run: Run) -> int:
    """Returns how many callers the names of a run's sites have."""
    try:
        return run.summary()["frames"]
    except OSError:
        return 1


def notes_beside(trace: str) -> list[str]:
    """Returns what the agent says of the run before its first cycle, with a deadlock that happened. While the program runs, the report is that
    of an earlier run, and only the deadlock is known."""
    run = Run(trace.removesuffix(".trace"))
    if not os.path.isdir(run.work("")):
        return head_notes(f"{run.out}.report") if trace else []
    return [line.strip() for line in run.lines("happened")]
