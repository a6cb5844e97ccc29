"""The files of a run, and what the agent prints."""
import os
import sys

from goodlock.limits import FIRST_THREAD, MOST_BOUND
from goodlock.traces import lines_of

ALL, ACROSS = 0, ".all"  # the number, and the name, of what all windows together have: see Run


def say(text: str) -> None:
    print(f"goodlock: {text}", file=sys.stderr, flush=True)


def shortly(path: str) -> str:
    """Returns a path relative to the working folder, if it is in it."""
    relative = os.path.relpath(path)
    return path if relative.startswith("..") else relative


class Run:
    """The names of a run's files. OUT.tmp/ contains `sites` (the callers of events), `summary`, `deadlock`, `known` (the groups so far), and
    for each window N its lock graph, `N.window`, the results of its check, `N.rows`, and the server's report, `N.answer`, if there is one.
    Of all windows together it has the log, `calls`, and the dependencies, `all`. Number ALL is what is made of one of these: of the log if
    `is_by_log`. `bound` is the largest that is wanted."""

    def __init__(self, out: str, program: str = "", bound: int = MOST_BOUND) -> None:
        self.out, self.program, self.bound, self.is_by_log = out, program, bound, False

    def work(self, name: str) -> str:
        return os.path.join(f"{self.out}.tmp", name)

    def lines(self, name: str) -> list[str]:
        """Returns the lines of a file in OUT.tmp; none if there is no such file."""
        try:
            return list(lines_of(self.work(name)))
        except OSError:
            return []

    def window(self, number: int, kind: str) -> str:
        return f"{self.out}{'' if number == 1 else ACROSS if number == ALL else f'.{number}'}.{kind}"

    def first_thread(self, number: int) -> int:
        """Returns the number of the program's first thread in the trace of a window, or in that of all windows."""
        return 0 if number == 1 or (number == ALL and self.is_by_log) else FIRST_THREAD

    @property
    def mark(self) -> str:
        """The first line of a further trace, by which a later run knows it: see work.c."""
        return f"# a further trace of {os.path.basename(self.out)}"

    def summary(self) -> dict[str, int]:
        """Returns what the collector has counted."""
        with open(self.work("summary"), encoding="ascii") as file:
            return {key: int(value) for key, value in (line.split() for line in file)}
