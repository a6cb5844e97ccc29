"""What the collector knows of threads and locks beside the events: their names, and which locks are parts of others. It is in OUT.tmp/names:
comments for the traces, and lines `lock N at PATH+0xOFFSET` for locks in the memory of a file."""
from __future__ import annotations

import re
from collections.abc import Iterator
from typing import Optional

from goodlock.agent.run import Run
from goodlock.agent.symbols import name_at, without_arguments_of_templates
from goodlock.limits import NUMBER
from goodlock.parts import Parts
from goodlock.traces import NAME

THREAD = re.compile(r"(# (?:thread|lock .* for thread) )0( is .*)?")
ADDRESS = re.compile(rf"lock {NUMBER} at (/.*)\+0x([0-9a-f]{{1,16}})")


class Names:
    """The names and parts of the trace of one window, or of all: the number of the program's first thread depends on the trace."""

    def __init__(self, run: Run, window: int) -> None:
        self.first = run.first_thread(window)
        self.parts = Parts()
        self.names: dict[tuple[str, int], str] = {}
        self.addresses: dict[int, tuple[str, int]] = {}
        for line in run.lines("names"):
            self.take(line)

    def take(self, line: str) -> None:
        line = THREAD.sub(lambda match: f"{match[1]}{self.first}{match[2] or ''}", line)
        if self.parts.take(line):
            return
        if match := NAME.fullmatch(line):
            self.names[match[1], int(match[2])] = match[3]
        elif match := ADDRESS.fullmatch(line):
            self.addresses[int(match[1])] = match[2], int(match[3], 16)

    def plain_name(self, kind: str, number: int) -> Optional[str]:
        """Returns the name of a thread or a lock; that of a lock in the memory of a file is that of its variable."""
        if kind == "lock" and number in self.addresses:
            name = without_arguments_of_templates(name_at(*self.addresses.pop(number)))
            if name:
                self.names.setdefault((kind, number), name)
        return self.names.get((kind, number))

    def name_of(self, kind: str, number: int) -> Optional[str]:
        """Returns the name as a report shows it: that of a part says of which lock."""
        return self.parts.name_of(number, self.plain_name) if kind == "lock" else self.plain_name(kind, number)

    def comments_on(self, kind: str, number: int) -> Iterator[str]:
        """Yields the comments about a thread or a lock. After those about a part come those about its lock."""
        if name := self.plain_name(kind, number):
            yield f"# {kind} {number} is {name}"
        if kind == "lock":
            yield from self.parts.comments_on(number)
