"""Names the callers of events. A site is a list of callers, the innermost first. A raw trace has numbers of sites (`# at 12`)."""
import contextlib
import os
import re
import subprocess
import time
from collections import defaultdict
from collections.abc import Iterator
from typing import NamedTuple, Optional

from goodlock.agent.names import Names
from goodlock.agent.run import Run
from goodlock.agent.symbols import without_arguments_of_templates
from goodlock.limits import TRY_MARKERS
from goodlock.locations import Root
from goodlock.traces import CALLED_BY

ADDRESSES = 200  # in one run of addr2line
CALLERS = 4  # of a site in one round of questions
LEAST_SECONDS = 10
MOST_PATH, MOST_FUNCTION = 160, 100
CUT = ".."
ADDRESS = re.compile(r"0x([0-9a-f]{1,16}): (.*)")
INLINED = " (inlined by) "
EVENT = re.compile(r"([0-9]{1,10})([fjar])([0-9]{1,10})\n")
NAMED = re.compile(r"@([0-9]{1,10})@")


class Source(NamedTuple):
    """A source line, `bank.c:35`, and its function."""

    where: str
    function: str


def is_of_the_system(path: str) -> bool:
    return path.startswith(("/usr/", "/lib", "/rustc/", "??")) or path == "?"


def shortened(text: str, most: int) -> str:
    """Returns a text without its middle if it has more than `most` letters: its end says more than that."""
    if len(text) <= most:
        return text
    end = (most - len(CUT)) * 2 // 3
    return f"{text[:most - len(CUT) - end]}{CUT}{text[-end:]}"


def read_sites(run: Run) -> dict[int, list[str]]:
    """Returns the callers of each site; none if there is no file."""
    return {int(number): callers for number, *callers in (line.split("\t") for line in run.lines("sites"))}


def source_of(line: str) -> Optional[Source]:
    """Returns the source of a line of addr2line, `transfer at /src/bank.c:35 (discriminator 2)`, or None if it has none."""
    function, at, where = line.rpartition(" at ")
    where = where.partition(" (discriminator ")[0]
    path, _, number = where.rpartition(":")
    return Source(where, function) if at and path not in ("", "??") and (number.isdecimal() or number == "?") else None


def absolute(where: str) -> str:
    """Returns `/src/bank.py:35` for `bank.py:35`, if the working folder has this file. Other relative names are those of a compiler, which
    may have worked elsewhere."""
    return os.path.abspath(where) if os.path.exists(where.rpartition(":")[0]) else where


def program_of(run: Run) -> str:
    """Returns the path of the program, or an empty text if it is not known."""
    with contextlib.suppress(OSError):
        with open(run.work("program"), encoding="utf-8", errors="surrogateescape") as file:
            return file.read().rstrip("\n")
    return ""


class Sites:
    """The source lines of sites. A name has at most `shown` callers. Files are named relative to the root. `addr2line` is not asked for longer
    than these seconds, and at least a few: then addresses stay."""

    def __init__(self, run: Run, shown: int, root: Optional[Root] = None, seconds: float = 0) -> None:
        self.shown, self.callers, self.root = shown, read_sites(run), root or Root()
        self.end = time.monotonic() + max(seconds, LEAST_SECONDS)
        self.names: dict[int, str] = {}
        self.lines: dict[str, list[Source]] = {}  # of a caller PATH+0xOFFSET: its sources, the innermost first
        self.program = program_of(run)
        self.read_all()

    def read_all(self) -> None:
        """Asks for the lines of callers: of each site of the first ones, and of further ones until enough are the program's own."""
        left = {number: [one for one in callers if not self.is_of_library(one)] or callers[:1] for number, callers in self.callers.items()}
        asked = max(CALLERS, self.shown)
        while left:
            self.ask({caller for callers in left.values() for caller in callers[:asked]})
            left = {number: callers for number, callers in left.items() if len(callers) > asked and self.count_own(callers[:asked]) < self.shown}
            asked += CALLERS

    def is_of_library(self, caller: str) -> bool:
        """Whether a caller is in a library of the system. The name of its source does not matter."""
        path, plus, _ = caller.rpartition("+0x")
        return bool(plus) and is_of_the_system(path) and path != self.program

    def count_own(self, callers: list[str]) -> int:
        return sum(not self.name_caller(caller)[1] for caller in callers)

    def ask(self, callers: set[str]) -> None:
        by_path: dict[str, set[str]] = defaultdict(set)
        for caller in callers - self.lines.keys():
            path, plus, offset = caller.rpartition("+0x")
            if plus and path.startswith("/"):
                by_path[path].add(offset)
        for path, found in by_path.items():
            offsets = sorted(found)
            for at in range(0, len(offsets), ADDRESSES):
                self.read_lines(path, offsets[at:at + ADDRESSES])

    def read_lines(self, path: str, offsets: list[str]) -> None:
        command = ["addr2line", "-a", "-C", "-f", "-i", "-p", "-e", path, *(f"0x{offset}" for offset in offsets)]
        try:
            run = subprocess.run(command, capture_output=True, text=True, errors="replace", check=False, timeout=self.end - time.monotonic())
        except (OSError, subprocess.TimeoutExpired):
            return
        found: list[Source] = []
        for line in run.stdout.splitlines():
            if match := ADDRESS.match(line):
                found = self.lines.setdefault(f"{path}+0x{int(match[1], 16):x}", [])
                line = match[2]
            if source := source_of(line.replace(INLINED, "", 1)):
                found.append(source)

    def name_caller(self, caller: str) -> tuple[str, bool]:
        """Returns the line of a caller, and whether it is in a system's library or header."""
        sources, is_of_library = self.lines.get(caller, []), self.is_of_library(caller)
        for source in sources:
            if not is_of_library and not is_of_the_system(source.where):
                return self.text_of(source), False
        path, plus, offset = caller.rpartition("+0x")
        if not plus:  # an agent's own text FILE:LINE in NAME
            where, has_function, function = caller.partition(" in ")
            return f"{self.root.relative(absolute(where))}{has_function}{function}", is_of_the_system(where)
        if sources:
            return self.text_of(sources[-1]), True
        return f"{os.path.basename(path)}+0x{offset}", is_of_library

    def text_of(self, source: Source) -> str:
        function = shortened(without_arguments_of_templates(source.function), MOST_FUNCTION)
        return f"{shortened(self.root.relative(source.where), MOST_PATH)} in {function}"

    def name(self, number: int) -> str:
        """Returns the lines of a site: without calls inside the system's libraries and headers, if there are others."""
        if number not in self.names:
            callers = self.callers.get(number, ["?"])
            own = [caller for caller in callers if not self.name_caller(caller)[1]] or callers[:1]
            with_lines = own[:1] + [caller for caller in own[1:] if "+0x" not in caller or self.lines.get(caller)]
            self.names[number] = CALLED_BY.join(self.name_caller(caller)[0] for caller in with_lines[:self.shown])
        return self.names[number]

    def name_all(self, line: str) -> str:
        """Returns a line in which names replace the numbers of sites between two @."""
        return NAMED.sub(lambda match: self.name(int(match[1])), line)


def comments_for(event: "re.Match[str]", names: Names, seen: set[tuple[str, int]]) -> Iterator[str]:
    """Yields the comments about the thread and the object of an event, if it is the first one with these."""
    thread, letter, text = event.groups()
    for kind, number in (("thread", int(thread)), ("thread" if letter in "fj" else "lock", int(text))):
        if (kind, number) in seen:
            continue
        seen.add((kind, number))
        if kind == "lock" and number >= TRY_MARKERS:
            yield f"# mark {number}"
        yield from names.comments_on(kind, number)
        if kind == "lock" and (whole := names.parts.whole.get(number)) is not None and (kind, whole) not in seen:
            seen.add((kind, whole))
            yield from names.comments_on(kind, whole)


def name_lines_of(path: str, sites: Sites, names: Names, first: str = "") -> None:
    """Replaces the numbers of sites in a trace by their source lines, and adds the comments about its threads and locks: names, parts, and
    the markers of acquires that do not wait or have a timeout (`# mark N`). The trace gets this first line. If they cannot be written, the trace is unchanged."""
    known, seen = set[str](), set[tuple[str, int]]()
    try:
        with open(path, encoding="ascii") as old, open(f"{path}.new", "w", encoding="utf-8") as new:
            new.write(f"{first}\n" if first else "")
            for line in old:
                if line not in known and (match := EVENT.fullmatch(line)):
                    known.add(line)
                    new.writelines(f"{comment}\n" for comment in comments_for(match, names, seen))
                new.write(f"# at {sites.name(int(line[5:]))}\n" if line.startswith("# at ") else line)
        os.replace(f"{path}.new", path)
    except OSError:
        with contextlib.suppress(OSError):
            os.remove(f"{path}.new")
