"""Reads traces as `goodlockd offline` or `script` reads them, checks each event, and indexes them by thread and dependency."""
import re
from array import array
from bisect import bisect_left, bisect_right
from collections import defaultdict
from collections.abc import Iterable, Iterator
from dataclasses import dataclass, field
from functools import cached_property
from math import inf
from typing import NamedTuple, Optional

from goodlock.errors import InputError, fault_of_text, shown
from goodlock.limits import LARGEST, MOST_DEPTH, MOST_EVENTS, MOST_HELD, MOST_THREADS, MOST_VALUES, NUMBER, PLAIN_VALUES
from goodlock.parts import Parts

EVENT = re.compile(NUMBER + "([fjardw])" + NUMBER)
SPELT = re.compile("([0-9]+)[fjardw]([0-9]+)")
SCRIPT_LINE = re.compile(rf"(ask|work|answer|status) +{NUMBER}|deliver +{NUMBER} +{NUMBER}")
NAME = re.compile(rf"# (thread|lock) {NUMBER} is (.*)")
MARK = re.compile(rf"# mark {NUMBER}")
VALUES = re.compile(rf"# values atomic {NUMBER} plain {NUMBER}")
ORIGIN = re.compile(r"# (place|line) (0|[1-9][0-9]{0,18})(?: of (.+))?")
VERBS = {"f": "forks thread", "j": "joins thread", "a": "acquires lock", "r": "releases lock", "d": "reads", "w": "writes"}
KIND_OF = {"f": "thread", "j": "thread", "a": "lock", "r": "lock", "d": "variable", "w": "variable"}
MOST_FILES = 5  # that a note names
CALLED_BY = " < "  # between a source line and that of its caller


class Event(NamedTuple):
    """One event. `where` is its source line with its callers, if the trace has it."""

    thread: int
    letter: str
    target: int
    where: Optional[str] = None


class Values(NamedTuple):
    """Which variables of a trace stand for values that threads read: those of atomics are from `atomic` on, those of plain memory and of
    predicates of conditions from `plain` on, at most MOST_VALUES."""

    atomic: int
    plain: int

    def is_plain(self, event: Event) -> bool:
        """Whether an event reads or writes a plain value."""
        return event.letter in "dw" and self.plain <= event.target < self.plain + MOST_VALUES

    def kind_of(self, variable: int) -> str:
        """Returns what a variable stands for; an empty text if for no value."""
        return "" if not self.atomic <= variable < self.plain + MOST_VALUES else "an atomic value" if variable < self.plain else "memory"


class Origin(NamedTuple):
    """Where an event of a reduced or converted trace was: its place in an event file, or a line of another file. `is_only`: all events of
    the trace are of this file, so texts need not name it."""

    kind: str
    number: int
    file: str = ""
    is_only: bool = True

    @property
    def label(self) -> str:
        """The place as a list of events shows it: `17`, `17 of run.2.trace` or `line 17`."""
        number = f"{self.number} of {self.file}" if self.file and not self.is_only else str(self.number)
        return number if self.kind == "place" else f"line {number}"

    @property
    def title(self) -> str:
        """The same in a sentence: `place 17`, `place 17 of run.2.trace` or `line 17`."""
        return self.label if self.kind == "line" else f"place {self.label}"


class Origins:
    """The origins of the events of a trace, from its comments `# place N of FILE` and `# line N of FILE`. Each is that of the next event,
    and those after it follow it."""

    def __init__(self) -> None:
        self.begins: list[int] = []
        self.origins: list[Origin] = []
        self.files: dict[str, str] = {}  # in the order of their appearance

    def add(self, event: int, kind: str, number: int, file: Optional[str]) -> None:
        """Takes a comment before an event. Without a file it is that of the comment before; the first one has to name a file."""
        name = file or (self.origins[-1].file if self.origins else "")
        if name:
            self.begins.append(event)
            self.origins.append(Origin(kind, number, self.files.setdefault(name, name)))

    def of(self, event: int, trace: str) -> Origin:
        """Returns the origin of an event. If it has none it is at its place in the trace."""
        at = bisect_right(self.begins, event) - 1
        if at < 0:
            return Origin("place", event, trace, is_only=not self.begins)
        kind, number, file, _ = self.origins[at]
        return Origin(kind, number + event - self.begins[at], file, is_only=len(self.files) == 1)

    @property
    def note(self) -> str:
        """What a reader has to know about places; an empty text if they are those of the trace."""
        if not self.files:
            return ""
        kinds = sorted({origin.kind for origin in self.origins}, reverse=True)
        what = " and ".join(f"{kind}s" for kind in kinds)
        return f"{what} are those of {', '.join(list(self.files)[:MOST_FILES])}{', ..' if len(self.files) > MOST_FILES else ''}"


@dataclass
class Trace:
    """`names` maps ("thread", 1) and ("lock", 1) to names; `marks` are the locks that mark acquires which do not wait without end; `parts`
    says which locks are parts of others. `file` is the name of the file, or None if it is a script, which has other lines too. `values` are those
    of the comment `# values` before the first event, or None."""

    events: list[Event] = field(default_factory=list)
    names: dict[tuple[str, int], str] = field(default_factory=dict)
    marks: set[int] = field(default_factory=set)
    parts: Parts = field(default_factory=Parts)
    file: Optional[str] = None
    origins: Origins = field(default_factory=Origins)
    values: Optional[Values] = None


def description_of(event: Event) -> str:
    """Returns what an event does: `acquires lock 10`."""
    return f"{VERBS[event.letter]} {event.target}"


def named(kind: str, number: int, name: Optional[str]) -> str:
    """Returns `lock 1`, or `lock 1 (accounts)` if it has a name."""
    return f"{kind} {number} ({name})" if name else f"{kind} {number}"


def source_of(event: Event) -> str:
    """Returns the event's source line without folders, `bank.c:35`, or an empty text if the trace has none."""
    return event.where.split(" in ")[0].rsplit("/", 1)[-1] if event.where else ""


def one_line(text: str) -> str:
    """Returns a text that fits a comment of a trace, without spaces at its ends."""
    return " ".join(text.split())


def lines_of(name: str) -> Iterator[str]:
    """Yields the lines of a file without their line feeds."""
    with open(name, encoding="utf-8", errors="replace", newline="\n") as file:
        for line in file:
            yield line[:-1] if line.endswith("\n") else line


def fault_of_word(word: str) -> str:
    """Returns why a word of a trace is no event."""
    if fault := fault_of_text(word):
        return fault
    if word.startswith("#"):
        return "text after an event: a comment has a line of its own"
    match = SPELT.fullmatch(word)
    for number in match.groups() if match else ():
        if number.startswith("0") and number != "0":
            return "leading zero"
        if len(number) > 10 or int(number) > LARGEST:
            return f"number above {LARGEST}"
    return "not an event, which is a thread, one of the letters f j a r d w, and an object, as in 1a10"


class AdmissionCheck:
    """Decides which events are lawful after the accepted ones. A refused event is not in the trace."""

    def __init__(self, most_threads: int = MOST_THREADS, most_held: int = MOST_HELD) -> None:
        self.most_threads, self.most_held, self.accepted = most_threads, most_held, 0
        self.forked, self.joined = {0}, set[int]()
        self.holder: dict[int, int] = {}
        self.since: dict[int, int] = {}  # of a held lock: the place of its outermost acquire
        self.depths: dict[int, dict[int, int]] = {}

    def refusal_of(self, thread: int, letter: str, target: int) -> Optional[str]:
        """Returns the name of the refusal, or None if the event is lawful."""
        if thread not in self.forked:
            return "Unforked"
        if thread in self.joined:
            return "Ended"
        if letter == "f":
            if target in self.forked:
                return "AlreadyForked"
            return "TooManyThreads" if len(self.forked) == self.most_threads else None
        if letter == "j":
            if target == thread:
                return "JoinsItself"
            if target == 0 or target not in self.forked:
                return "JoinUnknown"
            return "JoinedTwice" if target in self.joined else None
        if letter == "a":
            mine = self.depths.get(thread, {})
            if mine.get(target) == MOST_DEPTH:
                return "TooNested"
            if self.holder.get(target, thread) != thread:
                return "HeldByOther"
            return "TooDeep" if target not in mine and len(mine) == self.most_held else None
        return "NotHeld" if letter == "r" and target not in self.depths.get(thread, {}) else None

    def accept(self, thread: int, letter: str, target: int) -> None:
        """Accepts a lawful event."""
        if letter == "f":
            self.forked.add(target)
        elif letter == "j":
            self.joined.add(target)
        elif letter == "a":
            mine = self.depths.setdefault(thread, {})
            if target not in mine:
                self.holder[target], self.since[target] = thread, self.accepted
            mine[target] = mine.get(target, 0) + 1
        elif letter == "r":
            mine = self.depths[thread]
            mine[target] -= 1
            if mine[target] == 0:
                del mine[target], self.holder[target], self.since[target]
        self.accepted += 1

    def reason_of(self, refusal: str, thread: int, target: int) -> str:
        """Returns a refusal as a sentence."""
        reasons = {
            "Full": f"the trace has {MOST_EVENTS} events, the most",
            "Unforked": f"thread {thread} is not forked",
            "Ended": f"thread {thread} has been joined",
            "AlreadyForked": f"thread {target} is forked already" if target else "thread 0 exists from the beginning",
            "TooManyThreads": f"there are {self.most_threads} threads, the most",
            "JoinsItself": f"thread {thread} joins itself",
            "JoinUnknown": f"thread {target} is not forked" if target else "thread 0 cannot be joined",
            "JoinedTwice": f"thread {target} has been joined already",
            "TooNested": f"thread {thread} has acquired lock {target} {MOST_DEPTH} times, the most",
            "HeldByOther": f"thread {self.holder.get(target)} holds lock {target} since place {self.since.get(target)}",
            "TooDeep": f"thread {thread} holds {self.most_held} locks, the most",
            "NotHeld": f"thread {thread} does not hold lock {target}",
        }
        return reasons[refusal]


class EventReader:
    """Reads the lines of an event file one after another. A comment `# at WHERE` is the source line of the events after it."""

    def __init__(self, name: str) -> None:
        self.name, self.number, self.trace = name, 0, Trace()
        self.where: Optional[str] = None
        self.known: dict[str, Event] = {}  # the words that were read at this source line: equal events share one object
        self.known_at: dict[Optional[str], dict[str, Event]] = {None: self.known}

    def events_of(self, line: str) -> list[Event]:
        """Returns the events of the next line."""
        self.number += 1
        if line in self.known:
            return [self.known[line]]
        words = words_of(line)
        if words and not words[0].startswith("#"):
            return [self.event_of(word) for word in words]
        self.take_comment(line, words)
        return []

    def take_comment(self, line: str, words: list[str]) -> None:
        if words[:2] == ["#", "at"]:
            self.where = " ".join(words[2:])
            self.known = self.known_at.setdefault(self.where, {})
        elif self.trace.parts.take(line):
            return
        elif match := NAME.fullmatch(line):
            self.trace.names[match[1], int(match[2])] = match[3]
        elif match := MARK.fullmatch(line):
            self.trace.marks.add(int(match[1]))
        elif match := ORIGIN.fullmatch(line):
            self.trace.origins.add(len(self.trace.events), match[1], int(match[2]), match[3])
        elif (match := VALUES.fullmatch(line)) and not self.trace.events:
            self.trace.values = self.values_of(int(match[1]), int(match[2]))

    def values_of(self, atomic: int, plain: int) -> Values:
        if not atomic < plain <= PLAIN_VALUES:
            raise InputError(self.name, self.number, f"the plain values do not begin after the atomic ones, at most at {PLAIN_VALUES}")
        return Values(atomic, plain)

    def event_of(self, word: str) -> Event:
        if word in self.known:
            return self.known[word]
        match = EVENT.fullmatch(word)
        if not match or int(match[1]) > LARGEST or int(match[3]) > LARGEST:
            raise InputError(self.name, self.number, f"{shown(word)}: {fault_of_word(word)}")
        event = self.known[word] = Event(int(match[1]), match[2], int(match[3]), self.where)
        return event


def words_of(line: str) -> list[str]:
    return [word for word in line.split(" ") if word]


def events_in(name: str) -> Iterator[Event]:
    """Yields the events of an event file, lawful or not."""
    reader = EventReader(name)
    for line in lines_of(name):
        yield from reader.events_of(line)


def raw_events(lines: Iterable[str]) -> Iterator[tuple[int, str, int]]:
    """Yields the events of the lines of a trace that have one event each, as an agent writes them. Others are skipped."""
    for line in lines:
        if match := EVENT.fullmatch(line.rstrip("\n")):
            yield int(match[1]), match[2], int(match[3])


class TraceReader(EventReader):
    """Reads the lines of an event file or a script, and accepts the lawful events. `refused` is the fault of the first event that is not
    lawful, `refused_at` the number of events before it."""

    def __init__(self, name: str) -> None:
        super().__init__(name)
        self.check, self.is_script, self.refused_at = AdmissionCheck(), False, 0
        self.refused: Optional[InputError] = None

    def take(self, line: str) -> None:
        words = words_of(line) if line.lstrip(" ")[:1].isalpha() else []
        if not words:
            for event in self.events_of(line):
                self.take_event(event)
        elif words[0] == "batch":  # the events after a refused one are not tried
            self.is_script = True
            all(self.take_event(event) for event in self.events_of(" ".join(words[1:])))
        elif SCRIPT_LINE.fullmatch(" ".join(words)):
            self.is_script = True
            self.number += 1
        else:
            self.events_of(line)  # raises

    def take_event(self, event: Event) -> bool:
        """Takes an event, and returns whether it is lawful."""
        thread, letter, target, _ = event
        refusal = self.check.refusal_of(thread, letter, target)
        if len(self.trace.events) == MOST_EVENTS:
            refusal = "Full"
        if refusal and not self.refused:
            word, reason = f"{thread}{letter}{target}", self.check.reason_of(refusal, thread, target)
            self.refused, self.refused_at = InputError(self.name, self.number, f"{word}: {reason}"), len(self.trace.events)
        if refusal:
            return False
        self.check.accept(thread, letter, target)
        self.trace.events.append(event)
        return True


def read_whole(name: str) -> TraceReader:
    """Returns the reader of a file at its end."""
    reader = TraceReader(name)
    for line in lines_of(name):
        reader.take(line)
    return reader


def read_trace(name: str) -> Trace:
    """Returns the accepted events of a file, with the names and marks that its comments give. In a file that is no script each event
    must be lawful."""
    reader = read_whole(name)
    if reader.refused and not reader.is_script:
        raise reader.refused
    reader.trace.file = None if reader.is_script else name
    return reader.trace


def fault_in(name: str) -> Optional[InputError]:
    """Returns the first fault of an event file, or None if goodlockd accepts it."""
    try:
        read_trace(name)
    except InputError as fault:
        return fault
    return None


class Dependency(NamedTuple):
    """What an acquire needs of its thread: it acquires a lock while it holds others."""

    thread: int
    lock: int
    held: tuple[int, ...]  # ascending


class Index:
    """A trace by thread and dependency. `held` maps each acquire of a thread that holds other locks to these locks, and `since` to the
    places where the thread acquired them. Inner acquires are in neither."""

    def __init__(self, trace: Trace) -> None:
        self.events, self.marks, self.parts, self.file = trace.events, trace.marks, trace.parts, trace.file
        self.names, self.origins, self.values = trace.parts.names_with(trace.names), trace.origins, trace.values
        self.thread_places: dict[int, array[int]] = defaultdict(lambda: array("I"))
        self.held: dict[int, tuple[int, ...]] = {}
        self.since: dict[int, tuple[int, ...]] = {}
        self.fork_of: dict[int, int] = {}
        self.dependencies: dict[Dependency, list[int]] = defaultdict(list)
        self.index_events()

    def index_events(self) -> None:
        check = AdmissionCheck()
        for place, (thread, letter, target, _) in enumerate(self.events):
            self.thread_places[thread].append(place)
            if letter == "a":
                mine = check.depths.get(thread)
                if mine and target not in mine:
                    self.index_acquire(place, Dependency(thread, target, tuple(sorted(mine))), check.since)
            elif letter == "f":
                self.fork_of[target] = place
            check.accept(thread, letter, target)

    def index_acquire(self, place: int, dependency: Dependency, begun: dict[int, int]) -> None:
        places = self.dependencies[dependency]
        self.held[place] = self.held[places[0]] if places else dependency.held  # equal ones share one object
        self.since[place] = tuple([begun[lock] for lock in dependency.held])
        places.append(place)

    @cached_property
    def sections(self) -> dict[int, Optional[int]]:
        """Maps each outermost acquire to its release, or to None."""
        found, check = dict[int, Optional[int]](), AdmissionCheck()
        for place, (thread, letter, target, _) in enumerate(self.events):
            begin = check.since.get(target)
            check.accept(thread, letter, target)
            if letter == "a":
                found.setdefault(check.since[target], None)
            elif letter == "r" and begin is not None and target not in check.since:
                found[begin] = place
        return found

    @cached_property
    def ends(self) -> set[int]:
        """The releases of outermost acquires."""
        return {place for place in self.sections.values() if place is not None}

    def __len__(self) -> int:
        return len(self.events)

    @cached_property
    def first_plain(self) -> float:
        """The place of the first access of a plain value; infinity if there is none."""
        values = self.values
        return next((place for place, event in enumerate(self.events) if values.is_plain(event)), inf) if values else inf

    @cached_property
    def places_without_values(self) -> "dict[int, array[int]]":
        """The places of each thread without its accesses of plain values."""
        events, values = self.events, self.values
        return {thread: array("I", (place for place in mine if not (values and values.is_plain(events[place]))))
                for thread, mine in self.thread_places.items()}

    def places_of(self, dependency: Dependency) -> list[int]:
        """Returns the places of the acquires with this dependency."""
        return self.dependencies.get(dependency, [])

    def is_acquire_of(self, dependency: Dependency, place: int) -> bool:
        """Returns whether an acquire with this dependency is at a place."""
        event = self.events[place]
        return (event.thread, event.target) == dependency[:2] and self.held.get(place) == dependency.held

    def since_of(self, place: int, lock: int) -> int:
        """Returns the place where the thread of an outermost acquire acquired a lock that it held there."""
        return self.since[place][self.held[place].index(lock)]

    def origin(self, place: int) -> Origin:
        """Returns where an event was in the files from which the trace was reduced or converted, or else its place."""
        return self.origins.of(place, self.file or "the trace")

    def where(self, place: int) -> str:
        """Returns the source line of an event, without its callers; if the trace has none, its thread and its lock."""
        event = self.events[place]
        if event.where:
            return event.where.split(CALLED_BY)[0]
        return f"{self.name_of('thread', event.thread)} {self.name_of('lock', event.target)}"

    def name_of(self, kind: str, number: int) -> str:
        """Returns `thread 1` or `lock 1`, with the name that a comment of the trace gives it."""
        return named(kind, number, self.names.get((kind, number)))

    def steps_to(self, instance: list[int], near: int = 2) -> set[int]:
        """Returns the places that a short list shows of the way to an instance: the forks that lead to its threads, the acquires of their
        held locks, and the `near` events right before their acquires."""
        steps: set[int] = set()
        for place in instance:
            thread = self.events[place].thread
            steps.update(self.since.get(place, ()))
            mine = self.thread_places[thread]
            at = bisect_left(mine, place)
            steps.update(mine[max(0, at - near):at])
            while thread in self.fork_of:
                steps.add(self.fork_of[thread])
                thread = self.events[self.fork_of[thread]].thread
        return steps
