"""The log of a run, NAME.calls. agents/pthread/shared/calls.h describes its first part, which the collector writes. After it come lines of text:
`program PATH`, `file N BUILD-ID PATH`, for each site `site N FILE OFFSET`, or for Python `line N FILE TEXT`, and `name N TEXT`."""
import contextlib
import hashlib
import os
import re
from array import array
from collections.abc import Iterator
from dataclasses import dataclass, field
from typing import BinaryIO, NamedTuple, Optional

from goodlock.agent.run import Run
from goodlock.agent.sites import Sites, program_of
from goodlock.errors import InputError
from goodlock.limits import ATOMIC_VALUES, END_OF_VALUES
from goodlock.reproduce.buildid import build_id_of

MAGIC = b"goodcalls 2\n"
EVENT, OTHER, EXEC, CUT, END = 22, 28, 29, 30, 31  # kinds of entries that are no calls; EVENT and 5 more: events
SAME_THREAD, SAME_OBJECT, SAME_SITE, KINDS = 32, 64, 128, 32
LETTERS, MOST_NUMBER, LONGEST_ENTRY, CHUNK = "fjardw", 5, 16, 1 << 20
LONG, UNWRITTEN, BY_EXEC = 1, 2, 9
WHY_CUT = {LONG: "the run is too long: its log takes more than --keep-log; record it with a larger --keep-log",
           UNWRITTEN: "the log of the run could not be written: record it again on a disk with more room",
           BY_EXEC: "the process ran calls of one program and then another one by exec: record that one alone"}
FORK, JOINED = 1, 7  # kinds of calls
LONGEST_COMMAND, MOST_TEXT = 1 << 24, 1 << 28
BUILD = re.compile(r"sha256:[0-9a-f]{64}|(?:[0-9a-f]{2}){1,32}")
LINE = re.compile(r"(/.*?):[0-9]+ in .*")
CALLER = re.compile(r"(/.*)\+0x([0-9a-f]{1,16})")
NO_CALL = 0xFFFFFFFF


class Place(NamedTuple):
    """An address in a file: a call returns to the byte after it."""

    file: int
    offset: int


class File(NamedTuple):
    path: str
    build: str


def numbers() -> "array[int]":
    return array("I")


@dataclass
class Events:
    """The events of the whole run, one column for each of their parts. `calls`: the call of each event, or NO_CALL."""

    threads: "array[int]" = field(default_factory=numbers)
    letters: bytearray = field(default_factory=bytearray)
    targets: "array[int]" = field(default_factory=numbers)
    sites: "array[int]" = field(default_factory=numbers)
    calls: "array[int]" = field(default_factory=numbers)

    def __len__(self) -> int:
        return len(self.threads)

    def __iter__(self) -> Iterator[tuple[int, str, int]]:
        return zip(self.threads, self.letters.decode("ascii"), self.targets)

    def at(self, place: int) -> tuple[int, str, int]:
        return self.threads[place], chr(self.letters[place]), self.targets[place]


@dataclass
class Log:
    """The calls of a run in their order, one column for each of their parts. `firsts` has the place of the first event of each call, or of
    the next event if it made none."""

    name: str
    command: list[str]
    threads: "array[int]" = field(default_factory=numbers)
    kinds: "array[int]" = field(default_factory=lambda: array("B"))
    objects: "array[int]" = field(default_factory=numbers)
    sites: "array[int]" = field(default_factory=numbers)
    firsts: "array[int]" = field(default_factory=numbers)
    events: Events = field(default_factory=Events)
    program: str = ""
    files: dict[int, File] = field(default_factory=dict)
    places: dict[int, Place] = field(default_factory=dict)
    lines: dict[int, str] = field(default_factory=dict)  # of a program in Python
    names: dict[int, str] = field(default_factory=dict)  # source lines
    cut: int = 0  # why the run cannot be followed, although it has a log

    def __len__(self) -> int:
        return len(self.threads)

    @property
    def most_object(self) -> int:
        """The largest number of an object; threads are none."""
        return max((about for kind, about in zip(self.kinds, self.objects) if kind not in (FORK, JOINED)), default=0)


def command_of(name: str) -> Optional[list[str]]:
    """Returns the command line of the run whose log this is, or None if there is no such file, or it is another one."""
    with contextlib.suppress(OSError, InputError):
        with open(name, "rb") as file:
            return read_command(name, file)
    return None


def read_command(name: str, file: BinaryIO) -> list[str]:
    head = file.read(len(MAGIC) + 4)
    size = int.from_bytes(head[len(MAGIC):], "little")
    text = file.read(size) if head[:len(MAGIC)] == MAGIC and size <= LONGEST_COMMAND else b""
    if len(head) < len(MAGIC) + 4 or len(text) != size or text[-1:] not in (b"", b"\0"):
        raise InputError(name, 1, "not a log of calls: record the program again")
    return [word.decode("utf-8", "surrogateescape") for word in text.split(b"\0")[:-1]]


def read_log(name: str) -> Log:
    """Returns the log of a run. Raises `InputError` if it is none, and `OSError`."""
    with open(name, "rb") as file:
        log = Log(name, read_command(name, file))
        rest = read_entries(log, file)
        text = rest + file.read(MOST_TEXT)
    if not log.cut:
        take_text(log, text.decode("utf-8", "surrogateescape"))
        check_numbers(log)
    return log


class Entries:
    """Reads the entries of a log one after another."""

    def __init__(self, name: str, file: BinaryIO) -> None:
        self.name, self.file, self.data, self.at = name, file, b"", 0
        self.thread, self.site, self.call_object, self.event_object = 0, 0, 0, 0

    def number(self) -> int:
        value = 0
        for part in range(MOST_NUMBER):
            byte = self.data[self.at]
            self.at += 1
            value |= (byte & 127) << 7 * part
            if byte < 128:
                break
        if value > NO_CALL:
            raise InputError(self.name, None, "the log has a number that no agent writes: record the program again")
        return value

    def next_kind(self) -> int:
        """Reads an entry. Returns its kind."""
        if len(self.data) - self.at < LONGEST_ENTRY:
            self.data, self.at = self.data[self.at:] + self.file.read(CHUNK), 0
        try:
            byte = self.data[self.at]
            self.at += 1
            kind = byte % KINDS
            if not byte & SAME_THREAD:
                self.thread = self.number()
            if not byte & SAME_OBJECT:
                if kind < EVENT:
                    self.call_object = self.number()
                else:
                    self.event_object = self.number()
            if not byte & SAME_SITE:
                self.site = self.number()
        except IndexError:
            raise InputError(self.name, None, "the log has no end: record the program again") from None
        return kind


def read_entries(log: Log, file: BinaryIO) -> bytes:
    """Reads the entries up to the last one. Returns what was read of the text after them."""
    entries, events, call = Entries(log.name, file), log.events, NO_CALL
    while True:
        kind = entries.next_kind()
        if kind < EVENT:
            call = len(log.threads)
            log.threads.append(entries.thread)
            log.kinds.append(kind)
            log.objects.append(entries.call_object)
            log.sites.append(entries.site)
            log.firsts.append(len(events))
        elif kind < OTHER:
            letter, target = LETTERS[kind - EVENT], entries.event_object
            events.threads.append(entries.thread)
            events.letters.append(ord(letter))
            events.targets.append(target)
            events.sites.append(entries.site)
            is_of_value = letter in "dw" and ATOMIC_VALUES <= target < END_OF_VALUES  # the program reads or writes it between its calls
            events.calls.append(NO_CALL if is_of_value else call)
        elif kind == OTHER:
            call = NO_CALL
        elif kind == EXEC:
            log.cut = BY_EXEC
        else:
            log.cut = entries.event_object if kind == CUT else log.cut
            return entries.data[entries.at:]


def take_text(log: Log, text: str) -> None:
    for line in filter(None, text.split("\n")):
        kind, _, rest = line.partition(" ")
        words = rest.split(" ", 2)
        if kind == "program":
            log.program = rest
        elif kind == "file" and len(words) == 3 and words[0].isdecimal() and BUILD.fullmatch(words[1]):
            log.files[int(words[0])] = File(words[2], words[1])
        elif kind == "site" and len(words) == 3 and all(word.isdecimal() for word in words):
            log.places[int(words[0])] = Place(int(words[1]), int(words[2]))
        elif kind == "line" and len(words) == 3 and words[0].isdecimal() and words[1].isdecimal():
            log.places[int(words[0])] = Place(int(words[1]), hash_of(words[2]))
            log.lines[int(words[0])] = words[2]
        elif kind == "name" and len(words) > 1 and words[0].isdecimal():
            log.names[int(words[0])] = rest.partition(" ")[2]
        else:
            raise InputError(log.name, None, "a line after the calls is not understood: record the program again")


def hash_of(line: str) -> int:
    """Returns the number by which a program in Python knows a source line: goodlock_follow.py has the same."""
    return int.from_bytes(hashlib.sha256(line.encode("utf-8", "replace")).digest()[:8], "little")


def check_numbers(log: Log) -> None:
    if not all(place.file in log.files and place.offset < 1 << 64 for place in log.places.values()):
        raise InputError(log.name, None, "a code address is in no file: record the program again")
    if log.most_object > len(log):
        raise InputError(log.name, None, "an object has a number that no call gave it: record the program again")


def keep_log(run: Run, name: str, is_python: bool, sites: Sites) -> None:
    """Adds what is known of files and code addresses to the log of a run that has ended, and gives it this name. A log that cannot be
    written is not kept, nor one of a run whose command is not known, or whose calls have no code addresses."""
    path, pattern = run.work("calls"), LINE if is_python else CALLER
    found = {site: match for site, callers in sites.callers.items() if callers and (match := pattern.fullmatch(callers[0]))}
    if not found or not command_of(path):
        return
    try:
        program = "" if is_python else program_of(run)
        with open(path, "r+b") as log:
            log.seek(0, os.SEEK_END)
            log.writelines(f"{line}\n".encode("utf-8", "surrogateescape") for line in text_of(program, found, is_python))
            log.writelines(f"name {site} {sites.name(site)}\n".encode("utf-8", "surrogateescape") for site in sites.callers)
        os.chmod(path, os.stat(run.window(1, "trace")).st_mode & 0o777)
        os.replace(path, name)
    except OSError:
        with contextlib.suppress(OSError):
            os.remove(path)


def text_of(program: str, sites: dict[int, "re.Match[str]"], is_python: bool) -> Iterator[str]:
    """Yields the lines after the calls. A site in a file that cannot be read has none."""
    numbers: dict[str, int] = {}
    yield f"program {program}"
    for number, path in enumerate(dict.fromkeys([program, *(match[1] for match in sites.values())]), 1):
        with contextlib.suppress(OSError):
            yield f"file {number} {build_id_of(path)} {path}"
            numbers[path] = number
    for site, match in sites.items():
        if match[1] in numbers:
            number = numbers[match[1]]
            yield f"line {site} {number} {match[0]}" if is_python else f"site {site} {number} {int(match[2], 16)}"
