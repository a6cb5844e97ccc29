"""Makes the schedule of a run that follows a recorded one: agents/pthread/shared/schedule.h describes its bytes.

The order to follow is the recorded order as far as it can come before the deadlock: without the members of the cycle from their acquires on,
and without what needs anything that is left out. Only the witness is mandatory."""
from __future__ import annotations

import os
import struct
from array import array
from collections import Counter, defaultdict
from collections.abc import Iterable, Sequence
from dataclasses import dataclass
from functools import cached_property
from itertools import islice
from typing import Optional

from goodlock.errors import InputError
from goodlock.groups import instance_of
from goodlock.limits import ATOMIC_VALUES, END_OF_VALUES, ENDS_OF_THREADS, PLAIN_VALUES, TRY_MARKERS, WAKE_UPS
from goodlock.reports import Cycle, Verdict
from goodlock.reproduce.calls import FORK, NO_CALL, WHY_CUT, Log
from goodlock.traces import Event, Index

MAGIC = 0x31646568637321
HEAD, LANE, CALL, SITE = struct.Struct("<Q14I"), struct.Struct("<7I4x"), struct.Struct("<IIIi"), struct.Struct("<QII")
FILE, MEMBER = struct.Struct("<64s32sQ"), struct.Struct("<34I")
FREE, HELD, REACH = 0, -1, -2
MOST_LANES, MOST_HOLDS, MOST_NAME = 1024, 32, 63
NO_PLACE = -1


@dataclass
class Recorded:
    """A recorded run: its log, and a trace of events that the log has. `places` has the place in the run of each event of the trace, and
    NO_PLACE for one that no call made."""

    log: Log
    index: Index
    places: Sequence[int]

    def call_of(self, place: int) -> int:
        """Returns the call of an event of the run, or NO_CALL; also for NO_PLACE."""
        return NO_CALL if place == NO_PLACE else self.log.events.calls[place]

    def text_of(self, call: int) -> str:
        """Returns what a call did, as its events say: `lock 2 at bank.c:35 in transfer`; else an empty text."""
        log, events = self.log, self.log.events
        for place in range(log.firsts[call], len(events)):
            thread, letter, target = events.at(place)
            if events.calls[place] != call:
                break
            if letter in "arfj" and thread == log.threads[call]:
                where = log.names.get(events.sites[place])
                return f"{'thread' if letter in 'fj' else 'lock'} {target}{f' at {where}' if where else ''}"
        return ""


def recorded(log: Log, index: Index) -> Recorded:
    """Returns the run with a trace of it. Raises `InputError` if they do not fit."""
    if log.cut:
        raise InputError(log.name, None, WHY_CUT.get(log.cut, "the log is not whole: record the program again"))
    places = array("q", [NO_PLACE]) * len(index)
    made = 0
    for at, event in enumerate(index.events):
        if is_of_end(event):
            continue
        while not index.origins.begins and is_read_later(log, made, event):
            made += 1
        place = index.origin(at).number if index.origins.begins else made
        made += 1
        if place >= len(log.events) or log.events.at(place) != event[:3]:
            raise InputError(log.name, None, f"place {place} is another event in the trace: it is of another run, of a window that is not the "
                                             "first one, or acquires that do not wait were left out of it; such a run cannot be reproduced")
        places[at] = place
    for at in range(len(index) - 2, -1, -1):  # the events of a thread that waits for an end are right before its join
        event = index.events[at]
        if is_of_end(event) and event.target - ENDS_OF_THREADS != event.thread:
            places[at] = places[at + 1]
    return Recorded(log, index, places)


def is_read_later(log: Log, place: int, event: Event) -> bool:
    """Whether an event of the run, which is not this one of the first window, writes a value that only a later window reads: it is in the log
    alone."""
    if place >= len(log.events):
        return False
    found = log.events.at(place)
    return found[1] == "w" and ATOMIC_VALUES <= found[2] < TRY_MARKERS and found != event[:3]


def is_of_end(event: Event) -> bool:
    """Whether an event is of a lock that a thread holds until its end: no call made it."""
    return event.letter in "ar" and ENDS_OF_THREADS <= event.target < TRY_MARKERS


def places_before(events: Iterable[tuple[int, str, int]], reach: Iterable[int], witness: Sequence[int], has_values: bool = True) -> set[int]:
    """Returns the places of the recorded order that can come before the deadlock, if those of the witness are among them, else those of the
    witness. Unless it `has_values`, a read of a plain value may see another write."""
    members = set(reach)
    stopped: set[int] = set()
    is_kept_write: dict[int, bool] = {}
    holder: dict[int, list[int]] = {}  # of a lock: its thread and how often it holds the lock
    kept: set[int] = set()
    for place, (thread, letter, target) in enumerate(islice(events, max(members))):
        is_left_out = (place in members or thread in stopped or letter == "a" and holder.get(target, [thread])[0] != thread
                       or letter == "j" and target in stopped or letter == "d" and not is_kept_write.get(target, True)
                       and (has_values or not PLAIN_VALUES <= target < END_OF_VALUES))
        if letter == "w":
            is_kept_write[target] = not is_left_out
        if is_left_out:
            stopped.update([thread, target] if letter == "f" else [thread])
            continue
        kept.add(place)
        if letter == "a":
            holder.setdefault(target, [thread, 0])[1] += 1
        elif letter == "r" and target in holder:
            holder[target][1] -= 1
            if not holder[target][1]:
                del holder[target]
    return kept if kept.issuperset(witness) else set(witness)


class Schedule:
    """What a run follows. `lanes` has the calls of each thread, `turns` the call of each turn from 1 on, `needed` how many calls of a lane the
    witness needs. `pause`: milliseconds; the run does not follow the lanes, but pauses the members before their acquires."""

    def __init__(self, run: Recorded, cycle: Cycle, pause: int = 0, is_early: bool = False) -> None:
        self.run, self.cycle, self.pause, self.is_early = run, cycle, pause, is_early
        self.in_trace = instance_of(run.index, cycle.members)
        self.instance = [run.places[place] for place in self.in_trace]
        self.witness = [run.places[place] for place in cycle.witness if run.places[place] != NO_PLACE]
        self.parents = self.find_parents()
        self.lanes: dict[int, list[int]] = defaultdict(list)
        self.turn_of: dict[int, int] = {}
        self.reach: set[int] = set()
        self.hard: set[int] = set()
        if not pause:
            self.find_order()
        self.check()

    def find_parents(self) -> dict[int, tuple[int, int]]:
        """Returns of each forked thread its parent, and which child of it it is."""
        log, parents, forks = self.run.log, dict[int, tuple[int, int]](), Counter[int]()
        for at, kind in enumerate(log.kinds):
            if kind == FORK:
                parent = log.threads[at]
                parents[log.objects[at]] = parent, forks[parent]
                forks[parent] += 1
        return parents

    def can_be_followed(self, thread: int) -> bool:
        """Whether a later run knows which of its threads this is: the first one, or one whose fork was seen."""
        return thread == 0 or thread in self.parents

    def find_order(self) -> None:
        log, calls = self.run.log, self.run.log.events.calls
        self.reach = {calls[place] for place in self.instance}
        self.hard = {calls[place] for place in self.witness} - self.reach - {NO_CALL}
        places = places_before(log.events, self.instance, self.witness, self.cycle.verdict is not Verdict.NO_VALUE)
        partly = {call for place, call in enumerate(calls) if place not in places}
        whole = {calls[place] for place in places} - partly
        order = (self.hard | whole) - self.reach - {NO_CALL}
        followed = [at for at in sorted(order) if at in self.hard or self.can_be_followed(log.threads[at])]
        self.turn_of = {at: number for number, at in enumerate(followed, 1)}
        for at, thread in enumerate(log.threads):
            self.lanes[thread].append(at)

    def check(self) -> None:
        """Raises `InputError` if no run can follow this schedule."""
        run, log = self.run, self.run.log
        if any(WAKE_UPS <= run.index.events[place].target < TRY_MARKERS for place in self.in_trace):
            raise InputError(log.name, None, "a member waits on a condition, and is not in a lock: such a deadlock cannot be reproduced")
        if max([*log.threads, *self.parents], default=0) >= MOST_LANES:
            raise InputError(log.name, None, f"the run has more than {MOST_LANES:,} threads")
        calls = self.hard | self.reach if not self.pause else {run.call_of(place) for place in self.instance}
        if NO_CALL in calls:
            raise InputError(log.name, None, "an acquire of the cycle is of no call: such a run cannot be reproduced")
        for call in calls:
            if not self.can_be_followed(log.threads[call]):
                raise InputError(log.name, None, f"thread {log.threads[call]} was started in a way that is not seen, so it cannot be followed")
            if log.sites[call] and log.sites[call] not in log.places:
                raise InputError(log.name, None, "a call has no code address: it was not made by pthread functions, so it cannot be followed")

    @property
    def steps(self) -> int:
        return len(self.turn_of)

    def call_at(self, thread: int, index: int) -> Optional[int]:
        """Returns a call of a lane, or None if the lane has ended."""
        lane = self.lanes.get(thread, [])
        return lane[index] if index < len(lane) else None

    def site_text(self, place: int) -> str:
        """Returns the code address of an event's call: `bank+0x11a7`."""
        log, call = self.run.log, self.run.call_of(place)
        site = log.sites[call] if call != NO_CALL else 0
        found = log.places.get(site)
        return log.lines.get(site) or (address_text(log.files[found.file].path, found.offset) if found else "?")

    # ---- the bytes ----

    def data(self) -> bytes:
        log = self.run.log
        numbers = {file: at for at, file in enumerate(log.files)}
        lanes, calls = self.pack_lanes()
        owners = [0] + [log.threads[at] for at in self.turn_of]
        owners += [0] * (len(owners) % 2)
        sites = SITE.pack(0, 0, 0) + b"".join(SITE.pack(place.offset, numbers[place.file], 1) for place in log.places.values())
        files = b"".join(pack_file(file.path, file.build) for file in log.files.values())
        members = b"".join(self.pack_member(place) for place in self.in_trace)
        counts = [len(lanes) // LANE.size, len(calls) // CALL.size, len(self.turn_of), len(sites) // SITE.size, len(log.files),
                  len(self.instance), 0 if self.pause else log.most_object, self.pause, int(self.is_early)]
        head = HEAD.pack(MAGIC, *counts, *[0] * 5)
        return head + lanes + calls + struct.pack(f"<{len(owners)}I", *owners) + sites + files + members

    @cached_property
    def site_numbers(self) -> dict[int, int]:
        """Returns the numbers of the sites whose code addresses are known. 0 is one that is not known."""
        return {site: number for number, site in enumerate(self.run.log.places, 1)}

    def site_number(self, place: int) -> int:
        """Returns the number of the site of an event's call."""
        call = self.run.call_of(place)
        return 0 if call == NO_CALL else self.site_numbers.get(self.run.log.sites[call], 0)

    def pack_lanes(self) -> tuple[bytes, bytes]:
        log, sites, lanes, calls = self.run.log, self.site_numbers, bytearray(), bytearray()
        for thread in range(max([*log.threads, *self.parents], default=0) + 1):
            lane = self.lanes.get(thread, [])
            parent, child_of = self.parents.get(thread, (0, 0))
            needed = max((at + 1 for at, call in enumerate(lane) if call in self.hard or call in self.reach), default=0)
            wanted = max((at + 1 for at, call in enumerate(lane) if call in self.turn_of or call in self.reach), default=0)
            lanes += LANE.pack(thread in self.parents, parent, child_of, len(calls) // CALL.size, len(lane), needed, wanted)
            for at, call in enumerate(lane):
                turn = REACH if call in self.reach else self.turn_of.get(call, FREE if at < wanted else HELD)
                calls += CALL.pack(log.kinds[call], log.objects[call], sites.get(log.sites[call], 0), turn)
        return bytes(lanes), bytes(calls)

    def pack_member(self, place: int) -> bytes:
        """Returns the sites of a member whose acquire is at a place of the trace."""
        places = self.run.places
        holds = [self.site_number(places[since]) for since in self.run.index.since.get(place, ())][:MOST_HOLDS]
        return MEMBER.pack(self.site_number(places[place]), len(holds), *holds, *[0] * (MOST_HOLDS - len(holds)))


def pack_file(path: str, build: str) -> bytes:
    name = os.fsencode(os.path.basename(path))[:MOST_NAME]
    identity = b"" if build.startswith("sha256:") else bytes.fromhex(build)
    return FILE.pack(name, identity, len(identity))


def address_text(path: str, offset: int) -> str:
    """Returns a code address without the version of a library, which has several names."""
    name = os.path.basename(path)
    stem, so, _ = name.partition(".so")
    return f"{stem}{so}+0x{offset:x}"
