"""What came out of a run that followed a schedule: the file `outcome` of the collector, and the deadlock that it has seen."""
from __future__ import annotations

import re
from dataclasses import dataclass, field
from typing import Optional

from goodlock.agent.run import Run
from goodlock.agent.sites import read_sites
from goodlock.groups import Pair, key_of
from goodlock.happened import Waiter, waiters_in
from goodlock.reproduce.calls import CALLER
from goodlock.reproduce.schedule import Schedule, address_text

SITE = re.compile("@([0-9]+)@")
DEADLOCK, DIVERGED, ESCAPED, ENDED = "deadlock", "diverged", "escaped", "ended"
PLACES = ("not started", "runs, or waits for something that is not in the trace", "waits for its turn", "is held back",
          "is before its acquire", "is in a call", "has ended")
KINDS = {1: "fork", 5: "end of the thread", 7: "join", 9: "acquire", 10: "attempt to acquire", 11: "acquire with a timeout", 12: "release",
         13: "acquire for writing", 14: "attempt to acquire for writing", 15: "acquire for writing with a timeout", 16: "acquire for reading",
         17: "release", 19: "signal or post", 20: "wake-up", 21: "initialisation"}


@dataclass
class Outcome:
    """The end of a run. `lanes` has the next call and the place of each thread that was seen. The locations of `waiters` are the numbers of
    sites between two @, and their threads and locks have the numbers of this run."""

    verdict: str
    milliseconds: int = 0
    turn: int = 1
    skipped: int = 0
    extra: int = 0
    process: int = 0
    unproven: int = 0  # the kernel has not shown what threads wait for that seem to wait for each other
    closed: int = 0  # whether all members had come to their acquires
    lanes: dict[int, tuple[int, int]] = field(default_factory=dict)
    divergence: Optional[tuple[int, int, int, int, int]] = None  # lane, next call, kind, object, site
    waiters: list[Waiter] = field(default_factory=list)
    sites: dict[int, list[str]] = field(default_factory=dict)

    def caller(self, location: str) -> str:
        site = SITE.fullmatch(location)
        caller = (site and self.sites.get(int(site[1])) or ["?"])[0]
        match = CALLER.fullmatch(caller)
        return address_text(match[1], int(match[2], 16)) if match else caller

    def is_of(self, schedule: Schedule) -> bool:
        """Whether the deadlock is that of the cycle: its threads hold and wait at the same code addresses. If a run that follows the recorded one
        has left it before the deadlock, its threads and locks must be the same too: code addresses may be those of a wrapper."""
        members = schedule.cycle.members
        if len(self.waiters) != len(members) or key_of(self.pairs()) != key_of(predicted_pairs(schedule)):
            return False
        wants = {(waiter.thread, waiter.target) for waiter in self.waiters}
        return bool(schedule.pause or self.closed) or wants == {(member.thread, member.lock) for member in members}

    def pairs(self) -> list[Pair]:
        return [Pair(self.caller(waiter.held.get(self.waiters[at - 1].target, "")), self.caller(waiter.wait))
                for at, waiter in enumerate(self.waiters)]


def predicted_pairs(schedule: Schedule) -> list[Pair]:
    """Returns the code addresses where each member of the cycle holds what the one before it wants, and where it waits."""
    index, places, members = schedule.run.index, schedule.run.places, schedule.cycle.members
    return [Pair(schedule.site_text(places[index.since_of(place, members[at - 1].lock)]), schedule.site_text(places[place]))
            for at, place in enumerate(schedule.in_trace)]


def read_outcome(run: Run) -> Optional[Outcome]:
    """Returns what the collector has written, or None if it has written nothing."""
    outcome = Outcome("")
    for line in run.lines("outcome"):
        word, *rest = line.split(" ")
        if word == "verdict":
            outcome.verdict = rest[0]
        elif word == "lane":
            outcome.lanes[int(rest[0])] = int(rest[1]), int(rest[2])
        elif word == "divergence":
            lane, following, kind, about, site = map(int, rest)
            outcome.divergence = lane, following, kind, about, site
        else:
            setattr(outcome, word, int(rest[0]))
    outcome.sites = read_sites(run)
    outcome.waiters, _ = waiters_in([line.strip() for line in run.lines("deadlock")])
    return outcome if outcome.verdict else None
