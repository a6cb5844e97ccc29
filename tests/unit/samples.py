"""Results that the tests of the formats share: two threads that acquire their locks in opposite orders in `transfer` of src/bank.c."""
from __future__ import annotations

from dataclasses import replace

from goodlock.groups import location_of
from goodlock.reports import Verdict
from goodlock.results import KeptApart, Numbers, Result, ResultMember, Run, Spot, State, Witness, WitnessStep

HOLD, WAIT = "src/bank.c:34 in transfer", "src/bank.c:35 in transfer"


def spot(text: str, lock: int, place: int) -> Spot:
    return Spot(location_of(text), lock, place)


CONFIRMED = Result(
    Verdict.CONFIRMED,
    (ResultMember(1, spot(HOLD, 1, 2), spot(WAIT, 2, 3), (1,), "teller"), ResultMember(2, spot(HOLD, 2, 6), spot(WAIT, 1, 7), (2,))),
    "Choose one order.",
    cycles=3,
    confirmed=2,
    example=(0, 1),
    witness=Witness(4, (WitnessStep(0, 0, "forks thread 1"), WitnessStep(2, 1, "acquires lock 1", 1, location_of(HOLD)),
                        WitnessStep(6, 2, "acquires lock 2", 0, location_of(HOLD))), 1),
    fingerprint="aa:1",
    traces=("bank.trace",),
)
POTENTIAL = Result(
    Verdict.POTENTIAL,
    (ResultMember(5, spot("src/audit.c:80 in audit", 8, 20), spot("src/audit.c:81 in audit", 9, 21), (8,)),
     ResultMember(6, spot("src/audit.c:90 in review", 9, 26), spot("src/audit.c:91 in review", 8, 27), (9,))),
    "It is harmless.",
    cycles=1,
    example=(4, 5),
    kept_apart=KeptApart("Kept apart by a join", ("Thread 0 joins thread 5.",), 2, "2 further steps.",
                         "goodlockd explain bank.trace --bound 2 --cycle 4,5"),
    fingerprint="bb:1",
    traces=("bank.trace",),
)
NO_VALUE = replace(
    CONFIRMED,
    verdict=Verdict.NO_VALUE,
    cycles=4,
    confirmed=0,
    no_value=3,
    kept_apart=KeptApart("Kept apart only by what these reads see", ("bank.c:4 in is_open reads memory that a thread wrote after bank.c:3 in open",)),
    fingerprint="gg:1",
)
HAPPENED = replace(CONFIRMED, verdict=Verdict.HAPPENED, fingerprint="cc:2", witness=None, cycles=0, confirmed=0, example=())
NOWHERE = Result(
    Verdict.CONFIRMED,
    (ResultMember(1, spot("thread 1 lock 1", 1, 2), spot("thread 1 lock 2", 2, 3), (1,)),
     ResultMember(2, spot("thread 2 lock 2", 2, 6), spot("thread 2 lock 1", 1, 7), (2,))),
    "Choose one order.",
    cycles=1,
    confirmed=1,
    fingerprint="dd:1",
)
KNOWN = replace(CONFIRMED, state=State.KNOWN, before=Verdict.CONFIRMED, fingerprint="ee:1")
SUPPRESSED = replace(CONFIRMED, state=State.SUPPRESSED, suppressed_by=4, fingerprint="ff:1")
NUMBERS = Numbers(events=12, threads=3, locks=2, dependencies=2, confirmed=2, potential=1, seconds=0.25)


def run_of(*results: Result) -> Run:
    return Run("bank.trace", results, NUMBERS)
