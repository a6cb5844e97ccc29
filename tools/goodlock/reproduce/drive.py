"""Runs the program, under a schedule, until its deadlock happens or the runs are used up."""
from __future__ import annotations

import contextlib
import os
import signal
import subprocess
import tempfile
from collections.abc import Callable, Iterator
from dataclasses import dataclass
from functools import partial
from itertools import repeat
from typing import Optional

from goodlock.agent.run import Run, say
from goodlock.agent.sites import Sites
from goodlock.commandline import plural
from goodlock.errors import InputError
from goodlock.reproduce.outcome import DEADLOCK, DIVERGED, ENDED, ESCAPED, KINDS, PLACES, Outcome, read_outcome
from goodlock.reproduce.schedule import Schedule

SHORT_PAUSE, LONG_PAUSE = 100, 1000  # milliseconds
MOST_THREADS_LISTED, MOST_STACKS = 20, 5
SECONDS_TO_END, LOOK_SECONDS = 15, 0.05
REPRODUCED, NOT_REPRODUCED, OTHER_DEADLOCK = 0, 1, 3  # exit statuses


@dataclass
class Agent:
    """The files of the agent that run a program."""

    collector: str
    recorder: str
    program: str
    reporter: str


@dataclass
class Plan:
    """How to run the program: at most `tries` runs of each kind."""

    command: list[str]
    tries: int
    patience: int  # milliseconds
    leaves: bool


class Attempt:
    """One run of the program under a schedule. Its files are in a folder of their own."""

    def __init__(self, agent: Agent, plan: Plan, schedule: Schedule, folder: str) -> None:
        self.schedule, self.run, self.leaves = schedule, Run(os.path.join(folder, "run")), plan.leaves
        name = os.path.join(folder, "schedule")
        with open(name, "wb") as file:
            file.write(schedule.data())
        options = ["--no-config", f"--out={self.run.out}", f"--stacks={MOST_STACKS}", "--keep-log=0", f"--follow={name}",
                   f"--patience-ms={plan.patience}", *(["--leave-deadlock"] if plan.leaves else [])]
        self.command = [agent.collector, agent.recorder, agent.program, agent.reporter, *options, "--", *plan.command]

    def wait(self, leave: Callable[[Outcome], None]) -> tuple[Optional[Outcome], int]:
        """Runs the program. Returns what came out, and the exit status of the collector. Calls `leave` with a deadlock before the program has
        ended, if a debugger may look at it."""
        is_left, outcome = False, None
        with subprocess.Popen(self.command) as collector:
            try:
                while collector.poll() is None:
                    with contextlib.suppress(subprocess.TimeoutExpired):
                        collector.wait(LOOK_SECONDS if self.leaves and not is_left else None)
                    outcome = read_outcome(self.run) if self.leaves and not is_left and collector.poll() is None else None
                    if outcome and outcome.verdict == DEADLOCK:
                        is_left = True
                        leave(outcome)
            except KeyboardInterrupt:  # the program has it too; the collector ends after the program
                if outcome:
                    with contextlib.suppress(OSError):
                        os.kill(outcome.process, signal.SIGKILL)  # it may ignore the interrupt
                collector.terminate()  # passed on to the program: the interrupt may have been for this process alone
                with contextlib.suppress(subprocess.TimeoutExpired):
                    collector.wait(SECONDS_TO_END)
                collector.send_signal(signal.SIGKILL)
                if not is_left:
                    raise
        return read_outcome(self.run), collector.returncode or 0


def schedules(recorded_schedule: Schedule, tries: int) -> Iterator[Schedule]:
    """Yields the schedules of the runs: those that follow the recorded one, if the cycle is confirmed, then those that pause its members. Each
    second one of these also pauses before the locks that the members hold."""
    run, cycle = recorded_schedule.run, recorded_schedule.cycle
    if cycle.verdict.is_confirmed:
        yield from repeat(recorded_schedule, tries)
    for number in range(tries):
        yield Schedule(run, cycle, LONG_PAUSE if number > 1 else SHORT_PAUSE, is_early=number % 2 == 1)


class Driver:
    def __init__(self, agent: Agent, plan: Plan) -> None:
        self.agent, self.plan = agent, plan
        self.number = 0
        self.last_lines: list[str] = []  # what was said of the run before
        self.proof: list[str] = []  # what is said of the run in which the deadlock has happened

    def reproduce(self, first: Schedule) -> int:
        """Runs the program until the deadlock of the cycle happens. Returns the exit status."""
        status = NOT_REPRODUCED
        for schedule in schedules(first, self.plan.tries):
            self.number += 1
            with tempfile.TemporaryDirectory(prefix="goodlock-") as folder:
                attempt = Attempt(self.agent, self.plan, schedule, folder)
                outcome, exit_status = attempt.wait(partial(self.leave, attempt))
                if outcome is None:
                    raise InputError(self.plan.command[0], None, f"the run was not watched to its end: status {exit_status}")
                lines = list(self.report(attempt, outcome))
            if not self.plan.leaves or outcome.verdict != DEADLOCK:
                self.say_once(lines)
            if outcome.verdict == DEADLOCK and outcome.is_of(schedule):
                self.proof = lines
                return REPRODUCED
            if outcome.verdict == DEADLOCK:
                status = OTHER_DEADLOCK
        return status

    def leave(self, attempt: Attempt, outcome: Outcome) -> None:
        self.say_once(list(self.report(attempt, outcome)))
        say(f"the program waits: gdb -p {outcome.process}; Ctrl-C ends it")

    def say_once(self, lines: list[str]) -> None:
        """Prints what is to say of a run, in short if it is that of the run before."""
        for line in lines if lines[1:] != self.last_lines else [lines[0], "  as in the run before"]:
            say(line)
        self.last_lines = lines[1:]

    def report(self, attempt: Attempt, outcome: Outcome) -> Iterator[str]:
        """Yields what is to say of a run."""
        sites = Sites(attempt.run, MOST_STACKS)
        sites.callers = {site: without_recorder(callers, self.agent.recorder) for site, callers in sites.callers.items()}
        is_same = outcome.is_of(attempt.schedule)
        found = "reproduced" if outcome.verdict == DEADLOCK and is_same else "not reproduced"
        yield f"{found} in run {self.number}, {outcome.milliseconds / 1000:.2f} s, {how_of(attempt.schedule, outcome)}"
        if outcome.verdict == DEADLOCK:
            yield from deadlock_lines(attempt.schedule, outcome, sites, is_same)
        else:
            yield from failure_lines(attempt.schedule, outcome, sites)
            if not attempt.schedule.pause and outcome.turn == 1:
                log = attempt.schedule.run.log
                yield f"no step of the recorded run was made: that was a run of {log.program or ' '.join(log.command)}"


def without_recorder(callers: list[str], recorder: str) -> list[str]:
    """Returns the callers below the function of the agent that has started the thread."""
    own = next((at for at, caller in enumerate(callers) if caller.rpartition("+0x")[0] == os.path.realpath(recorder)), len(callers))
    return callers[:own] or callers[:1]


def how_of(schedule: Schedule, outcome: Outcome) -> str:
    if schedule.pause:
        return f"pauses of {schedule.pause} ms{' also before the locks that the members hold' if schedule.is_early else ''}"
    changed = f", {plural(outcome.skipped, 'call')} left out and {outcome.extra:,} more than in the recorded run"
    return f"{plural(schedule.steps, 'step')}{changed if outcome.skipped + outcome.extra else ''}"


def deadlock_lines(schedule: Schedule, outcome: Outcome, sites: Sites, is_same: bool) -> Iterator[str]:
    count = len(outcome.waiters)
    waits = "thread, which waits for itself" if count == 1 else "threads, which wait for each other"
    yield f"{'' if is_same else 'another '}deadlock of {count} {waits}{'' if is_same else '; its locks have the numbers of this run'}"
    names = recorded_locks(schedule, outcome) if is_same else {}
    for at, waiter in enumerate(outcome.waiters):
        yield f"thread {waiter.thread} waits for {waiter.kind} {names.get(waiter.target, waiter.target)} at {sites.name_all(waiter.wait)}"
        before = outcome.waiters[at - 1]
        for lock, where in waiter.held.items():
            if before.kind == "lock" and lock == before.target:
                yield f"  lock {names.get(lock, lock)} since {sites.name_all(where)}"


def recorded_locks(schedule: Schedule, outcome: Outcome) -> dict[int, int]:
    """Returns for each lock of the deadlock its number in the recorded run. Another run may number its locks in another order."""
    members = {member.thread: member.lock for member in schedule.cycle.members}
    locks = {waiter.target: members[waiter.thread] for waiter in outcome.waiters if waiter.thread in members}
    return locks if len(locks) == len(outcome.waiters) else {}


def failure_lines(schedule: Schedule, outcome: Outcome, sites: Sites) -> Iterator[str]:
    if outcome.verdict == DIVERGED and outcome.divergence:
        yield from divergence_lines(schedule, outcome, sites)
    elif outcome.unproven:
        yield "threads seem to wait for each other, but the kernel does not show it: /proc/PID/task/TID/syscall cannot be read"
    elif outcome.verdict == ESCAPED:
        yield "the members have reached their places, but did not stay in the calls of their locks"
    elif schedule.pause:
        yield "no deadlock happened"
    else:
        yield "the program has ended" if outcome.verdict == ENDED else "no step"
        yield f"{outcome.turn - 1:,} of {plural(schedule.steps, 'step')} done"
        yield from place_lines(schedule, outcome)


def divergence_lines(schedule: Schedule, outcome: Outcome, sites: Sites) -> Iterator[str]:
    assert outcome.divergence
    lane, following, kind, about, site = outcome.divergence
    call = schedule.call_at(lane, following)
    yield f"thread {lane} diverged{'' if call is None else f' before place {schedule.run.log.firsts[call]}'}"
    yield f"  recorded: {described(schedule, call)}"
    where = f" at {sites.name(site)}" if site else ""
    same = "" if call is None or schedule.run.log.kinds[call] != kind else ", of another object or from another place"
    yield f"  now: {KINDS.get(kind, 'a call')}{where}{same}"


def described(schedule: Schedule, call: Optional[int]) -> str:
    if call is None:
        return "no further call"
    text = schedule.run.text_of(call)
    return f"{KINDS.get(schedule.run.log.kinds[call], 'a call')}{f' of {text}' if text else ''}"


def place_lines(schedule: Schedule, outcome: Outcome) -> Iterator[str]:
    """Yields where each thread is that has not made its next call."""
    waiting = [(thread, following, place) for thread, (following, place) in sorted(outcome.lanes.items())
               if schedule.call_at(thread, following) is not None]
    for thread, following, place in waiting[:MOST_THREADS_LISTED]:
        where = PLACES[place] if place < len(PLACES) else "?"
        yield f"  thread {thread} {where}; next in the recorded run: {described(schedule, schedule.call_at(thread, following))}"
    if len(waiting) > MOST_THREADS_LISTED:
        yield f"  and {len(waiting) - MOST_THREADS_LISTED} more threads"
