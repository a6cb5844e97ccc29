"""Says what a recording lacks, which answer suffers, and how to record it."""
from __future__ import annotations

from collections.abc import Iterator

from goodlock.commandline import plural

ALL = "lock sched_switch sched_process_fork sched_waking workqueue"
BASIS = ("a confirmed cycle is one that the recorded orders allow: locks, forks, wake-ups, completions, works; orders by memory alone "
         "and by RCU are in no recording")
EVENTS = " ".join(f"-e {event}" for event in ALL.split())


def lacking(counts: dict[str, int]) -> Iterator[str]:
    """Yields a line for each thing that the recording lacks."""
    if not counts["flagged"]:
        yield ("no flags: an interrupt looks like the task in which it came, and nothing is said about interrupts; "
               "print with `trace-cmd report -l`, or read the file trace of tracefs")
    if not counts["lock_acquired"]:
        yield ("no lock_acquired: a lock counts as held from the thread's next event, and annotations are known by their names only; "
               "build the kernel with CONFIG_LOCK_STAT, and record `-e lock`")
    missing = {event: what for event, what in [("sched_process_fork", "forks"), ("sched_waking", "wake-ups")] if not counts[event]}
    if missing:
        yield (f"no {', '.join(missing)}: {' and '.join(missing.values())} order nothing, so a confirmed cycle may be one that only they "
               f"keep apart; record `{EVENTS}`")
    if not counts["workqueue_execute_start"]:
        yield ("no workqueue_execute_start: works order nothing, and waits for them, such as flush_work, are members of no cycle by "
               f"instance; record `{EVENTS}`")
    if not counts["sched_switch"]:
        yield f"no sched_switch: a task that gets the number of an ended one is taken for it; record `{EVENTS}`"


def losses(counts: dict[str, int]) -> Iterator[str]:
    """Yields a line for each part of the recording that was lost or left out."""
    if counts["lost"]:
        yield (f"the tracer lost events, at {plural(counts['lost'], 'place')}: a lock is held across one only if its release is seen "
               "later; record with larger buffers: `trace-cmd record -b 65536`, `perf record -m 4096`, buffer_size_kb")
    if counts["nul_line"]:
        yield f"line {counts['nul_line']:,} has zero bytes: the file was cut there, and nothing after it is read"
    if counts["cut_line"]:
        yield f"line {counts['cut_line']:,} has no line feed: the file was cut there, and the line is left out"
    if counts["hidden"]:
        yield f"{plural(counts['hidden'], 'event')} without an address, left out: boot the kernel with no_hash_pointers"
    if counts["begun"]:
        yield f"perf switches on one event after another: the lines before {counts['begun']:,} are left out"


def made(counts: dict[str, int]) -> Iterator[str]:
    """Yields what became of the events."""
    for name, what in [
        ("tried", "tried acquires of a thread that held locks, which are marked"),
        ("unseen", "releases that were not seen and were added"),
        ("before", "locks that were held where the recording begins, or where events were lost"),
        ("not_held", "releases without an acquire, left out"),
        ("downgraded", "sections of writers that became readers"),
        ("annotations", "acquires that failed or wait for nothing, by class only"),
        ("readers_as_orders", "acquires for reading by a ninth reader of a lock or a later one, by class only"),
        ("ww", "acquires of locks that back off, by class only"),
        ("named", "waits for a work or a timer, by its name"),
        ("interrupts", "places where an interrupt may come that waits for a held lock"),
        ("too_many", "acquires by a thread that holds 1,024 locks, left out"),
    ]:
        if counts[name]:
            yield f"{what}: {counts[name]:,}"
