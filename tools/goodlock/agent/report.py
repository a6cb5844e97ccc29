"""Writes the reports of a run from the results of its windows."""
import os
import re
import signal
from collections import Counter
from collections.abc import Iterable, Iterator

from goodlock.agent.gate import judge, name_unused
from goodlock.agent.names import Names
from goodlock.agent.run import ALL, Run, say, shortly
from goodlock.agent.search import CONFIRMED, NO_VALUE, NOT_SEARCHED, TIMED, Found, Limit, NoReport, Window, results
from goodlock.agent.sites import Sites, name_lines_of
from goodlock.agent.whole import Whole, adopt, drop, search_whole
from goodlock.errors import InputError
from goodlock.grades import head_line, sentence, value_lines
from goodlock.groups import key_of, merge
from goodlock.limits import FIRST_THREAD, HELPERS, MOST_BOUND, TRY_MARKERS
from goodlock.parts import REASONS, WRITERS_WAIT
from goodlock.reports import HEADING, ValueRead, confirmed_text
from goodlock.reproduce.calls import keep_log
from goodlock.settings import Settings
from goodlock.traces import CALLED_BY

DEADLOCK, NO_REPORT, IN_PART = 1, 2, 3  # exit statuses
MOST_NAMES = 5
VALUES_OF_ATOMICS, VALUES_OF_MEMORY, VALUES_HOOKED, VALUES_LOST = 1, 2, 8, 16  # agents/pthread/shared/ring.h has the same, and this number:
MOST_WRITERS = 65_000
MOST_PARTS = 8  # readers of a lock that can be members of cycles: agents/pthread/collector/events/readers.c has the same
# Libraries with locks that are made of atomics and futex calls, also in code which the agent does not see.
OWN_LOCKS = re.compile("(lib(?:glib-2.0|gomp|i?omp5?|Qt[56]Core|tbb|jvm|go))\\.so.*")
JAVA = "libjvm"


def plural(number: int, one: str) -> str:
    return f"{number} {one if number == 1 else one + 's'}"


def thread_note(thread: int, fork: int, sites: Sites) -> str:
    if thread == FIRST_THREAD:
        return f"thread {thread} is the first one"
    if thread >= HELPERS:
        return f"thread {thread} holds a lock for a thread that holds more than 31, from {sites.name(fork)}"
    return f"thread {thread} from {sites.name(fork)}"


def held_in(found: Found, at: int, sites: Sites, names: Names) -> Iterator[tuple[int, str]]:
    """Yields the locks that a member holds, each with the lines of its acquire: of parts only that for which the member before it waits."""
    member, wanted = found.members[at], found.members[at - 1].lock
    for lock, site in zip(member.held, member.since):
        if lock == wanted or lock not in names.parts.whole:
            yield lock, sites.name(site)


def name_lines(found: Found, names: Names) -> Iterator[str]:
    """Yields the names of the threads of a cycle, and of the locks for which they wait."""
    for kind, number in dict.fromkeys(one for member in found.members for one in (("thread", member.thread), ("lock", member.lock))):
        if name := names.name_of(kind, number):
            yield f"    {kind} {number} is {name}"


def cycle_lines(found: Found, sites: Sites, names: Names) -> Iterator[str]:
    is_certain = found.kind == CONFIRMED
    yield f"cycle {' '.join(map(str, found.numbers))} {'confirmed' if is_certain else 'potential'}"
    for at, member in enumerate(found.members):
        place = f" place {member.place}" if is_certain else ""
        yield f"  thread {member.thread} lock {member.lock} holds {' '.join(map(str, member.held))}{place}"
        if member.fork is not None:
            yield f"    {thread_note(member.thread, member.fork, sites)}"
        yield f"    lock {member.lock} at {sites.name(member.site)}"
        yield from (f"    lock {lock} since {line}" for lock, line in held_in(found, at, sites, names))
    if is_certain:
        yield f"  witness {found.witness}".rstrip()
    elif found.kind == NO_VALUE:
        yield from no_value_lines(found, sites)
    if found.note:
        yield f"    {found.note}"
    yield from (f"    {condition}: {reason}" for condition, reason in REASONS.items() if condition in found.condition)
    yield from name_lines(found, names)
    if found.cycles > 1:
        more = confirmed_text(found.confirmed - is_certain, found.no_value - (found.kind == NO_VALUE), "of them confirmed")
        yield f"    and {plural(found.cycles - 1, 'more cycle')} at these lines, {more}"


def no_value_lines(found: Found, sites: Sites) -> Iterator[str]:
    """Yields the lines about a group that is confirmed if no value decides. One read of each text is enough."""
    reads = {text: ValueRead(read.read, read.write, text) for read in reversed(found.reads)
             for text in [sentence(sites.name(read.read_site).split(CALLED_BY)[0], sites.name(read.write_site).split(CALLED_BY)[0])]}
    places = (member.place or 0 for member in found.members)
    yield from value_lines(places, map(int, (found.witness or "").split()), reversed(reads.values()), found.not_named)


def timed_lines(found: Found, sites: Sites, names: Names) -> Iterator[str]:
    yield "    timed: this cycle ends when a timeout does"
    for at, member in enumerate(found.members):
        yield f"    timed: thread {member.thread} waits for lock {member.lock} at {sites.name(member.site)}"
        for lock, line in held_in(found, at, sites, names):
            if lock < TRY_MARKERS:
                yield f"    timed: thread {member.thread} holds lock {lock} since {line}"


def has_locks(summary: dict[str, int]) -> bool:
    return bool(summary["lock_events"] or summary["read_locks"])


def why_not_analysed(summary: dict[str, int]) -> Iterator[str]:
    """Yields why the run was not analysed."""
    if not summary["attached"] and summary["follower"]:
        yield "no events: the process could not open the shared memory of its collector; it may be in a sandbox"
    elif not summary["attached"] and summary["java"]:
        yield "no events: the virtual machine has not loaded the agent; a line above may say why"
    elif not summary["attached"]:
        yield ("no events: the agent was not loaded; the program is statically linked, has other rights, or clears its environment: link it "
               "dynamically, and start it with the rights of this user and with this environment")
    elif summary["threads"] > 1 and not has_locks(summary) and not summary["python"]:
        yield (f"no lock events: the program has started {plural(summary['threads'] - 1, 'thread')} and called no lock function; it may use "
               "its own futex locks, which the agent does not see")


def gaps_of(run: Run, summary: dict[str, int], windows: dict[int, Window], whole: Whole) -> Iterator[str]:
    """Yields which part of the run was not analysed, although it was to be."""
    yield from whole.gaps
    if summary["off"]:
        yield "what came after the recording stopped, before the program ended"
    if summary["truncated"]:
        yield "what came after the trace ends, before the program did: it could not be written"
    if summary["clash"]:
        yield "another agent streams to the same server, which takes one run: give each run a server of its own"
    if summary["processes"]:
        advice = "" if summary["python"] or summary["follows"] else "; --trace-children makes a report of each"
        yield f"further processes with threads, {summary['processes']}: {names_of_processes(run)}{advice}"
    parts = Counter((window.bound, window.is_partial, window.why) for window in windows.values() if window.why)
    for (bound, is_partial, why), count in parts.items():
        cycles = "all cycles" if bound == NOT_SEARCHED else f"cycles of more than {bound} members, of at most {run.bound}"
        cycles = f"a part of the cycles of {bound} members, and larger ones" if is_partial else cycles
        yield f"{cycles}{f' in {count} of {len(windows)} windows' if len(windows) > 1 else ''}: {why}"


def processes_of(run: Run) -> list[tuple[int, bool, str]]:
    """Returns the number, whether it was traced, and the name of each further process with threads."""
    words = [line.split(" ", 2) for line in run.lines("processes")]
    return [(int(number), traced == "1", name) for number, traced, name in words]


def names_of_processes(run: Run) -> str:
    """Returns the names of the processes that were not traced: `httpd (3), logger`."""
    names = Counter(name for _, is_traced, name in processes_of(run) if not is_traced)
    return ", ".join(f"{name} ({count})" if count > 1 else name for name, count in names.most_common(MOST_NAMES))


def limits_of(run: Run, summary: dict[str, int], windows: dict[int, Window], whole: Whole) -> Iterator[str]:
    """Yields what an agent cannot examine, if it was there."""
    longest = max(window.longest for window in windows.values())
    if longest > run.bound and not any(window.why for window in windows.values()):
        ring = f"has a ring of {longest} locks" if longest <= MOST_BOUND else f"may have a ring of more than {MOST_BOUND} locks"
        yield (f"cycles of more than {run.bound} members: the lock graph {ring}"
               f"{'; --bound auto searches it' if run.bound < MOST_BOUND else ''}")
    if len(windows) > 1:
        yield from limits_across(run, summary, len(windows), whole)
    if whole.has_waits and whole.window:
        yield "cycles through joins and wake-ups whose members are in different windows"
    if summary["crowded_locks"]:
        yield (f"{plural(summary['crowded_locks'], 'reader-writer lock')} with more than {MOST_PARTS} readers: what the further ones hold and wait "
               "for is no part of a cycle")
    if summary["unseen"]:
        yield f"{plural(summary['unseen'], 'thread')} started in a way that is not seen: what came before the start is not ordered"
    if summary["cleared"]:
        yield f"{plural(summary['cleared'], 'program')} started with an environment that lacks the agent's variables"
    libraries = sorted({match[1] for name in run.lines("libraries") if (match := OWN_LOCKS.fullmatch(name))})
    if JAVA in libraries:
        libraries.remove(JAVA)
        yield "the monitors and locks of a program in Java, which are not seen here: agents/java records them"
    if libraries:
        yield f"the locks inside of {', '.join(libraries)}"
    yield from run.lines("unserved")
    yield from unseen_by(run)
    if any(window.found for window in windows.values()):
        yield from unseen_values(summary)
    if summary["futexes"]:
        yield f"{plural(summary['futexes'], 'wait')} by futex calls: of locks that are made of atomics, or for values"


def unseen_by(run: Run) -> Iterator[str]:
    """Yields what the recorder says it could not see: the first lines, and the number of the others."""
    lines = run.lines("unseen")
    yield from lines[:MOST_NAMES]
    if len(lines) > MOST_NAMES:
        yield f"and {len(lines) - MOST_NAMES} more of these"


def unseen_values(summary: dict[str, int]) -> Iterator[str]:
    """Yields which values in memory were not seen, if there is a cycle: they may keep its threads apart."""
    values = summary["values"]
    if summary["java"]:
        if not values & VALUES_OF_ATOMICS:
            yield "values of volatile fields and atomics: --memory atomics records them"
        yield "values of plain fields"
        return
    if summary["python"]:
        return
    if not values & VALUES_OF_ATOMICS:
        yield "values in memory: --memory is none"
    elif not values & VALUES_HOOKED:
        yield "values in memory are not seen: compile the program with the options that goodlock --flags gcc (or clang) prints to see them"
    elif not values & VALUES_OF_MEMORY:
        yield "values of plain memory: --memory is atomics"
    if values & VALUES_LOST:
        yield f"some values in memory: there was no memory to follow them, or the run has more than {MOST_WRITERS:,} threads"


def limits_across(run: Run, summary: dict[str, int], count: int, whole: Whole) -> Iterator[str]:
    """Yields what was not examined of the windows together, and why."""
    window = whole.window
    if not window or window.bound == NOT_SEARCHED:
        yield f"cycles whose members are in different ones of the {count} windows: {whole.why or (window and window.why)}"
        return
    if window.why:
        yield f"cycles of more than {window.bound} members in different ones of the {count} windows: {window.why}"
    if not run.is_by_log:
        yield f"the order of events in different ones of the {count} windows, so that cycles across windows are potential: {whole.why}"
        if summary["left_out"]:
            yield f"{plural(summary['left_out'], 'acquire')} under held locks in cycles across windows: the run has too many different ones"


def notes_of(summary: dict[str, int], windows: dict[int, Window]) -> Iterator[str]:
    """Yields what a user should know of the report."""
    started, tried = summary["threads"] - 1, sum(window.tried for window in windows.values())
    if summary["attached"] and not has_locks(summary) and (not started or summary["python"]):
        yield f"no lock events: the program has started {plural(started, 'thread') if started else 'no thread'} and used no lock"
    if summary["overflowing"]:
        yield f"{plural(summary['overflowing'], 'acquire')} beyond 31 held locks were recorded for an artificial thread"
    if tried:
        yield f"{plural(tried, 'cycle')} left out: a member does not wait, since it tries to acquire the lock"
    if writers_wait := sum(window.writers_wait for window in windows.values()):
        yield f"{plural(writers_wait, 'cycle')} {WRITERS_WAIT}"
    yield from dict.fromkeys(note for window in windows.values() for note in window.notes)


def read_deadlock(run: Run, sites: Sites) -> list[str]:
    """Returns the lines about a deadlock that has happened."""
    return [sites.name_all(line) for line in run.lines("deadlock")]


def write_window(run: Run, number: int, window: Window, found: list[Found], extra: Iterable[str], sites: Sites) -> None:
    """Writes the report of a window, and the source lines into its trace."""
    shown = [group for group in found if group.kind != TIMED]
    confirmed = sum(group.kind == CONFIRMED for group in shown)
    names = Names(run, number)
    with open(run.window(number, "report"), "w", encoding="utf-8") as file:
        print(f"question 0 length {window.length} bound {window.bound} cycles {len(shown)} confirmed {confirmed}", file=file)
        if window.is_weighed:
            print(head_line(sum(group.kind == NO_VALUE for group in shown)), file=file)
        file.writelines(f"    {line}\n" for line in extra)
        for group in shown:
            file.writelines(f"{line}\n" for line in cycle_lines(group, sites, names))
        for group in found:
            if group.kind == TIMED:
                file.writelines(f"{line}\n" for line in timed_lines(group, sites, names))
    name_lines_of(run.window(number, "trace"), sites, names, run.mark if number == ALL else "")


def merged(windows: dict[int, Window], sites: Sites) -> list[Found]:
    """Returns the groups of all windows by their lines. Those of all windows together count only if no window has them with evidence as strong."""
    groups: dict[object, Found] = {}
    for number, window in sorted(windows.items(), key=lambda item: item[0] == ALL):
        for found in window.found:
            found.window = number
            key = found.kind == TIMED, found.condition, key_of(found.pairs(sites.name))
            if number != ALL or key not in groups:
                merge(groups, key, found)
            elif found.rank > groups[key].rank:
                groups[key] = found
    return list(groups.values())


def without_report(run: Run, count: int, fault: Exception, deadlock: list[str], sites: Sites, settings: Settings) -> int:
    drop(run)
    for number in range(1, count + 1):
        name_lines_of(run.window(number, "trace"), sites, Names(run, number))
    say(f"there is no report: {fault}; the trace is kept: {shortly(run.window(1, 'trace'))}")
    return DEADLOCK if judge([], [], deadlock, sites, settings).status else NO_REPORT


def kept_of(run: Run, windows: dict[int, Window], sites: Sites) -> tuple[list[Found], list[int]]:
    """Returns the groups of all windows, and the windows that are kept: the first one, those with a group of their own, and those that were not
    searched. Removes the traces of the others, as far as they are still there. What all windows have together comes last: it is kept for
    the groups that no window has."""
    traces = [number for number in windows if number == 1 or os.path.exists(run.window(number, "trace"))]
    found = merged({number: windows[number] for number in [*traces, *sorted(windows.keys() - traces)]}, sites)
    owners = {1, *(group.window for group in found), *(number for number in traces if windows[number].bound == NOT_SEARCHED or windows[number].is_partial)}
    for number in set(traces) - owners:
        os.remove(run.window(number, "trace"))
    return found, sorted(owners)


def search_all(run: Run, count: int, summary: dict[str, int], limit: Limit) -> tuple[dict[int, Window], Whole]:
    """Returns the results of the run: those of all windows together, or else also those of each window."""
    whole = search_whole(run, count, summary, limit) if count > 1 else Whole()
    if whole.is_complete and whole.window:
        adopt(run, count)
        return {1: whole.window}, whole
    return dict(results(run, count, limit)), whole


def finish(run: Run, count: int, seconds: float, settings: Settings) -> int:
    """Searches what was not searched yet, writes the reports of windows 1 to `count`, and returns the exit status."""
    summary, limit, fault = run.summary(), Limit(seconds, signal.SIGINT, signal.SIGTERM), None
    windows, whole = dict[int, Window](), Whole()
    try:
        windows, whole = search_all(run, count, summary, limit)
    except (OSError, ValueError, InputError, NoReport) as error:
        fault = error
    limit.close()
    sites = Sites(run, summary["frames"], settings.root, limit.left)
    deadlock = [line.strip() for line in read_deadlock(run, sites)]
    if fault:
        return without_report(run, count, fault, deadlock, sites, settings)
    causes, gaps = list(why_not_analysed(summary)), list(gaps_of(run, summary, windows, whole))
    unexamined = [*gaps, *limits_of(run, summary, windows, whole)]
    if whole.window and not whole.is_complete:
        windows[ALL] = whole.window
    found, kept = kept_of(run, windows, sites)
    notes = list(notes_of(summary, windows))
    if found and not summary["java"]:  # --reproduce does not run programs in Java
        keep_log(run, f"{run.out}.calls", bool(summary["python"]), sites)
    block = [HEADING, *(f"  {line}" for line in unexamined)] if unexamined else []
    for number in kept:
        extra = [*deadlock, *causes, *notes, *block, *names_of_others(run, kept)] if number == 1 else []
        write_window(run, number, windows[number], [group for group in found if group.window == number], extra, sites)
    for note in [*causes, *notes, *(f"not examined: {line}" for line in unexamined)]:
        say(note)
    conclude(run, whole.events or sum(window.length for number, window in windows.items() if number != ALL), kept, found)
    judgement = judge(windows.values(), found, deadlock, sites, settings)
    if not causes:  # a run that was not analysed needs no suppression
        name_unused(settings)
    if judgement.status:
        return DEADLOCK
    return NO_REPORT if causes else IN_PART if gaps else 0


def names_of_others(run: Run, kept: list[int]) -> Iterator[str]:
    """Yields the names of the further reports."""
    for number in kept:
        if number != 1:
            what = "across windows" if number == ALL else f"window {number}"
            yield f"{what}: {os.path.basename(run.window(number, 'report'))}"
    for number, is_traced, _ in processes_of(run):
        if is_traced:
            yield f"process {number}: {os.path.basename(run.out)}.p{number}.report"


def conclude(run: Run, length: int, kept: list[int], found: list[Found]) -> None:
    """Prints what was found."""
    confirmed = confirmed_text(sum(group.kind == CONFIRMED for group in found), sum(group.kind == NO_VALUE for group in found))
    shown = sum(group.kind != TIMED for group in found)
    names = [shortly(run.window(number, kind)) for number in sorted(kept, key=lambda number: (number == ALL, number)) for kind in ("report", "trace")]
    say(f"{plural(length, 'event')}, {plural(shown, 'cycle')}, {confirmed}: {', '.join(names)}")
