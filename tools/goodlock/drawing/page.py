"""The HTML page: the cycles of each report, each with its ring, its members and a time line; and the trace if it is short."""
import os
import re
from collections.abc import Iterable, Iterator, Sequence
from html import escape
from math import inf
from typing import NamedTuple, Optional

from goodlock.agent.symbols import without_arguments_of_templates
from goodlock.commandline import plural
from goodlock.drawing.ring import Names, draw_ring
from goodlock.drawing.shapes import PALETTE, colours_of
from goodlock.drawing.timeline import Link, Marks, TimeLine, rows_of
from goodlock.drawing.verdict import Line, kind_of, verdict_of
from goodlock.grades import graded
from goodlock.groups import Groups, instance_of, location_of, why_left_out
from goodlock.happened import DEADLOCK, deadlock_of
from goodlock.locations import Root
from goodlock.parts import condition_of
from goodlock.reasons import Reason, reasons_of
from goodlock.reports import Cycle, Member, Report, Verdict, confirmed_text, no_value_text
from goodlock.reproduce.notes import command_for
from goodlock.results import Result
from goodlock.traces import CALLED_BY, Event, Index, source_of

SHORT, WHOLE_TRACE = 40, 120
LISTED, MOST_LISTED, MOST_ACTORS = 10, 500, 3  # rows of the contents that are in sight, and all of them; threads that a title names
CALL = re.compile(r"(?:[^(]* )?([^ (]+)\(.*")  # a function of C++ with its result and parameters
NAME_IN_ANGLES = re.compile(r"(^|\.)<")
STYLE = os.path.join(os.path.dirname(os.path.abspath(__file__)), "page.css")
NO_CYCLES = "<section><h2>No cycles</h2><p>Within the bound this run predicts no deadlock of this shape.{}</p></section>"
WITNESS = ("<h3>How it happens</h3><p>Run {} of the trace in this order and nothing else{}. Then each of these threads waits for a lock that "
           "the next one holds.</p>")
VALUES = ", except that threads read and write values between them"
BAR = '<span><i class="bar"></i>the thread holds this lock</span>'
KEYS_OF_WITNESS = (f'<p class="keys faint">{BAR}<span><i></i>the thread waits</span>'
                   '<span><i class="held"></i>to the thread that holds the lock</span></p>')
KEYS_OF_REASON = f'<p class="keys faint">{BAR}<span><i class="apart"></i>keeps the threads apart</span><span><i></i>would have to wait here</span></p>'


class Part(NamedTuple):
    """A cycle that the page draws or lists, the number of cycles for which it does, and how many of them are confirmed."""

    cycle: Cycle
    cycles: int
    confirmed: str


class Drawn:
    """What the page draws of one report: each cycle if there are at most `most`, else one cycle of each of the first `most` groups."""

    def __init__(self, index: Index, report: Report, most: int) -> None:
        self.report, self.most, self.is_grouped = report, most, report.cycles > most
        self.groups = Groups(index, report, whole=most)
        self.cycles: list[Cycle] = []

    def add(self, cycle: Cycle) -> None:
        if self.groups.add(cycle) and not self.is_grouped:
            self.cycles.append(cycle)

    def parts(self) -> list[Part]:
        """Returns what the page lists, the strongest evidence first. It draws the first `most` of them."""
        if self.is_grouped:
            return [Part(group.example, group.cycles, confirmed_text(group.confirmed, group.no_value)) for group in self.groups.ordered()]
        ordered = sorted(self.cycles, key=lambda cycle: -cycle.verdict.rank)
        return [Part(cycle, 1 + cycle.more, confirmed_text(cycle.count(Verdict.CONFIRMED), cycle.count(Verdict.NO_VALUE))) for cycle in ordered]

    def sections(self) -> list[Part]:
        """Returns what the page draws."""
        return self.parts()[:self.most]

    def verdict(self, happened: str = "") -> Line:
        groups = self.groups
        return verdict_of(self.report.length, self.report.bound, groups.confirmed, groups.no_value, groups.potential, happened)


def drawn_reports(index: Index, reports: Iterable[tuple[Report, Optional[Cycle]]], most: int) -> list[Drawn]:
    """Returns what the page draws of each report. `reports` yields reports and cycles, as `read_reports` does."""
    drawn: list[Drawn] = []
    for report, cycle in graded(index, reports):
        if cycle is None:
            drawn.append(Drawn(index, report, most))
        else:
            drawn[-1].add(cycle)
    return drawn


def page(name: str, index: Index, reports: list[Drawn], notes: Sequence[str] = ()) -> str:
    """Returns the page on a trace and its reports. `notes` are those of an agent's report before its first cycle."""
    verdict, happened, noted = strongest(reports, notes), *notes_parts(index, notes)
    parts = [part for at, drawn in enumerate(reports) for part in report_parts(index, drawn, at)]
    name = escape(name.rsplit("/", 1)[-1])
    with open(STYLE, encoding="utf-8") as file:
        style = file.read()
    return (f'<!DOCTYPE html>\n<html lang="en"><head><meta charset="utf-8"><title>{verdict.text} – {name}</title>'
            f'<meta name="viewport" content="width=device-width"><style>\n{style}</style></head><body><main>'
            f'<h1 class="verdict {verdict.kind}">{verdict.text}</h1>{faint(f"Deadlocks of {name}")}'
            f"{happened}{''.join(parts)}{noted}{whole_trace(index)}</main></body></html>\n")


def strongest(reports: list[Drawn], notes: Sequence[str]) -> Line:
    """Returns the verdict on a run: that of the report with the strongest evidence, or that it deadlocked."""
    happened = next((note for note in notes if DEADLOCK.fullmatch(note)), "")
    lines = [drawn.verdict(happened) for drawn in reports]
    return max(lines, key=lambda line: line.rank, default=Line("There is no report", 1, "potential"))


def notes_parts(index: Index, notes: Sequence[str]) -> tuple[str, str]:
    """Returns the deadlock that happened, and what else an agent's report says before its first cycle."""
    result, others = deadlock_of(notes, Root())
    listed = "".join(f"<li>{escape(note)}</li>" for note in others)
    return happened_part(index, result) if result else "", f"<section><h2>Notes of the agent</h2><ul>{listed}</ul></section>" if listed else ""


def happened_part(index: Index, result: Result) -> str:
    """Returns the section of a deadlock that happened. It has a ring if all threads wait for locks."""
    members = [Member(member.thread, member.wait.lock, member.held) for member in result.members if member.wait.lock is not None]
    colours, rows = colours_of(member.lock for member in members) | colours_for(index, members), []  # a lock may never have been acquired
    for member in result.members:
        held = f"was started at {where(member.hold.source)}" if member.hold.lock is None else (
            f"holds {lock_name(member.hold.lock, colours, index.names)} since {where(member.hold.source)}")
        wanted = "the end of another thread" if member.wait.lock is None else lock_name(member.wait.lock, colours, index.names)
        rows.append(f"<tr><td>{thread_name(member.thread, index.names)}</td><td>{held}<br>waits for {wanted} at {where(member.wait.source)}</td></tr>")
    ring = draw_ring("happened", members, colours, index.names) if len(members) == len(result.members) else ""
    return f'<section class="happened"><h2>The deadlock that happened</h2>{pair(ring, rows)}</section>'


def faint(sentence: str) -> str:
    return f'<p class="faint">{sentence}</p>'


def report_parts(index: Index, drawn: Drawn, at: int) -> Iterator[str]:
    report, groups = drawn.report, drawn.groups
    events = index.events[:report.length]
    threads = {event.thread for event in events} | {event.target for event in events if event.letter in "fj"}
    locks = {event.target for event in events if event.letter in "ar"}
    yield faint(f'Question {report.question}: {plural(report.length, "event")}, {plural(len(threads), "thread")}, '
                f'{plural(len(locks), "lock")}; cycles of at most {report.bound} members: {report.cycles:,}, '
                f"confirmed {report.confirmed:,}{no_value_text(groups.no_value)}.")
    if not report.cycles:
        yield NO_CYCLES.format(" Threads, locks and branches that the run did not use are not in it.")
    yield from (faint(f"{line}.") for line in why_left_out(groups.tried, groups.writers_wait))
    if drawn.is_grouped:
        number = len(groups.by_key)
        which = "each group" if number <= drawn.most else "the first group" if drawn.most == 1 else f"each of the first {drawn.most} groups"
        yield faint("Cycles whose members hold and wait at the same code locations are one group. There "
                    f"{'is' if number == 1 else 'are'} {plural(number, 'group')}; the page draws one cycle of {which}, confirmed ones "
                    "first.")
    parts, sections = drawn.parts(), drawn.sections()
    yield contents([content(index, part, f"r{at}c{number}" if number < len(sections) else "") for number, part in enumerate(parts[:MOST_LISTED])],
                   len(parts))
    reasons = reasons_of(index, report, [cycle for cycle, *_ in sections if not cycle.verdict.is_certain])
    for number, (cycle, cycles, confirmed) in enumerate(sections):
        condition = condition_of(index.parts.basis_of(cycle.members))
        others = f'<span class="badge">{condition}</span>' if condition else ""
        others += f'<span class="faint">one of {cycles:,} cycles at these locations, {confirmed}</span>' if cycles > 1 else ""
        yield cycle_section(index, cycle, reasons.get(cycle.numbers), f"r{at}c{number}", others)


def contents(rows: list[str], count: int) -> str:
    """Returns the list of what a report has, with a link to each part that is drawn. The first rows are in sight."""
    if count < 2:
        return ""
    first, rest = rows[:LISTED], rows[LISTED:]
    more = f'<details><summary>Show {len(rest):,} more</summary><ol start="{LISTED + 1}">{"".join(rest)}</ol></details>' if rest else ""
    left = faint(f"{count - len(rows):,} further groups are not listed.") if count > len(rows) else ""
    return f'<section class="contents"><h2>Contents</h2><ol>{"".join(first)}</ol>{more}{left}</section>'


def content(index: Index, part: Part, name: str) -> str:
    """Returns a row of the contents: who waits for whom, and where. Without a name the cycle is not drawn."""
    title, sources = title_of(index, part.cycle), ", ".join(source_of(index.events[place]) for place in instance_of(index, part.cycle.members))
    link = f'<a href="#{name}">{title}</a>' if name else title
    counted = f" {part.cycles:,} cycles" if part.cycles > 1 else ""
    return f'<li>{badge(part.cycle)} {link}{counted} <span class="where">{escape(sources.strip(", "))}</span></li>'


def badge(cycle: Cycle) -> str:
    return f'<span class="badge {kind_of(cycle.verdict)}">{cycle.verdict.value}</span>'


def title_of(index: Optional[Index], cycle: Cycle) -> str:
    """Returns who waits for whom: `transfer waits for audit`. These are functions, or threads if the trace does not name functions."""
    if index is None:
        return title_for([f"thread {member.thread}" for member in cycle.members])
    lines = ((index.events[place].where or "").split(CALLED_BY)[0] for place in instance_of(index, cycle.members))
    functions = [location_of(line).function for line in lines]
    threads = (index.names.get(("thread", member.thread)) or f"thread {member.thread}" for member in cycle.members)
    return title_for([f'<bdi title="{escape(function or thread)}">{escape(short_name(function) if function else thread)}</bdi>'
                      for thread, function in zip(threads, functions)])


def title_for(actors: list[str]) -> str:
    """Returns `a waits for b`, or who waits for each other if there are more than two."""
    distinct = list(dict.fromkeys(actors))
    if len(actors) == 2:
        return f"{actors[0]} waits for {actors[1]}"
    if len(distinct) == 1:
        return f"{len(actors)} threads in {actors[0]} wait for each other"
    others = len(distinct) - MOST_ACTORS
    first, last = (distinct[:MOST_ACTORS], f"{others} more") if others > 0 else (distinct[:-1], distinct[-1])
    return f"{', '.join(first)} and {last} wait for each other"


def plain_name(function: str) -> str:
    """Returns the name of a function without arguments of templates. `<module>` and `Bank.<init>` have none."""
    return function if NAME_IN_ANGLES.search(function) else without_arguments_of_templates(function)


def short_name(function: str) -> str:
    """Returns the name of a function for a title, without result and parameters."""
    name = plain_name(function)
    match = CALL.fullmatch(name) if "operator" not in name else None
    return match[1] if match else name


def section(name: str, cycle: Cycle, colours: dict[int, str], rows: Iterable[str], within: str, title: str, names: Names, others: str = "") -> str:
    """Returns the section of a cycle: its heading, its ring, its table of members, and what is within it."""
    again = '<span class="badge confirmed">reproduced</span>' if cycle.reproduced else ""
    head = f'<div class="head"><h2>{title} <small>cycle {cycle.name}</small></h2>{badge(cycle)}{again}{others}</div>'
    return f'<section id="{name}">{head}{pair(draw_ring(name + "ring", cycle.members, colours, names), rows)}{within}</section>'


def pair(ring: str, rows: Iterable[str]) -> str:
    """Returns a ring beside a table of its members."""
    return f'<div class="pair"><div class="ring">{ring}</div><div class="members"><table>{"".join(rows)}</table></div></div>'


def cycle_section(index: Index, cycle: Cycle, reason: Optional[Reason], name: str, others: str) -> str:
    colours = colours_for(index, cycle.members)
    if reason and cycle.verdict is Verdict.POTENTIAL:
        within = potential_part(index, cycle, reason, colours, name)
    else:
        within = (why(reason) if reason else "") + confirmed_part(index, cycle, colours, name)
    within += reproduced_part(cycle, command_for(index.file, cycle.numbers))
    return section(name, cycle, colours, member_rows(index, cycle, colours), within, title_of(index, cycle), index.names, others)


def colours_for(index: Index, members: list[Member]) -> dict[int, str]:
    """Returns one colour for each lock of the page if there are enough colours, else for the locks of this drawing."""
    all_locks = dict.fromkeys(event.target for event in index.events if event.letter == "a")
    return colours_of(all_locks if len(all_locks) <= len(PALETTE) else [member.lock for member in members])


def member_rows(index: Index, cycle: Cycle, colours: dict[int, str]) -> Iterator[str]:
    """Yields a row for each member: where it acquired the held locks, and where it waits."""
    for member, place in zip(cycle.members, instance_of(index, cycle.members)):
        lines = [held_line(index, lock, index.since_of(place, lock), colours) for lock in member.held]
        verb = "waits for" if cycle.verdict.is_confirmed else "wants"
        wanted = lock_name(member.lock, colours, index.names)
        lines.append(f"{verb} {wanted} at {index.origin(place).title}{where_of(index.events[place])}")
        fork = index.fork_of.get(member.thread)
        begun = where_of(index.events[fork]) if fork is not None else ""
        yield (f"<tr><td>{thread_name(member.thread, index.names)}{f'<br>from{begun}' if begun else ''}</td>"
               f"<td>{'<br>'.join(lines)}</td></tr>")


def held_line(index: Index, lock: int, since: int, colours: dict[int, str]) -> str:
    return f"holds {lock_name(lock, colours, index.names)} since {index.origin(since).title}{where_of(index.events[since])}"


def named(kind: str, number: int, names: Names) -> str:
    """Returns `alice (lock 2)`, or `lock 2` if it has no name."""
    name = names.get((kind, number))
    return f"<b><bdi>{escape(name)}</bdi></b> ({kind} {number})" if name else f"<b>{kind} {number}</b>"


def thread_name(thread: int, names: Names) -> str:
    return named("thread", thread, names)


def lock_name(lock: int, colours: dict[int, str], names: Names) -> str:
    dot = f'<span class="dot" style="background:var(--{colours[lock]})"></span>' if lock in colours else ""
    return dot + named("lock", lock, names)


def where_of(event: Event) -> str:
    """Returns the source line of an event, after a space, or nothing if the trace has none."""
    return f" {where(event.where)}" if event.where else ""


def where(text: str) -> str:
    """Returns a source line without its folders and the arguments of templates. The tooltip shows all, with the callers."""
    location = location_of(text.split(CALLED_BY)[0])
    short = location.text if location.file is None else f"{location.file.rsplit('/', 1)[-1]}:{location.line}"
    if location.function:
        short += f" in {plain_name(location.function)}"
    return f'<span class="where" title="{escape(text)}"><bdi>{escape(short)}</bdi></span>'


def witness_head(cycle: Cycle) -> str:
    return WITNESS.format(plural(len(cycle.witness), "event"), VALUES if cycle.verdict is Verdict.NO_VALUE else "")


def confirmed_part(index: Index, cycle: Cycle, colours: dict[int, str], name: str) -> str:
    rows = rows_of(cycle.witness, index.steps_to(instance_of(index, cycle.members)), inf if len(cycle.witness) <= SHORT else 3)
    line = TimeLine(name + "line", index, rows, colours, Marks(waiting=cycle.members))
    return (witness_head(cycle)
            + line.draw(f"The witness of cycle {cycle.name}, and its members waiting") + KEYS_OF_WITNESS)


def potential_part(index: Index, cycle: Cycle, reason: Reason, colours: dict[int, str], name: str) -> str:
    links, marked = [], set[int]()
    for entry in reason.entries:
        if entry.kind != "before":
            marked |= {entry.place, *entry.named}
        if entry.kind not in ("before", "order"):
            links.append(Link(entry.place, max(entry.named)))
    important = index.steps_to(instance_of(index, cycle.members)) | set(reason.waits) | marked
    shown = range(max(important) + 1)
    rows = rows_of(shown, important, inf if len(shown) <= SHORT else 3)
    line = TimeLine(name + "line", index, rows, colours, Marks(marked, set(reason.waits), (), links))
    return f"{why(reason)}<h3>The observed order</h3>{line.draw(f'The events of cycle {cycle.name} in the observed order')}{KEYS_OF_REASON}"


def why(reason: Reason) -> str:
    """Returns what keeps the members apart, step by step, or why it is not shown."""
    heading = f"<b>{escape(reason.heading)}</b>"
    if not reason.sentences:
        return f'<div class="why">{heading}</div>'
    steps = "".join(f"<li>{escape(sentence)}</li>" for sentence in reason.sentences)
    further = f"<p>{reason.further()}</p>" if reason.left_out else ""
    proof = faint(f"<code>{escape(reason.command)}</code> prints this refutation in full{reason.note}.")
    return f'<div class="why">{heading}<ol>{steps}</ol>{further}<p>{reason.advice}</p>{proof}</div>'


def reproduced_part(cycle: Cycle, command: str) -> str:
    """Returns what happened when the deadlock was reproduced, and the command for it."""
    told = f"<h3>{escape(cycle.reproduced[0].capitalize())}</h3><pre>{escape(chr(10).join(cycle.reproduced[1:]))}</pre>" if cycle.reproduced else ""
    return told + (faint(f"<code>{escape(command)}</code> reproduces it.") if command else "")


def whole_trace(index: Index) -> str:
    """Returns a drawing of the whole trace if it is short."""
    events = index.events
    if not events or len(events) > WHOLE_TRACE:
        return ""
    line = TimeLine("trace", index, rows_of(range(len(events)), set(range(len(events)))), colours_for(index, []), Marks())
    return ("<section><details><summary><h2>The whole trace</h2></summary><p>The events as recorded.</p>"
            f"{line.draw('The whole trace')}<p class=\"keys faint\">{BAR}</p></details></section>")
