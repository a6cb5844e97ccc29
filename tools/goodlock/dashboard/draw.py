"""Draws the cycles of a report as a part of a page: `python3 -m goodlock.dashboard.draw REPORT [TRACE RECORDED]` prints {"html": .., "verdict": ..}.
With a trace it draws what tools/picture draws; without one, the ring of each cycle and its members. RECORDED is the trace file of which
TRACE is a copy: the report next to it says which cycles were reproduced. It is a process of its own, since a long trace needs much memory."""
import json
import sys
from collections.abc import Iterator
from html import escape
from itertools import islice

from goodlock.commandline import plural, print_whole, run
from goodlock.dashboard.files import notes_beside
from goodlock.drawing.page import (NO_CYCLES, badge, contents, drawn_reports, faint, lock_name, notes_parts, report_parts, section, strongest, thread_name,
                                   title_of, witness_head)
from goodlock.drawing.shapes import colours_of
from goodlock.drawing.verdict import Line, verdict_of
from goodlock.reports import AnyEvents, Cycle, Member, Verdict, read_reports
from goodlock.reproduce.notes import reproduced_in
from goodlock.traces import Index, read_trace

MOST_DRAWN, MOST_PLACES = 20, 200


def drawn(report: str, trace: str, recorded: str = "") -> tuple[str, Line]:
    """Returns the drawing with the events of the trace, and the verdict."""
    index = Index(read_trace(trace))
    index.file = recorded or None
    reproduced = reproduced_in(f"{recorded.removesuffix('.trace')}.report")
    wholes = drawn_reports(index, read_reports(report, index), MOST_DRAWN)
    for cycle, *_ in (section for whole in wholes for section in whole.sections()):
        cycle.reproduced = reproduced.get(cycle.numbers, [])
    notes = notes_beside(recorded)
    happened, noted = notes_parts(index, notes)
    return happened + "".join(part for whole in wholes for part in report_parts(index, whole, 0)) + noted, strongest(wholes, notes)


def drawn_alone(name: str) -> tuple[str, Line]:
    """Returns the drawing that needs no trace: the first cycles, the strongest evidence first. Without the trace nobody can weigh values."""
    kept: dict[Verdict, list[Cycle]] = {verdict: [] for verdict in reversed(Verdict)}
    for report, cycle in read_reports(name, AnyEvents()):
        if cycle and len(kept[cycle.verdict]) < MOST_DRAWN:
            kept[cycle.verdict].append(cycle)
    shown = [cycle for cycles in kept.values() for cycle in cycles][:MOST_DRAWN]
    head = faint(f'Question {report.question}: {plural(report.length, "event")}; cycles of at most {report.bound} members: '
                 f"{report.cycles:,}, confirmed {report.confirmed:,}.")
    if not report.cycles:
        head += NO_CYCLES.format("")
    elif len(shown) < report.cycles:
        head += faint(f"The first {len(shown)} are drawn.")
    rows = [f'<li>{badge(cycle)} <a href="#c{number}">{title_of(None, cycle)}</a></li>' for number, cycle in enumerate(shown)]
    sections = "".join(section_of(f"c{number}", cycle) for number, cycle in enumerate(shown))
    return (head + contents(rows, len(rows)) + sections,
            verdict_of(report.length, report.bound, report.confirmed, 0, report.cycles - report.confirmed))


def section_of(name: str, cycle: Cycle) -> str:
    colours = colours_of(member.lock for member in cycle.members)
    within = witness(cycle) if cycle.verdict.is_confirmed else ""
    return section(name, cycle, colours, rows_of(cycle, colours), within, title_of(None, cycle), {})


def rows_of(cycle: Cycle, colours: dict[int, str]) -> Iterator[str]:
    for member in cycle.members:
        yield f"<tr><td>{thread_name(member.thread, {})}</td><td>{member_lines(member, colours)}</td></tr>"


def member_lines(member: Member, colours: dict[int, str]) -> str:
    held = "".join(f"holds {lock_name(lock, colours, {})}<br>" for lock in member.held)
    if member.place is None:
        return f"{held}wants {lock_name(member.lock, colours, {})}"
    return f"{held}waits for {lock_name(member.lock, colours, {})} at place {member.place}"


def witness(cycle: Cycle) -> str:
    shown = " ".join(map(str, islice(cycle.witness, MOST_PLACES))) + (" …" if len(cycle.witness) > MOST_PLACES else "")
    return witness_head(cycle) + f'<p class="places">{escape(shown)}</p>'


def main() -> None:
    html, verdict = drawn(*sys.argv[1:]) if len(sys.argv) == 4 else drawn_alone(sys.argv[1])
    print_whole(json.dumps({"html": html, "verdict": verdict}))


if __name__ == "__main__":
    sys.exit(run(main))
