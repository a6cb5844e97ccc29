"""A time line: a column for each thread, its events from top to bottom, and bars for the locks that it holds."""
from collections.abc import Collection, Iterable, Sequence
from dataclasses import dataclass
from html import escape
from itertools import accumulate, groupby
from typing import NamedTuple, Optional

from goodlock.drawing.shapes import APART, FAINT, GLYPH, INK, OTHER, SMALLEST, STUCK, Value, cut, drawing, fitting, shape, text, titled, two_lines
from goodlock.reports import Member
from goodlock.traces import KIND_OF, VERBS, Event, Index, description_of, source_of

GUTTER, HEAD, ROW, TALL_ROW, GAP_ROW, SCREEN = 64, 46, 31, 42, 26, 1080
NARROWEST, WIDEST, BETWEEN, MOST_DIGITS, TALL = 200, 230, 40, 7, 1000


class Row(NamedTuple):
    """A row with one event, or for a run of events that are left out."""

    places: list[int]
    is_left_out: bool = False


class Link(NamedTuple):
    """An arrow from an event to one that needs it: fork to thread, write to read, last event to join."""

    begin: int
    end: int


class Taken(NamedTuple):
    """A lock that a thread holds, and where its bar begins."""

    lock: int
    begin: float


@dataclass
class Marks:
    """What a time line marks: `reasons` are the places of a reason, `wanted` the acquires of an instance that is not reached, `waiting` the
    members that wait at the end."""

    reasons: Collection[int] = ()
    wanted: Collection[int] = ()
    waiting: Sequence[Member] = ()
    links: Sequence[Link] = ()


class TimeLine:
    """The rows of one drawing, from top to bottom."""

    def __init__(self, name: str, index: Index, rows: list[Row], colours: dict[int, str], marks: Marks) -> None:
        self.name, self.index, self.colours, self.rows, self.marks = name, index, colours, rows, marks
        self.order = [place for row in rows for place in row.places]
        events = index.events
        shown = [events[row.places[0]] for row in rows if not row.is_left_out]
        self.threads = sorted({event.thread for event in shown} | {member.thread for member in marks.waiting})
        self.column = min(WIDEST, max(NARROWEST, (SCREEN - GUTTER - 12) // max(1, len(self.threads))))
        self.chip_width = self.column - BETWEEN
        most_held = max((len(index.held.get(place, ())) + 1 for place in self.order if place in index.sections), default=0)
        self.pitch = min(7.0, (BETWEEN - 12) / max(1, most_held))
        self.has_sources = any(event.where for event in shown)
        self.row_height = TALL_ROW if self.has_sources else ROW
        *self.tops, self.height = accumulate(map(self.height_of, rows), initial=HEAD + 12)
        self.slots: dict[int, list[Optional[Taken]]] = {thread: [] for thread in self.threads}

    def height_of(self, row: Row) -> int:
        return GAP_ROW if row.is_left_out else self.row_height

    def x_of(self, thread: int) -> float:
        return GUTTER + self.column * (self.threads.index(thread) + 0.5)

    def y_of(self, place: int) -> Optional[float]:
        """Returns the middle of the row that shows a place or leaves it out."""
        for row, top in zip(self.rows, self.tops):
            if row.places[0] <= place <= row.places[-1]:
                return top + self.height_of(row) / 2
        return None

    def draw(self, title: str) -> str:
        """Returns the drawing in a box that scrolls."""
        waiting = self.marks.waiting
        width = GUTTER + self.column * len(self.threads) + 12
        bottom = self.height + (self.row_height + 26 + 13 * len(waiting) if waiting else 6)
        heads = self.heads()
        parts = [heads, self.lanes(), self.bars(), *map(self.link, self.marks.links)]
        parts += [self.row_drawn(row, top, width) for row, top in zip(self.rows, self.tops)]
        if waiting:
            parts.append(self.waits(width))
        # the same heads once more, over the first ones: they stay in sight while the reader scrolls
        above = f' class="heads" aria-hidden="true" style="margin-bottom:-{HEAD}px"'
        drawn = drawing("", width, HEAD, [heads], "", above) + drawing(self.name, width, bottom, parts, title)
        is_tall = bottom > TALL
        jump = f'<p><a href="#{self.name}stuck">Jump to the threads that wait</a></p>' if is_tall and waiting else ""
        return f'{jump}<div class="scroll{" fits" if width <= SCREEN else ""}{" tall" if is_tall else ""}">{drawn}</div>'

    def heads(self) -> str:
        parts = []
        for thread in self.threads:
            x, width = self.x_of(thread), self.chip_width
            parts.append(shape("rect", x=x - width / 2, y=4, width=width, height=36, rx=6, fill="head"))
            parts.append(two_lines(x, 22, width - 12, "thread", thread, self.name_of("thread", thread), fill="on-head", weight=600))
        return "".join(parts)

    def name_of(self, kind: str, number: int) -> Optional[str]:
        return self.index.names.get((kind, number))

    def label_of(self, event: Event) -> str:
        """Returns what an event does, with the name of its thread or lock if it has one."""
        kind = KIND_OF[event.letter]
        name = self.name_of(kind, event.target)
        return titled(kind, event.target, name, self.chip_width - 6, f"{VERBS[event.letter].split()[0]} ") if name else description_of(event)

    def lanes(self) -> str:
        """Draws a thin line for each thread, from its fork if the drawing shows it."""
        parts, end = [], self.height + (4 if self.marks.waiting else 0)
        for thread in self.threads:
            fork = self.index.fork_of.get(thread)
            begin = self.y_of(fork) if fork is not None and fork in self.order else None
            x = self.x_of(thread)
            line: dict[str, Value] = {"stroke": "line", "stroke_width": 2}
            parts.append(shape("path", d=f"M{x} {begin or HEAD} V{end}", **line))
            if begin and fork is not None:
                parts.append(shape("path", d=f"M{x} {HEAD} V{begin}", stroke_dasharray="1 5", **line))
                parts.append(self.fork_arrow(fork, x, begin))
        return "".join(parts)

    def fork_arrow(self, fork: int, x: float, y: float) -> str:
        parent = self.index.events[fork].thread
        if parent not in self.threads:
            return ""
        side = 1 if x > self.x_of(parent) else -1
        path = f"M{self.x_of(parent) + side * self.chip_width / 2:.1f} {y:.1f} H{x - side * 3:.1f}"
        return shape("path", d=path, fill="none", stroke=FAINT, stroke_width=1.3, marker_end=f"url(#{self.name}{FAINT})")

    # ---- the locks that a thread holds ----

    def bars(self) -> str:
        """Draws a bar for each held lock, from its outermost acquire to its release or to the end."""
        parts, index = [], self.index
        for row, top in zip(self.rows, self.tops):
            y, within = top + self.height_of(row) / 2, set(row.places)
            for place in row.places:
                thread, _, target, _ = index.events[place]
                if thread in self.slots and place in index.sections and index.sections[place] not in within:
                    self.take_slot(thread, Taken(target, y))
                elif thread in self.slots and place in index.ends:
                    parts += self.free_slot(thread, target, y)
        end = self.height + (self.row_height if self.marks.waiting else 0)
        for thread, slots in self.slots.items():
            parts += [self.bar(thread, slot, taken.lock, taken.begin, end) for slot, taken in enumerate(slots) if taken]
        return "".join(parts)

    def take_slot(self, thread: int, taken: Taken) -> None:
        slots = self.slots[thread]
        slot = slots.index(None) if None in slots else len(slots)
        slots[slot:slot + 1] = [taken]

    def free_slot(self, thread: int, lock: int, y: float) -> list[str]:
        """Draws the bar of a lock that is released here, if it began in an earlier row."""
        for slot, taken in enumerate(self.slots[thread]):
            if taken and taken.lock == lock:
                self.slots[thread][slot] = None
                return [self.bar(thread, slot, lock, taken.begin, y)]
        return []

    def bar_x(self, thread: int, slot: int) -> float:
        return self.x_of(thread) - self.chip_width / 2 - 1 - self.pitch * (slot + 1)

    def bar(self, thread: int, slot: int, lock: int, begin: float, end: float) -> str:
        tip = shape("title", f"thread {thread} holds lock {lock}")
        return shape("rect", tip, x=self.bar_x(thread, slot), y=begin, width=0.7 * self.pitch, height=max(end - begin, 2.0), rx=2,
                     fill=self.colours.get(lock, OTHER))

    # ---- rows ----

    def row_drawn(self, row: Row, top: float, width: float) -> str:
        if row.is_left_out:
            return self.left_out(row.places, top, width)
        place, y = row.places[0], top + self.row_height / 2
        number = str(self.index.origin(place).number)
        label = text(GUTTER - 14, y + 4, number, text_anchor="end", fill=FAINT, font_size=SMALLEST if len(number) <= MOST_DIGITS else 8.5)
        return label + self.chip(place, self.index.events[place], y)

    def chip(self, place: int, event: Event, y: float) -> str:
        x, height, label = self.x_of(event.thread), self.row_height - 8, self.label_of(event)
        tip = shape("title", escape(f"{self.index.origin(place).title}: thread {event.thread} {description_of(event)}{tip_of(event)}"))
        box = shape("rect", tip, x=x - self.chip_width / 2, y=y - height / 2, width=self.chip_width, height=height, rx=5,
                    **self.edge(place, event))
        if not self.has_sources:
            return box + self.large(x, y + 4, label, INK)
        return box + self.large(x, y - 2, label, INK) + self.small(x, y + 11, source_of(event))

    def edge(self, place: int, event: Event) -> dict[str, Value]:
        fill = "mark" if place in self.marks.reasons else "card"
        if place in self.marks.wanted:
            return {"fill": fill, "stroke": STUCK, "stroke_width": 2.2, "stroke_dasharray": "6 3"}
        if place in self.marks.reasons:
            return {"fill": fill, "stroke": APART, "stroke_width": 2.2}
        colour = self.colours.get(event.target) if event.letter in "ar" else None
        return {"fill": fill, "stroke": colour or OTHER, "stroke_width": 1.4}

    def large(self, x: float, y: float, label: str, colour: str, **how: Value) -> str:
        return text(x, y, label, fill=colour, font_size=fitting(label, self.chip_width - 6), **how)

    def small(self, x: float, y: float, label: str) -> str:
        return text(x, y, cut(label, int((self.chip_width - 6) / (GLYPH * SMALLEST))), fill=FAINT, font_size=SMALLEST)

    def left_out(self, places: list[int], top: float, width: float) -> str:
        y = top + GAP_ROW / 2
        threads = {self.index.events[place].thread for place in places}
        whose = f"of thread {min(threads)}" if len(threads) == 1 else f"of {len(threads)} threads"
        first, last = self.index.origin(places[0]), self.index.origin(places[-1])
        label = f"⋯ {len(places):,} events {whose}, {'places ' if first.kind == 'place' else ''}{first.label} to {last.label}, left out ⋯"
        band = shape("rect", x=GUTTER - 8, y=top + 3, width=width - GUTTER, height=GAP_ROW - 6, rx=4, fill="soft")
        return band + text((GUTTER + width - 8) / 2, y + 4, label, fill=FAINT, font_size=SMALLEST)

    # ---- the members that wait ----

    def waits(self, width: float) -> str:
        """Draws the waiting members, and from each an arrow to the thread that holds its lock."""
        top, deep, waiting, parts = self.height, self.row_height, self.marks.waiting, []
        band = shape("rect", id=f"{self.name}stuck", x=4, y=top - 1, width=width - 8, height=deep + 6, rx=6, fill="alarm")
        parts.append(text(GUTTER - 14, top + deep / 2 + 6, "stuck", text_anchor="end", fill=STUCK, font_weight=600, font_size=SMALLEST))
        for at, member in enumerate(waiting):
            holder = waiting[(at + 1) % len(waiting)]
            parts.append(self.wait_chip(member, top + 2, deep))
            parts.append(self.held_by(member, holder, top + deep + 5, top + deep + 16 + 13 * at))
        return band + self.bars_over(top) + "".join(parts)

    def bars_over(self, top: float) -> str:
        """Draws the bars again over the band of the waiting members."""
        return "".join(self.bar(member.thread, slot, taken.lock, top - 3, top + self.row_height)
                       for member in self.marks.waiting for slot, taken in enumerate(self.slots[member.thread]) if taken)

    def wait_chip(self, member: Member, top: float, height: float) -> str:
        x, event, at = self.x_of(member.thread), self.index.events[member.place or 0], self.index.origin(member.place or 0).title
        tip = shape("title", escape(f"thread {member.thread} is before {at}{tip_of(event)}"))
        box = shape("rect", tip, x=x - self.chip_width / 2, y=top + 1, width=self.chip_width, height=height - 2, rx=5,
                    fill="card", stroke=STUCK, stroke_width=2, stroke_dasharray="6 3")
        wanted = titled("lock", member.lock, self.name_of("lock", member.lock), self.chip_width - 6, "waits for ")
        label = self.large(x, top + 13.5, wanted, STUCK, font_weight=600)
        return box + label + self.small(x, top + 25.5, f"at {at}") + self.small(x, top + 37.5, source_of(event))

    def held_by(self, member: Member, holder: Member, begin: float, deep: float) -> str:
        held = [taken.lock if taken else None for taken in self.slots[holder.thread]]
        slot = held.index(member.lock) if member.lock in held else 0
        end_x = self.bar_x(holder.thread, slot) + 0.35 * self.pitch
        colour = self.colours.get(member.lock, OTHER)
        path = f"M{self.x_of(member.thread):.1f} {begin - 5} V{deep} H{end_x:.1f} V{begin}"
        return shape("path", d=path, fill="none", stroke=colour, stroke_width=2, stroke_linejoin="round",
                     marker_end=f"url(#{self.name}{colour})")

    def link(self, link: Link) -> str:
        events = self.index.events
        begin, end = self.y_of(link.begin), self.y_of(link.end)
        if begin is None or end is None or link.begin == link.end:
            return ""
        x, to_x = self.x_of(events[link.begin].thread), self.x_of(events[link.end].thread)
        side = 1 if to_x >= x else -1
        out_x, in_x = x + side * self.chip_width / 2, to_x - side * (self.chip_width / 2 + 2)
        middle = (out_x + in_x) / 2
        path = f"M{out_x:.1f} {begin:.1f} C{middle:.1f} {begin:.1f} {middle:.1f} {end:.1f} {in_x:.1f} {end:.1f}"
        return shape("path", d=path, fill="none", stroke=APART, stroke_width=2.2, marker_end=f"url(#{self.name}{APART})")


def tip_of(event: Event) -> str:
    return f", {event.where}" if event.where else ""


def rows_of(places: Iterable[int], important: set[int], longest_run: float = 8) -> list[Row]:
    """Returns the rows of a list of places; a long run of unimportant ones is one row."""
    rows: list[Row] = []
    for is_important, group in groupby(places, important.__contains__):
        run = list(group)
        is_left_out = not is_important and len(run) > longest_run
        rows += [Row(run, is_left_out)] if is_left_out else [Row([place]) for place in run]
    return rows
