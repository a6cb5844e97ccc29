"""The ring of a cycle: each thread waits for a lock, and the next thread holds that lock."""
from collections.abc import Mapping
from dataclasses import dataclass
from math import cos, pi, sin

from goodlock.drawing.shapes import FAINT, INK, STUCK, Value, drawing, shape, text, two_lines
from goodlock.reports import Member

MARGIN, MANY = 8, 3  # more members than these make a ring that is too large for a narrow window
Names = Mapping[tuple[str, int], str]  # of ("thread", 1) and ("lock", 1)


@dataclass
class Ring:
    """The nodes of a ring: `steps` threads and locks alternately, clockwise, the first one at the top. Those with names are larger."""

    name: str
    steps: int
    names: Names
    width: float
    height: float
    radius: float

    @property
    def middle(self) -> tuple[float, float]:
        return self.radius + self.width / 2 + MARGIN, self.radius + self.height / 2 + MARGIN

    def spot(self, step: float) -> tuple[float, float]:
        """Returns the point of a step on the circle."""
        angle, (x, y) = 2 * pi * step / self.steps - pi / 2, self.middle
        return x + self.radius * cos(angle), y + self.radius * sin(angle)

    def clear(self, step: int, direction: int) -> tuple[float, float]:
        """Returns the first point from a node along the circle that its box does not cover."""
        x, y = near_x, near_y = self.spot(step)
        part = 0.0
        while part < 0.48:
            part += 0.01
            near_x, near_y = self.spot(step + direction * part)
            if abs(near_x - x) > self.width / 2 + 5 or abs(near_y - y) > self.height / 2 + 5:
                break
        return near_x, near_y

    def arc(self, step: int, colour: str, is_dashed: bool) -> str:
        """Draws an arc along the circle between two nodes."""
        begin, end = self.clear(step, 1), self.clear(step + 1, -1)
        path = f"M{begin[0]:.1f} {begin[1]:.1f} A{self.radius} {self.radius} 0 0 1 {end[0]:.1f} {end[1]:.1f}"
        dashes: dict[str, Value] = {"stroke_dasharray": "6 4"} if is_dashed else {}
        return shape("path", d=path, fill="none", stroke=colour, stroke_width=2.4, marker_end=f"url(#{self.name}{colour})", **dashes)

    def box(self, step: int, **attributes: Value) -> str:
        x, y = self.spot(step)
        return shape("rect", x=x - self.width / 2, y=y - self.height / 2, width=self.width, height=self.height, **attributes)

    def thread_node(self, step: int, thread: int) -> str:
        x, y = self.spot(step)
        label = two_lines(x, y, self.width - 12, "thread", thread, self.names.get(("thread", thread)), fill="on-head", weight=600)
        return self.box(step, rx=6, fill="head") + label

    def lock_node(self, step: int, lock: int, colour: str) -> str:
        x, y = self.spot(step)
        label = two_lines(x + 9, y, self.width - 34, "lock", lock, self.names.get(("lock", lock)))
        return self.box(step, rx=16, fill="card", stroke=colour, stroke_width=2.5) + padlock(x - self.width / 2 + 9, y - 7, colour) + label

    def legend(self) -> str:
        parts, (x, y) = [], self.middle
        for label, colour, dashes, at in [("waits for", STUCK, "6 4", y - 14), ("is held by", FAINT, "none", y + 12)]:
            parts.append(shape("path", d=f"M{x - 50:.1f} {at:.1f} h32", stroke=colour, stroke_width=2.4, stroke_dasharray=dashes,
                               marker_end=f"url(#{self.name}{colour})"))
            parts.append(text(x - 10, at + 4, label, text_anchor="start", fill=INK))
        return "".join(parts)


def draw_ring(name: str, members: list[Member], colours: dict[int, str], names: Names) -> str:
    """Draws the ring of a cycle."""
    steps = 2 * len(members)
    has_names = any(("thread", member.thread) in names or ("lock", member.lock) in names for member in members)
    apart = 23 if has_names and len(members) > MANY else 20
    ring = Ring(name, steps, names, *((116, 38) if has_names else (92, 32)), max(114, apart * steps))
    parts = []
    for at, member in enumerate(members):
        parts.append(ring.arc(2 * at, STUCK, is_dashed=True))
        parts.append(ring.arc(2 * at + 1, colours[member.lock], is_dashed=False))
    for at, member in enumerate(members):
        parts.append(ring.thread_node(2 * at, member.thread))
        parts.append(ring.lock_node(2 * at + 1, member.lock, colours[member.lock]))
    parts.append(ring.legend())
    title = ", ".join(f"thread {member.thread} waits for lock {member.lock}" for member in members)
    attributes = ' role="img" class="many"' if len(members) > MANY else ' role="img"'
    return drawing(name, 2 * ring.middle[0], 2 * ring.middle[1], parts, title, attributes)


def padlock(x: float, y: float, colour: str) -> str:
    shackle = shape("path", d=f"M{x + 2:.1f} {y + 6:.1f} v-2.5 a3 3 0 0 1 6 0 v2.5", fill="none", stroke=colour, stroke_width=1.8)
    return shackle + shape("rect", x=x, y=y + 6, width=10, height=8, rx=1.5, fill=colour)
