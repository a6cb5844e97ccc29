"""Tests the geometry of a ring, and what a drawing of it has. A ring of two members has 4 nodes on a circle with radius 114."""
import re
import unittest
import xml.etree.ElementTree as tree

from goodlock.drawing.ring import MANY, Ring, draw_ring
from goodlock.reports import Member

TWO = [Member(1, 20, (10,)), Member(2, 10, (20,))]


def ring_of(count: int) -> list[Member]:
    """Returns the members of a ring: thread k + 1 holds lock k and waits for lock k + 1, the last one for lock 0."""
    return [Member(at + 1, (at + 1) % count, (at,)) for at in range(count)]


class Geometry(unittest.TestCase):
    def test_nodes(self) -> None:
        """Each quarter of the circle has a node: the first one is at the top, and the next one to the right."""
        ring = Ring("r", 4, {}, 92, 32, 114)
        self.assertEqual(ring.middle, (168, 138))
        for step, spot in enumerate([(168, 24), (282, 138), (168, 252), (54, 138)]):
            self.assertEqual(tuple(round(number, 6) for number in ring.spot(step)), spot, f"step {step}")

    def test_arcs_begin_outside_of_boxes(self) -> None:
        ring = Ring("r", 4, {}, 92, 32, 114)
        for step in range(4):
            for direction in (1, -1):
                x, y = ring.spot(step)
                near_x, near_y = ring.clear(step, direction)
                self.assertTrue(abs(near_x - x) > 51 or abs(near_y - y) > 21, f"step {step}, direction {direction}")


class Draws(unittest.TestCase):
    def drawing(self, members: list[Member], names: dict[tuple[str, int], str]) -> str:
        colours = {member.lock: "c1" for member in members}
        html = draw_ring("r", members, colours, names)
        tree.fromstring(html)
        return html

    def test_two_members(self) -> None:
        """Each member has two arcs, and the legend two lines. A thread waits by a dashed line."""
        html = self.drawing(TWO, {})
        self.assertIn("thread 1 waits for lock 20, thread 2 waits for lock 10", html)
        self.assertEqual(len(re.findall(r'<path d="M[0-9.]+ [0-9.]+ A114 114 ', html)), 4)
        self.assertEqual(len(re.findall(r' A114 114 [^>]*stroke-dasharray="6 4"', html)), 2)
        for label in ["waits for", "is held by"]:
            self.assertIn(f">{label}<", html)

    def test_names(self) -> None:
        html = self.drawing(TWO, {("thread", 1): "worker", ("lock", 10): "queue_lock"})
        for name in ["worker", "queue_lock"]:
            self.assertIn(name, html)

    def test_many_members(self) -> None:
        """A ring of more members than fit a narrow window has a class of its own."""
        for count in (2, MANY, MANY + 1, 8):
            html = self.drawing(ring_of(count), {})
            self.assertEqual('class="many"' in html, count > MANY, f"{count} members")

