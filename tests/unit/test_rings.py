"""Tests the rings of a lock graph, which say what the search can find."""
import unittest

from goodlock.agent.rings import MOST_RING, Edge, Graph, WindowGraph, add_edges, longest_ring, on_rings, read_graph
from written import InFolder


def graph_of(*edges: str) -> Graph:
    """Returns a graph for edges such as `1 2 7`: thread 7 acquires lock 2 while it holds lock 1."""
    graph: Graph = {}
    for held, lock, thread in (map(int, edge.split()) for edge in edges):
        graph.setdefault(held, {}).setdefault(lock, set()).add(thread)
    return graph


def ring(size: int, first: int = 1) -> list[str]:
    return [f"{first + at} {first + (at + 1) % size} {at}" for at in range(size)]


class Rings(unittest.TestCase):
    def test_longest(self) -> None:
        for edges, longest in [
            ([], 0), (["1 2 7"], 0), (["1 2 7", "2 3 8"], 0), (["1 2 7", "2 1 7"], 0), (["1 2 7", "2 1 8"], 2), (["1 1 7"], 0),
            (ring(5), 5), (ring(8), 8), (ring(9), MOST_RING), (ring(20), MOST_RING), ([*ring(3), *ring(4, 10)], 4),
            (["1 2 7", "2 3 8", "3 1 7"], 0), (["1 2 7", "2 3 8", "3 1 7", "3 1 9"], 3),
            (["1 2 7", "2 1 8", "2 3 7", "3 2 8", "3 4 7", "4 3 8"], 2),  # a line of rings
        ]:
            with self.subTest(edges):
                self.assertEqual(longest_ring(graph_of(*edges)), longest)

    def test_locks_on_no_ring(self) -> None:
        graph = graph_of(*ring(3), "9 1 5", "1 8 5", "8 7 5")
        self.assertEqual(on_rings(graph), graph_of(*ring(3)))
        self.assertEqual(longest_ring({at: {at + 1: {at % 7}} for at in range(100_000)}), 0)

    def test_many_steps(self) -> None:
        """Ten locks in all orders by many threads: the search ends, and any ring may be there."""
        self.assertEqual(longest_ring({held: {lock: set(range(20)) for lock in range(10) if lock != held} for held in range(10)}), MOST_RING)


class Files(InFolder):
    def test_whole(self) -> None:
        self.assertEqual(read_graph(self.write("x", "12 3\n1 2 7\n2 1 8\nend\n")), WindowGraph(3, 2))

    def test_not_whole(self) -> None:
        for text in ("", "12\n", "12 3\n1 2 7\n", "12 3\n1 2\nend\n", "12 3\nx\nend\n"):
            self.assertEqual(read_graph(self.write("x", text)), WindowGraph(1, MOST_RING))
        self.assertEqual(read_graph("missing"), WindowGraph(1, MOST_RING))

    def test_several_windows(self) -> None:
        """A ring may have its edges in different windows. Without one of the files there may be any ring."""
        one, two, three = (self.write(name, f"10 {tries}\n{edge}\nend\n")
                           for name, tries, edge in (("1", 1, "1 2 7"), ("2", 2, "2 3 8"), ("3", 3, "3 1 9")))
        self.assertEqual(read_graph(one, two, three), WindowGraph(6, 3))
        self.assertEqual(read_graph(one, two), WindowGraph(3, 0))
        self.assertEqual(read_graph(one, two, "missing"), WindowGraph(1, MOST_RING))

    def test_further_edges(self) -> None:
        """They come before the end. A graph that was not written whole stays so."""
        add_edges(self.write("x", "12 3\n1 2 7\nend\n"), [Edge(2, 3, 8), Edge(3, 1, 9)])
        self.assertEqual((self.read("x"), read_graph("x")), ("12 3\n1 2 7\n2 3 8\n3 1 9\nend\n", WindowGraph(3, 3)))
        add_edges(self.write("x", "12 3\n1 2 7\n"), [Edge(2, 1, 8)])
        self.assertEqual(self.read("x"), "12 3\n1 2 7\n")
