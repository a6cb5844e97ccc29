"""Tests which threads get a lock for their end, the limits, and the events of these locks."""
import unittest

from goodlock.agent.joins import joins_in, with_ends
from goodlock.agent.rings import Edge
from goodlock.limits import ENDS_OF_THREADS, MOST_EVENTS, MOST_HELD

END = ENDS_OF_THREADS + 1
JOINED = ["# at 1\n", "0f1\n", "# at 2\n", "1a10\n", "1r10\n", "0a10\n", "0a10\n", "0r10\n", "# at 3\n", "0j1\n", "0r10\n"]
WITH_END = ["# at 1\n", f"# lock {END} is the end of thread 1\n0f1\n1a{END}\n", *JOINED[2:9], f"1r{END}\n0a{END}\n0r{END}\n0j1\n", "0r10\n"]


def held(thread: int, count: int) -> list[str]:
    return [f"{thread}a{lock}\n" for lock in range(100, 100 + count)] + [f"{thread}r{lock}\n" for lock in range(100, 100 + count)]


class JoinsTest(unittest.TestCase):
    def test_joined_by_holder(self) -> None:
        joins = joins_in(JOINED, [1])
        self.assertEqual((joins.threads, joins.edges), ({1}, [Edge(10, END, 0), Edge(END, 10, 1)]))
        self.assertEqual(list(with_ends(JOINED, joins.threads)), WITH_END)

    def test_again(self) -> None:
        joins = joins_in("".join(WITH_END).splitlines(), [1])
        self.assertEqual((joins.threads, set(joins.edges)), (set(), {Edge(10, END, 0), Edge(END, 10, 1)}))

    def test_others(self) -> None:
        for lines, wanted in ((JOINED, []), (JOINED[:5] + JOINED[9:10], [1]), (JOINED[3:], [1]), (JOINED[:8] + ["0r10\n", "0j1\n"], [1]),
                              (JOINED[:3] + JOINED[5:], [1])):
            self.assertEqual(joins_in(lines, wanted).threads, set(), lines)

    def test_limits(self) -> None:
        """A thread that holds 31 locks may hold one for its end, one that holds 32 may not; and so the one that joins it. Each needs four events."""
        for count, threads in ((MOST_HELD - 1, {1}), (MOST_HELD, set())):
            self.assertEqual(joins_in(["0f1\n", *held(1, count), "0a10\n", "0j1\n"], [1]).threads, threads)
            self.assertEqual(joins_in([*JOINED[:5], *held(0, count)[:count], "0j1\n"], [1]).threads, threads)
        for events, threads in ((MOST_EVENTS - 4, {1}), (MOST_EVENTS - 3, set())):
            self.assertEqual(joins_in([*["0w1\n"] * (events - 5), *JOINED[:6], "0j1\n"], [1]).threads, threads)


if __name__ == "__main__":
    unittest.main()
