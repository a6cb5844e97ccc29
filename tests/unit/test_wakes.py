"""Tests which waits on conditions become waits for a thread, the limits, and the events of these locks."""
import unittest

from goodlock.agent.rings import Edge
from goodlock.agent.wakes import MOST_OF_THREAD, wakes_in, with_wakes
from goodlock.limits import MOST_HELD, WAKE_UPS

WAKE = WAKE_UPS + 1
# Thread 1 uses lock 10 and later wakes thread 2, which holds lock 10 while it waits with lock 20.
BEFORE, WAIT, GIVE, END = "1a10 1r10", "2a10 2a20 2r20", "1a20 1d7 1w7 1r20", "2d7 2a20 2r20 2r10"


def lines_of(*words: str) -> list[str]:
    return [f"{word}\n" for word in " ".join(words).split()]


def written(*words: str) -> str:
    lines = lines_of(*words)
    text = "".join(with_wakes(lines, wakes_in(lines)))
    return " ".join(line for line in text.splitlines() if not line.startswith("#"))


class WakesTest(unittest.TestCase):
    def test_woken(self) -> None:
        lines = lines_of(BEFORE, WAIT, GIVE, END)
        self.assertEqual(written(BEFORE, WAIT, GIVE, END),
                         f"1a{WAKE} {BEFORE} {WAIT} 1a20 1r{WAKE} 1d7 1w7 1r20 2a{WAKE} 2r{WAKE} {END}")
        self.assertEqual(wakes_in(lines).edges, [Edge(10, WAKE, 2), Edge(WAKE, 10, 1), Edge(WAKE, 20, 1)])
        self.assertEqual(wakes_in(lines).before[0], f"# lock {WAKE} is the wake-up of thread 2 by thread 1\n1a{WAKE}\n")

    def test_last_acquire(self) -> None:
        """Of the acquires before the call that wakes, the last one of a lock that the waiting thread holds; later ones do not count."""
        found = written(BEFORE, "1a30 1r30", BEFORE, WAIT, GIVE, "2d7 2a20 2r20 2r10", BEFORE)
        self.assertTrue(found.startswith(f"{BEFORE} 1a30 1r30 1a{WAKE} {BEFORE} {WAIT} "), found)

    def test_values(self) -> None:
        """What threads read and write of values between the events of a wait changes nothing."""
        for value in (1_000_000_000, 2_999_999_999):
            lines = lines_of(BEFORE, "2a10 2a20", f"2r20 2w{value}", f"1a20 1d{value} 1d7", f"1d{value} 1w7 1r20", f"2d{value} 2d7 2d{value} 2a20 2r20 2r10")
            self.assertEqual("".join(with_wakes(lines, wakes_in(lines))).count(f"a{WAKE}\n"), 2)
        lines = lines_of(BEFORE, "2a10 2a20 2r20 2w999999999", "1a20 1d7 1w7 1r20", END)
        self.assertEqual(wakes_in(lines).edges, [])

    def test_again(self) -> None:
        first = written(BEFORE, WAIT, GIVE, END)
        self.assertEqual(written(first), first)

    def test_others(self) -> None:
        for words in (
            (WAIT, GIVE, END),                                       # the waking thread needs no lock of the waiting one
            (BEFORE, "2a20 2r20", GIVE, "2d7 2a20 2r20"),            # no further lock
            (BEFORE, GIVE, WAIT, END),                               # given before the wait
            (BEFORE, WAIT, GIVE, "3d7 3w7", END),                    # two threads give
            (BEFORE, WAIT, GIVE, "2d7 2a30 2r30 2r10"),              # no wait on a condition: another lock follows
            (BEFORE, "2a10 2a20 2a20 2r20", GIVE, "2d7 2a20 2r20 2r20 2r10"),  # the lock stays held
            (BEFORE, WAIT, "1a20 1w7 1r20", END),                    # a write that is no give
        ):
            self.assertEqual(written(*words), " ".join(words))

    def test_limits(self) -> None:
        for count, is_found in ((MOST_HELD - MOST_OF_THREAD, True), (MOST_HELD - MOST_OF_THREAD + 1, False)):
            many = [f"1a{100 + one}" for one in range(count - 1)] + [f"1r{100 + one}" for one in range(count - 1)]
            words = "1a10", *many, "1r10", WAIT, GIVE, END
            self.assertEqual(written(*words) != " ".join(words), is_found, count)
        for count, most in ((MOST_OF_THREAD, MOST_OF_THREAD), (MOST_OF_THREAD + 1, MOST_OF_THREAD)):
            rounds = [text.replace("7", str(70 + one)) for one in range(count) for text in (BEFORE, WAIT, GIVE, END)]
            self.assertEqual(len(wakes_in(lines_of(*rounds)).edges), 3 * most)


if __name__ == "__main__":
    unittest.main()
