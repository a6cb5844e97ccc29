"""Tests which cycles through parts of reader-writer locks can happen: the comments, the rule, and the names of parts."""
import unittest

from goodlock.parts import Basis, Parts, condition_of
from goodlock.reports import Member
from written import trace_of


def parts_of(*lines: str) -> Parts:
    parts = Parts()
    for line in lines:
        assert parts.take(line), line
    return parts


def basis_of(parts: Parts, *members: tuple[int, int]) -> Basis:
    """Returns the basis of a cycle; the members are given as their threads and the locks for which they wait."""
    return parts.basis_of([Member(thread, lock, (members[at - 1][1],)) for at, (thread, lock) in enumerate(members)])


# Lock 20 with the parts 21 for thread 1 and 22 for thread 2; lock 30 with the part 31 for thread 1, and the same for lock 40, 41, 42.
LINES = ["# lock 21 is a part of lock 20 for thread 1", "# lock 22 is a part of lock 20 for thread 2", "# lock 31 is a part of lock 30 for thread 1",
         "# lock 41 is a part of lock 40 for thread 1", "# lock 42 is a part of lock 40 for thread 2"]
PARTS = parts_of(*LINES)
FIRST = parts_of(*LINES, "# lock 40 prefers writers")


class Comments(unittest.TestCase):
    def test_parts(self) -> None:
        self.assertEqual((PARTS.whole, PARTS.reader), ({21: 20, 22: 20, 31: 30, 41: 40, 42: 40}, {21: 1, 22: 2, 31: 1, 41: 1, 42: 2}))
        self.assertEqual((PARTS.prefer_writers, FIRST.prefer_writers), (set(), {40}))

    def test_later_comment(self) -> None:
        parts = parts_of("# lock 21 is a part of lock 20", "# lock 22 is a part of lock 20 for thread 2", "# lock 21 is a part of lock 20 for thread 7",
                         "# lock 22 is a part of lock 20")
        self.assertEqual((parts.whole, parts.reader), ({21: 20, 22: 20}, {21: 7}))

    def test_others(self) -> None:
        for line in ("# lock 21 is a part of lock 20 for thread", "# lock 21 is a part of lock x", "# lock 021 is a part of lock 20", "# lock 21 is accounts",
                     "# lock 20 prefers readers", "#lock 21 is a part of lock 20", "# lock 21 is a part of lock 20 for thread 1 "):
            self.assertFalse(Parts().take(line), line)


class Rule(unittest.TestCase):
    def test_reader_and_mutex(self) -> None:
        """Thread 1 reads and wants the mutex 9, thread 3 holds it and writes; and the other way round."""
        self.assertIs(basis_of(PARTS, (1, 9), (3, 21)), Basis.EVENTS)
        self.assertIs(basis_of(PARTS, (3, 9), (1, 21)), Basis.EVENTS)

    def test_waiting_writer(self) -> None:
        """Thread 1 reads and wants the mutex 9. Thread 2 holds it and wants to read. Writer 3 waits for thread 1, and holds part 22 already."""
        self.assertIs(basis_of(PARTS, (1, 9), (2, 22), (3, 21)), Basis.IMPOSSIBLE)
        self.assertIs(basis_of(PARTS, (3, 21), (1, 9), (2, 22)), Basis.IMPOSSIBLE)
        self.assertIs(basis_of(FIRST, (1, 9), (2, 42), (3, 41)), Basis.WRITERS_FIRST)

    def test_each_lock_has_to_prefer_writers(self) -> None:
        """Two waiting writers, 3 of lock 20 and 4 of lock 40. Threads 1 and 2 read."""
        self.assertIs(basis_of(FIRST, (2, 22), (3, 21), (1, 41), (4, 42)), Basis.IMPOSSIBLE)

    def test_recursive_reader(self) -> None:
        """Thread 1 reads by part 41, and wants to read again by part 42, which writer 3 holds while it waits for part 41."""
        parts = parts_of("# lock 41 is a part of lock 40 for thread 1", "# lock 42 is a part of lock 40 for thread 1", "# lock 40 prefers writers")
        self.assertIs(basis_of(parts, (1, 42), (3, 41)), Basis.WRITERS_FIRST)

    def test_upgrade(self) -> None:
        """Two readers acquire the whole lock: one has it and wants the other's part, the other one wants the whole lock."""
        self.assertIs(basis_of(PARTS, (1, 22), (2, 20)), Basis.EVENTS)

    def test_own_read_section(self) -> None:
        """Thread 1 holds part 21 because it reads, and waits for part 22; the one before it waits for part 21."""
        self.assertIs(basis_of(PARTS, (5, 21), (1, 22), (2, 9)), Basis.EVENTS)

    def test_parts_of_two_locks(self) -> None:
        """Each writer waits for the reader of the other's lock."""
        self.assertIs(basis_of(PARTS, (3, 21), (1, 31)), Basis.EVENTS)

    def test_woken_by_one(self) -> None:
        """Thread 1 holds lock 50 until it wakes thread 3. The comment is also a name."""
        line = "# lock 50 is the wake-up of thread 3 by thread 1"
        parts = parts_of(*LINES, "# lock 40 prefers writers")
        self.assertFalse(parts.take(line))
        self.assertEqual(trace_of(line).names, {("lock", 50): "the wake-up of thread 3 by thread 1"})
        for members, basis, condition in [
            (((1, 9), (3, 50)), Basis.WOKEN, "if nobody else wakes the thread"),
            (((1, 50), (2, 42), (3, 41)), Basis.BOTH, "if writers go first, if nobody else wakes the thread"),
            (((1, 50), (2, 22), (3, 21)), Basis.IMPOSSIBLE, ""), (((1, 9), (2, 42), (3, 41)), Basis.WRITERS_FIRST, "if writers go first"),
        ]:
            self.assertEqual((basis_of(parts, *members), condition_of(basis)), (basis, condition))

    def test_without_parts(self) -> None:
        self.assertIs(basis_of(Parts(), (1, 9), (2, 10)), Basis.EVENTS)


class Names(unittest.TestCase):
    def test_names(self) -> None:
        names = PARTS.names_with({("lock", 20): "accounts", ("thread", 2): "auditor", ("lock", 21): "other"})
        self.assertEqual([names.get(("lock", lock)) for lock in (20, 21, 22, 31, 9)],
                         ["accounts", "accounts, read by thread 1", "accounts, read by auditor", "lock 30, read by thread 1", None])
        self.assertEqual(parts_of("# lock 21 is a part of lock 20").names_with({})["lock", 21], "lock 20, for a reader")

    def test_comments(self) -> None:
        self.assertEqual([line for lock in (20, 21, 22, 31, 30, 40, 41, 42) for line in FIRST.comments_on(lock)],
                         [*LINES[:3], "# lock 40 prefers writers", *LINES[3:]])

    def test_in_traces(self) -> None:
        trace = trace_of("\n".join([*LINES, "# lock 20 is accounts", "0f1", "1a21"]))
        self.assertEqual((trace.parts, trace.names), (PARTS, {("lock", 20): "accounts"}))


if __name__ == "__main__":
    unittest.main()
