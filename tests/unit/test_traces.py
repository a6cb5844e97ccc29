"""Tests the reader of traces, the admission check, and the index."""
import math
import unittest
from unittest.mock import patch

from goodlock.errors import InputError
from goodlock.limits import LARGEST, MOST_DEPTH, MOST_HELD, MOST_THREADS
from goodlock.traces import Dependency, Event, TraceReader, description_of, events_in, read_trace, source_of
from written import OPPOSITE, InFolder, index_of, trace_of

GATE = f"{LARGEST}a{LARGEST}"


class ReadsWords(InFolder):
    FAULTS = [
        ("0f1\r\n", "1: 0f1\\r: carriage return: a line ends with a line feed alone"),
        ("\ufeff0f1\n", "1: \\ufeff0f1: byte order mark: save the file without it"),
        ("\n0f1\t1a2\n", "2: 0f1\\t1a2: tab: words are separated by spaces"),
        ("0f1 # hi\n", "1: #: text after an event: a comment has a line of its own"),
        ("01f2\n", "1: 01f2: leading zero"),
        ("1a007\n", "1: 1a007: leading zero"),
        (f"1a{LARGEST + 1}\n", f"1: 1a{LARGEST + 1}: number above {LARGEST}"),
        ("99999999999999999999a1\n", f"1: 99999999999999999999a1: number above {LARGEST}"),
        ("0A1\n", "1: 0A1: not an event, .*as in 1a10"),
        ("0f1 1b2\n", "1: 1b2: not an event, .*"),
        ("ask x\n", "1: ask: not an event, .*"),
        ("batch 0f1 x\n", "1: x: not an event, .*"),
        ("\u0660f1\n", "1: \u0660f1: not an event, .*"),
        ("\x1f\ufffd\n", "1: .*: not text: it looks like gzip data, unpack it"),
        ("0f1 \x00\n", "1: \\x00: not text"),
    ]

    def test_faults(self) -> None:
        for text, message in self.FAULTS:
            with self.subTest(text=text):
                name = self.write("x", text)
                with self.assertRaises(InputError) as caught:
                    read_trace(name)
                self.assertRegex(str(caught.exception).replace("\\", "/"), "^x:" + message.replace("\\", "/") + "$")

    def test_long_word_is_cut(self) -> None:
        with self.assertRaises(InputError) as caught:
            read_trace(self.write("x", "7" * 20_000))
        self.assertLess(len(str(caught.exception)), 250)

    def test_lines(self) -> None:
        for text, words in [
            ("", ""), ("\n\n", ""), ("  0f1   1w2 ", "0f1 1w2"), ("# 9 x\n #x\n0f1", "0f1"), (f"0f{LARGEST}\n{GATE}", f"0f{LARGEST} {GATE}"),
            ("ask 2\n0f1\nwork 0\nanswer 0\nstatus 0\ndeliver 0 1\n", "0f1"), ("batch 0f1 9a1 1a1\n", "0f1"), ("0f1 9a1 1a1\nask 2", "0f1 1a1"),
        ]:
            with self.subTest(text=text):
                trace = read_trace(self.write("x", text))
                self.assertEqual(" ".join(f"{event.thread}{event.letter}{event.target}" for event in trace.events), words)

    def test_comments(self) -> None:
        trace = trace_of("# thread 1 is a b\n# lock 2 is m\n# mark 3\n# thread x is y\n# at  a.c:1  in f\n0f1\n# at\n1w1\n# at a.c:1 in f\n0w1\n")
        self.assertEqual(trace.names, {("thread", 1): "a b", ("lock", 2): "m"})
        self.assertEqual(trace.marks, {3})
        self.assertEqual([event.where for event in trace.events], ["a.c:1 in f", "", "a.c:1 in f"])

    def test_values(self) -> None:
        """The comment is before the first event, and its second number at most 2,000,000,000."""
        for comment, values in [("# values atomic 100 plain 200", (100, 200)), ("# values atomic 0 plain 1", (0, 1)),
                                ("# values atomic 1000000000 plain 2000000000", (1_000_000_000, 2_000_000_000)),
                                ("# values atomic 100", None), ("# values plain 200 atomic 100", None), ("# values atomic 100 plain 0200", None)]:
            self.assertEqual(trace_of(f"# x\n{comment}\n0f1\n").values, values, comment)
            self.assertEqual(trace_of(f"0f1\n{comment}\n").values, None)
        for comment in ("# values atomic 200 plain 200", "# values atomic 100 plain 2000000001"):
            with self.assertRaisesRegex(InputError, "^x:1: the plain values do not begin after the atomic ones, at most at 2000000000$"):
                trace_of(f"{comment}\n", "x")
        index = index_of("# values atomic 100 plain 200\n0f1 0w100 0d199 0a200 0w200 1d200\n")
        self.assertEqual((index.first_plain, {thread: list(places) for thread, places in index.places_without_values.items()}), (4, {0: [0, 1, 2, 3], 1: []}))
        self.assertEqual(index_of("0f1 0w200\n").first_plain, math.inf)

    def test_file_or_script(self) -> None:
        self.assertEqual(read_trace(self.write("x", "0f1\n")).file, "x")
        self.assertIsNone(read_trace(self.write("x", "0f1\nask 2\n")).file)

    def test_equal_events_are_one_object(self) -> None:
        events = trace_of("# at a\n0w1\n# at b\n0w1\n# at a\n0w1\n").events
        self.assertIs(events[0], events[2])
        self.assertNotEqual(events[0], events[1])

    def test_events_lawful_or_not(self) -> None:
        self.assertEqual(list(events_in(self.write("x", "# x\n9a1 9a1\n"))), [Event(9, "a", 1), Event(9, "a", 1)])
        with self.assertRaisesRegex(InputError, "x:1: ask: not an event"):
            list(events_in(self.write("x", "ask 2\n")))

    def test_words(self) -> None:
        for word, description in [("1f2", "forks thread 2"), ("1j2", "joins thread 2"), ("1a2", "acquires lock 2"), ("1r2", "releases lock 2"),
                                  ("1d2", "reads 2"), ("1w2", "writes 2")]:
            self.assertEqual(description_of(Event(1, word[1], 2)), description)
        for where, source in [(None, ""), ("", ""), ("src/a.c:3 in f", "a.c:3"), ("a.c:3", "a.c:3"), ("class x", "class x")]:
            self.assertEqual(source_of(Event(1, "a", 2, where)), source)


class Refuses(InFolder):
    """Each refusal in its order: of two that apply the first one is meant."""

    CASES = [
        ("1a1", "Unforked", "thread 1 is not forked"),
        ("0f1 0j1 1a1", "Ended", "thread 1 has been joined"),
        ("0f1 0f1", "AlreadyForked", "thread 1 is forked already"),
        ("0f0", "AlreadyForked", "thread 0 exists from the beginning"),
        ("0j0", "JoinsItself", "thread 0 joins itself"),
        ("0j5", "JoinUnknown", "thread 5 is not forked"),
        ("0f1 1j0", "JoinUnknown", "thread 0 cannot be joined"),
        ("0f1 0j1 0j1", "JoinedTwice", "thread 1 has been joined already"),
        ("0f1 1a1 0a1", "HeldByOther", "thread 1 holds lock 1 since place 1"),
        ("0r1", "NotHeld", "thread 0 does not hold lock 1"),
        ("0a1 0r1 0r1", "NotHeld", "thread 0 does not hold lock 1"),
        (" ".join(f"0f{child}" for child in range(1, MOST_THREADS + 1)), "TooManyThreads", "there are 1024 threads, the most"),
        ("0a7 " * MOST_DEPTH + "0a7", "TooNested", "thread 0 has acquired lock 7 255 times, the most"),
        (" ".join(f"0a{lock}" for lock in range(MOST_HELD + 1)), "TooDeep", "thread 0 holds 32 locks, the most"),
    ]

    def test_last_event(self) -> None:
        for text, refusal, reason in self.CASES:
            with self.subTest(refusal=refusal, text=text[:40]):
                reader = TraceReader("x")
                reader.take(text)
                word = text.split()[-1]
                self.assertEqual(str(reader.refused), f"x:1: {word}: {reason}")
                self.assertEqual(reader.refused_at, len(text.split()) - 1)
                last = reader.events_of(word)[0]
                self.assertEqual(reader.check.refusal_of(*last[:3]), refusal)

    def test_at_the_limits(self) -> None:
        for text, _, _ in self.CASES[-3:]:
            reader = TraceReader("x")
            reader.take(text.rpartition(" ")[0])
            self.assertIsNone(reader.refused)

    def test_number_of_events(self) -> None:
        with patch("goodlock.traces.MOST_EVENTS", 3):
            self.assertEqual(len(read_trace(self.write("x", "0w1 0w1 0w1\n")).events), 3)
            with self.assertRaisesRegex(InputError, "^x:2: 0w2: the trace has 3 events, the most$"):
                read_trace(self.write("x", "0w1 0w1 0w1\n0w2\n"))

    def test_file_is_refused_and_script_goes_on(self) -> None:
        with self.assertRaisesRegex(InputError, "^x:2: 0a1: thread 1 holds lock 1 since place 1$"):
            read_trace(self.write("x", "0f1 1a1\n0a1\n0j1\n"))
        self.assertEqual(len(read_trace(self.write("x", "0f1 1a1\n0a1\n0w1\nask 2\n")).events), 3)

    def test_since_is_the_outermost_acquire(self) -> None:
        reader = TraceReader("x")
        reader.take("0f1 1a5 1a5 1r5 0a5")
        self.assertEqual(str(reader.refused), "x:1: 0a5: thread 1 holds lock 5 since place 1")


class Indexes(unittest.TestCase):
    def test_places(self) -> None:
        index = index_of(OPPOSITE)
        self.assertEqual(dict(index.dependencies), {Dependency(1, 20, (10,)): [3], Dependency(2, 10, (20,)): [7]})
        self.assertEqual(index.held, {3: (10,), 7: (20,)})
        self.assertEqual((index.since_of(3, 10), index.since_of(7, 20)), (2, 6))
        self.assertEqual(index.sections, {3: 4, 2: 5, 7: 8, 6: 9})
        self.assertEqual(index.fork_of, {1: 0, 2: 1})
        self.assertEqual(list(index.thread_places[2]), [6, 7, 8, 9])

    def test_inner_acquires(self) -> None:
        index = index_of("0a1 0a2 0a1 0a2 0r1 0r2 0r2 0r1 0a3 0a3 0r3")
        self.assertEqual((index.held, index.since), ({1: (1,)}, {1: (0,)}))
        self.assertEqual((index.sections, index.ends), ({1: 6, 0: 7, 8: None}, {6, 7}))

    def test_is_acquire_of(self) -> None:
        index = index_of(OPPOSITE)
        for place, is_it in [(3, True), (2, False), (4, False), (7, False)]:
            self.assertEqual(index.is_acquire_of(Dependency(1, 20, (10,)), place), is_it)

    def test_names(self) -> None:
        index = index_of("# thread 1 is teller\n0f1 1a2\n# at a.c:3 in f < b.c:4\n1a5")
        self.assertEqual(index.where(1), "thread 1 (teller) lock 2")
        self.assertEqual(index.where(2), "a.c:3 in f")

    def test_steps(self) -> None:
        index = index_of("0f1 1f2 2w1 2a1 2w2 2w3 2a4")
        self.assertEqual(index.steps_to([6], near=1), {0, 1, 3, 5})
        self.assertEqual(index.steps_to([6], near=2), {0, 1, 3, 4, 5})
