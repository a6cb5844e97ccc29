"""Tests what `goodlock --reproduce` makes of a recorded run: the log of calls, the order to follow, builds, and the note in the report."""
from __future__ import annotations

import os
import random
import struct
import sys
import unittest
from typing import Optional

from goodlock.commands.agent_reproduce import numbers, seconds
from goodlock.errors import InputError
from goodlock.groups import Pair, key_of
from goodlock.happened import Waiter, waiters_in
from goodlock.limits import ATOMIC_VALUES, MOST_VALUES, PLAIN_VALUES
from goodlock.reducer import ReducerError, Source, reduced
from goodlock.reports import AnyEvents, Cycle, Member, Verdict, read_reports
from goodlock.reproduce.buildid import build_id_of, id_in, is_elf
from goodlock.reproduce.calls import NO_CALL, File, Log, Place, command_of, read_log
from goodlock.reproduce.drive import schedules
from goodlock.reproduce.notes import command_for, reproduced_in, with_note
from goodlock.reproduce.outcome import Outcome
from goodlock.reproduce.recorded import check_builds, find_cycle
from goodlock.reproduce.schedule import CALL, HEAD, HELD, LANE, REACH, Schedule, address_text, places_before, recorded
from goodlock.traces import Index, Trace
from written import END, EVENT, HEADER, InFolder, entry, event, index_of, number

FORK, JOINED, LOCK, UNLOCK, TAKE = 1, 7, 9, 12, 20
OTHER, EXEC, CUT = 28, 29, 30
SAME_THREAD, SAME_OBJECT, SAME_SITE = 32, 64, 128
BANK = "0f1 0f2 1a1 1a2 1r2 1r1 0j1 2a2 2a1 2r1 2r2 0j2"
BANK_REPORT = """question 0 length 12 bound 2 cycles 1 confirmed 1
cycle 0 1 confirmed
  thread 1 lock 2 holds 1 place 3
  thread 2 lock 1 holds 2 place 8
  witness 0 1 2 7
"""
BANK_CYCLE = Cycle((0, 1), Verdict.CONFIRMED, [Member(1, 2, (1,), 3), Member(2, 1, (2,), 8)], [0, 1, 2, 7])


# The calls of the bank: each makes one event. The objects of locks 1 and 2 are 1 and 2; the sites are 1 to 12.
BANK_CALLS = [(0, FORK, 1), (0, FORK, 2), (1, LOCK, 1), (1, LOCK, 2), (1, UNLOCK, 2), (1, UNLOCK, 1), (0, JOINED, 1), (2, LOCK, 2),
              (2, LOCK, 1), (2, UNLOCK, 1), (2, UNLOCK, 2), (0, JOINED, 2)]
BANK_TEXT = b"program /nowhere/bank\nfile 1 abcd /nowhere/bank\n" + b"".join(
    b"site %d 1 %d\nname %d bank.c:%d in bank\n" % (at, 16 * at, at, at) for at in range(1, 13))
BANK_ENTRIES = [entry(kind, thread, about, at) + event(word, at)
                for at, ((thread, kind, about), word) in enumerate(zip(BANK_CALLS, BANK.split()), 1)]
BANK_LOG = HEADER + b"".join(BANK_ENTRIES) + entry(END) + BANK_TEXT


def events_of(text: str) -> list[tuple[int, str, int]]:
    """Returns the events of words whose numbers have one digit."""
    return [(int(word[0]), word[1], int(word[2:])) for word in text.split()]


class Logs(InFolder):
    def log_of(self, content: bytes) -> Log:
        with open("run.calls", "wb") as file:
            file.write(content)
        return read_log("run.calls")

    def test_bank(self) -> None:
        log = self.log_of(BANK_LOG)
        self.assertEqual(log.command, ["./bank"])
        self.assertEqual(command_of("run.calls"), ["./bank"])
        self.assertEqual(list(zip(log.threads, log.kinds, log.objects)), BANK_CALLS)
        self.assertEqual(list(log.sites), list(range(1, 13)))
        self.assertEqual((list(log.firsts), list(log.events.calls)), (list(range(12)), list(range(12))))
        self.assertEqual((list(log.events), log.events.at(11)), (events_of(BANK), (0, "j", 2)))
        self.assertEqual((log.program, log.names[3], log.places[12], log.cut), ("/nowhere/bank", "bank.c:3 in bank", Place(1, 192), 0))
        self.assertEqual((log.program, log.places[12], log.cut), ("/nowhere/bank", Place(1, 192), 0))

    def test_entries(self) -> None:
        """Numbers of all lengths, events of no call, and what an entry has from the one before it."""
        log = self.log_of(HEADER + b"".join([
            event("0f1"), entry(FORK, 300, 1 << 21, 4_294_967_295), event("1a7"), bytes([EVENT + 3 | SAME_THREAD | SAME_OBJECT | SAME_SITE]),
            entry(TAKE, 2, 2), bytes([OTHER | SAME_THREAD | SAME_OBJECT | SAME_SITE]), event("2r7", 9),
            bytes([UNLOCK | SAME_THREAD | SAME_OBJECT | SAME_SITE]), entry(END)]))
        self.assertEqual(list(zip(log.threads, log.kinds, log.objects, log.sites, log.firsts)),
                         [(300, FORK, 1 << 21, 4_294_967_295, 1), (2, TAKE, 2, 0, 3), (2, UNLOCK, 2, 9, 4)])
        self.assertEqual(list(log.events), events_of("0f1 1a7 1r7 2r7"))
        self.assertEqual((list(log.events.calls), list(log.events.sites)), ([NO_CALL, 0, 0, NO_CALL], [0, 0, 0, 9]))

    def test_more_than_a_part(self) -> None:
        """An entry may begin in one part of the file that is read, and end in the next one."""
        for size in range(16):
            log = self.log_of(HEADER + entry(LOCK, 1, 1, 128) * ((1 << 20) // 5) + entry(LOCK, 1, 1, 1) * (size + 1) + entry(END))
            self.assertEqual((len(log), log.sites[-1], log.sites[(1 << 20) // 5 - 1]), ((1 << 20) // 5 + size + 1, 1, 128))

    def test_cut(self) -> None:
        for content, message in ((entry(CUT, 0, 1), "the run is too long: .*--keep-log"), (entry(CUT, 0, 2), "could not be written"),
                                 (entry(EXEC) + entry(END), "by exec"), (entry(CUT, 0, 9), "not whole|by exec")):
            with self.subTest(message), self.assertRaisesRegex(InputError, message):
                recorded(self.log_of(HEADER + content), Index(Trace()))

    def test_faults(self) -> None:
        cases = [(b"", "not a log of calls"), (b"goodcalls 1\n" + BANK_LOG[12:], "not a log of calls"), (HEADER[:-1], "not a log of calls"),
                 (HEADER[:12] + struct.pack("<I", 1 << 25), "not a log of calls"), (HEADER, "no end"), (BANK_LOG[:100], "no end"),
                 (BANK_LOG + b"file x\n", "not understood"), (BANK_LOG + b"site 13 2 1\n", "in no file"),
                 (HEADER + bytes([LOCK, 255, 255, 255, 255, 31]) + entry(END), "a number that no agent writes")]
        for content, message in cases:
            with self.subTest(message), self.assertRaisesRegex(InputError, message):
                self.log_of(content)

    def test_any_bytes(self) -> None:
        """For any bytes of a log the reader returns or raises `InputError`, and so do those that make a schedule of it."""
        self.write("bank.trace", BANK.replace(" ", "\n") + "\n")
        self.write("bank.report", BANK_REPORT)
        numbers = random.Random(7)
        for _ in range(200):
            content = bytearray(BANK_LOG)
            for _ in range(numbers.randint(1, 4)):
                content[numbers.randrange(len(content))] = numbers.randrange(256)
            if numbers.random() < 0.2:
                del content[numbers.randrange(len(content)):]
            with open("bank.calls", "wb") as file:
                file.write(content)
            try:
                find_cycle("bank", None).schedule.data()
            except InputError:
                pass

    def test_no_log(self) -> None:
        self.assertIsNone(command_of("none.calls"))
        self.write("text.calls", "text\n")
        self.assertIsNone(command_of("text.calls"))


class Reduced(InFolder):
    """The program of tools/reduce reads logs, too."""

    def reduced(self, content: bytes) -> str:
        """Returns the events that are left of a log, or why there are none."""
        with open("run.calls", "wb") as file:
            file.write(content)
        try:
            found = reduced([Source("run.calls")], ".")
        except ReducerError as fault:
            return str(fault)
        return " ".join(line for line in self.read(found.traces[0]).splitlines() if not line.startswith("#"))

    def test_bank(self) -> None:
        self.assertEqual(self.reduced(BANK_LOG), "0f1 0f2 1a1 1a2 1r2 1r1 2a2 2a1")
        self.assertEqual(self.read("1.trace").splitlines()[:3], ["# place 0 of run.calls", "# at 1", "0f1"])
        self.assertIn("# place 7\n# at 8\n2a2\n", self.read("1.trace"))

    def test_marks(self) -> None:
        """A marker that only one thread acquires stays."""
        marker = 3_000_000_001
        tried = [entry(EVENT + 2, 1, marker, 4), BANK_ENTRIES[3], entry(EVENT + 3, 1, marker, 4)]
        log = HEADER + b"".join([*BANK_ENTRIES[:3], *tried, *BANK_ENTRIES[4:], entry(END)])
        self.assertEqual(self.reduced(log), f"0f1 0f2 1a1 1a{marker} 1a2 1r{marker} 1r2 1r1 2a2 2a1")
        self.assertIn(f"# mark {marker}\n", self.read("1.trace"))

    def test_faults(self) -> None:
        cases = [(BANK_LOG[:60], "run.calls: place [0-9]*: the log ends early"), (HEADER + entry(CUT, 0, 1), "the log is not whole"),
                 (HEADER, "the log ends early"), (HEADER[:12] + struct.pack("<I", 8) + HEADER[16:], "the log ends early"),
                 (HEADER + event("0r1") + entry(END), "0r1: thread 0 does not hold lock 1"), (b"goodcalls 2\n", "not an event|not text"),
                 (HEADER + bytes([EVENT]) + b"\xff" * 4 + b"\x1f", "a number that no agent writes")]
        for content, message in cases:
            with self.subTest(message):
                self.assertRegex(self.reduced(content), message)

    def test_any_bytes(self) -> None:
        numbers = random.Random(8)
        for _ in range(60):
            content = bytearray(BANK_LOG)
            for _ in range(numbers.randint(1, 4)):
                content[numbers.randrange(len(content))] = numbers.randrange(256)
            if numbers.random() < 0.3:
                del content[numbers.randrange(len(content)):]
            self.assertNotRegex(self.reduced(bytes(content)), "has ended with status -")


class Orders(unittest.TestCase):
    CASES = [
        # Thread 1 stops at place 3, so its releases and its join are left out, and what thread 0 does after the join.
        ("bank", BANK, [3, 8], [0, 1, 2, 7], {0, 1, 2, 7}),
        # A third thread is no part of the witness. What it does before the deadlock is kept.
        ("outsider", "0f1 0f2 0f3 3a4 3w5 3r4 1a1 1a2 1r2 1r1 2a4 2d5 2r4 2a2 2a1", [7, 14], [0, 1, 2, 6, 3, 4, 5, 10, 11, 12, 13],
         {0, 1, 2, 3, 4, 5, 6, 10, 11, 12, 13}),
        # It acquires lock 1, which stays held: from there on it is left out.
        ("held", "0f1 0f2 0f3 1a1 1a2 1r2 1r1 3a3 3r3 3a1 3r1 3a3 2a2 2a1", [4, 13], [0, 1, 3, 12], {0, 1, 2, 3, 7, 8, 12}),
        # It reads what thread 1 wrote after its place: it is left out, and so is the thread that it forks.
        ("read", "0f1 0f2 0f3 1a1 1a2 1r2 1r1 1w9 3d9 3f4 4a5 2a2 2a1", [4, 12], [0, 1, 3, 11], {0, 1, 2, 3, 11}),
        # It reads what thread 3 wrote: both are kept.
        ("own read", "0f1 0f2 0f3 3w9 3d9 1a1 1a2 1r2 1r1 2a2 2a1", [6, 10], [0, 1, 5, 9], {0, 1, 2, 3, 4, 5, 9}),
        # Place 5, of the witness, needs lock 1, which thread 1 holds in the larger order: the witness alone.
        ("witness", "0f1 0f2 1a1 1r1 1a1 2a1 2r1 1a2 2a2 2a1", [7, 9], [0, 1, 5, 6, 2, 4, 8], {0, 1, 2, 4, 5, 6, 8}),
    ]

    def test_cases(self) -> None:
        for name, text, members, witness, wanted in self.CASES:
            with self.subTest(name):
                self.assertEqual(places_before(events_of(text), members, sorted(witness)), wanted)

    def test_without_values(self) -> None:
        """A read of a plain value may see another write. A thread that reads another variable or an atomic value is left out from there on."""
        text = "0f1 0f2 1a1 1a2 1r2 1r1 1w{0} 2d{0} 2a2 2a1"
        for variable, wanted in [(PLAIN_VALUES, {0, 1, 2, 7, 8}), (PLAIN_VALUES + MOST_VALUES - 1, {0, 1, 2, 7, 8}), (PLAIN_VALUES - 1, {0, 1, 2, 8}),
                                 (PLAIN_VALUES + MOST_VALUES, {0, 1, 2, 8}), (7, {0, 1, 2, 8})]:
            self.assertEqual(places_before(events_of(text.format(variable)), [3, 9], [0, 1, 2, 8], has_values=False), wanted, variable)
        self.assertEqual(places_before(events_of(text.format(PLAIN_VALUES)), [3, 9], [0, 1, 2, 8]), {0, 1, 2, 8})


class Schedules(InFolder):
    def found(self, log: bytes = BANK_LOG, report: str = BANK_REPORT, numbers: Optional[tuple[int, ...]] = None) -> Schedule:
        with open("bank.calls", "wb") as file:
            file.write(log)
        self.write("bank.trace", BANK.replace(" ", "\n") + "\n")
        self.write("bank.report", report)
        return find_cycle("bank", numbers).schedule

    def test_bank(self) -> None:
        schedule = self.found()
        self.assertEqual((schedule.instance, schedule.steps), ([3, 8], 4))
        self.assertEqual(schedule.turn_of, {0: 1, 1: 2, 2: 3, 7: 4})
        self.assertEqual(dict(schedule.lanes), {0: [0, 1, 6, 11], 1: [2, 3, 4, 5], 2: [7, 8, 9, 10]})
        self.assertEqual(schedule.parents, {1: (0, 0), 2: (0, 1)})
        self.assertEqual((schedule.site_text(3), schedule.site_text(8)), ("bank+0x40", "bank+0x90"))

    def test_bytes(self) -> None:
        data = self.found().data()
        _, lanes, calls, turns, sites, files, members, objects, pause, early, *_ = HEAD.unpack_from(data)
        self.assertEqual((lanes, calls, turns, sites, files, members, objects, pause, early), (3, 12, 4, 13, 1, 2, 2, 0, 0))
        first, at = HEAD.size, HEAD.size + lanes * LANE.size
        self.assertEqual(list(LANE.iter_unpack(data[first:at])), [(0, 0, 0, 0, 4, 2, 2), (1, 0, 0, 4, 4, 2, 2), (1, 0, 1, 8, 4, 2, 2)])
        self.assertEqual(list(CALL.iter_unpack(data[at:at + calls * CALL.size]))[:6], [
            (FORK, 1, 1, 1), (FORK, 2, 2, 2), (JOINED, 1, 7, HELD), (JOINED, 2, 12, HELD), (LOCK, 1, 3, 3), (LOCK, 2, 4, REACH)])
        self.assertEqual(struct.unpack_from("<6I", data, at + calls * CALL.size), (0, 0, 0, 1, 2, 0))

    def test_pause(self) -> None:
        schedule = Schedule(self.found().run, BANK_CYCLE, 100, is_early=True)
        data = schedule.data()
        _, lanes, calls, turns, sites, files, members, _, pause, early, *_ = HEAD.unpack_from(data)
        self.assertEqual((lanes, calls, turns, members, pause, early), (3, 0, 0, 2, 100, 1))
        self.assertEqual([struct.unpack_from("<3I", data, len(data) - 2 * 136 + 136 * member) for member in (0, 1)], [(4, 1, 3), (9, 1, 8)])

    def test_which_cycle(self) -> None:
        self.assertEqual(self.found(numbers=(0, 1)).cycle.numbers, (0, 1))
        with self.assertRaisesRegex(InputError, "there is no cycle 0 2 in the reports"):
            self.found(numbers=(0, 2))
        with self.assertRaisesRegex(InputError, "there is no cycle in the reports"):
            self.found(report="question 0 length 12 bound 2 cycles 0 confirmed 0\n")
        potential = self.found(report="question 0 length 12 bound 2 cycles 1 confirmed 0\ncycle 0 1 potential\n"
                                      "  thread 1 lock 2 holds 1\n  thread 2 lock 1 holds 2\n")
        self.assertEqual((potential.instance, potential.pause > 0), ([3, 8], True))
        with self.assertRaisesRegex(InputError, "none.calls: there is no such file"):
            find_cycle("none", None)

    def test_what_cannot_be_followed(self) -> None:
        without_site = BANK_LOG.replace(b"site 4 1 64\n", b"")
        unseen = BANK_LOG.replace(BANK_ENTRIES[1], bytes([OTHER]) + number(0) * 3 + event("0f2", 2))
        far = BANK_LOG.replace(BANK_ENTRIES[11], entry(JOINED, 1024, 2, 12) + event("0j2", 12))
        another = BANK_LOG.replace(event("2a2", 8), event("2a3", 8))
        shorter = BANK_LOG.replace(BANK_ENTRIES[11], b"")
        cases = [(without_site, "no code address"), (unseen, "thread 2 was started in a way that is not seen"),
                 (far, "more than 1,024 threads"), (another, "place 7 is another event in the trace"),
                 (shorter, "place 11 is another event in the trace")]
        for log, message in cases:
            with self.subTest(message), self.assertRaisesRegex(InputError, message):
                self.found(log)
        last = BANK_LOG.replace(BANK_ENTRIES[11], entry(JOINED, 1023, 2, 12) + event("0j2", 12))
        self.assertEqual(len(self.found(last).data()) % 8, 0)

    def test_reduced_trace(self) -> None:
        """The log has events that the trace does not have: its places are those of the log."""
        between = entry(LOCK, 0, 3, 2) + event("0a3", 2) + entry(UNLOCK, 0, 3, 2) + event("0r3", 2)
        log = BANK_LOG.replace(BANK_ENTRIES[1], BANK_ENTRIES[1] + between)
        trace = "# place 0 of the whole run\n0f1 0f2\n# place 4\n1a1 1a2 1r2 1r1\n# place 9\n2a2 2a1\n"
        report = BANK_REPORT.replace("length 12", "length 8").replace("place 8", "place 7").replace("0 1 2 7", "0 1 2 6")
        with open("short.calls", "wb") as file:
            file.write(log)
        for name in ("short", "short.all"):
            self.write(f"{name}.trace", trace)
            self.write(f"{name}.report", report)
            schedule = find_cycle(name, None).schedule
            self.assertEqual((schedule.in_trace, schedule.instance, schedule.witness), ([3, 7], [5, 10], [0, 1, 4, 9]), name)
            self.assertEqual(schedule.turn_of, {0: 1, 1: 2, 2: 3, 3: 4, 4: 5, 9: 6})
            self.assertEqual((schedule.site_text(5), schedule.run.text_of(5), schedule.run.text_of(2)),
                             ("bank+0x40", "lock 2 at bank.c:4 in bank", "lock 3 at bank.c:2 in bank"))
            os.remove(f"{name}.trace")

    def test_if_no_value_decides(self) -> None:
        """The run follows the witness, which leaves out what threads read and write of values: no call does that."""
        write, read = event(f"1w{PLAIN_VALUES + 1}", 6), event(f"2d{PLAIN_VALUES + 1}", 8)
        log = HEADER + b"".join([*BANK_ENTRIES[:6], write, BANK_ENTRIES[6], read, *BANK_ENTRIES[7:]]) + entry(END) + BANK_TEXT
        with open("bank.calls", "wb") as file:
            file.write(log)
        words = BANK.split()
        words[6:7] = [f"1w{PLAIN_VALUES + 1}", "0j1", f"2d{PLAIN_VALUES + 1}"]
        self.write("bank.trace", f"# values atomic {ATOMIC_VALUES} plain {PLAIN_VALUES}\n" + "\n".join(words) + "\n")
        self.write("bank.report", "question 0 length 14 bound 2 cycles 1 confirmed 0\n    confirmed if no value decides: 1 cycle\n"
                                  "cycle 0 1 potential\n  thread 1 lock 2 holds 1\n  thread 2 lock 1 holds 2\n"
                                  "    confirmed if no value decides: places 3 10\n      witness 0 1 2 9\n")
        schedule = find_cycle("bank", None).schedule
        self.assertEqual((schedule.instance, schedule.pause, schedule.turn_of), ([3, 10], 0, {0: 1, 1: 2, 2: 3, 7: 4}))
        self.assertEqual([schedule.run.call_of(place) for place in (5, 6, 7, 8, 9)], [5, NO_CALL, 6, NO_CALL, 7])
        self.assertEqual([len([one for one in schedules(schedule, 3) if one.pause == pause]) for pause in (0, 100)], [3, 2])

    def test_events_of_no_call(self) -> None:
        log = self.log_of(HEADER + event("0f1") + event("0f2") + b"".join(BANK_ENTRIES[2:]) + entry(END) + BANK_TEXT)
        run = recorded(log, index_of(BANK.replace(" ", "\n") + "\n"))
        self.assertEqual([run.call_of(place) for place in range(12)], [NO_CALL, NO_CALL, *range(10)])

    def test_values_of_a_later_window(self) -> None:
        write = entry(OTHER) + entry(EVENT + 5, 1, 1_000_000_001)  # in the log alone
        run = recorded(self.log_of(HEADER + b"".join([*BANK_ENTRIES[:3], write, *BANK_ENTRIES[3:]]) + entry(END) + BANK_TEXT),
                       index_of(BANK.replace(" ", "\n") + "\n"))
        self.assertEqual([run.call_of(run.places[at]) for at in range(12)], list(range(12)))

    def log_of(self, log: bytes) -> Log:
        with open("other.calls", "wb") as file:
            file.write(log)
        return read_log("other.calls")


class Outcomes(unittest.TestCase):
    LINES = ["deadlock of 2 threads, which wait for each other", "thread 1 waits for lock 2 at @5@", "  thread 1 from @3@",
             "  lock 1 since @4@", "thread 2 waits for lock 1 at @7@", "  lock 2 since @6@", "  lock 9 since @1@"]

    def test_waiters(self) -> None:
        found, _ = waiters_in([line.strip() for line in self.LINES])
        self.assertEqual(found, [Waiter(1, "lock", 2, "@5@", "@3@", {1: "@4@"}), Waiter(2, "lock", 1, "@7@", None, {2: "@6@", 9: "@1@"})])
        outcome = Outcome("deadlock", waiters=found, sites={4: ["/a/bank+0x30"], 5: ["/a/bank+0x40", "/a/bank+0x99"], 6: ["/b/libx.so.1+0x80"],
                                                            7: ["/b/libx.so.1.2+0x90"]})
        self.assertEqual(outcome.pairs(), [Pair("bank+0x30", "bank+0x40"), Pair("libx.so+0x80", "libx.so+0x90")])
        self.assertEqual(key_of(outcome.pairs()), key_of(list(reversed(outcome.pairs()))))

    def test_addresses(self) -> None:
        self.assertEqual(address_text("/lib/libsqlite3.so.0.8.6", 255), "libsqlite3.so+0xff")
        self.assertEqual(address_text("lib/bank", 1), "bank+0x1")


class Builds(InFolder):
    def test_notes(self) -> None:
        note = struct.pack("<III", 4, 4, 3) + b"GNU\0" + bytes.fromhex("00c0ffee")
        other = struct.pack("<III", 4, 16, 1) + b"GNU\0" + bytes(16)
        self.assertEqual(id_in(note), "00c0ffee")
        self.assertEqual(id_in(other + note), "00c0ffee")
        large, long = struct.pack("<III", 0xFFFFFFFF, 0xFFFFFFFF, 3), struct.pack("<III", 4, 33, 3) + b"GNU\0" + bytes(40)
        for content in (b"", other, note[:-1], note[:12], large, long):
            self.assertIsNone(id_in(content))

    def test_files(self) -> None:
        self.write("text", "a text\n")
        self.assertTrue(build_id_of("text").startswith("sha256:"))
        self.assertFalse(is_elf("text"))
        self.assertTrue(is_elf(sys.executable))
        for size in (3, 16, 63, 64, 100):  # a file that ends early
            with open(sys.executable, "rb") as file, open("cut", "wb") as to:
                to.write(file.read(size))
            self.assertTrue(build_id_of("cut").startswith("sha256:"))

    def test_check(self) -> None:
        self.write("program", "one\n")
        log = Log("run.calls", ["./program"])
        path = os.path.abspath("program")
        log.files[1] = File(path, build_id_of(path))
        check_builds(log, "./program")
        self.write("program", "two\n")
        with self.assertRaisesRegex(InputError, "program: rebuilt since the run was recorded: record again"):
            check_builds(log, "./program")


class Notes(InFolder):
    NOTE = ["    reproduced in run 2, 0.53 s, 4 steps", "      deadlock of 2 threads, which wait for each other"]

    def test_note(self) -> None:
        lines = BANK_REPORT.splitlines()
        noted = list(with_note(lines, BANK_CYCLE, self.NOTE))
        self.assertEqual(noted, [*lines, *self.NOTE])
        again = ["    reproduced in run 1, 0.10 s, 4 steps", "      another line"]
        self.assertEqual(list(with_note(noted, BANK_CYCLE, again)), [*lines, *again])

    def test_between_cycles(self) -> None:
        lines = [*BANK_REPORT.splitlines(), "    and 1 more cycle at these lines, 1 of them confirmed", "cycle 2 3 confirmed"]
        self.assertEqual(list(with_note(lines, BANK_CYCLE, self.NOTE)), [*lines[:-1], *self.NOTE, lines[-1]])
        self.assertEqual(list(with_note(lines, Cycle((5, 6), Verdict.CONFIRMED), self.NOTE)), lines)

    def test_readers(self) -> None:
        self.write("bank.report", BANK_REPORT + "".join(f"{line}\n" for line in self.NOTE))
        cycles = [cycle for _, cycle in read_reports("bank.report", AnyEvents()) if cycle]
        self.assertEqual(cycles[0].reproduced, [line.strip() for line in self.NOTE])
        self.assertEqual(reproduced_in("bank.report"), {(0, 1): [line.strip() for line in self.NOTE]})
        self.assertEqual(reproduced_in("none.report"), {})

    def test_command(self) -> None:
        with open("bank.calls", "wb") as file:
            file.write(BANK_LOG)
        for trace in ("bank.trace", "bank.all.trace"):
            self.assertRegex(command_for(trace, (0, 1)), rf"agents/pthread/goodlock --reproduce {trace[:-6]} --cycle 0,1 ./bank$")
        self.assertEqual([command_for(trace, (0, 1)) for trace in ("none.trace", "bank", "bank.4.trace", None)], [""] * 4)


class Words(unittest.TestCase):
    def test_numbers(self) -> None:
        self.assertEqual((numbers("0,1"), seconds("0.01"), seconds("3600")), ((0, 1), 0.01, 3600))
        for read, words in ((numbers, ("", "a", "0,x", "-1")), (seconds, ("0", "3601", "x", "nan", "inf"))):
            for word in words:
                with self.subTest(word), self.assertRaises(Exception):
                    read(word)


if __name__ == "__main__":
    unittest.main()
