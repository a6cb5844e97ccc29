"""Tests the files of the dashboard, and for which requests it is the host. tests/dashboard tests the page with a server."""
import json
import os
import re
import time
import unittest
from unittest.mock import patch

from goodlock.dashboard.files import MISSING, NO_TRACE, TraceFile, notes_beside
from goodlock.dashboard.metrics import metrics_of, metrics_text
from goodlock.dashboard.reports import NoReport, Reports, TooSlow
from goodlock.dashboard.watch import STALE, Question, Watch
from goodlock.dashboard.web import Dashboard, Page, is_numeric, work_folder
from goodlock.dashboard.windows import MOST_WINDOWS, WindowReports, Windows
from goodlock.drawing.verdict import Line
from goodlock.program import ROOT, built_program, launcher, version
from goodlock.protocol import Lost, Refused
from test_drawing import DEADLOCK
from written import OPPOSITE, OPPOSITE_REPORT, InFolder, environment, ends


class Traces(InFolder):
    def setUp(self) -> None:
        super().setUp()
        os.mkdir("copies")

    def test_without_a_file(self) -> None:
        for name, text in [(None, NO_TRACE), ("x.trace", MISSING.format("x.trace"))]:
            trace = TraceFile(name, "copies")
            self.assertEqual((trace.copy(), trace.version(False), trace.lacks()), (None, "", text))

    def test_growing_file(self) -> None:
        """While an agent writes the file, it has numbers instead of source lines, and may end within a line."""
        trace = TraceFile(self.write("run.trace", "# at 1\n0f1\n1a"), "copies")
        self.assertEqual(trace.copy(), "run.trace")
        self.assertEqual(self.read("copies/run.trace"), "# at 1\n0f1\n1a")
        os.mkdir("run.tmp")
        self.write("run.tmp/sites", "1\tbank.py:3 in main\n")
        trace.copy()
        self.assertEqual(self.read("copies/run.trace"), "# at bank.py:3 in main\n0f1\n")

    def test_version(self) -> None:
        trace = TraceFile(self.write("run.trace", "0f1\n"), "copies")
        growing, whole = trace.version(False), trace.version(True)
        self.write("run.trace", "0f1\n0f2\n")
        self.assertNotEqual(trace.version(False), growing)
        self.assertEqual(trace.version(True), whole)

    def test_folder_is_removed(self) -> None:
        with work_folder() as folder:
            self.write(os.path.join(folder, "x"), "")
        self.assertFalse(os.path.exists(folder))


class Hosts(InFolder):
    def test_own(self) -> None:
        own = Dashboard.__new__(Dashboard)
        for address, hosts, others in [
            ("127.0.0.1", ["127.0.0.1:7071", "localhost:1", "[::1]:80", "LOCALHOST"], ["example", "", "127.0.0.1.example:7071", "192.0.2.1", "["]),
            ("0.0.0.0", ["192.0.2.1:7071", "localhost"], ["example:7071"]), ("192.0.2.1", ["192.0.2.1:7071"], ["192.0.2.2:7071"]),
        ]:
            own.address = address
            self.assertEqual(([own.is_own(host) for host in hosts], [own.is_own(host) for host in others]),
                             ([True] * len(hosts), [False] * len(others)), address)

    def test_numeric(self) -> None:
        self.assertEqual([is_numeric(name) for name in ("127.0.0.1", "::1", "x", "")], [True, True, False, False])

    def test_page(self) -> None:
        page = Page()
        self.assertIn(f'data-token="{page.token}"', page.bytes.decode())
        self.assertNotIn(b"{{", page.bytes)


class Programs(InFolder):
    def test_named(self) -> None:
        self.write("tool", "#!/bin/sh\n")
        os.chmod("tool", 0o755)
        for name in ("./tool", os.path.abspath("tool")):
            with environment(GOODLOCKD_PROGRAM=name):
                self.assertEqual((launcher(), built_program()), (os.path.realpath("tool"),) * 2)

    def test_of_a_checkout(self) -> None:
        """Beside sources the program itself is in the folder of its crate."""
        os.mkdir("crates")
        with environment(GOODLOCKD_PROGRAM="./goodlockd"):
            self.assertEqual(built_program(), os.path.realpath("crates/goodlockd/out/goodlockd"))

    def test_version(self) -> None:
        self.assertRegex(version(), r"^[0-9]+\.[0-9]+\.[0-9]+$")
        with patch("goodlock.program.ROOT", "/nowhere"):
            self.assertEqual(version(), "")


class Deadlocks(InFolder):
    def test_notes(self) -> None:
        """While a program runs, the report is that of an earlier run, and the agent writes a deadlock beside its other files."""
        self.assertEqual((notes_beside(""), notes_beside("run.trace")), ([], []))
        self.write("run.report", "question 0 length 10 bound 2 cycles 0 confirmed 0\n    a note of the run\n")
        self.assertEqual(notes_beside("run.trace"), ["a note of the run"])
        os.mkdir("run.tmp")
        self.assertEqual(notes_beside("run.trace"), [])
        self.write("run.tmp/happened", f"{DEADLOCK[0]}\n{DEADLOCK[1]}\n  {DEADLOCK[2]}\n")
        self.assertEqual(notes_beside("run.trace"), DEADLOCK[:3])

    def test_state(self) -> None:
        """A deadlock that happened is the verdict, also if a question has found nothing."""
        os.mkdir("run.tmp")
        watch = Watch("127.0.0.1:1")
        own = Dashboard.__new__(Dashboard)
        own.watch, own.reports, own.page = watch, Reports(watch, "run.trace", "."), Page()
        for accepted, questions, text in [
            (None, [], None), (10, [Question(0, 0, 10, 2, 3, 1, 0, 0)], None),
            (10, [Question(0, 0, 10, 2, 1, 1, 0, 0)], "This run predicts no deadlock of at most 2 threads"),
            (1500, [Question(0, 0, 10, 2, 1, 1, 0, 0)], "The first 10 of 1,500 events predict no deadlock of at most 2 threads"),
            (30, [Question(0, 0, 10, 8, 1, 1, 0, 0), Question(0, 1, 30, 3, 1, 1, 0, 0), Question(0, 2, 30, 2, 1, 1, 0, 0)],
             "This run predicts no deadlock of at most 3 threads"),
            (30, [Question(0, 0, 10, 2, 9, 1, 2, 1), Question(0, 1, 30, 3, 1, 1, 0, 0)], "This run can deadlock: 1 confirmed, 1 potential"),
        ]:
            watch.accepted, watch.questions = accepted, {question.number: question for question in questions}
            watch.publish()
            verdict = own.state()["verdict"]
            self.assertEqual(verdict["text"] if isinstance(verdict, dict) else None, text)
        self.write("run.tmp/happened", "".join(f"{line}\n" for line in DEADLOCK))
        self.assertEqual(own.state()["verdict"], {"text": "This run deadlocked: 2 threads wait for each other", "rank": 4, "kind": "confirmed"})
        self.assertEqual(own.deadlock()[:3], [*DEADLOCK[:2], f"  {DEADLOCK[2]}"])


class Drawings(InFolder):
    def test_time_limit(self) -> None:
        """A drawing that takes too long is ended with its processes. Without the trace it may be fast enough."""
        self.write("0-question-0.report", OPPOSITE_REPORT)
        reports = Reports(Watch("127.0.0.1:1"), self.write("run.trace", OPPOSITE), os.getcwd())
        os.mkdir("copies")
        reports.trace.folder = "copies"
        with ends(), patch("goodlock.dashboard.reports.SECONDS_TO_DRAW", 0.2), self.assertRaises(TooSlow):
            reports.execute("-c", "import subprocess; subprocess.run(['sleep', '1000'])")
        execute = reports.execute
        with patch.object(reports, "execute", lambda *args: execute(*args) if len(args) == 3 else slow()):
            found = reports.drawing(0, 0)
        self.assertEqual((found.verdict.kind, found.is_whole), ("confirmed", False))
        self.assertTrue(found.note.startswith("The drawing with the trace takes longer than 120 s"), found.note)
        with patch.object(reports, "execute", slow), self.assertRaisesRegex(NoReport, "cannot be drawn in 120 s"):
            reports.draw("0-question-0.report", reports.trace)


def slow(*_args: str) -> None:
    raise TooSlow


WINDOW = {"number": 3, "state": "ended", "address": None, "events": 20, "first": 40, "asked": 10, "bound": 2, "confirmed": 1, "potential": 0, "new": 1,
          "report": "w.report", "trace": "svc.3.trace", "is_settled": True, "fault": None}
TOTALS = {"windows": 3, "events": 60, "confirmed": 1, "potential": 0, "left_out": 0}


class OfWindows(InFolder):
    def look(self, **fields: object) -> Windows:
        """Returns what the dashboard has read of a file with these fields."""
        found = {"version": 1, "pid": os.getpid(), "is_over": False, "updated": 5.5, "totals": TOTALS, "left_out": [], "windows": [WINDOW]} | fields
        windows = Windows(self.write("windows.json", json.dumps(found)))
        windows.look()
        return windows

    def test_rows(self) -> None:
        """A row says which events a window has, which of them were examined, and what went wrong."""
        for changed, words, settled in [
            ({}, "ended, from event 40 on, 10 events examined", True),
            ({"asked": 20, "state": "open", "report": None}, "open, from event 40 on", False),
            ({"is_settled": False, "state": "open"}, "open, from event 40 on, 10 events examined", True),
            ({"is_settled": False}, "ended, from event 40 on, 10 events examined, the later ones were not examined", True),
            ({"new": 0, "asked": 20}, "ended, from event 40 on, no new cycle", True),
            ({"fault": "The server was killed.", "asked": 20}, "ended, from event 40 on. The server was killed.", True),
            ({"state": "left out", "events": None, "asked": None, "bound": None, "confirmed": None, "potential": None, "new": None, "report": None},
             "left out, from event 40 on", False),
        ]:
            question, = self.look(windows=[WINDOW | changed]).view["questions"]
            self.assertEqual((question.window, question.is_settled), (words, settled))
            self.assertEqual(question.bound, 0 if "bound" in changed else 2)

    def test_verdict(self) -> None:
        for changed, line in [
            ({}, Line("This run can deadlock: 1 confirmed, 0 potential", 3, "confirmed")),
            ({"confirmed": 0}, Line("The examined windows predict no deadlock of at most 2 threads", 0, "none")),
            ({"confirmed": 0, "left_out": 2}, Line("The examined windows predict no deadlock of at most 2 threads; 2 windows not examined", 1, "potential")),
        ]:
            self.assertEqual(self.look(totals=TOTALS | changed).verdict(), line)
        self.assertIsNone(self.look(windows=[], totals=TOTALS | {"confirmed": 0}).verdict())

    def test_state(self) -> None:
        windows = self.look()
        self.assertEqual((windows.fault(), windows.view["accepted"], windows.view["seen_at"], windows.view["windows"]), ("", 60, 5.5, True))
        for fields, state, message in [
            ({"is_over": True}, "over", "The run has ended."), ({"pid": 1 << 40}, "gone", "tools/with_server was ended, so nothing changes any more."),
            ({"version": 2}, "other", "This is not the file of with_server --roll: version is not 1."),
            ({"windows": [{"number": -1}]}, "other", "This is not the file of with_server --roll: number is -1."),
            ({"windows": 7}, "other", None), ({"totals": []}, "other", None), ({"updated": "x"}, "other", None), ({"windows": [7]}, "other", None),
            ({"windows": {}}, "other", None), ({"totals": None}, "other", None), ({"updated": float("inf")}, "other", None), ({"pid": "1"}, "other", None),
        ]:
            windows = self.look(**fields)
            self.assertEqual((windows.view["connection"], windows.fault()), (state, message or windows.fault()))
            self.assertTrue(windows.fault())
        os.remove("windows.json")
        windows.look()
        self.assertEqual(windows.fault(), "The file of the windows cannot be read: No such file or directory.")

    def test_most_windows(self) -> None:
        """The last ones of a file that has too many."""
        windows = self.look(windows=[WINDOW | {"number": number} for number in range(1, MOST_WINDOWS + 2)])
        self.assertEqual((min(windows.questions), len(windows.questions)), (2, MOST_WINDOWS))

    def test_report_changes(self) -> None:
        """The report of an open window is drawn anew when it covers more events. Its trace has the numbers of that window."""
        self.write("w.report", OPPOSITE_REPORT)
        os.mkdir("svc.tmp")
        self.write("svc.tmp/sites", "1\tbank.py:3 in main\n")
        self.write("svc.3.trace", f"# at 1\n{OPPOSITE}")
        windows = self.look()
        os.mkdir("files")
        reports = WindowReports(windows, None, "files")
        self.assertEqual((reports.recorded(), reports.file(0, 3), self.read("files/0-question-3.report")),
                         ("svc.trace", "0-question-3.report", OPPOSITE_REPORT))
        reports.trace_of(3).copy()
        self.assertTrue(self.read("files/svc.3.trace").startswith("# at bank.py:3 in main\n"))
        self.write("w.report", "changed")
        reports.file(0, 3)
        self.assertEqual(self.read("files/0-question-3.report"), OPPOSITE_REPORT)
        version = reports.version(0, 3)
        self.write("windows.json", self.read("windows.json").replace('"asked": 10', '"asked": 20'))
        windows.look()
        reports.file(0, 3)
        self.assertEqual((self.read("files/0-question-3.report"), reports.version(0, 3) != version), ("changed", True))
        with self.assertRaises(NoReport):
            reports.file(0, 4)

    def test_metrics(self) -> None:
        text = metrics_text(self.look(totals=TOTALS | {"left_out": 2}), False)
        for line in ("goodlockd_windows_total 3", "goodlockd_windows_left_out_total 2", 'goodlockd_cycles{verdict="confirmed"} 1'):
            self.assertIn(f"\n{line}\n", text)
        self.assertNotIn("\ngoodlockd_questions{", text)


class Operators(unittest.TestCase):
    def setUp(self) -> None:
        self.watch = Watch("127.0.0.1:1")

    def values(self) -> dict[str, str]:
        lines = metrics_text(self.watch, False).splitlines()
        return dict(line.rsplit(" ", 1) for line in lines if not line.startswith("#"))

    def test_before_the_first_look(self) -> None:
        values = self.values()
        self.assertEqual((values["goodlockd_up"], values["goodlockd_reconnects_total"]), ("0", "0"))
        self.assertNotIn("goodlockd_events_total", values)
        self.assertEqual(self.watch.fault(), "Connecting to the server.")

    def test_values(self) -> None:
        watch = self.watch
        watch.connection, watch.accepted, watch.seen_at, watch.looked, watch.is_full = "connected", 12, time.time(), time.monotonic(), True
        watch.questions = {0: Question(0, 0, 12, 2, 3, 3, 5, 2), 1: Question(0, 1, 12, 3, 4, 1, 9, 1), 2: Question(0, 2, 12, 4, 4, 0, 0, 0)}
        watch.begun = {1: time.monotonic() - 50, 2: time.monotonic() - 5}
        watch.attempts, watch.sessions, watch.run = 4, 2, 1
        watch.count(Refused(40)), watch.count(Refused(40)), watch.count(Refused(250))
        watch.drop(Lost("busy", "The server is busy."))
        watch.connection = "connected"
        watch.publish()
        values = self.values()
        for name, value in {
            "up": "1", "events_total": "12", "full": "1", 'questions{state="pending"}': "2", 'questions{state="settled"}': "1",
            'cycles{verdict="confirmed"}': "2", 'cycles{verdict="potential"}': "3", "deadlock": "0", "restarts_total": "1", "sessions_total": "2",
            "reconnects_total": "3", 'refusals_total{refusal="BoardBusy"}': "2", 'refusals_total{refusal="unknown"}': "1",
            'refusals_total{refusal="NoSeat"}': "1", 'refusals_total{refusal="BadBound"}': "0",
        }.items():
            self.assertEqual(values[f"goodlockd_{name}"], value, name)
        self.assertAlmostEqual(float(values["goodlockd_oldest_pending_seconds"]), 50, delta=20)
        self.assertEqual(watch.view["questions"][0].seconds, None)

    def test_health(self) -> None:
        """The last look may be old by STALE seconds, or older while a report comes."""
        watch = self.watch
        watch.connection, watch.message, watch.looked = "connected", "", time.monotonic()
        self.assertEqual(watch.fault(), "")
        watch.looked -= STALE + 1
        self.assertRegex(watch.fault(), r"^The state of the server was last read 3[0-9] s ago\.$")
        watch.is_fetching = True
        self.assertEqual(watch.fault(), "")
        watch.drop(Lost("gone", "The server is gone."))
        self.assertEqual(watch.fault(), "The server is gone.")

    def test_page(self) -> None:
        """docs/operation.md has exactly these metrics, and the fields of /state."""
        with open(os.path.join(ROOT, "docs", "operation.md"), encoding="utf-8") as file:
            text = file.read()
        self.assertEqual(re.findall(r"^\| `goodlockd_([a-z_]+)", text, re.M), [metric.name for metric in metrics_of(self.watch, False)])
        documented = set(re.findall(r"^\| `([a-z_]+)` \|", text, re.M))
        self.assertEqual({*self.watch.view, "deadlock", "verdict", "instance", *Question._fields, "version"} - documented, set())
