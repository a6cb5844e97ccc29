"""Tests which runs of an agent fail, by the options of the gate, and what `goodlock.toml` gives to an agent."""
import contextlib
import io
import os
from unittest import mock

from goodlock.agent.gate import judge, settings_from
from goodlock.agent.run import Run
from goodlock.agent.search import Found, FoundMember, Window
from goodlock.agent.sites import Sites
from goodlock.commands import agent_report
from goodlock.happened import deadlock_of
from goodlock.locations import Root
from goodlock.results import numbered
from written import InFolder

SITES = "1\tbank.c:34 in transfer\trun.c:1 in run\n2\tbank.c:35 in transfer\n3\taudit.c:1 in audit\n"
DEADLOCK = """deadlock of 2 threads, which wait for each other
thread 1 waits for lock 20 at bank.c:35 in transfer
  lock 10 since bank.c:34 in transfer
thread 2 waits for lock 10 at bank.c:35 in transfer
  lock 20 since bank.c:34 in transfer""".splitlines()


def found(kind: str, wait: int = 2) -> Found:
    members = [FoundMember(1, 20, [10], None, wait, [1], None), FoundMember(2, 10, [20], None, wait, [1], None)]
    return Found(kind, [0, 1], members, None, 1, int(kind == "confirmed"))


class Judging(InFolder):
    def setUp(self) -> None:
        super().setUp()
        os.mkdir("run.tmp")
        self.write("run.tmp/sites", SITES)
        self.sites = Sites(Run("run"), 2)

    def judged(self, *groups: Found, words: str = "", deadlock: bool = False, further: int = 0) -> tuple[int, str]:
        err = io.StringIO()
        with contextlib.redirect_stderr(err):
            window = Window(10, 2, further=further, further_confirmed=further)
            judgement = judge([window], groups, DEADLOCK if deadlock else [], self.sites, settings_from(words.split()))
        return judgement.status, err.getvalue()

    def baseline(self, verdict: str) -> str:
        """Writes a baseline with the groups in transfer."""
        happened, _ = deadlock_of([line.strip() for line in DEADLOCK], Root())
        assert happened
        return self.write("base", f'{{"fingerprints": {{"{numbered([happened], Root())[0].fingerprint}": "{verdict}"}}}}')

    def test_default(self) -> None:
        self.assertEqual(self.judged(), (0, ""))
        self.assertEqual(self.judged(found("potential")), (0, ""))
        self.assertEqual(self.judged(found("timed")), (0, ""))
        self.assertEqual(self.judged(found("confirmed")), (3, ""))
        self.assertEqual(self.judged(deadlock=True), (3, ""))

    def test_fail_on(self) -> None:
        self.assertEqual(self.judged(found("potential"), words="--fail-on potential"), (3, "goodlock: 1 new; --fail-on potential: 1 potential\n"))
        self.assertEqual(self.judged(found("confirmed"), words="--fail-on new"), (3, "goodlock: 1 new; --fail-on new: 1 confirmed\n"))
        self.assertEqual(self.judged(found("timed"), words="--fail-on potential"), (0, ""))

    def test_baseline(self) -> None:
        words = f"--fail-on new --baseline {self.baseline('confirmed')}"
        self.assertEqual(self.judged(found("confirmed"), words=words), (0, "goodlock: 1 known\n"))
        self.assertEqual(self.judged(found("confirmed"), found("confirmed", 3), words=words), (3, "goodlock: 1 new, 1 known; --fail-on new: 1 "
                                                                                                  "confirmed\n"))
        self.assertEqual(self.judged(deadlock=True, words=words), (0, "goodlock: 1 known\n"))
        self.assertEqual(self.judged(found("confirmed"), deadlock=True, words=words), (0, "goodlock: 1 known\n"))
        words = f"--fail-on new --baseline {self.baseline('potential')}"
        self.assertEqual(self.judged(found("confirmed"), words=words), (3, "goodlock: 1 new; --fail-on new: 1 confirmed\n"))

    def test_suppressed(self) -> None:
        self.write("known", "bank.c:* in transfer\n")
        self.assertEqual(self.judged(found("confirmed"), words="--suppress known"), (0, "goodlock: 1 suppressed\n"))
        self.assertEqual(self.judged(found("confirmed"), found("confirmed", 3), words="--suppress known"), (0, "goodlock: 2 suppressed\n"))
        self.assertEqual(self.judged(deadlock=True, words="--suppress known"), (0, "goodlock: 1 suppressed\n"))
        self.write("known", "*audit\n")
        self.assertEqual(self.judged(found("confirmed"), words="--suppress known"),
                         (3, "goodlock: 1 new; --fail-on confirmed: 1 confirmed\n"))

    def test_too_many_groups(self) -> None:
        self.assertEqual(self.judged(further=7)[0], 3)


class Options(InFolder):
    def run_task(self, task: str, *words: str) -> tuple[int, str, str]:
        out, err = io.TextIOWrapper(io.BytesIO(), "utf-8"), io.StringIO()
        arguments = ["agent_report", task, "goodlockd", "4", "out", "0", "0", *words]
        with contextlib.redirect_stdout(out), contextlib.redirect_stderr(err), mock.patch("sys.argv", arguments):
            try:
                status = agent_report.main()
            except SystemExit as ended:
                status = int(str(ended.code))
        out.seek(0)
        return status, out.read(), err.getvalue()

    def test_right(self) -> None:
        self.write("known", "a ; b\n")
        self.write("base", '{"fingerprints": {}}')
        self.assertEqual(self.run_task("options", "--fail-on", "new", "--suppress", "known", "--baseline", "base", "--root", "/"), (0, "", ""))

    def test_wrong(self) -> None:
        self.write("known", "a ; \n")
        self.write("base", "{}")
        for words, message in [
            ("--suppress known", "goodlock: known:1: a pattern is empty: patterns are separated by ` ; `"),
            ("--baseline base", "goodlock: base: not a baseline, which has \"fingerprints\": `tools/summary TRACE REPORT --json` and "
                                "`tools/many FOLDER --json` print one"),
            ("--suppress missing", "goodlock: cannot read missing: No such file or directory"),
            ("--baseline missing", "goodlock: cannot read missing: No such file or directory"),
            ("--fail-on all", "goodlock: error: argument --fail-on: invalid choice: 'all' (choose from 'confirmed', 'certain', 'potential', 'new', 'new-certain')"),
        ]:
            with self.subTest(words):
                status, out, err = self.run_task("options", *words.split())
                self.assertEqual((status, out, err.splitlines()[-1]), (2, "", message))

    def test_config(self) -> None:
        self.assertEqual(self.run_task("options"), (0, "", ""))
        self.write("a b", "*\n")
        self.write("goodlock.toml", "bound = 3\nsuppressions = 'a b'\n[agent]\nstacks = 2\n[many]\njobs = 7\n")
        self.assertEqual(self.run_task("options"), (0, "--bound=3\0--suppress=a b\0--stacks=2\0", ""))
        self.assertEqual(self.run_task("options", "--no-config"), (0, "", ""))
        self.write("goodlock.toml", "bound = 9\n")
        self.assertEqual(self.run_task("options"), (2, "", "goodlock: goodlock.toml: bound: not a whole number, 2 to 8\n"))
        self.write("goodlock.toml", "baseline = 'missing'\n")
        self.assertEqual(self.run_task("options"), (2, "", "goodlock: cannot read missing: No such file or directory\n"))
        self.assertEqual(self.run_task("options", "--baseline", self.write("base", '{"fingerprints": {}}'))[0], 0)
