"""Tests the command `summary`, on reports whose cycles are all confirmed: so it runs no program."""
import contextlib
import io
import json
import unittest
from unittest import mock

from goodlock.commands import summary
from written import InFolder

# Two threads acquire two locks in opposite orders in `transfer`, two others in `audit`.
TRACE = """0f1 0f2 0f3 0f4
# at bank.c:34 in transfer
1a1
# at bank.c:35 in transfer
1a2 1r2 1r1
# at bank.c:34 in transfer
2a2
# at bank.c:35 in transfer
2a1 2r1 2r2
# at audit.c:1 in audit
3a3
# at audit.c:2 in audit
3a4 3r4 3r3
# at audit.c:1 in audit
4a4
# at audit.c:2 in audit
4a3 4r3 4r4
"""
TRANSFER = "cycle 0 1 confirmed\n  thread 1 lock 2 holds 1 place 5\n  thread 2 lock 1 holds 2 place 9\n  witness 0 1 4 8\n"
AUDIT = "cycle 2 3 confirmed\n  thread 3 lock 4 holds 3 place 13\n  thread 4 lock 3 holds 4 place 17\n  witness 0 1 2 3 12 16\n"
HEAD = "question {} length 20 bound 2 cycles {} confirmed {}\n"
LINES_OF_TRANSFER = "bank.c:34 in transfer ; bank.c:35 in transfer"


class Summaries(InFolder):
    def setUp(self) -> None:
        super().setUp()
        self.write("bank.trace", TRACE)
        self.write("bank.report", HEAD.format(0, 2, 2) + TRANSFER + AUDIT)

    def run_summary(self, *words: str) -> tuple[int, str, str]:
        """Returns the exit status, and what is printed on standard output and standard error."""
        out, errors = io.TextIOWrapper(io.BytesIO(), "utf-8"), io.StringIO()
        arguments = ["summary", "bank.trace", "bank.report", "--no-config", *words]
        with mock.patch("sys.argv", arguments), contextlib.redirect_stdout(out), contextlib.redirect_stderr(errors):
            try:
                status = summary.main()
            except SystemExit as end:
                status = int(str(end.code))
        out.seek(0)
        return status, out.read(), errors.getvalue()

    def test_text(self) -> None:
        status, text, errors = self.run_summary()
        self.assertEqual((status, errors), (0, ""))
        self.assertEqual([line for line in text.splitlines() if line.startswith(("question", "group"))], [
            "question 0: 20 events; cycles of at most 2 members: 2, confirmed 2, in 2 groups", "group 1 confirmed: 1 cycle, 1 confirmed",
            "group 2 confirmed: 1 cycle, 1 confirmed"])

    def test_generated_suppressions(self) -> None:
        """They suppress all groups, also one that is not shown. A group that another file suppresses has none."""
        _, text, _ = self.run_summary("--generate-suppressions", "--groups", "1")
        self.assertEqual(text, f"# confirmed, 1 cycle\n{LINES_OF_TRANSFER}\n# confirmed, 1 cycle\naudit.c:1 in audit ; audit.c:2 in audit\n")
        self.write("known", text)
        status, text, _ = self.run_summary("--suppress", "known", "--fail-on", "confirmed")
        self.assertEqual((status, text.splitlines()[-1]), (0, "2 groups with 2 cycles suppressed"))
        self.write("known", f"{LINES_OF_TRANSFER}\n")
        self.assertEqual(self.run_summary("--suppress", "known", "--generate-suppressions")[1],
                         "# confirmed, 1 cycle\naudit.c:1 in audit ; audit.c:2 in audit\n")

    def test_unused_suppressions(self) -> None:
        self.write("known", "# two\n*transfer\n*nowhere\n")
        self.assertEqual(self.run_summary("--suppress", "known")[1].splitlines()[-1], "known line 3 suppresses nothing")
        self.assertEqual(json.loads(self.run_summary("--suppress", "known", "--json")[1])["unused_suppressions"], [3])

    def test_gate(self) -> None:
        """The baseline that JSON is makes all groups known."""
        self.assertEqual(self.run_summary("--fail-on", "new", "--json=base")[::2], (3, "summary: --fail-on new: 2 confirmed\n"))
        self.assertEqual(self.run_summary("--fail-on", "new", "--baseline", "base")[::2], (0, ""))
        self.assertEqual(self.run_summary("--fail-on", "confirmed", "--baseline", "base")[0], 3)

    def test_several_reports(self) -> None:
        """The numbers are those of the last report; a group of several reports counts once."""
        self.write("bank.report", HEAD.format(0, 1, 1) + TRANSFER + HEAD.format(1, 2, 2) + TRANSFER + AUDIT)
        found = json.loads(self.run_summary("--json")[1])
        self.assertEqual(([len(question["shown"]) for question in found["questions"]], len(found["fingerprints"])), ([1, 2], 2))
        self.assertEqual((found["numbers"]["events"], found["numbers"]["locks"], found["numbers"]["cycles"]["confirmed"]), (20, 4, 2))

    def test_refused(self) -> None:
        for words, message in [(["--generate-suppressions", "--json"], "--generate-suppressions and --json print on standard output"),
                               (["--groups", "-1"], "argument --groups: not 0 or more")]:
            status, text, errors = self.run_summary(*words)
            self.assertEqual((status, text, message in errors), (2, "", True), errors)


if __name__ == "__main__":
    unittest.main()
