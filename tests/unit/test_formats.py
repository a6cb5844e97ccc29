"""Tests the formats for programs: what each one says of a result, how it escapes, and that it has the fields that its readers require."""
from __future__ import annotations

import importlib.util
import json
import os
import unittest
from dataclasses import replace
from typing import Any, Callable
from xml.etree import ElementTree as xml

from goodlock.formats import github, gitlab, junit, markdown, sarif
from goodlock.formats import json as json_format
from goodlock.gates import Gate, Judgement
from goodlock.groups import location_of
from goodlock.locations import Root
from goodlock.program import version
from goodlock.reports import Report, Verdict
from goodlock.results import LeftOut, Question, Result, ResultMember, Run, Spot
from samples import CONFIRMED, HAPPENED, HOLD, KNOWN, NO_VALUE, NOWHERE, POTENTIAL, SUPPRESSED, WAIT, run_of

attr: Any = importlib.import_module("attr") if importlib.util.find_spec("sarif_om") else None
Object = dict[str, Any]
EVERYTHING = replace(run_of(HAPPENED, CONFIRMED, NOWHERE, POTENTIAL, KNOWN, SUPPRESSED), suppressions="ci/known", unused=(7,), has_baseline=True,
                     notes=("2 threads started in a way that is not seen",), faults=(("b.trace", "b.trace:1: 1b2: not an event"),))


def judged(run: Run, fail_on: str | None = None) -> Judgement:
    return Gate(fail_on).judgement(run.results, run.left_out)


def with_text(result: Result, text: str) -> Result:
    """Returns a result whose first member waits at another location."""
    first = result.members[0]
    return replace(result, members=(replace(first, wait=replace(first.wait, location=location_of(text))), *result.members[1:]))


class Json(unittest.TestCase):
    def setUp(self) -> None:
        self.question = Question(Report(0, 12, 2, 5, 3), (CONFIRMED, POTENTIAL, KNOWN, SUPPRESSED), LeftOut(4, 5, 6, 2, 7), ("a note",))
        self.run_ = replace(EVERYTHING, most=2)

    def summary(self) -> Object:
        text = json_format.summary_text("bank.trace", "bank.report", [self.question], self.run_, judged(self.run_, "new"))
        found: Object = json.loads(text)
        return found

    def test_summary(self) -> None:
        found = self.summary()
        self.assertEqual((found["version"], found["trace"], found["report"]), (1, "bank.trace", "bank.report"))
        self.assertEqual(found["unused_suppressions"], [7])
        self.assertEqual(found["gate"], {"fail_on": "new", "failing": 3, "status": 3})
        self.assertEqual(found["numbers"], {"events": 12, "threads": 3, "locks": 2, "dependencies": 2,
                                            "cycles": {"confirmed": 2, "no_value": 0, "potential": 1, "tried": 0, "writers_wait": 0}, "happened": 0,
                                            "seconds": 0.25})
        self.assertEqual(found["fingerprints"], {"cc:2": "happened", "aa:1": "confirmed", "dd:1": "confirmed", "bb:1": "potential",
                                                 "ee:1": "confirmed", "ff:1": "confirmed"})

    def test_question(self) -> None:
        question = self.summary()["questions"][0]
        shown = question.pop("shown")
        self.assertEqual(question, {
            "question": 0, "length": 12, "bound": 2, "cycles": 5, "confirmed": 3, "no_value": 2, "groups": 4, "not_shown": 1,
            "suppressed": {"groups": 1, "cycles": 3}, "known": {"groups": 1, "cycles": 3},
            "left_out": {"tried": 4, "further": 5, "further_confirmed": 6, "further_no_value": 2, "writers_wait": 7}, "notes": ["a note"],
        })
        self.assertEqual([group["verdict"] for group in shown], ["confirmed", "potential"])

    def test_group(self) -> None:
        group = self.summary()["questions"][0]["shown"][0]
        members, witness = group.pop("members"), group.pop("witness")
        self.assertEqual(group, {"verdict": "confirmed", "state": "new", "fingerprint": "aa:1", "cycles": 3, "confirmed": 2, "no_value": 0,
                                 "example": [0, 1], "look_at": "Choose one order."})
        self.assertEqual(members[0], {
            "thread": 1, "thread_name": "teller", "held": [1],
            "holds": {"lock": 1, "lock_name": None, "place": 2, "location": HOLD, "file": "src/bank.c", "line": 34, "function": "transfer", "callers": []},
            "waits": {"lock": 2, "lock_name": None, "place": 3, "location": WAIT, "file": "src/bank.c", "line": 35, "function": "transfer", "callers": []},
        })
        self.assertEqual((witness["events"], witness["left_out_at_end"]), (4, 1))
        self.assertEqual(witness["steps"][0], {"place": 0, "left_out_before": 0, "thread": 0, "event": "forks thread 1"})
        self.assertEqual(witness["steps"][1]["location"], HOLD)

    def test_potential(self) -> None:
        group = self.summary()["questions"][0]["shown"][1]
        self.assertNotIn("witness", group)
        self.assertEqual(group["kept_apart"], {"heading": "Kept apart by a join", "sentences": ["Thread 0 joins thread 5."],
                                               "steps_left_out": 2, "command": "goodlockd explain bank.trace --bound 2 --cycle 4,5"})

    def test_no_value(self) -> None:
        """A verdict of its own, with a witness and the reads that decide. It is the same after it was read again."""
        run = run_of(NO_VALUE)
        found = json.loads(json_format.summary_text("bank.trace", "bank.report", [Question(Report(0, 12, 2, 4, 0), (NO_VALUE,))], run, judged(run)))
        group = found["questions"][0]["shown"][0]
        self.assertEqual((group["verdict"], group["confirmed"], group["no_value"]), ("confirmed if no value decides", 0, 3))
        self.assertEqual(group["kept_apart"]["sentences"], ["bank.c:4 in is_open reads memory that a thread wrote after bank.c:3 in open"])
        self.assertEqual((found["questions"][0]["no_value"], found["fingerprints"]), (3, {"gg:1": "confirmed if no value decides"}))
        again = json_format.result_from(group, Root())
        self.assertEqual((again.verdict, again.no_value, again.why, again.witness and again.witness.events), (Verdict.NO_VALUE, 3, NO_VALUE.why, 4))
        del group["no_value"], found["numbers"]["cycles"]["no_value"]  # an earlier version wrote it
        self.assertEqual((json_format.result_from(group, Root()).no_value, json_format.numbers_from(found["numbers"]).no_value), (0, 0))
        merged = json.loads(json_format.many_text(run, 1, judged(run)))["groups"][0]
        self.assertEqual(merged["why"], "Kept apart only by what these reads see: bank.c:4 in is_open reads memory that a thread wrote after "
                                        "bank.c:3 in open")

    def test_many(self) -> None:
        run = replace(self.run_, results=(replace(POTENTIAL, trace_count=2, traces=("a.trace", "b.trace")),))
        found = json.loads(json_format.many_text(run, 4, judged(run)))
        self.assertEqual((found["version"], found["traces"], found["events"], found["cycles"], found["confirmed"], found["tried"]),
                         (1, 4, 12, 3, 2, 0))
        self.assertEqual(found["faults"], {"b.trace": "b.trace:1: 1b2: not an event"})
        self.assertEqual(found["groups"], [{
            "verdict": "potential", "state": "new", "fingerprint": "bb:1", "cycles": 1, "confirmed": 0, "no_value": 0, "example": [4, 5],
            "members": [["src/audit.c:80 in audit", "src/audit.c:81 in audit"], ["src/audit.c:90 in review", "src/audit.c:91 in review"]],
            "look_at": "It is harmless.", "why": "Kept apart by a join", "traces": 2, "first_traces": ["a.trace", "b.trace"],
        }])


# The classes of the objects in a log, by the names of the properties that they are in. A thread flow has locations of its own.
SARIF_CLASSES = {
    "runs": "Run", "tool": "Tool", "driver": "ToolComponent", "rules": "ReportingDescriptor", "invocations": "Invocation",
    "toolExecutionNotifications": "Notification", "results": "Result", "message": "Message", "locations": "Location", "location": "Location",
    "relatedLocations": "Location", "physicalLocation": "PhysicalLocation", "logicalLocations": "LogicalLocation",
    "artifactLocation": "ArtifactLocation", "region": "Region", "codeFlows": "CodeFlow", "threadFlows": "ThreadFlow",
    "suppressions": "Suppression", "shortDescription": "MultiformatMessageString", "fullDescription": "MultiformatMessageString",
    "help": "MultiformatMessageString", "defaultConfiguration": "ReportingConfiguration", "properties": "PropertyBag",
}
SARIF_WORDS = {
    "level": ("none", "note", "warning", "error"), "baselineState": ("new", "unchanged", "updated", "absent"), "kind": ("function", "external"),
}


def faults_of(classes: Any, kind: str, found: Object) -> list[str]:
    """Returns what an object of a log has that the schema does not allow, or lacks. `classes` were generated from the schema."""
    known = {one.metadata["schema_property_name"]: one for one in getattr(classes, kind).__attrs_attrs__}
    faults = [f"{kind} has {name}" for name in found if name not in known and kind != "PropertyBag"]
    faults += [f"{kind} lacks {name}" for name, one in known.items() if one.default is attr.NOTHING and name not in found]
    for name, value in found.items():
        faults += [f"{kind} has {name} {value}"] if value not in SARIF_WORDS.get(name, (value,)) else []
        inner = "ThreadFlowLocation" if (kind, name) == ("ThreadFlow", "locations") else SARIF_CLASSES.get(name)
        for one in value if isinstance(value, list) else [value]:
            faults += faults_of(classes, inner, one) if inner and isinstance(one, dict) else []
    return faults


class Sarif(unittest.TestCase):
    def run_object(self, run: Run = EVERYTHING, fail_on: str | None = None) -> Object:
        found: Object = json.loads(sarif.text_of(run, judged(run, fail_on)))
        self.assertEqual((found["version"], len(found["runs"])), ("2.1.0", 1))
        only: Object = found["runs"][0]
        return only

    def result(self, result: Result, **changes: Any) -> Object:
        found: Object = self.run_object(replace(run_of(result), **changes))["results"][0]
        return found

    @unittest.skipIf(attr is None and os.environ.get("CI") != "true", "there is no python3-sarif-python-om")
    def test_schema(self) -> None:
        classes = importlib.import_module("sarif_om")
        found = json.loads(sarif.text_of(EVERYTHING, judged(EVERYTHING)))
        self.assertEqual(faults_of(classes, "SarifLog", found), [])
        wrong = json.loads(json.dumps(found))
        del wrong["runs"][0]["results"][1]["message"]
        wrong["runs"][0]["results"][0]["locations"][0]["place"] = 3
        wrong["runs"][0]["results"][2]["level"] = "fatal"
        self.assertEqual(faults_of(classes, "SarifLog", wrong), ["Location has place", "Result lacks message", "Result has level fatal"])

    def test_rules_of_results(self) -> None:
        run = self.run_object()
        for result in run["results"]:
            self.assertEqual(run["tool"]["driver"]["rules"][result["ruleIndex"]]["id"], result["ruleId"])
            self.assertGreaterEqual(result["occurrenceCount"], 1)
            for location in result["locations"] + result["relatedLocations"]:
                self.assertGreaterEqual(location.get("physicalLocation", {}).get("region", {}).get("startLine", 1), 1)

    def test_driver(self) -> None:
        driver = self.run_object()["tool"]["driver"]
        self.assertEqual((driver["name"], driver["version"]), ("goodlockd", version()))
        self.assertRegex(driver["version"], r"^[0-9]+\.[0-9]+\.[0-9]+$")
        self.assertEqual([rule["id"] for rule in driver["rules"]], ["confirmed-deadlock", "potential-deadlock", "happened-deadlock",
                                                                     "confirmed-if-no-value-decides-deadlock"])
        self.assertEqual([rule["defaultConfiguration"]["level"] for rule in driver["rules"]], ["error", "warning", "error", "error"])
        for rule in driver["rules"]:
            self.assertTrue(rule["help"]["text"] and rule["fullDescription"]["text"] and rule["shortDescription"]["text"])

    def test_results(self) -> None:
        results = self.run_object()["results"]
        self.assertEqual([(result["ruleId"], result["level"]) for result in results], [
            ("happened-deadlock", "error"), ("confirmed-deadlock", "error"), ("confirmed-deadlock", "error"), ("potential-deadlock", "warning"),
            ("confirmed-deadlock", "error"), ("confirmed-deadlock", "error")])
        self.assertEqual([result["partialFingerprints"]["codeLocations/v1"] for result in results],
                         ["cc:2", "aa:1", "dd:1", "bb:1", "ee:1", "ff:1"])
        self.assertEqual(results[1]["message"]["text"], CONFIRMED.message)
        self.assertEqual(results[1]["occurrenceCount"], 3)

    def test_location(self) -> None:
        place = self.result(CONFIRMED)["locations"][0]["physicalLocation"]
        self.assertEqual(place, {"artifactLocation": {"uri": "src/bank.c", "uriBaseId": "%SRCROOT%"}, "region": {"startLine": 35}})
        self.assertIn("%SRCROOT%", self.run_object()["originalUriBaseIds"])
        place = self.result(with_text(CONFIRMED, "/usr/include/c++/12 x/mutex:7 in lock"))["locations"][0]["physicalLocation"]
        self.assertEqual(place["artifactLocation"], {"uri": "file:///usr/include/c%2B%2B/12%20x/mutex"})
        self.assertNotIn("physicalLocation", self.result(NOWHERE)["locations"][0])
        self.assertEqual(self.result(NOWHERE)["locations"][0]["logicalLocations"], [{"name": "thread 1 lock 2"}])

    def test_related(self) -> None:
        related = self.result(CONFIRMED)["relatedLocations"]
        self.assertEqual([(one["id"], one["message"]["text"]) for one in related], [
            (1, "thread 2 waits here for lock 1"), (2, "thread 1 (teller) holds lock 1, which it acquired here"),
            (3, "thread 2 holds lock 2, which it acquired here")])

    STATES: list[tuple[str, Result, str]] = [
        ("new", CONFIRMED, "new"),
        ("known", KNOWN, "unchanged"),
        ("known, weaker now", replace(KNOWN, verdict=Verdict.POTENTIAL), "updated"),
        ("confirmed now", replace(CONFIRMED, before=Verdict.POTENTIAL), "new"),
        ("confirmed now if no value decides", replace(NO_VALUE, before=Verdict.POTENTIAL), "new"),
        ("confirmed if no value decides", replace(NO_VALUE, before=Verdict.NO_VALUE), "unchanged"),
        ("confirmed with all values", replace(CONFIRMED, before=Verdict.NO_VALUE), "updated"),
        ("known, happened now", replace(KNOWN, verdict=Verdict.HAPPENED), "updated"),
        ("suppressed and known", replace(SUPPRESSED, before=Verdict.CONFIRMED), "unchanged"),
        ("suppressed", SUPPRESSED, "new"),
    ]

    def test_baseline_state(self) -> None:
        for name, result, state in self.STATES:
            with self.subTest(name):
                self.assertEqual(self.result(result, has_baseline=True)["baselineState"], state)
        self.assertNotIn("baselineState", self.result(CONFIRMED))

    def test_suppressions(self) -> None:
        self.assertEqual(self.result(SUPPRESSED, suppressions="ci/known")["suppressions"], [{
            "kind": "external", "justification": "line 4 of ci/known",
            "location": {"physicalLocation": {"artifactLocation": {"uri": "ci/known", "uriBaseId": "%SRCROOT%"}, "region": {"startLine": 4}}},
        }])
        self.assertEqual(self.result(CONFIRMED, suppressions="ci/known")["suppressions"], [])
        self.assertNotIn("suppressions", self.result(CONFIRMED))

    def test_suppressed_are_never_cut(self) -> None:
        run = replace(EVERYTHING, most=1)
        self.assertEqual([one["partialFingerprints"]["codeLocations/v1"] for one in self.run_object(run)["results"]], ["cc:2", "ff:1"])

    def test_code_flow(self) -> None:
        flows = self.result(CONFIRMED)["codeFlows"][0]["threadFlows"]
        self.assertEqual([flow["id"] for flow in flows], ["thread 0", "thread 1", "thread 2"])
        steps = [(step["executionOrder"], step["location"]["message"]["text"]) for flow in flows for step in flow["locations"]]
        self.assertEqual(sorted(steps), [
            (1, "thread 0 forks thread 1 at place 0"), (2, "thread 1 acquires lock 1 at place 2"), (3, "thread 2 acquires lock 2 at place 6"),
            (4, "thread 1 (teller) waits for lock 2 at place 3"), (5, "thread 2 waits for lock 1 at place 7")])
        self.assertNotIn("codeFlows", self.result(POTENTIAL))

    def test_no_value(self) -> None:
        found = self.result(NO_VALUE)
        self.assertEqual((found["ruleId"], found["level"], "codeFlows" in found), ("confirmed-if-no-value-decides-deadlock", "error", True))
        self.assertEqual(found["message"]["text"], NO_VALUE.message)
        self.assertRegex(NO_VALUE.message, r"^Deadlock, if no value decides: .* \(4 cycles, 0 confirmed, 3 if no value decides\)\. Kept apart only by what "
                                           r"these reads see: bank\.c:4 in is_open reads memory that a thread wrote after bank\.c:3 in open\. ")

    def test_invocation(self) -> None:
        for name, run, fail_on, successful, code in [
            ("fine", run_of(POTENTIAL), "confirmed", True, 0),
            ("no gate", run_of(CONFIRMED), None, True, 0),
            ("failed", run_of(CONFIRMED), "new", True, 3),
            ("a trace without a report", replace(run_of(), faults=(("a", "b"),)), "new", False, 1),
            ("both", replace(run_of(CONFIRMED), faults=(("a", "b"),)), "new", False, 3),
        ]:
            with self.subTest(name):
                found = self.run_object(run, fail_on)["invocations"][0]
                self.assertEqual((found["executionSuccessful"], found["exitCode"]), (successful, code))
        found = self.run_object()["invocations"][0]["toolExecutionNotifications"]
        self.assertEqual([(one["level"], one["message"]["text"]) for one in found], [
            ("error", "b.trace: b.trace:1: 1b2: not an event"), ("warning", "2 threads started in a way that is not seen"),
            ("warning", "ci/known line 7 suppresses nothing")])

    def test_independent_of_the_folder(self) -> None:
        self.assertNotIn("/work", json.dumps(self.run_object(run_of(CONFIRMED, POTENTIAL))))


# The elements and attributes that the schema of Jenkins for JUnit files allows; those before the bar are required.
JUNIT = {
    "testsuites": (set[str](), {"name", "time", "tests", "failures", "errors", "disabled"}, {"testsuite"}),
    "testsuite": ({"name", "tests"}, {"failures", "errors", "time", "disabled", "skipped", "timestamp", "hostname", "id", "package"},
                  {"properties", "testcase", "system-out", "system-err"}),
    "properties": (set[str](), set[str](), {"property"}),
    "property": ({"name", "value"}, set[str](), set[str]()),
    "testcase": ({"name"}, {"classname", "time", "assertions", "status"}, {"skipped", "error", "failure", "system-out", "system-err"}),
    "failure": (set[str](), {"type", "message"}, set[str]()),
    "error": (set[str](), {"type", "message"}, set[str]()),
    "skipped": (set[str](), {"type", "message"}, set[str]()),
    "system-out": (set[str](), set[str](), set[str]()),
}


class JUnit(unittest.TestCase):
    def suites(self, run: Run, fail_on: str | None = None) -> xml.Element:
        found = xml.fromstring(junit.text_of(run, judged(run, fail_on)).encode())
        self.check(found)
        return found

    def check(self, element: xml.Element) -> None:
        required, optional, children = JUNIT[element.tag]
        self.assertLessEqual(required, set(element.attrib), element.tag)
        self.assertLessEqual(set(element.attrib), required | optional, element.tag)
        for child in element:
            self.assertIn(child.tag, children, element.tag)
            self.check(child)

    def outcomes(self, run: Run, fail_on: str | None = None) -> list[str]:
        return ["+".join(child.tag for child in case) or "passes" for case in self.suites(run, fail_on).iter("testcase")]

    # results, and their outcomes with no word, confirmed, certain, potential, new, new-certain; the first case is the trace
    CASES: list[tuple[str, Result, str]] = [
        ("confirmed", CONFIRMED, "failure failure failure failure failure failure"),
        ("confirmed if no value decides", NO_VALUE, "failure failure system-out failure failure system-out"),
        ("happened", HAPPENED, "failure failure failure failure failure failure"),
        ("potential", POTENTIAL, "system-out system-out system-out failure system-out system-out"),
        ("known", KNOWN, "skipped failure failure failure skipped skipped"),
        ("suppressed", SUPPRESSED, "skipped skipped skipped skipped skipped skipped"),
    ]

    def test_outcomes(self) -> None:
        for name, result, outcomes in self.CASES:
            for fail_on, outcome in zip((None, "confirmed", "certain", "potential", "new", "new-certain"), outcomes.split()):
                with self.subTest(f"{name}, {fail_on}"):
                    self.assertEqual(self.outcomes(run_of(result), fail_on), ["passes", outcome])

    def test_counts(self) -> None:
        suites = self.suites(EVERYTHING, "new")
        self.assertEqual(suites.attrib, {"name": "goodlock", "tests": "7", "failures": "3", "errors": "1", "time": "0.250"})
        suite = suites[0]
        self.assertEqual({key: suite.get(key) for key in ("tests", "failures", "errors")}, {"tests": "7", "failures": "3", "errors": "1"})
        self.assertEqual([(one.get("name"), one.get("value")) for one in suite.iter("property")],
                         [("events", "12"), ("threads", "3"), ("locks", "2"), ("dependencies", "2")])

    def test_names(self) -> None:
        cases = [case.get("name") for case in self.suites(EVERYTHING).iter("testcase")]
        transfer = "src/bank.c in transfer, src/bank.c in transfer"
        self.assertEqual(cases, ["b.trace", f"{transfer} (2)", transfer, "thread 1 lock 2, thread 2 lock 1",
                                 "src/audit.c in audit, src/audit.c in review", transfer, transfer])

    def test_empty(self) -> None:
        self.assertEqual(self.outcomes(run_of()), ["passes"])

    def test_texts(self) -> None:
        suites = self.suites(EVERYTHING, "new")
        failure = [case[0] for case in suites.iter("testcase") if case.get("name") == "src/bank.c in transfer, src/bank.c in transfer"][0]
        self.assertEqual((failure.get("type"), failure.get("message")), ("confirmed-deadlock", CONFIRMED.message))
        self.assertIn(f"thread 2 holds the lock acquired at {HOLD}\n    and waits at {WAIT}\n", failure.text or "")
        self.assertIn(f"2: thread 1 acquires lock 1 at {HOLD}", failure.text or "")
        self.assertEqual([one.get("message") for one in suites.iter("skipped")], ["known: in the baseline", "suppressed: line 4 of the "
                                                                                                            "suppressions"])
        output = suites.find("testsuite/system-out")
        assert output is not None
        self.assertEqual((output.text or "").splitlines()[-1], "ci/known line 7 suppresses nothing")

    def test_letters(self) -> None:
        text = 'a\x00\x1b<&">\ufffe.c:1 in f\u00fc'
        failure = next(self.suites(run_of(with_text(CONFIRMED, text))).iter("failure"))
        self.assertIn('a\ufffd\ufffd<&">\ufffd.c:1 in f\u00fc', failure.get("message") or "")

    def test_too_many_groups(self) -> None:
        run = replace(run_of(), left_out=LeftOut(further=5, further_confirmed=2))
        self.assertEqual(self.outcomes(run, "new"), ["passes", "failure"])
        self.assertEqual(self.outcomes(run), ["passes"])


class GitHub(unittest.TestCase):
    def lines(self, run: Run, fail_on: str | None = None) -> list[str]:
        return github.text_of(run, judged(run, fail_on)).splitlines()

    CASES: list[tuple[str, Result, str]] = [
        ("confirmed", CONFIRMED, f"::error file=src/bank.c,line=35,title=Deadlock::{CONFIRMED.message}"),
        ("happened", HAPPENED, f"::error file=src/bank.c,line=35,title=Deadlock that happened::{HAPPENED.message}"),
        ("if no value decides", NO_VALUE, f"::error file=src/bank.c,line=35,title=Deadlock%2C if no value decides::{NO_VALUE.message}"),
        ("potential", POTENTIAL, f"::warning file=src/audit.c,line=81,title=Potential deadlock::{POTENTIAL.message}"),
        ("known", KNOWN, f"::notice file=src/bank.c,line=35,title=Deadlock::{KNOWN.message}"),
        ("no source lines", NOWHERE, f"::error title=Deadlock::{NOWHERE.message}"),
    ]

    def test_annotations(self) -> None:
        for name, result, line in self.CASES:
            with self.subTest(name):
                self.assertEqual(self.lines(run_of(result), "new"), [line])
        self.assertEqual(self.lines(run_of(SUPPRESSED), "new"), [])

    OUTSIDE = ("/usr/include/mutex:7 in lock", "../lib/a.c:7 in lock")

    def test_file_outside(self) -> None:
        for text in self.OUTSIDE:
            with self.subTest(text):
                self.assertTrue(self.lines(run_of(with_text(CONFIRMED, text)))[0].startswith("::error file=src/bank.c,line=35,title="))
        outside = replace(CONFIRMED, members=tuple(
            ResultMember(1, Spot(location_of(text), 1), Spot(location_of(text), 2)) for text in self.OUTSIDE))
        self.assertTrue(self.lines(run_of(outside))[0].startswith("::error title=Deadlock::"))
        first, second = outside.members
        holds = replace(outside, members=(first, replace(second, hold=Spot(location_of("a.c:9 in f"), 1))))
        self.assertTrue(self.lines(run_of(holds))[0].startswith("::error file=a.c,line=9,title=Deadlock::"))

    def test_escapes(self) -> None:
        odd = with_text(CONFIRMED, "a,b%:c\r.c:7 in f(a, b)::operator%")
        line = self.lines(run_of(odd))[0]
        self.assertTrue(line.startswith("::error file=a%2Cb%25%3Ac%0D.c,line=7,title=Deadlock::Deadlock: "), line)
        self.assertIn("waits at a,b%25:c%0D.c:7 in f(a, b)::operator%25; ", line)
        self.assertEqual(github.escaped("100%\r\n::error"), "100%25%0D%0A::error")
        self.assertEqual(github.escaped_property("a:b,c%\r\n"), "a%3Ab%2Cc%25%0D%0A")

    def test_order(self) -> None:
        starts = [line.split(" ")[0] + " " + line.split("title=")[1].split("::")[0] for line in self.lines(EVERYTHING, "new")]
        self.assertEqual(starts, ["::error No report", "::error Deadlock that happened", "::error Deadlock", "::error Deadlock",
                                  "::warning Potential deadlock", "::notice Deadlock", "::warning Unused suppression"])
        self.assertEqual(self.lines(EVERYTHING, "new")[-1],
                         "::warning file=ci/known,line=7,title=Unused suppression::This line suppresses nothing.")

    def test_too_many_groups(self) -> None:
        run = replace(run_of(), left_out=LeftOut(further=5, further_confirmed=2))
        self.assertEqual(self.lines(run, "new"), ["::error title=Too many groups::2 cycles are in no group"])


class GitLab(unittest.TestCase):
    def issues(self, run: Run) -> list[Object]:
        """Returns the issues. GitLab requires five fields of each, and the fingerprints are distinct."""
        found: list[Object] = json.loads(gitlab.text_of(run))
        for issue in found:
            self.assertEqual(set(issue), {"description", "check_name", "fingerprint", "severity", "location"})
            self.assertIn(issue["severity"], ("info", "minor", "major", "critical", "blocker"))
            self.assertEqual(set(issue["location"]), {"path", "lines"})
            self.assertGreaterEqual(issue["location"]["lines"]["begin"], 1)
            self.assertTrue(issue["location"]["path"])
        self.assertEqual(len({issue["fingerprint"] for issue in found}), len(found))
        return found

    def test_issue(self) -> None:
        self.assertEqual(self.issues(run_of(CONFIRMED)), [{
            "description": CONFIRMED.message, "check_name": "confirmed-deadlock", "fingerprint": "aa:1", "severity": "critical",
            "location": {"path": "src/bank.c", "lines": {"begin": 35}},
        }])

    def test_all(self) -> None:
        self.assertEqual([(issue["check_name"], issue["severity"]) for issue in self.issues(EVERYTHING)], [
            ("happened-deadlock", "blocker"), ("confirmed-deadlock", "critical"), ("confirmed-deadlock", "critical"),
            ("potential-deadlock", "minor"), ("confirmed-deadlock", "critical"), ("no-report", "major")])
        self.assertEqual(self.issues(run_of()), [])
        self.assertEqual([(issue["check_name"], issue["severity"]) for issue in self.issues(run_of(NO_VALUE))],
                         [("confirmed-if-no-value-decides-deadlock", "major")])

    def test_no_source_lines(self) -> None:
        self.assertEqual(self.issues(run_of(NOWHERE))[0]["location"], {"path": "bank.trace", "lines": {"begin": 1}})
        first = replace(NOWHERE, traces=("traces/a.trace", "traces/b.trace"))
        self.assertEqual(self.issues(replace(run_of(first), name="traces"))[0]["location"]["path"], "traces/a.trace")


class Markdown(unittest.TestCase):
    def text(self, run: Run, fail_on: str | None = None) -> str:
        return markdown.text_of(run, judged(run, fail_on))

    HEADS: list[tuple[str, Run, str | None, str]] = [
        ("none", run_of(), None, "### Deadlocks: none\n\n12 events,"),
        ("passed", run_of(), "new", "### Deadlocks: none\n\nPassed with --fail-on new.\n"),
        ("failed", run_of(CONFIRMED, POTENTIAL, KNOWN, SUPPRESSED), "new",
         "### Deadlocks: 2 new, 1 known, 1 suppressed\n\n**Failed by --fail-on new: 1 confirmed.**\n"),
        ("no gate", run_of(CONFIRMED), None, "### Deadlocks: 1 new\n\n| |"),
    ]

    def test_head(self) -> None:
        for name, run, fail_on, head in self.HEADS:
            with self.subTest(name):
                self.assertTrue(self.text(run, fail_on).startswith(head), self.text(run, fail_on))

    def test_rows(self) -> None:
        lines = self.text(EVERYTHING, "new").splitlines()
        sides = f"holds `{HOLD}`, waits at `{WAIT}`"
        self.assertIn(f"| new | confirmed | {sides}<br>{sides} | 3 cycles, 2 confirmed |", lines)
        self.assertIn(f"| known | confirmed | {sides}<br>{sides} | 3 cycles, 2 confirmed |", lines)
        self.assertFalse([line for line in lines if line.startswith("| suppressed")])
        self.assertIn("- `2 threads started in a way that is not seen`", lines)
        self.assertEqual(lines[-1], "12 events, 3 threads, 2 locks, 2 dependencies; 2 confirmed cycles, 1 potential cycle, in 6 groups; 0.2 s")

    def test_no_value(self) -> None:
        text = self.text(replace(run_of(NO_VALUE), numbers=replace(run_of().numbers, no_value=3)))
        self.assertIn("| 4 cycles, 0 confirmed, 3 if no value decides |\n", text)
        self.assertIn("| new | confirmed if no value decides | ", text)
        self.assertIn("\n\n    Kept apart only by what these reads see:\n    bank.c:4 in is_open reads memory that a thread wrote after bank.c:3 in open\n"
                      "    0: thread 0 forks thread 1\n", text)
        self.assertIn("; 2 confirmed cycles, 3 if no value decides, 1 potential cycle, in 1 group; ", text)

    def test_witness(self) -> None:
        text = self.text(run_of(CONFIRMED, KNOWN))
        self.assertEqual(text.count("<details>"), 1)
        for line in ("    0: thread 0 forks thread 1", "    .. 1 event", f"    2: thread 1 acquires lock 1    {HOLD}",
                     f"    thread 2 waits for lock 1    {WAIT}"):
            self.assertIn(f"\n{line}\n", text)

    TEXTS: list[tuple[str, Callable[[str], str], str, str]] = [
        ("plain", markdown.code, "a.c:1 in f", "`a.c:1 in f`"),
        ("a tag", markdown.code, "std::map<int, x>", "`std::map<int, x>`"),
        ("backticks", markdown.code, "a`b``c", "```a`b``c```"),
        ("backtick at the end", markdown.code, "`a`", "`` `a` ``"),
        ("a bar in a table", markdown.cell, "operator|(x)", "`operator\\|(x)`"),
    ]

    def test_code(self) -> None:
        for name, function, text, found in self.TEXTS:
            with self.subTest(name):
                self.assertEqual(function(text), found)


if __name__ == "__main__":
    unittest.main()
